// Two lists: what only the first has, what only the second has, and what both have.
import { compared, readList } from "./answers.js";
import { element, mark, named, readable, say, whenTyped } from "./elements.js";
import { keep } from "./links.js";
import { entries } from "./list_view.js";
import { addresses, cause, counted } from "./words.js";

const FIELDS = ["lists-first", "lists-second"];
const NAMES = ["first", "second"];
const PARTS = [
  ["first", "Only in the first"],
  ["second", "Only in the second"],
  ["both", "In both"],
];

function answer(found) {
  const parts = PARTS.map(([name, said]) => {
    const { texts, size } = found[name];
    const label = `${said}: ${addresses(size)}, ${counted(texts.length, "block")}`;
    return readable(`lists-${name}-blocks`, label, texts);
  });
  return element("div", { class: "columns" }, ...parts);
}

function sentence(found) {
  const said = PARTS.map(([name, words]) => `${words}: ${addresses(found[name].size)}.`);
  if (found.first.size === 0n && found.second.size === 0n) {
    return "Both lists have the same addresses.";
  }
  return said.join(" ");
}

function show() {
  const fields = FIELDS.map(named);
  const place = named("lists-answer");
  keep([["lists", fields[0].value], ["and", fields[1].value]]);
  place.replaceChildren();
  fields.forEach((field) => mark(field, false));
  const lines = fields.map((field) => entries(field.value));
  if (lines.every(({ texts }) => texts.length === 0)) {
    say("lists-status", "", false);
    return;
  }
  const lists = lines.map(({ texts }) => readList(texts));
  const wrong = lists.findIndex(({ refused }) => refused.length > 0);
  if (wrong >= 0) {
    const { row, code } = lists[wrong].refused[0];
    mark(fields[wrong], true);
    const line = lines[wrong].numbers[row];
    say("lists-status", `The ${NAMES[wrong]}, line ${line}, is refused: ${cause(code)}.`, true);
    return;
  }
  const found = compared(...lists);
  say("lists-status", sentence(found), false);
  place.append(answer(found));
}

/** Answers the question of a link, and from then on what is typed. */
export const listsView = {
  begin() {
    whenTyped(FIELDS.map(named), show);
  },
  open(fields) {
    named("lists-first").value = fields.get("lists") ?? "";
    named("lists-second").value = fields.get("and") ?? "";
    show();
  },
};
