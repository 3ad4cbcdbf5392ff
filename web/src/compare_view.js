// Two networks: how they relate as sets of addresses, and where they lie.
import { addressText, read, relation } from "./answers.js";
import { around, ends, namedTrack } from "./bars.js";
import { descriptions, element, mark, named, say, whenTyped } from "./elements.js";
import { keep } from "./links.js";
import { addresses, cause, percent } from "./words.js";

const SENTENCES = {
  same: (one, other) => `${one.text} and ${other.text} have the same addresses.`,
  inside: (one, other) => `${one.text} lies inside ${other.text}.`,
  around: (one, other) => `${one.text} lies around ${other.text}.`,
  apart: (one, other) => `${one.text} and ${other.text} have no address in common.`,
};

const FIELDS = ["compare-first", "compare-second"];

function bars(one, other) {
  if (one.family !== other.family) {
    return [element("p", { class: "note" }, "They are of different families.")];
  }
  const width = one.family === 4 ? 32 : 128;
  const range = around(one, other, width);
  const first = addressText(one.family, range.low);
  const last = addressText(one.family, range.high);
  const said = `${one.text} and ${other.text}, drawn over ${first} to ${last}`;
  return [
    element("h3", {}, `Within ${first}/${range.prefix}, the least block around both`),
    element(
      "div",
      { role: "img", "aria-label": said },
      namedTrack(one.text, [one], range, false),
      namedTrack(other.text, [other], range, true),
      ends(first, last),
    ),
  ];
}

function sizes(one, other) {
  const pairs = [one, other].map((each) => [
    each.text,
    `${each.first} to ${each.last}, ${addresses(each.size)}`,
  ]);
  const found = relation(one, other);
  if (found === "inside") {
    pairs.push(["Share of the outer", percent(one.size, other.size)]);
  } else if (found === "around") {
    pairs.push(["Share of the outer", percent(other.size, one.size)]);
  }
  return descriptions(pairs);
}

// A network, and of a range the cause for which it is none.
function networkOf(text) {
  const { code, network } = read(text);
  return network === undefined ? { code: code ?? "address" } : { network };
}

function show() {
  const fields = FIELDS.map(named);
  const texts = fields.map((field) => field.value.trim());
  const place = named("compare-answer");
  keep([["compare", texts[0]], ["with", texts[1]]]);
  place.replaceChildren();
  const found = texts.map((text) => (text === "" ? {} : networkOf(text)));
  found.forEach(({ code }, index) => mark(fields[index], code !== undefined));
  const refused = found.findIndex(({ code }) => code !== undefined);
  if (refused >= 0) {
    const which = refused === 0 ? "first" : "second";
    say("compare-status", `The ${which} is refused: ${cause(found[refused].code)}.`, true);
    return;
  }
  const [one, other] = found.map(({ network }) => network);
  if (one === undefined || other === undefined) {
    say("compare-status", "", false);
    return;
  }
  say("compare-status", SENTENCES[relation(one, other)](one, other), false);
  place.append(sizes(one, other), ...bars(one, other));
}

/** Answers the question of a link, and from then on what is typed. */
export const compareView = {
  begin() {
    whenTyped(FIELDS.map(named), show);
  },
  open(fields) {
    named("compare-first").value = fields.get("compare") ?? "";
    named("compare-second").value = fields.get("with") ?? "";
    show();
  },
};
