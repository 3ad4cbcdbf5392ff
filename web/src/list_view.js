// A pasted list: the least list with its addresses, what was joined, and what each wrong line is.
import { readList } from "./answers.js";
import { element, mark, named, readable, say, whenTyped } from "./elements.js";
import { keep } from "./links.js";
import { coverage, coveredByOctet, drawMap } from "./map.js";
import { counted, grouped, percent, shortCause } from "./words.js";

const WHOLE = 2n ** 32n;
// How many lines of a block are named.
const NAMED = 20;

/** The lines of a text that say something, without comments, and their numbers from 1 on. */
export function entries(text) {
  const texts = [];
  const numbers = [];
  text.split("\n").forEach((line, index) => {
    const end = line.indexOf("#");
    const entry = (end < 0 ? line : line.slice(0, end)).trim();
    if (entry !== "") {
      texts.push(entry);
      numbers.push(index + 1);
    }
  });
  return { texts, numbers };
}

function colours() {
  const style = getComputedStyle(document.documentElement);
  const colour = (name) => style.getPropertyValue(name).trim();
  return {
    ground: colour("--card"),
    full: colour("--network"),
    onFull: colour("--on-network"),
    line: colour("--line"),
    text: colour("--quiet"),
  };
}

// What the map shows, in words.
function octetsSaid(counts) {
  const some = [];
  counts.forEach((count, octet) => {
    if (count > 0) {
      some.push(`${octet}.0.0.0/8: ${count === 2 ** 24 ? "all" : grouped(count)}`);
    }
  });
  return some.join("; ") || "none";
}

function map(v4) {
  const { addresses, prefixes, size } = v4;
  const canvas = element("canvas", { class: "map", role: "img" });
  const said = `Covered addresses of each /8: ${octetsSaid(coveredByOctet(addresses, prefixes))}.`;
  canvas.setAttribute("aria-label", said);
  const covered = coverage(addresses, prefixes);
  const draw = () => drawMap(canvas, v4, covered, colours());
  draw();
  canvas.redraw = draw;
  const note = (text) => element("p", { class: "note" }, text);
  return [
    element("h3", {}, "The IPv4 space that it covers"),
    canvas,
    note(
      `${percent(size, WHOLE)} of it. Each square is a /8, along a Hilbert curve, ` +
        "on which each block is a square or two.",
    ),
    element("details", {}, element("summary", {}, "In words"), note(said)),
  ];
}

// Of each block that more than one line gave: the lines.
function joinedText(joined, numbers) {
  return joined.map(({ text, rows }) => {
    const named = rows.slice(0, NAMED).map((row) => numbers[row]);
    const more = rows.length > NAMED ? ` and ${grouped(rows.length - NAMED)} more` : "";
    return `${text}  from lines ${named.join(", ")}${more}`;
  });
}

function refusedText(refused, texts, numbers) {
  const line = ({ row, code }) => `line ${numbers[row]}: ${texts[row]}  (${shortCause(code)})`;
  return refused.map(line);
}

function answer({ texts, numbers }, list) {
  const joined = joinedText(list.joined, numbers);
  const parts = [
    readable(
      "list-least",
      `The least list with the same addresses: ${counted(list.texts.length, "block")}`,
      list.texts,
    ),
    readable("list-joined", `Blocks that several lines make: ${grouped(joined.length)}`, joined),
  ];
  if (list.refused.length > 0) {
    const label = `Lines that name no network: ${grouped(list.refused.length)}`;
    parts.push(readable("list-refused", label, refusedText(list.refused, texts, numbers)));
  }
  const columns = element("div", { class: "columns" }, element("div", {}, ...parts));
  if (list.v4.addresses.length > 0) {
    columns.append(element("div", {}, ...map(list.v4)));
  }
  return columns;
}

function sentence({ texts }, list, isHeld) {
  const good = texts.length - list.refused.length;
  const lines = `${counted(good, "network")}, ${counted(list.refused.length, "wrong line")}`;
  const v4 = counted(list.v4.size, "IPv4 address", "IPv4 addresses");
  const v6 = counted(list.v6.size, "IPv6 address", "IPv6 addresses");
  const said = `${lines}: ${counted(list.texts.length, "block")} with ${v4} and ${v6}.`;
  return isHeld ? said : `${said} The list is too long for a link.`;
}

function show() {
  const area = named("list-text");
  const place = named("list-answer");
  const isHeld = keep([["list", area.value]]);
  const lines = entries(area.value);
  place.replaceChildren();
  mark(area, false);
  if (lines.texts.length === 0) {
    say("list-status", "", false);
    return;
  }
  const list = readList(lines.texts);
  mark(area, list.refused.length > 0);
  say("list-status", sentence(lines, list, isHeld), false);
  place.append(answer(lines, list));
}

/** Answers the question of a link, and from then on what is typed. */
export const listView = {
  begin() {
    whenTyped([named("list-text")], show);
    matchMedia("(prefers-color-scheme: dark)").addEventListener("change", () => {
      document.querySelector("canvas.map")?.redraw();
    });
  },
  open(fields) {
    named("list-text").value = fields.get("list") ?? "";
    show();
  },
};
