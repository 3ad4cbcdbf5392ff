// A network in parts of one size, and the blocks of it that are free.
import { addressText, free, part, read, readList } from "./answers.js";
import { ends, track } from "./bars.js";
import {
  button, copying, element, mark, named, readable, save, say, whenTyped,
} from "./elements.js";
import { keep } from "./links.js";
import { entries } from "./list_view.js";
import { addresses, cause, counted, grouped, percent, sizeText } from "./words.js";

// How many parts are shown at once, and the most that are copied and saved.
const SHOWN = 64n;
const SAVED = 65536n;
let begin = 0n;

const HEADS = ["Number", "Network", "First address", "Last address"];

// What the table has of a part; of parts whose use is known, that too.
function cellsOf({ network, prefix, useOf }, number) {
  const one = part(network, prefix, number);
  const cells = [grouped(number + 1n), one.text, one.first, one.last];
  return useOf === undefined ? cells : [...cells, useOf(one)];
}

const headsOf = ({ useOf }) => (useOf === undefined ? HEADS : [...HEADS, "State"]);

function rowOf(asked, number) {
  const cells = cellsOf(asked, number);
  const use = cells[HEADS.length];
  const names = headsOf(asked);
  const cell = (text, at) =>
    element("td", { class: at === 0 ? "number" : undefined, "data-name": names[at] }, text);
  const isFree = use === undefined || use === "free";
  return element("tr", isFree ? {} : { class: "used" }, ...cells.map(cell));
}

// The lines of all parts, without their numbers, with a tab between what a line has.
function linesOf(asked) {
  const lines = [headsOf(asked).slice(1).join("\t")];
  for (let number = 0n; number < asked.count; number += 1n) {
    lines.push(cellsOf(asked, number).slice(1).join("\t"));
  }
  return lines;
}

// A button that turns to other parts; it is off if there are none.
function turning(text, isOff, act) {
  const made = button(text, act);
  made.disabled = isOff;
  return made;
}

// The rows of the parts from `begin` on, with buttons to those before and after them.
function table(asked, place) {
  const { network, count } = asked;
  const end = begin + SHOWN < count ? begin + SHOWN : count;
  const body = element("tbody");
  for (let number = begin; number < end; number += 1n) {
    body.append(rowOf(asked, number));
  }
  const heads = headsOf(asked).map((name, at) =>
    element("th", at === 0 ? { scope: "col", class: "number" } : { scope: "col" }, name));
  const head = element("thead", {}, element("tr", {}, ...heads));
  // The button that was pressed is another one then, or off: the keyboard goes on at the new one.
  const turn = (to, at) => () => {
    begin = to < 0n ? 0n : to;
    table(asked, place);
    const buttons = place.querySelectorAll(".turns button");
    (buttons[at].disabled ? buttons[1 - at] : buttons[at]).focus();
  };
  const region = { class: "table", tabindex: "0", role: "region", "aria-label": "Parts" };
  const rows = element("table", { class: network.family === 4 ? "four" : "six" }, head, body);
  place.replaceChildren(element("div", region, rows));
  if (count > SHOWN) {
    const shown = `${grouped(begin + 1n)} to ${grouped(end)} of ${grouped(count)}`;
    place.append(
      element(
        "div",
        { class: "buttons turns" },
        turning("Earlier", begin === 0n, turn(begin - SHOWN, 0)),
        turning("Later", end === count, turn(begin + SHOWN, 1)),
        element("span", { role: "status" }, shown),
      ),
    );
  }
}

function parts(network, prefix, found) {
  const count = 1n << BigInt(prefix - network.prefix);
  const asked = { network, prefix, count, useOf: found?.useOf };
  const place = element("div");
  begin = 0n;
  table(asked, place);
  const title = element("h3", {}, `${counted(count, "part")} of prefix length ${prefix}`);
  if (count > SAVED) {
    return [title, place];
  }
  const all = button("Save all as a file", () => save("split-parts.txt", linesOf(asked)));
  const copyAll = copying("all parts", () => `${linesOf(asked).join("\n")}\n`);
  return [title, element("div", { class: "buttons" }, copyAll, all), place];
}

// The lines in use that have no address of the network.
function outside(found, lines) {
  const texts = found.outside.map((row) => `line ${lines.numbers[row]}: ${lines.texts[row]}`);
  const label = `In use, but outside the network: ${grouped(texts.length)}`;
  return texts.length === 0 ? [] : [readable("split-outside", label, texts)];
}

function freeParts(network, found) {
  const said = `${percent(found.size, network.size)} of ${network.text} is free`;
  return [
    element("h3", {}, `Free: ${sizeText(found.size)} of ${sizeText(network.size)} addresses`),
    element(
      "div",
      { role: "img", "aria-label": said },
      track(found.used, network, false),
      ends(addressText(network.family, network.low), addressText(network.family, network.high)),
    ),
    element("p", { class: "note" }, `${said}. The bar shows what is in use.`),
    readable(
      "split-free",
      `Free blocks, the fewest possible: ${grouped(found.texts.length)}`,
      found.texts,
    ),
  ];
}

// The prefix length of the parts: what is typed, if it is one; none if nothing is.
function prefixOf(text, network) {
  if (text === "") {
    return {};
  }
  const prefix = Number(text);
  const most = network.family === 4 ? 32 : 128;
  const fits = Number.isInteger(prefix) && prefix >= network.prefix && prefix <= most;
  const wrong = `The parts need a prefix length from ${network.prefix} to ${most}.`;
  return fits ? { prefix } : { wrong };
}

function sentence(network, prefix, found, refusedAt) {
  if (refusedAt !== undefined) {
    return `In use, line ${refusedAt.line} is refused: ${cause(refusedAt.code)}.`;
  }
  const words = [`${network.block} has ${addresses(network.size)}.`];
  if (prefix !== undefined) {
    const count = 1n << BigInt(prefix - network.prefix);
    words.push(`It has ${counted(count, "part")} of prefix length ${prefix}.`);
  }
  if (found !== undefined) {
    words.push(`${grouped(found.size)} of its addresses are free.`);
    if (found.outside.length > 0) {
      const count = found.outside.length;
      words.push(`${counted(count, "line")} in use ${count === 1 ? "is" : "are"} outside it.`);
    }
  }
  return words.join(" ");
}

function show() {
  const [networkField, prefixField, usedField] =
    ["split-network", "split-prefix", "split-used"].map(named);
  const text = networkField.value.trim();
  const place = named("split-answer");
  keep([["split", text], ["into", prefixField.value], ["used", usedField.value]]
    .filter(([name, value]) => name === "split" || value !== ""));
  place.replaceChildren();
  [networkField, prefixField, usedField].forEach((field) => mark(field, false));
  if (text === "") {
    say("split-status", "", false);
    return;
  }
  const { code, network } = read(text);
  if (network === undefined) {
    mark(networkField, true);
    say("split-status", `Refused: ${cause(code ?? "address")}.`, true);
    return;
  }
  const { prefix, wrong } = prefixOf(prefixField.value.trim(), network);
  if (wrong !== undefined) {
    mark(prefixField, true);
    say("split-status", wrong, true);
    return;
  }
  const lines = entries(usedField.value);
  const list = lines.texts.length > 0 ? readList(lines.texts) : undefined;
  const refused = list?.refused[0];
  const refusedAt = refused && { line: lines.numbers[refused.row], code: refused.code };
  const found = list && !refused
    ? { ...free(network, list), outside: list.apart(network) } : undefined;
  mark(usedField, refused !== undefined);
  say("split-status", sentence(network, prefix, found, refusedAt), refused !== undefined);
  if (refused === undefined) {
    place.append(...(found ? [...outside(found, lines), ...freeParts(network, found)] : []));
    place.append(...(prefix === undefined ? [] : parts(network, prefix, found)));
  }
}

/** Answers the question of a link, and from then on what is typed. */
export const splitView = {
  begin() {
    whenTyped(["split-network", "split-prefix", "split-used"].map(named), show);
  },
  open(fields) {
    named("split-network").value = fields.get("split") ?? "";
    named("split-prefix").value = fields.get("into") ?? "";
    named("split-used").value = fields.get("used") ?? "";
    show();
  },
};
