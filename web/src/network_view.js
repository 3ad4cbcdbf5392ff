// One network: its canonical text, its ends, mask and size, and its bits.
import { read } from "./answers.js";
import { bitsPicture } from "./bits.js";
import {
  copying, descriptions, element, mark, named, readable, say, whenTyped,
} from "./elements.js";
import { keep } from "./links.js";
import { more } from "./more.js";
import { addresses, cause, counted, sizeText } from "./words.js";

function answer(network) {
  const pairs = [
    ["First address", network.first],
    ["Last address", network.last],
    ["Mask", network.mask],
    ["Prefix length", String(network.prefix)],
    ["Addresses", sizeText(network.size)],
  ];
  if (network.block !== network.text) {
    pairs.push(["Without host bits", network.block]);
  }
  pairs.push(...more(network));
  const copy = copying("Network", () => network.text);
  return [
    element("p", { class: "canonical" }, network.text, copy),
    descriptions(pairs),
    element("h3", {}, `The bits of the IPv${network.family} address`),
    bitsPicture(network),
  ];
}

function rangeAnswer({ first, last, texts, size }) {
  const pairs = [
    ["First address", first],
    ["Last address", last],
    ["Addresses", sizeText(size)],
  ];
  const label = `The fewest networks with these addresses: ${counted(texts.length, "network")}`;
  return [descriptions(pairs), readable("network-range", label, texts)];
}

function show() {
  const field = named("network-text");
  const text = field.value.trim();
  const place = named("network-answer");
  keep([["network", text]]);
  place.replaceChildren();
  mark(field, false);
  if (text === "") {
    say("network-status", "", false);
    return;
  }
  const { code, network, range } = read(text);
  if (code !== undefined) {
    mark(field, true);
    say("network-status", `Refused: ${cause(code)}.`, true);
    return;
  }
  if (range !== undefined) {
    const { first, last, size } = range;
    say("network-status", `${first} to ${last} has ${addresses(size)}.`, false);
    place.append(...rangeAnswer(range));
    return;
  }
  say("network-status", `${network.text} has ${addresses(network.size)}.`, false);
  place.append(...answer(network));
}

/** Answers the question of a link, and from then on what is typed. */
export const networkView = {
  begin() {
    whenTyped([named("network-text")], show);
  },
  open(fields) {
    named("network-text").value = fields.get("network") ?? "";
    show();
  },
};
