// The bits of a network's address: those of the network, and those of its hosts.
import { element } from "./elements.js";
import { counted } from "./words.js";

/** The bits of octets, the highest first, each "0" or "1". */
function bitsOf(octets) {
  return Array.from(octets, (octet) => octet.toString(2).padStart(8, "0")).join("");
}

// What is under a group of bits: an octet in decimal, or a group of an IPv6 address.
function numberOf(bits, family) {
  const number = parseInt(bits, 2);
  return family === 4 ? String(number) : number.toString(16);
}

function group(bits, begin, prefix, family) {
  const cells = element("div", { class: "cells" });
  for (let index = 0; index < bits.length; index += 1) {
    const isHost = begin + index >= prefix;
    cells.append(element("div", { class: isHost ? "bit host" : "bit" }, bits[index]));
  }
  const number = element("div", { class: "number address" }, numberOf(bits, family));
  return element("div", {}, cells, number);
}

function part(name, count, isHost) {
  const made = element("div", isHost ? { class: "host" } : {}, counted(count, `${name} bit`));
  made.style.setProperty("--share", String(count));
  return made;
}

/** The picture: each bit, and how many there are of each kind. */
export function bitsPicture(network) {
  const { family, prefix, octets } = network;
  const bits = bitsOf(octets);
  const size = family === 4 ? 8 : 16;
  const groups = element("div", { class: family === 4 ? "bits" : "bits wide-groups" });
  for (let begin = 0; begin < bits.length; begin += size) {
    groups.append(group(bits.slice(begin, begin + size), begin, prefix, family));
  }
  const parts = element("div", { class: "parts" });
  if (prefix > 0) {
    parts.append(part("network", prefix, false));
  }
  if (prefix < bits.length) {
    parts.append(part("host", bits.length - prefix, true));
  }
  const said =
    `${counted(prefix, "network bit")}: ${bits.slice(0, prefix) || "none"}; ` +
    `${counted(bits.length - prefix, "host bit")}: ${bits.slice(prefix) || "none"}`;
  return element("div", { role: "img", "aria-label": said }, groups, parts);
}
