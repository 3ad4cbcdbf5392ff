// Networks as bars over a range of addresses.
import { element } from "./elements.js";

// Bars with less than this between them, in percent of the track, are drawn as one.
const TOUCH = 0.05;

// How far an address is on the way from the first to the last, in percent.
function place(address, low, high) {
  const way = high - low + 1n;
  return Number(((address - low) * 1000000n) / way) / 10000;
}

// Where ranges in ascending order begin and end on the track, those that seem to touch joined.
function pieces(ranges, range) {
  const found = [];
  for (const { low, high } of ranges) {
    const left = place(low, range.low, range.high);
    const right = place(high + 1n, range.low, range.high);
    const last = found[found.length - 1];
    if (last !== undefined && left <= last.right + TOUCH) {
      last.right = right;
    } else {
      found.push({ left, right });
    }
  }
  return found;
}

function bar({ left, right }, isSecond) {
  const made = element("span", isSecond ? { class: "second" } : {});
  made.style.left = `min(${left}%, 100% - 3px)`;
  made.style.width = `${right - left}%`;
  return made;
}

/** A track over a range, with a bar for each of these ranges of addresses, which ascend. */
export function track(ranges, range, isSecond = false) {
  const made = element("div", { class: "track" });
  made.append(...pieces(ranges, range).map((each) => bar(each, isSecond)));
  return made;
}

/** A track with a name over it. */
export function namedTrack(name, ranges, range, isSecond) {
  const title = element("div", { class: "name address" }, name);
  return element("div", { class: "bar" }, title, track(ranges, range, isSecond));
}

/** The first and the last address of a track, under it. */
export function ends(first, last) {
  const named = (text) => element("span", { class: "address" }, text);
  return element("div", { class: "ends" }, named(first), named(last));
}

/** The least block with all the addresses of two ranges of a family: its ends. */
export function around(one, other, width) {
  const low = one.low < other.low ? one.low : other.low;
  const high = one.high > other.high ? one.high : other.high;
  const bits = BigInt((low ^ high).toString(2).replace(/^0$/, "").length);
  const begin = (low >> bits) << bits;
  return { low: begin, high: begin + (1n << bits) - 1n, prefix: width - Number(bits) };
}
