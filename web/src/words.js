// Numbers, counts and causes in words.

const CAUSES = {
  format: "more than one slash",
  address: "no IPv4 or IPv6 address before the slash",
  prefix: "no prefix length of the address's family after the slash",
  range: "the first address of the range comes after the last, or is of the other family",
};

const SHORT_CAUSES = {
  format: "more than one slash",
  address: "no address",
  prefix: "no prefix length",
  range: "no range",
};

/** Why a text is refused. */
export function cause(code) {
  return CAUSES[code];
}

/** The same in a few words. */
export function shortCause(code) {
  return SHORT_CAUSES[code];
}

/** A number with commas between groups of three digits. */
export function grouped(number) {
  return String(number).replace(/\B(?=(\d{3})+$)/g, ",");
}

/** A number and what it counts, as `1 block` and `2 blocks`. */
export function counted(number, one, many = `${one}s`) {
  return `${grouped(number)} ${number == 1 ? one : many}`;
}

/** A number of addresses, in words. */
export function addresses(number) {
  return counted(number, "address", "addresses");
}

/** The number of addresses as a power of two, if it is one, and in decimal. */
export function sizeText(size) {
  const bits = size.toString(2).length - 1;
  const isPower = size > 0n && size === 1n << BigInt(bits);
  return isPower && bits >= 10 ? `${grouped(size)} (2^${bits})` : grouped(size);
}

/** A share of the whole in percent: 0 or 100 only where it is nothing or all. */
export function percent(part, whole) {
  if (part === 0n || part === whole) {
    return part === 0n ? "0 %" : "100 %";
  }
  const share = Number((part * 100000000n) / whole) / 1000000;
  if (share < 0.01) {
    return "less than 0.01 %";
  }
  if (share >= 99.99) {
    return "more than 99.99 %";
  }
  return `${share < 10 || share >= 99.9 ? share.toFixed(2) : share.toFixed(1)} %`;
}
