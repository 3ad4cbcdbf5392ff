// More that is asked of a network: usable hosts, the wildcard mask, numbers, the reverse zone.
import { addressText } from "./answers.js";
import { grouped } from "./words.js";

const WIDTHS = { 4: 32, 6: 128 };

// The addresses of an IPv4 network that its hosts can have: of a /31 (RFC 3021) and a /32 all.
function hosts({ low, high, size }) {
  const [first, last, count] = size > 2n ? [low + 1n, high - 1n, size - 2n] : [low, high, size];
  const ends = [...new Set([first, last])].map((number) => addressText(4, number));
  return `${grouped(count)}: ${ends.join(" to ")}`;
}

// The name of the reverse zone of the first bits of an address, a whole number of labels.
function zone(family, address, bits) {
  const [step, end] = family === 4 ? [8, "in-addr.arpa"] : [4, "ip6.arpa"];
  const labels = [];
  for (let at = step; at <= bits; at += step) {
    const label = (address >> BigInt(WIDTHS[family] - at)) & ((1n << BigInt(step)) - 1n);
    labels.unshift(label.toString(family === 4 ? 10 : 16));
  }
  return [...labels, end].join(".");
}

// The reverse zones of a network: of whole octets or digits one, of an IPv4 network longer than /24
// that of RFC 2317, and else the first and the last of several, and the one that they lie in.
function reverse({ family, prefix, low, high }) {
  const step = family === 4 ? 8 : 4;
  const bits = Math.ceil(prefix / step) * step;
  if (bits === prefix) {
    return zone(family, low, bits);
  }
  if (family === 4 && prefix > 24) {
    return `${low & 255n}/${prefix}.${zone(4, low, 24)} (RFC 2317)`;
  }
  const count = 2 ** (bits - prefix);
  const outer = zone(family, low, bits - step);
  return `${count} within ${outer}: ${zone(family, low, bits)} to ${zone(family, high, bits)}`;
}

/** All of these, pairs of a name and a text. */
export function more(network) {
  const { family, number, maskNumber } = network;
  const digits = WIDTHS[family] / 4;
  const pairs = [];
  if (family === 4) {
    pairs.push(["Usable hosts", hosts(network)]);
    pairs.push(["Wildcard mask", addressText(4, 2n ** 32n - 1n - maskNumber)]);
  }
  pairs.push(["Address as an integer", String(number)]);
  pairs.push(["Address in hexadecimal", `0x${number.toString(16).padStart(digits, "0")}`]);
  pairs.push(["Reverse zone", reverse(network)]);
  return pairs;
}
