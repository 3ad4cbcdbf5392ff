import { encoder } from './texts.mjs';

const MESSAGES = {
  format: 'there is more than one slash',
  address: 'the part before the slash, or the whole text, is no address',
  prefix: 'the part after the slash is no prefix length',
};
const CODES = [undefined, 'format', 'address', 'prefix'];
/* A message shows at most this many bytes of a text. */
const SHOWN = 60;

/** The code of a fault of the library: undefined, format, address or prefix. */
export const codeOf = (fault) => CODES[fault];

/** A text for a message, or its front. */
export function shownText(text) {
  const { read } = encoder.encodeInto(text, new Uint8Array(SHOWN));
  return read < text.length ? `${text.slice(0, read)}…` : text;
}

const quoted = (text) => JSON.stringify(shownText(text));

/**
 * The error that this package throws for what it refuses: it says why there is no network, address
 * or range.
 */
export class IpNetworkError extends Error {
  constructor(message, code, input, index) {
    super(message);
    this.code = code;
    if (input !== undefined) this.input = input;
    if (index !== undefined) this.index = index;
  }
}
Object.defineProperty(
  IpNetworkError.prototype, 'name', { value: 'IpNetworkError', configurable: true, writable: true },
);

/** The place of a text in a list, for a message. */
const placeOf = (index) => (index === undefined ? '' : ` at ${index}`);

/** The error for a text that names no network, with its index if it is in a list. */
export function networkError(fault, text, wanted, index) {
  const code = CODES[fault];
  return new IpNetworkError(
    `no ${wanted}${placeOf(index)}: ${quoted(text)}: ${MESSAGES[code]}`, code, text, index,
  );
}

/** The message if a network is given where an address is expected. */
export const networkGiven = (name) => (
  `${name} must be an address, not a network: isSubnetOf tells whether one lies in another, and `
  + 'covers whether in a set'
);

/** The error for a text that names no address, with its index if it is in a list. */
export function addressError(text, wanted, index) {
  const more = text.includes('/')
    ? ': with a slash it is no address; isSubnetOf tells whether a network lies in another, and '
      + 'covers whether in a set'
    : '';
  return new IpNetworkError(
    `no ${wanted}${placeOf(index)}: ${quoted(text)}${more}`, 'address', text, index,
  );
}

/** The error for a prefix length that is not from least to most. */
export function prefixError(prefix, least, most) {
  return new IpNetworkError(
    `prefix is ${prefix}, not a whole number from ${least} to ${most}`, 'prefix',
  );
}

/** A word or two for what a value is. No code of the value is run. */
function kindOf(value) {
  if (value === null) return 'null';
  if (typeof value === 'object') return 'an object';
  if (typeof value === 'undefined') return 'undefined';
  return `a ${typeof value}`;
}

/** The TypeError for an argument: its name, what it must be, and what it is. */
export const wrongType = (name, wanted, value) => new TypeError(
  `${name} must be ${wanted}, not ${kindOf(value)}`
);

/** The text that an argument is, or a TypeError that names the argument. */
export function textOf(value, name) {
  if (typeof value !== 'string') throw wrongType(name, 'a string', value);
  return value;
}

/** Throws if the library refused what this package had checked, which is a bug of this package. */
export function never(fault) {
  if (fault !== 0) throw new Error(`fault ${fault} of a call that has none`);
}
