import { ADDRESS, LITTLE, NUMBER, view } from './memory.mjs';
import { prefixError, shownText, wrongType } from './errors.mjs';
import { addressOf, familyOf, putAddress } from './address.mjs';

/** The integer that an argument is, or an error that names the argument. */
export function wholeNumber(value, name) {
  if (typeof value !== 'number' && typeof value !== 'bigint') {
    throw wrongType(name, 'a number or a bigint', value);
  }
  if (value < 0 || (typeof value === 'number' && !Number.isSafeInteger(value))) {
    throw new RangeError(`${name} is ${shownText(String(value))}, not a whole number from 0 on`);
  }
  return value;
}

/**
 * The value of the option that a call has, or what it is if it is not given. Any other option is an
 * error: a call that overlooked `maped` would answer as without the option. So it is of a Map or an
 * array, whose entries are no properties that name options.
 */
function optionOf(options, name, otherwise) {
  if (options === undefined) return otherwise;
  if (typeof options !== 'object' || options === null) {
    throw wrongType('options', 'an object', options);
  }
  if (Object.prototype.toString.call(options) !== '[object Object]') {
    throw new TypeError(`options must be an object whose property is ${name}, not a list or a map`);
  }
  const other = Object.keys(options).find((key) => key !== name);
  if (other !== undefined) {
    throw new TypeError(`options.${shownText(other)} is no option here, only options.${name}`);
  }
  const given = options[name];
  return given === undefined ? otherwise : given;
}

/** Whether the option of this name is true. */
export function flagOf(options, name) {
  const flag = optionOf(options, name, false);
  if (typeof flag !== 'boolean') throw wrongType(`options.${name}`, 'a boolean', flag);
  return flag;
}

/** What a call does about texts that name no address. */
export function invalidOf(options) {
  const invalid = optionOf(options, 'invalid', 'raise');
  if (invalid !== 'raise' && invalid !== false && invalid !== 'null') {
    throw new TypeError(`options.invalid must be 'raise', false or 'null'`);
  }
  return invalid;
}

/** Writes a number to NUMBER as the calls of a family take it, and returns whether it fits. */
export function putNumber(number, family) {
  if (family === 4) {
    if (number > 0xffffffff) return false;
    view.setUint32(NUMBER, Number(number), true);
    return true;
  }
  if (typeof number === 'number') {
    view.setBigUint64(NUMBER, 0n, false);
    view.setUint32(NUMBER + 8, number / 0x100000000, false);
    view.setUint32(NUMBER + 12, number, false);
    return true;
  }
  if (BigInt.asUintN(128, number) !== number) return false;
  view.setBigUint64(NUMBER, number >> 64n, false);
  view.setBigUint64(NUMBER + 8, BigInt.asUintN(64, number), false);
  return true;
}

/**
 * The first four octets of an address of this family, which are written to ADDRESS, if the prefix
 * length is one.
 */
export function requireParts(address, prefix, family, width) {
  const member = addressOf(address, 'address');
  if (familyOf(member) !== family) {
    throw new TypeError(`address must be an IPv${family} address, not ${member}`);
  }
  if (typeof prefix !== 'number') throw wrongType('prefix', 'a number', prefix);
  if (!Number.isInteger(prefix) || prefix < 0 || prefix > width) {
    throw prefixError(prefix, 0, width);
  }
  putAddress(member, ADDRESS);
  return view.getInt32(ADDRESS, LITTLE);
}
