import { v6Mask } from './library.mjs';
import { ADDRESS, NETWORK, bytes, words } from './memory.mjs';
import { never } from './errors.mjs';

/* For each prefix length the octets of the library's IPv6 mask, four in a number, as they are in
 * the memory. The first four are those of the IPv4 mask of the same length. */
const MASKS = new Int32Array(4 * 129);
for (let prefix = 0; prefix <= 128; prefix += 1) {
  bytes[NETWORK + 16] = prefix;
  never(v6Mask(NETWORK, 0, ADDRESS, 0));
  MASKS.set(words.subarray(ADDRESS >>> 2, (ADDRESS >>> 2) + 4), 4 * prefix);
}

/**
 * Where the mask of a prefix length is. A length that has none is a bug of this package: without a
 * mask any two addresses would agree.
 */
function maskAt(prefix, most) {
  if (prefix >>> 0 !== prefix || prefix > most) {
    throw new RangeError(`prefix is ${prefix}, not a whole number from 0 to ${most}`);
  }
  return 4 * prefix;
}

/**
 * Whether two addresses have the same bits where the mask of a prefix length has ones. Throws a
 * RangeError for a prefix length that the family does not have.
 */
export const agreeInFour = (prefix, a, e) => ((a ^ e) & MASKS[maskAt(prefix, 32)]) === 0;
export function agreeInSix(prefix, a, b, c, d, e, f, g, h) {
  const at = maskAt(prefix, 128);
  return ((a ^ e) & MASKS[at]) === 0 && ((b ^ f) & MASKS[at + 1]) === 0
    && ((c ^ g) & MASKS[at + 2]) === 0 && ((d ^ h) & MASKS[at + 3]) === 0;
}
