/* The 91 ASCII characters from `#` to `~`, without `\`, and with `!` instead of `<`, are the digits
 * from 0 on: none ends a string or begins an HTML tag. */
const digitOf = (code) => (code === 33 ? 60 : code) - 35 - (code > 92 ? 1 : 0);

/** The bytes that a text spells: every two digits are 13 bits, the lowest first. */
export function unspelled(text) {
  const bytes = new Uint8Array((text.length * 13) >> 4);
  let hold = 0;
  let held = 0;
  let at = 0;
  for (let i = 0; i < text.length; i += 2) {
    hold |= (digitOf(text.charCodeAt(i)) * 91 + digitOf(text.charCodeAt(i + 1))) << held;
    for (held += 13; held >= 8; held -= 8) {
      bytes[at++] = hold;
      hold >>>= 8;
    }
  }
  return bytes;
}
