import { ANSWER, TEXT, TEXT_ROOM, bytes, giveBack, take } from './memory.mjs';

export const encoder = new TextEncoder();

/** A byte that is in no text of a network. It replaces each unit of a text that is not ASCII. */
const NOT_ASCII = 0xff;

/**
 * Writes the units of a text to the memory, a byte for each. The memory must have room for them.
 */
export function putText(text, place) {
  const target = bytes;
  const length = text.length;
  for (let i = 0; i < length; i += 1) {
    const unit = text.charCodeAt(i);
    target[place + i] = unit < 128 ? unit : NOT_ASCII;
  }
}

/**
 * Calls a function of the library that reads a text, and returns its fault; the result is in the
 * memory at out.
 */
export function askText(call, text, out) {
  const length = text.length;
  if (length <= TEXT_ROOM) {
    putText(text, TEXT);
    return call(TEXT, 0, length, 0, out, 0);
  }
  const place = take(length);
  try {
    putText(text, place);
    return call(place, 0, length, 0, out, 0);
  } finally {
    giveBack(place, length);
  }
}

const unit = String.fromCharCode;

/** The text of this many ASCII bytes at this place. */
export function textAt(place, length) {
  const from = bytes;
  const last = place + length;
  let at = place;
  let text = '';
  for (; at + 8 <= last; at += 8) {
    text += unit(
      from[at], from[at + 1], from[at + 2], from[at + 3],
      from[at + 4], from[at + 5], from[at + 6], from[at + 7],
    );
  }
  if (at + 4 <= last) {
    text += unit(from[at], from[at + 1], from[at + 2], from[at + 3]);
    at += 4;
  }
  for (; at < last; at += 1) text += unit(from[at]);
  return text;
}

/** The text that a call of the library prints for the struct at this place. */
export function printed(call, struct) {
  call(struct, 0, TEXT, 0, TEXT_ROOM, 0, ANSWER, 0);
  return textAt(TEXT, bytes[ANSWER]);
}
