import { giveBack, take } from './memory.mjs';

/* The lists in the memory, the oldest first, and the maximum number and size of them. */
const resident = new Set();
const MOST_LISTS = 4096;
const MOST_BYTES = 64 * 1024 * 1024;
let residentBytes = 0;
const registry = new FinalizationRegistry(leave);

/**
 * A list that is kept outside the memory and, after the first question, also in it, where `write`
 * puts its bytes.
 */
export class Resident {
  constructor(length) {
    this.slot = { place: 0, length: Math.max(length, 1) };
  }

  /** Its place in the memory, which it keeps until others need the room. */
  get start() {
    const { slot } = this;
    return slot.place !== 0 ? slot.place : enter(this);
  }

  /** Frees its memory. */
  leave() {
    leave(this.slot);
  }
}

function enter(list) {
  const { slot } = list;
  for (const oldest of resident) {
    if (resident.size < MOST_LISTS && residentBytes + slot.length <= MOST_BYTES) break;
    leave(oldest);
  }
  const place = take(slot.length);
  list.write(place);
  slot.place = place;
  resident.add(slot);
  residentBytes += slot.length;
  registry.register(list, slot, slot);
  return place;
}

function leave(slot) {
  if (slot.place === 0) return;
  giveBack(slot.place, slot.length);
  slot.place = 0;
  resident.delete(slot);
  residentBytes -= slot.length;
  registry.unregister(slot);
}
