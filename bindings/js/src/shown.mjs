/** The name of the method by which Node's console shows a value. */
export const INSPECT = Symbol.for('nodejs.util.inspect.custom');

/**
 * An own property of each value. `structuredClone` and `postMessage` copy such properties, but not
 * private fields. A symbol cannot be copied, so they refuse the value instead of making an empty
 * object.
 */
export const SENT = Symbol('a value of ipnetwork, which is sent as its text');

const MOST_SHOWN = 5;

/** The class of a value, the number of its members, and the first of them. */
export function shownList(value, count, members, [open, close] = '{}') {
  const shown = [];
  for (const member of members) {
    if (shown.length === MOST_SHOWN) {
      shown.push(`... ${count - MOST_SHOWN} more`);
      break;
    }
    shown.push(String(member));
  }
  const list = shown.length === 0 ? '' : ` ${shown.join(', ')} `;
  return `${value.constructor.name}(${count}) ${open}${list}${close}`;
}
