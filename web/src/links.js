// The question that the page's address holds, after its `#`.

/** The longest question that a link holds, in characters. */
const LONGEST = 8000;

function decoded(text) {
  try {
    return decodeURIComponent(text);
  } catch {
    return text;
  }
}

/** The fields of a link such as `#compare=10.0.0.0/8&with=10.1.0.0/16`, in order, by name. */
export function fieldsOf(hash) {
  const fields = new Map();
  for (const part of hash.replace(/^#/, "").split("&")) {
    const at = part.indexOf("=");
    const name = at < 0 ? part : part.slice(0, at);
    if (name !== "" && !fields.has(name)) {
      fields.set(name, at < 0 ? "" : decoded(part.slice(at + 1)));
    }
  }
  return fields;
}

function encoded(text) {
  return encodeURIComponent(text).replace(/%2F/g, "/").replace(/%3A/g, ":");
}

/** The link for pairs of names and texts. */
export function linkOf(pairs) {
  const field = ([name, text]) => (text === "" ? name : `${name}=${encoded(text)}`);
  return `#${pairs.map(field).join("&")}`;
}

/** Has the page's address hold this question, if it is not too long. Returns whether it is. */
export function keep(pairs) {
  const isShort = pairs.every(([, text]) => text.length <= LONGEST);
  const link = isShort ? linkOf(pairs) : "";
  const isHeld = isShort && link.length <= LONGEST;
  try {
    history.replaceState(null, "", isHeld ? link : linkOf([[pairs[0][0], ""]]));
  } catch {
    // A browser that finds the address changed too often keeps the last one.
  }
  return isHeld;
}
