// Elements of the page. A text is always a text node, never HTML.

/** An element with these attributes and children; a child that is a string is a text. */
export function element(name, attributes = {}, ...children) {
  const made = document.createElement(name);
  for (const [key, value] of Object.entries(attributes)) {
    if (value !== undefined) {
      made.setAttribute(key, String(value));
    }
  }
  made.append(...children);
  return made;
}

/** The element of the page with this id. */
export function named(id) {
  return document.getElementById(id);
}

/** A list of names and values: pairs of a name and a text, each of which can be copied. */
export function descriptions(pairs) {
  const list = element("dl");
  for (const [name, value] of pairs) {
    list.append(element("dt", {}, name), element("dd", {}, value, copying(name, () => value)));
  }
  return list;
}

/** Says a sentence where a screen reader hears it. */
export function say(id, text, isRefusal) {
  const status = named(id);
  status.textContent = text;
  status.classList.toggle("refused", isRefusal);
}

/** Marks a field whose text is refused, and unmarks one whose text is not. */
export function mark(field, isRefused) {
  if (isRefused) {
    field.setAttribute("aria-invalid", "true");
  } else {
    field.removeAttribute("aria-invalid");
  }
}

// How many lines a field shows: a browser takes seconds to lay out a hundred thousand.
const SHOWN = 1000;

/** A button with this text. */
export function button(text, act) {
  const made = element("button", { type: "button" }, text);
  made.addEventListener("click", act);
  return made;
}

// Puts a text where it can be pasted from, also in a browser that refuses the page its clipboard.
async function copy(text) {
  try {
    await navigator.clipboard.writeText(text);
  } catch {
    const field = element("textarea", { class: "copied" });
    field.value = text;
    document.body.append(field);
    field.select();
    document.execCommand("copy");
    field.remove();
  }
}

/** A button that copies what a function gives: the result of this name. */
export function copying(name, text) {
  const made = element("button", { type: "button", class: "copy", "aria-label": `Copy: ${name}` });
  const end = () => made.classList.remove("done");
  made.addEventListener("click", async () => {
    await copy(text());
    made.classList.add("done");
    setTimeout(end, 1500);
  });
  return made;
}

/** Has the browser save lines as a file. */
export function save(name, lines) {
  const place = URL.createObjectURL(new Blob([lines.join("\n"), "\n"], { type: "text/plain" }));
  element("a", { href: place, download: name }).click();
  setTimeout(() => URL.revokeObjectURL(place), 60000);
}

// Fields that hold more than so many characters are answered after a pause of so many milliseconds.
const LONG = 20000;
const PAUSE = 250;

/** Has fields of a view answered as they are typed in; where they hold much, after a pause. */
export function whenTyped(fields, show) {
  let timer;
  const view = fields[0].closest("section");
  const typed = () => {
    clearTimeout(timer);
    if (fields.every(({ value }) => value.length <= LONG)) {
      show();
    } else {
      timer = setTimeout(() => view.hidden || show(), PAUSE);
    }
  };
  fields.forEach((field) => field.addEventListener("input", typed));
}

/**
 * A field of lines that can be read and copied, with its label. Of more lines than it has room for
 * it shows the first ones; all of them are copied and saved.
 */
export function readable(id, label, lines) {
  const rows = Math.max(3, Math.min(12, lines.length));
  const field = element("textarea", { id, rows, readonly: "", spellcheck: "false" });
  field.value = lines.slice(0, SHOWN).join("\n");
  const parts = [element("label", { for: id }, label), field];
  if (lines.length > 0) {
    const note = lines.length > SHOWN ? [element("span", {}, "The first 1,000 are shown.")] : [];
    const all = button("Save all as a file", () => save(`${id}.txt`, lines));
    const copyAll = copying(label, () => `${lines.join("\n")}\n`);
    parts.push(element("div", { class: "buttons" }, ...note, copyAll, all));
  }
  return element("div", {}, ...parts);
}
