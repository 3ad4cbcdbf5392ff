// The search over all pages. SECTIONS, of search-index.js, has for each section of a page its
// address, the title of the page, its heading and its text.
"use strict";

const MOST = 60;
const AROUND = 90;
const ASKED = document.getElementById("search-status").textContent;
const field = document.querySelector("input[name=q]");
const status = document.getElementById("search-status");
const list = document.getElementById("search-found");
const sections = SECTIONS.map(([address, title, heading, text]) => {
  const lower = [heading, title, text].map((each) => each.toLowerCase());
  return { address, title, heading, text, lower };
});

// How well a section answers: 0 if one of the words is nowhere in it.
function weight({ lower }, words) {
  let sum = lower[2].includes(words.join(" ")) ? 4 : 0;
  for (const word of words) {
    const [heading, title, text] = lower.map((each) => each.includes(word));
    if (!heading && !title && !text) {
      return 0;
    }
    sum += 8 * heading + 4 * title + text + 8 * (lower[0] === word || lower[1] === word);
  }
  return sum;
}

// The text around the words as they were written, or else around one of them; each is marked.
function excerpt({ text, lower }, words) {
  const asked = [words.join(" "), ...words].map((word) => lower[2].indexOf(word));
  const first = asked.find((place) => place >= 0) ?? 0;
  const start = first > AROUND ? text.indexOf(" ", first - AROUND) + 1 : 0;
  const shown = text.slice(start, first + 2 * AROUND);
  const escaped = words.map((word) => word.replace(/[^\w\s]/g, "\\$&"));
  const found = document.createElement("p");
  found.append(start > 0 ? "… " : "");
  shown.split(new RegExp(`(${escaped.join("|")})`, "i")).forEach((part, number) => {
    if (number % 2 === 1) {
      const mark = document.createElement("mark");
      mark.textContent = part;
      found.append(mark);
    } else {
      found.append(part);
    }
  });
  found.append(start + shown.length < text.length ? " …" : "");
  return found;
}

function entry(section, words) {
  const item = document.createElement("li");
  const link = document.createElement("a");
  link.href = section.address;
  const isWhole = section.heading === section.title;
  link.textContent = isWhole ? section.title : `${section.title}: ${section.heading}`;
  item.append(link, excerpt(section, words));
  return item;
}

function search() {
  const words = field.value.toLowerCase().split(/\s+/).filter((word) => word !== "");
  const weighed = words.length === 0 ? [] : sections.map((each) => [weight(each, words), each]);
  const found = weighed.filter(([sum]) => sum > 0).sort(([one], [other]) => other - one);
  list.replaceChildren(...found.slice(0, MOST).map(([, each]) => entry(each, words)));
  const first = found.length > MOST ? `, of which these are the first ${MOST}` : "";
  const count = found.length === 1 ? "1 section" : `${found.length} sections`;
  status.textContent = words.length === 0 ? ASKED : `${count}${first}`;
}

field.value = new URLSearchParams(location.search).get("q") ?? "";
field.addEventListener("input", search);
field.form.addEventListener("submit", (event) => event.preventDefault());
field.focus();
search();
