// Opens the site of scripts/docs in Chromium; tests/docs runs it:
//
//     node tests/docs.mjs FOLDER
//
// Each page that the front page leads to, by any number of links, is opened at the width of a
// phone; it loads only files of the site, and reports no fault. Of rustdoc sources are left out,
// and pages that only lead on to another one. The search finds what the rows of FOUND say, and the
// calculator answers for one network.
import assert from "node:assert/strict";
import { existsSync, readFileSync } from "node:fs";
import { join, resolve } from "node:path";
import { fileURLToPath, pathToFileURL } from "node:url";
import { Browser, found } from "../web/chromium.mjs";

const SITE = resolve(process.argv[2]);
const BASE = `${pathToFileURL(SITE).href}/`;
const PHONE = 360;
const CRATE = "rustdoc/fosibegan";
const LEADS_ON = '<meta http-equiv="refresh"';
// What is written into the field, a page among the first three found, and a text of its entry.
const FOUND = [
  ["--skip-bad", "man/cidr_filter.html#skip-bad", "Report refused lines of the lists"],
  ["ADDRESS_COUNT", `${CRATE}/struct.AddressSet.html#method.address_count`, "address_count"],
  ["linux on arm64", "bindings/index.html#linux-on-arm64", "Linux on ARM64"],
  ["network texts", "index.html#network-texts", "Network texts"],
];

// The links of the page to pages of the site, without what is after #.
const LINKS = `[...document.querySelectorAll("a[href]")].map((link) => link.href.split("#")[0])
  .filter((link) => link.startsWith(${JSON.stringify(BASE)}) && link.endsWith(".html"))
  .filter((link) => !link.includes("/rustdoc/src/"))`;

async function everyPage(browser) {
  await browser.look(PHONE, 740, true);
  const [left, seen] = [[`${BASE}index.html`, `${BASE}search.html`], new Set()];
  while (left.length > 0) {
    const page = left.pop();
    if (!seen.has(page) && !readFileSync(fileURLToPath(page), "utf8").includes(LEADS_ON)) {
      seen.add(page);
      await browser.go(page);
      assert.ok(await browser.value("document.title"), `${page} has no title`);
      const isOwn = !page.startsWith(`${BASE}rustdoc/`);
      const width = isOwn ? await browser.value("document.documentElement.scrollWidth") : 0;
      assert.ok(width <= PHONE, `${page} is ${width} pixels wide on a phone`);
      left.push(...(await browser.value(LINKS)));
    }
  }
  return seen.size;
}

// Writes into the field of the front page, and sends it.
async function ask(browser, words) {
  await browser.go(`${BASE}index.html`);
  await browser.value(`document.querySelector("input[name=q]").value = ${JSON.stringify(words)}`);
  await browser.value("document.querySelector('input[name=q]').focus()");
  await browser.press("Enter", 13, "\r");
  await browser.opened("search.html");
}

async function search(browser) {
  const entries = `[...document.querySelectorAll("#search-found li")].slice(0, 3)
    .map((each) => [each.querySelector("a").href, each.innerText])`;
  for (const [words, page, text] of FOUND) {
    await ask(browser, words);
    const first = await browser.value(entries);
    const one = first.find(([address]) => address === BASE + page);
    const said = `${words} should find ${page}, and finds:\n${first.join("\n")}`;
    assert.ok(one?.[1].includes(text), said);
  }
  const status = "document.getElementById('search-status').innerText";
  for (const words of ["zyxwv10", "<img src=x onerror=\"document.title = 'run'\">"]) {
    await ask(browser, words);
    assert.equal(await browser.value(status), "0 sections");
    assert.equal(await browser.value("document.querySelectorAll('main img').length"), 0);
  }
  // What is written there is looked for at once.
  await browser.value(`(() => {
    const field = document.querySelector("input[name=q]");
    field.value = "longest-prefix match";
    field.dispatchEvent(new Event("input"));
  })()`);
  assert.ok((await browser.value("document.querySelectorAll('#search-found mark').length")) > 0);
}

async function calculator(browser) {
  if (existsSync(join(SITE, "subnets.html"))) {
    await browser.go(`${BASE}subnets.html#network=10.1.9.32/20`);
    const said = "document.querySelector('main').innerText.includes('10.1.15.255')";
    assert.equal(await browser.settled(said, true), true, "the calculator does not answer");
  }
}

// Nothing but files of the site was asked for, and nothing was reported.
function quiet({ events }) {
  const asked = events.filter(({ method }) => method === "Network.requestWillBeSent");
  const urls = asked.map(({ params }) => params.request.url);
  const isOwn = (url) => [BASE, "data:", "about:"].some((start) => url.startsWith(start));
  assert.deepEqual(urls.filter((url) => !isOwn(url)), [], "a page asked for this");
  const isFault = ({ method, params }) =>
    method === "Runtime.exceptionThrown" ||
    (method === "Runtime.consoleAPICalled" && ["error", "warning"].includes(params.type)) ||
    (method === "Log.entryAdded" && ["error", "warning"].includes(params.entry.level));
  assert.deepEqual(events.filter(isFault), [], "a page reported this");
}

const browser = new Browser(found());
try {
  await browser.begin();
  const count = await everyPage(browser);
  await browser.look(1000, 800, false);
  await search(browser);
  await calculator(browser);
  quiet(browser);
  console.log(`docs: ${count} pages opened in Chromium, and ${FOUND.length} searches`);
} finally {
  await browser.end();
}
