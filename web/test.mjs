// Tests the page in Chromium, and takes pictures of it:
//
//     node web/test.mjs [--times] [FOLDER]
//
// It needs the page of web/build. Each row of web/links.txt is a link and texts that the answer
// has. With --times it measures lists of 100,000 lines, each of which has to be answered within a
// second of the last key, and not at each key. The pictures go to FOLDER, if it is given.
import assert from "node:assert/strict";
import { existsSync, mkdirSync, mkdtempSync, readFileSync, rmSync, writeFileSync } from "node:fs";
import { tmpdir } from "node:os";
import { dirname, join } from "node:path";
import { fileURLToPath, pathToFileURL } from "node:url";
import { Browser, found } from "./chromium.mjs";
import { LISTS } from "./lists.mjs";

const WEB = dirname(fileURLToPath(import.meta.url));
const PAGE = pathToFileURL(join(WEB, "out", "subnets.html")).href;
const TITLE = "Subnet calculator";
// The most milliseconds for a list of 100,000 lines.
const MOST = 1000;

const encoded = encodeURIComponent;
const example = readFileSync(join(WEB, "example.txt"), "utf8").trim();

// What a reader sees of the view that is shown: texts, and what fields hold.
const SEEN = `(() => {
  const view = [...document.querySelectorAll("main > section")].find((each) => !each.hidden);
  const fields = [...view.querySelectorAll("textarea[readonly]")].map((field) => field.value);
  return [view.innerText, ...fields].join("\\n");
})()`;

// Blanks and ends of lines are all the same here.
const plain = (text) => text.replace(/\s+/g, " ");

// Each link of links.txt has its texts, and has not what is after `not: `.
async function links(browser) {
  const rows = readFileSync(join(WEB, "links.txt"), "utf8").split("\n");
  const asked = rows.filter((row) => row !== "" && !row.startsWith("# "));
  for (const row of asked) {
    const [link, ...texts] = row.split("\t");
    await browser.go(PAGE + link);
    const seen = plain(await browser.value(SEEN));
    for (const text of texts) {
      const isAbsent = text.startsWith("not: ");
      const isSeen = seen.includes(plain(isAbsent ? text.slice(5) : text));
      assert.equal(isSeen, !isAbsent, `${link} should say ${text}, and says:\n${seen}`);
    }
  }
  return asked.length;
}

// A text of a link is never HTML: no element comes of it, and nothing of it runs.
async function texts(browser) {
  const run = "document.title = 'run'";
  const hostile = `<img src=x onerror="${run}"><script>${run}</script>`;
  for (const name of ["network", "compare", "list", "lists", "split"]) {
    const text = encoded(`${hostile}\n10.0.0.0/8`);
    await browser.go(`${PAGE}#${name}=${text}&with=${encoded(hostile)}&and=${text}&used=${text}`);
    const made = "document.querySelectorAll('main img, main script').length";
    assert.equal(await browser.value(made), 0, `${name}: a text became an element`);
    assert.equal(await browser.value("document.title"), TITLE);
  }
  const makers = /innerHTML|outerHTML|insertAdjacentHTML|document\.write|DOMParser|Fragment\(/;
  assert.doesNotMatch(readFileSync(fileURLToPath(PAGE), "utf8"), makers);
  const long = `#network=${"9".repeat(100000)}`;
  for (const link of ["#%", "#network=%zz", "#=&&=", "#nothing=1", "#list=%ff%00", long]) {
    await browser.go(PAGE + link);
    assert.equal(await browser.value("document.title"), TITLE);
  }
}

// How long the page needs from the last of three keys until the answer to a list is drawn, in
// milliseconds, with the pause after it; and how long it held the first two of them up.
async function timed(browser, list) {
  await browser.go(`${PAGE}#list`);
  return browser.value(`(async () => {
    const area = document.getElementById("list-text");
    const status = document.getElementById("list-status");
    area.value = (${list})();
    const drawn = () => new Promise((done) => requestAnimationFrame(() => setTimeout(done)));
    await drawn();
    const start = performance.now();
    let began = start;
    for (let key = 0; key < 3; key += 1) {
      await drawn();
      began = performance.now();
      area.dispatchEvent(new Event("input", { bubbles: true }));
    }
    const held = performance.now() - start;
    while (status.textContent === "") await drawn();
    await drawn();
    return { took: performance.now() - began, held };
  })()`);
}

async function times(browser) {
  for (const [name, list] of Object.entries(LISTS)) {
    const rounds = [];
    for (let round = 0; round < 3; round += 1) {
      rounds.push(await timed(browser, list));
    }
    const least = Math.round(Math.min(...rounds.map(({ took }) => took)));
    const held = Math.round(Math.min(...rounds.map((each) => each.held)));
    assert.ok(held < MOST / 2, `three keys in 100,000 lines of ${name} should not take ${held} ms`);
    console.log(`page: 100,000 lines of ${name}: ${least} ms`);
    assert.ok(least < MOST, `100,000 lines of ${name} should take less than ${MOST} ms`);
  }
}

// What the keyboard reaches, from the start of the page: the links, then the field.
async function keyboard(browser) {
  await browser.go(`${PAGE}#network=10.0.0.0/8`);
  const focused = "document.activeElement.id || document.activeElement.textContent";
  const order = [];
  for (let number = 0; number < 6; number += 1) {
    await browser.press("Tab", 9);
    order.push(await browser.value(focused));
  }
  assert.deepEqual(order, ["Network", "Compare", "List", "Two lists", "Split", "network-text"]);
  await browser.value("document.activeElement.select()");
  for (const letter of "192.0.2.0/24") {
    await browser.press(letter, 0, letter);
  }
  await browser.press("Enter", 13, "\r");
  assert.match(await browser.value(SEEN), /192\.0\.2\.0\/24 has 256 addresses\./);
  assert.equal(await browser.value("location.hash"), "#network=192.0.2.0/24");
  await browser.value("document.querySelector('nav a[data-view=list]').focus()");
  await browser.press("Enter", 13, "\r");
  const current = "document.querySelector('[aria-current]').textContent";
  assert.equal(await browser.settled(current, "List"), "List");
  assert.equal(await browser.value("document.getElementById('view-list').hidden"), false);
  await browser.go(`${PAGE}#split=10.0.0.0/8&into=24`);
  await browser.value("document.querySelector('.turns button:enabled').focus()");
  await browser.press("Enter", 13, "\r");
  const place = "document.querySelector('.turns [role=status]').textContent";
  const wanted = "65 to 128 of 65,536";
  assert.equal(await browser.settled(place, wanted), wanted);
  // Turning to other parts leaves the keyboard at the button, or at the other one at an end.
  await browser.go(`${PAGE}#split=10.0.0.0/24&into=32`);
  const held = "document.activeElement.textContent";
  await browser.value("document.querySelectorAll('.turns button')[1].focus()");
  for (const [key, after] of [["Later", "Later"], ["Later", "Later"], ["Later", "Earlier"]]) {
    assert.equal(await browser.value(held), key);
    await browser.press("Enter", 13, "\r");
    assert.equal(await browser.value(held), after);
  }
  await browser.press("Enter", 13, "\r");
  assert.equal(await browser.value(held), "Earlier");
}

// The pictures: which bits are those of hosts, where bars lie, which squares are coloured.
async function drawn(browser) {
  await browser.go(`${PAGE}#network=10.1.9.32/20`);
  const bits = `[...document.querySelectorAll(".bit")].map((bit) =>
    (bit.classList.contains("host") ? "h" : "n") + bit.textContent).join("")`;
  const network = "n0n0n0n0n1n0n1n0n0n0n0n0n0n0n0n1n0n0n0n0";
  assert.equal(await browser.value(bits), `${network}h1h0h0h1h0h0h1h0h0h0h0h0`);
  await browser.go(`${PAGE}#compare=10.0.0.0/8&with=10.64.0.0/12`);
  const bars = `[...document.querySelectorAll(".track span")].map((bar) =>
    [bar.style.left.match(/[\\d.]+/)[0], bar.style.width].join(" "))`;
  assert.deepEqual(await browser.value(bars), ["0 100%", "25 6.25%"]);
  await browser.go(`${PAGE}#list=10.0.0.0/8%0A224.0.0.0/4%0A3.128.0.0/9`);
  // Of each square of 64 pixels, row by row, one pixel of each quarter.
  const squares = `(() => {
    const context = document.querySelector("canvas").getContext("2d");
    const full = (x, y) => context.getImageData(x, y, 1, 1).data[0] < 128;
    const quarters = [[8, 8], [56, 8], [8, 56], [56, 56]];
    const found = {};
    for (let square = 0; square < 256; square += 1) {
      const [left, top] = [(square % 16) * 64, Math.floor(square / 16) * 64];
      const covered = quarters.filter(([x, y]) => full(left + x, top + y)).length;
      if (covered > 0) found[square] = covered;
    }
    return found;
  })()`;
  assert.deepEqual(await browser.value(squares), SQUARES);
}

// How many quarters of which squares, 16 in a row, by the recursive definition of the curve:
// 224.0.0.0/4 is four squares of each of the first four rows, from the ninth on; 3.128.0.0/9 half
// of the first square of the second row; 10.0.0.0/8 the fourth square of the fourth row.
const SQUARES = {
  ...Object.fromEntries([0, 16, 32, 48].flatMap((row) => [8, 9, 10, 11].map((x) => [row + x, 4]))),
  16: 2,
  51: 4,
};

// The lines of a file that the page saves.
async function read(file) {
  for (let tries = 0; tries < 600 && !existsSync(file); tries += 1) {
    await new Promise((done) => setTimeout(done, 50));
  }
  return readFileSync(file, "utf8").split("\n");
}

// What the buttons copy: each result, and each list whole.
async function copied(browser) {
  const copy = async (link, name) => {
    await browser.go(PAGE + link);
    return browser.value(`(async () => {
      let text;
      const clipboard = { writeText: async (given) => { text = given; } };
      Object.defineProperty(navigator, "clipboard", { value: clipboard, configurable: true });
      const label = "Copy: " + ${JSON.stringify(name)};
      [...document.querySelectorAll("button.copy")]
        .find((each) => each.getAttribute("aria-label").startsWith(label) && each.offsetParent)
        .click();
      await new Promise((done) => setTimeout(done));
      return text;
    })()`);
  };
  const network = "#network=10.1.9.32/20";
  assert.equal(await copy(network, "Network"), "10.1.9.32/20");
  assert.equal(await copy(network, "Last address"), "10.1.15.255");
  assert.equal(await copy(network, "Wildcard mask"), "0.0.15.255");
  const lines = Array.from({ length: 1200 }, (_, at) => `10.${at >> 8}.${at & 255}.1`);
  const list = `#list=${encoded(lines.slice(0, 300).join("\n"))}`;
  const least = lines.slice(0, 300).map((line) => `${line}/32\n`).join("");
  assert.equal(await copy(list, "The least list"), least);
  const lists = "#lists=10.0.0.0/31&and=10.0.0.1";
  assert.equal(await copy(lists, "Only in the first"), "10.0.0.0/32\n");
  const split = "#split=10.0.0.0/30&into=31";
  const parts = "10.0.0.0/31\t10.0.0.0\t10.0.0.1\n10.0.0.2/31\t10.0.0.2\t10.0.0.3\n";
  assert.equal(await copy(split, "all parts"), `Network\tFirst address\tLast address\n${parts}`);
}

// A list of more lines than a field shows is saved whole.
async function saved(browser) {
  const place = mkdtempSync(join(tmpdir(), "saved-"));
  try {
    const how = { behavior: "allow", downloadPath: place };
    await browser.call("Browser.setDownloadBehavior", how, null);
    await browser.go(`${PAGE}#list`);
    await browser.value(`(() => {
      const area = document.getElementById("list-text");
      const line = (_, at) => "10.0." + (at >> 7) + "." + ((2 * at) & 255);
      area.value = Array.from({ length: 1500 }, line).join("\\n");
      area.dispatchEvent(new Event("input"));
      document.querySelector("#list-answer .buttons button:not(.copy)").click();
    })()`);
    const lines = await read(join(place, "list-least.txt"));
    assert.equal(lines.length, 1501);
    assert.deepEqual([lines[0], lines[1499]], ["10.0.0.0/32", "10.0.11.182/32"]);
    await browser.go(`${PAGE}#split=10.0.0.0/24&into=31&used=10.0.0.2`);
    const buttons = "[...document.querySelectorAll('#split-answer button:not(.copy)')]";
    const isSave = "(each) => /^Save/.test(each.textContent)";
    await browser.value(`${buttons}.filter(${isSave}).at(-1).click()`);
    const parts = await read(join(place, "split-parts.txt"));
    assert.equal(parts.length, 130);
    assert.deepEqual(parts.slice(0, 3), [
      "Network\tFirst address\tLast address\tState",
      "10.0.0.0/31\t10.0.0.0\t10.0.0.1\tfree",
      "10.0.0.2/31\t10.0.0.2\t10.0.0.3\tpartly in use",
    ]);
  } finally {
    rmSync(place, { recursive: true, force: true });
  }
}

// The tree that a screen reader is given has a name for each field, picture, button and link.
async function names(browser) {
  const roles = ["textbox", "spinbutton", "image", "img", "button", "link", "navigation"];
  for (const link of Object.values(PICTURES)) {
    await browser.go(PAGE + link);
    const { nodes } = await browser.call("Accessibility.getFullAXTree");
    const asked = nodes.filter(({ role, ignored }) => !ignored && roles.includes(role?.value));
    assert.ok(asked.length >= 5, `${link}: the tree has ${asked.length} such nodes`);
    for (const node of asked) {
      assert.ok(node.name?.value, `${link}: a ${node.role.value} has no name`);
    }
    assert.equal(await browser.value("document.querySelectorAll('h1').length"), 1);
    assert.equal(await browser.value("document.getElementById('needs')"), null);
  }
}

const LONG = "ffff:ffff:ffff:ffff:ffff:ffff:ffff:ffff";

// No answer is wider than a phone.
async function widths(browser) {
  await browser.look(360, 740, false);
  const wide = [
    `#network=${LONG}/44`,
    `#compare=${LONG}/32&with=::/33`,
    `#list=${LONG}%0A10.0.0.0/8`,
    "#split=2001:db8::/32&into=48&used=2001:db8::/40",
    `#lists=${LONG}&and=::-${LONG}`,
    `#network=::1-${LONG}`,
  ];
  for (const link of [...wide, ...Object.values(PICTURES)]) {
    await browser.go(PAGE + link);
    const width = await browser.value("document.documentElement.scrollWidth");
    assert.ok(width <= 360, `${link} is ${width} pixels wide on a phone`);
  }
  // Answers are read without a move to the right: why a line is wrong, and which part a row is.
  await browser.go(`${PAGE}#list=${LONG}%0A010.1.2.0/24%0A${LONG}/129`);
  const cut = await browser.value(`[...document.querySelectorAll("textarea[readonly]")]
    .filter((field) => field.scrollWidth > field.clientWidth).length`);
  assert.equal(cut, 0, `${cut} lists are cut off on a phone`);
  const six = "ffff:ffff:ffff:ffff:ffff:ffff:ffff:0/112";
  for (const split of [`${six}&into=128&used=${LONG}`, "10.1.0.0/16&into=20&used=10.1.0.0/18"]) {
    await browser.go(`${PAGE}#split=${split}`);
    const right = await browser.value(`Math.max(...[...document.querySelectorAll("td")]
      .map((cell) => Math.max(cell.getBoundingClientRect().right, cell.scrollWidth)))`);
    assert.ok(right <= 360, `what a part has ends ${right} pixels from the left`);
  }
}

const PICTURES = {
  network: "#network=10.1.9.32/20",
  network6: "#network=2001:db8::1/44",
  refused: "#network=10.1.9.32/33",
  compare: "#compare=10.0.0.0/8&with=10.64.0.0/12",
  list: `#list=${encoded(example)}`,
  lists: `#lists=${encoded(example.replace(/^.*wrong$[^]*/m, ""))}&and=10.0.0.0/8%0A2001:db8::/48`,
  split: "#split=10.1.0.0/16&into=20&used=10.1.0.0/18%0A10.1.128.0/20",
};

async function pictures(browser, folder) {
  mkdirSync(folder, { recursive: true });
  const looks = [["light", 1000, false], ["dark", 1000, true], ["phone", 390, false]];
  for (const [look, width, isDark] of looks) {
    for (const [name, link] of Object.entries(PICTURES)) {
      await browser.look(width, 300, isDark);
      await browser.go(PAGE + link);
      const height = await browser.value("document.documentElement.scrollHeight");
      await browser.look(width, height, isDark);
      writeFileSync(join(folder, `${name}-${look}.png`), await browser.picture());
    }
  }
}

// The page has asked for nothing but itself, and reported no fault.
function quiet({ events }) {
  const asked = events.filter(({ method }) => method === "Network.requestWillBeSent");
  const urls = asked.map(({ params }) => params.request.url);
  const isOwn = (url) => url.startsWith(PAGE) || url.startsWith("blob:");
  assert.deepEqual(urls.filter((url) => !isOwn(url)), [], "the page asked for this");
  const isFault = ({ method, params }) =>
    method === "Runtime.exceptionThrown" ||
    (method === "Log.entryAdded" && params.entry.level === "error");
  assert.deepEqual(events.filter(isFault), [], "the page reported this");
}

// What the page is not allowed to do: to ask for anything.
async function shut(browser) {
  await browser.go(PAGE);
  const asked = `new Promise((done) => {
    addEventListener("securitypolicyviolation", (event) => done(event.effectiveDirective));
    fetch("http://127.0.0.1:9/").then(() => done("asked"), () => setTimeout(done, 5000, "failed"));
  })`;
  assert.equal(await browser.value(asked), "connect-src");
}

const words = process.argv.slice(2);
const folder = words.find((word) => word !== "--times");
const browser = new Browser(found());
try {
  await browser.begin();
  await browser.look(1000, 800, false);
  const count = await links(browser);
  await texts(browser);
  await keyboard(browser);
  await names(browser);
  await drawn(browser);
  await copied(browser);
  await saved(browser);
  if (words.includes("--times")) {
    await times(browser);
  }
  await widths(browser);
  if (folder !== undefined) {
    await pictures(browser, folder);
  }
  quiet(browser);
  await shut(browser);
  console.log(`page: ${count} links, the keyboard, names for readers and a phone's width pass`);
} finally {
  await browser.end();
}
