// Which question the page shows: that of the link, else the first.
import { build, version } from "../../bindings/out/js/index.mjs";
import { compareView } from "./compare_view.js";
import { fieldsOf } from "./links.js";
import { listView } from "./list_view.js";
import { listsView } from "./lists_view.js";
import { networkView } from "./network_view.js";
import { splitView } from "./split_view.js";

const VIEWS = new Map([
  ["network", networkView],
  ["compare", compareView],
  ["list", listView],
  ["lists", listsView],
  ["split", splitView],
]);

function open() {
  const fields = fieldsOf(location.hash);
  const asked = [...fields.keys()].find((name) => VIEWS.has(name));
  const name = asked ?? "network";
  for (const link of document.querySelectorAll("nav a")) {
    if (link.dataset.view === name) {
      link.setAttribute("aria-current", "page");
    } else {
      link.removeAttribute("aria-current");
    }
  }
  for (const each of VIEWS.keys()) {
    document.getElementById(`view-${each}`).hidden = each !== name;
  }
  VIEWS.get(name).open(asked === undefined ? new Map([["network", "10.1.9.32/20"]]) : fields);
}

for (const form of document.forms) {
  form.addEventListener("submit", (event) => event.preventDefault());
}
VIEWS.forEach((view) => view.begin());
document.getElementById("library").textContent = `version ${version} (${build})`;
document.getElementById("needs").remove();
addEventListener("hashchange", open);
open();
