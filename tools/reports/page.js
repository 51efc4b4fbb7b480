"use strict";
// Filters and sorts the table. Without scripts the page shows the same, and what is worst first.
const body = document.querySelector("tbody");
const rows = Array.from(body.rows);
const search = document.querySelector("input");
const buttons = Array.from(document.querySelectorAll(".tools button"));
const shown = document.querySelector("#shown");

function filter() {
  const verdicts = new Set(buttons.filter((it) => it.getAttribute("aria-pressed") === "true").map((it) => it.value));
  const words = search.value.toLowerCase().split(/\s+/).filter(Boolean);
  let number = 0;
  for (const row of rows) {
    const text = row.textContent.toLowerCase();
    row.hidden = !verdicts.has(row.dataset.verdict) || !words.every((word) => text.includes(word));
    number += row.hidden ? 0 : 1;
  }
  shown.textContent = number === rows.length ? "" : `${number} of ${rows.length} rows shown`;
}

const order = new Intl.Collator("en", { numeric: true });

function sort(head) {
  const rises = head.getAttribute("aria-sort") !== "ascending";
  const place = head.cellIndex;
  const key = new Map(rows.map((row) => [row, row.cells[place].dataset.key || row.cells[place].textContent]));
  const run = new Map(rows.map((row) => [row, Number(row.cells[0].textContent)]));
  rows.sort((one, other) => (rises ? 1 : -1) * order.compare(key.get(one), key.get(other)) || run.get(one) - run.get(other));
  for (const it of head.parentNode.cells) it.removeAttribute("aria-sort");
  head.setAttribute("aria-sort", rises ? "ascending" : "descending");
  body.append(...rows);
}

function open() {
  const target = location.hash && document.getElementById(decodeURIComponent(location.hash.slice(1)));
  if (target && target.tagName === "DETAILS") {
    target.open = true;
    target.scrollIntoView();
  }
}

for (const button of buttons) {
  button.addEventListener("click", () => {
    button.setAttribute("aria-pressed", String(button.getAttribute("aria-pressed") !== "true"));
    filter();
  });
}
for (const button of document.querySelectorAll("th button")) button.addEventListener("click", () => sort(button.parentNode));
search.addEventListener("input", filter);
addEventListener("hashchange", open);
document.querySelector(".tools").hidden = false;
open();
