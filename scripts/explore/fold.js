// Folds the steps of a proof: a button at a step hides those that it alone rests on, and shows them again.
"use strict";
const rows = [...document.querySelectorAll("#steps tr[id]")];
const uses = new Map(rows.map(row => [row, [...row.cells[1].querySelectorAll("a")].map(it => document.getElementById(it.hash.slice(1)))]));
const folded = new Set();

// Shown is the last step, and what a step uses that is shown and isn't folded; hypotheses stay.
function show() {
  const shown = new Set(), open = [rows[rows.length - 1]];
  while (open.length) {
    const row = open.pop();
    if (shown.has(row)) continue;
    shown.add(row);
    if (!folded.has(row)) open.push(...uses.get(row));
  }
  for (const row of rows) row.hidden = !shown.has(row) && !!row.querySelector("td.n a");
}

for (const row of rows.filter(it => uses.get(it).length)) {
  const button = document.createElement("button");
  button.className = "fold";
  button.textContent = "▾";
  button.addEventListener("click", () => {
    if (!folded.delete(row)) folded.add(row);
    button.textContent = folded.has(row) ? "▸" : "▾";
    show();
  });
  row.cells[0].prepend(button);
}

// A link to a step that is hidden unfolds all.
window.addEventListener("hashchange", () => {
  const wanted = document.getElementById(location.hash.slice(1));
  if (!wanted || !wanted.hidden) return;
  for (const row of folded) row.querySelector(".fold").textContent = "▾";
  folded.clear();
  show();
  wanted.scrollIntoView();
});
