// Finds statements by their names and by what they say. The list stands in statements.js: name, kind, page, formula.
// index.html#find=WORDS is a page on which these words are looked for.
"use strict";
const most = 200;
// Of each statement its name in small letters, and what it says without blanks and parentheses: pages leave out those that are
// needless, and a reader may type them.
let names, texts;
const box = document.getElementById("find"), found = document.getElementById("found"), count = document.getElementById("count");

function cell(row, text, style) {
  const made = row.appendChild(document.createElement("td"));
  made.textContent = text;
  if (style) made.className = style;
  return made;
}

function add([name, kind, page, says]) {
  const row = found.appendChild(document.createElement("tr"));
  cell(row, kind, "n");
  const link = cell(row, "", "n").appendChild(document.createElement("a"));
  link.href = page;
  link.textContent = name;
  cell(row, says, "f");
}

function prepare() {
  names ??= statements.map(it => it[0]).join("\n").toLowerCase().split("\n");
  texts ??= statements.map(it => it[3]).join("\n").replace(/[ ()]+/g, "").split("\n");
}

function find() {
  const words = box.value.trim();
  found.textContent = count.textContent = "";
  if (!words) return;
  const small = words.toLowerCase(), part = words.replace(/[\s()]+/g, "");
  prepare();
  const exact = [], named = [], said = [];
  names.forEach((name, i) => {
    if (name.includes(small)) (name === small ? exact : named).push(statements[i]);
    else if (part && texts[i].includes(part)) said.push(statements[i]);
  });
  const all = exact.concat(named, said);
  all.slice(0, most).forEach(add);
  count.textContent = all.length > most ? `${all.length} found, the first ${most} shown` : `${all.length} found`;
}

function fromAddress() {
  const wanted = /^#find=(.*)/.exec(location.hash);
  if (wanted) box.value = decodeURIComponent(wanted[1]);
  find();
}

box.addEventListener("input", find);
window.addEventListener("hashchange", fromAddress);
fromAddress();
setTimeout(prepare);
