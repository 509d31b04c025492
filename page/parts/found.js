/* What is said of the schedule: what is wrong, what is refused, remarks. */
"use strict";
/* So many lines are shown, and then as many more for each wish. */
const SOME_FOUND = 100, PAUSE_BEFORE_TELLING = 1000;
let before = {}, found = [], telling = 0;

/* What the player says, `schedule:LINE:COLUMN: words`, a line for each. */
function linesOf({finding, said}) {
  const kind = finding === 4 ? "refused" : finding === 0 ? "remark" : "wrong";
  return said.split("\n").filter(Boolean).map(line => {
    const parts = /^schedule:(\d+):(\d+): (.*)$/.exec(line);
    if (parts) return {kind, line: +parts[1], column: +parts[2], words: parts[3]};
    return {kind: finding === 0 ? "well" : kind, words: line.replace(/^schedule: ?/, "")};
  });
}

function showFound(data) {
  if (data.said === before.said && data.finding === before.finding) return;
  before = {said: data.said, finding: data.finding};
  found = linesOf(data);
  $("found").replaceChildren();
  showMoreFound();
  clearTimeout(telling);
  telling = setTimeout(tellFound, PAUSE_BEFORE_TELLING);
}

function showMoreFound() {
  const list = $("found"), from = list.children.length;
  found.slice(from, from + SOME_FOUND).forEach(it => showOne(list, it));
  const rest = found.length - list.children.length;
  if (rest <= 0) return;
  const more = make("button", make("li", list), `${Math.min(rest, SOME_FOUND)} more of ${rest}`, "more");
  more.type = "button";
  more.onclick = () => {
    more.parentElement.remove();
    showMoreFound();
    list.children[from + SOME_FOUND].querySelector("button")?.focus();
  };
}

function showOne(list, it) {
  const item = make("li", list, "", it.kind);
  if (!it.line) { item.textContent = it.words; return; }
  const button = make("button", item);
  button.type = "button";
  make("span", button, it.line + ":" + it.column, "place");
  button.append(it.words);
  button.onclick = () => goTo(it);
}

/* Those who listen are told how much was found, once nobody types. */
function tellFound() {
  const placed = found.filter(it => it.line && it.kind !== "remark"), first = placed[0];
  const words = first ? `${placed.length} ${first.kind}, the first in line ${first.line}: ${first.words}` : found[0]?.words || "";
  if ($("found-said").textContent !== words) $("found-said").textContent = words;
}
