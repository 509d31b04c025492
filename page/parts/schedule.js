/* The schedule as text. One of many lines is edited by parts of it, since a browser lays out the whole of a text area
   at each key: what stands before the part and behind it is kept here. */
"use strict";
const LINES_OF_PART = 1000, MOST_LINES = 1500;
const LINE = 20;
const text = $("text");
let ahead = "", behind = "", linesAhead = 0, linesOfAll = 1, marks = new Map();

const schedule = () => ahead + text.value + behind;

function countLines(words, to = words.length) {
  let count = 1;
  for (let at = words.indexOf("\n"); at >= 0 && at < to; at = words.indexOf("\n", at + 1)) count++;
  return count;
}

/* Where a line begins, counted from 1; the text's end where there is no such line. */
function startOf(words, line) {
  let at = 0;
  for (let count = 1; count < line; count++) {
    at = words.indexOf("\n", at) + 1;
    if (!at) return words.length;
  }
  return at;
}

/* Puts this schedule in; of a long one the part that has this line. */
function setSchedule(words, line = 1) {
  const count = countLines(words), isWhole = count <= MOST_LINES;
  const first = isWhole ? 1 : line - (line - 1) % LINES_OF_PART;
  const from = startOf(words, first), to = isWhole ? words.length : startOf(words, first + LINES_OF_PART);
  ahead = words.slice(0, from);
  behind = words.slice(to);
  text.value = words.slice(from, to);
  text.scrollTop = 0;
  countAll();
}

/* The lines before the part, and those of all parts; the row that goes from part to part. */
function countAll() {
  const here = countLines(text.value);
  linesAhead = countLines(ahead) - 1;
  linesOfAll = linesAhead + here + countLines(behind) - 1;
  const isPart = ahead !== "" || behind !== "";
  const words = `lines ${linesAhead + 1} to ${Math.min(linesAhead + here, linesOfAll)} of ${linesOfAll}`;
  $("parts").hidden = !isPart;
  $("part").textContent = words;
  $("earlier").disabled = ahead === "";
  $("later").disabled = behind === "";
  text.setAttribute("aria-label", isPart ? `Schedule, as JSON, ${words}` : "Schedule, as JSON");
}

/* Behind a change: a part that has become long is cut anew, around the line that is written. */
function recount() {
  if (countLines(text.value) <= MOST_LINES) return countAll();
  const at = ahead.length + text.selectionStart, words = schedule();
  setSchedule(words, countLines(words, at));
  text.setSelectionRange(at - ahead.length, at - ahead.length);
}

/* What is pasted and long never goes into the text area at once. */
function onPaste(event) {
  const words = event.clipboardData.getData("text/plain").replace(/\r\n?/g, "\n");
  if (countLines(words) + countLines(text.value) <= MOST_LINES) return;
  event.preventDefault();
  const from = ahead.length + text.selectionStart, all = schedule();
  const to = ahead.length + text.selectionEnd;
  setSchedule(all.slice(0, from) + words + all.slice(to), countLines(all, from));
  onInput();
}

function turnTo(line) {
  setSchedule(schedule(), line);
  showNumbers();
  text.focus();
}

/* Selects the place that a line is about. Columns count characters. */
function goTo({line, column}) {
  if (line <= linesAhead || line > linesAhead + countLines(text.value)) setSchedule(schedule(), line);
  const from = startOf(text.value, line - linesAhead), words = text.value.slice(from).split("\n", 1)[0];
  const at = from + [...words].slice(0, column - 1).join("").length;
  text.focus();
  text.setSelectionRange(at, at + 1);
  text.scrollTop = Math.max(0, (line - linesAhead - 1) * LINE - text.clientHeight / 2);
  text.scrollLeft = 0;
  showNumbers();
}

/* Which lines have a colour: those that something is said of, and that of the last event played. */
function markLines(found, now) {
  marks = new Map();
  if (now !== undefined) marks.set(countLines(schedule(), now), "now");
  found.forEach(it => { if (it.line && it.kind !== "remark") marks.set(it.line, it.kind); });
  showNumbers();
}

/* The numbers of the lines that are in view. */
function showNumbers() {
  const first = Math.floor(text.scrollTop / LINE), size = Math.ceil(text.clientHeight / LINE) + 1;
  const last = Math.min(countLines(text.value), first + size);
  const numbers = $("numbers"), shown = document.createDocumentFragment();
  for (let line = linesAhead + first + 1; line <= linesAhead + last; line++) {
    if (marks.has(line)) make("b", shown, line, marks.get(line));
    else shown.append(line);
    shown.append("\n");
  }
  numbers.replaceChildren(shown);
  numbers.style.minWidth = `max(3.2em, ${String(linesOfAll).length + 2}ch)`;
  numbers.scrollTop = text.scrollTop % LINE;
}

async function copyAll() {
  try {
    await navigator.clipboard.writeText(schedule());
    $("state").textContent = "the schedule is copied";
  } catch (error) {
    $("state").textContent = error.message;
  }
}

/* `onInput` is called behind each change. */
function listenToText() {
  text.addEventListener("input", () => { recount(); onInput(); });
  text.addEventListener("paste", onPaste);
  text.addEventListener("scroll", showNumbers);
  new ResizeObserver(showNumbers).observe(text);
  $("earlier").onclick = () => turnTo(linesAhead + 1 - LINES_OF_PART);
  $("later").onclick = () => turnTo(linesAhead + 1 + LINES_OF_PART);
  $("copy").onclick = copyAll;
}
