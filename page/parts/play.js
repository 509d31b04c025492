/* The play: its views, by tabs, and its steps. */
"use strict";
const TABS = [["picture", "Picture"], ["report", "Report"], ["bytes", "Bytes"], ["spelled", "Bytes, spelled out"], ["connections", "Connections"], ["characters", "In characters"]];
/* A text is put in by pieces, which are laid out where they are seen: lines of a piece, and how high one is. */
const LINES_OF_PIECE = 200, HEIGHT_OF_LINE = 19;
const MOST_SHOWN = 400000;
const view = $("view"), step = $("step");
let tab = "picture", count = 0, isWhole = true;

function showView(data) {
  view.classList.toggle("old", data.answer !== 0);
  if (data.answer !== 0) return;
  if (data.view === "picture") putPicture(placeFor("img"), data.shown);
  else showText(placeFor("div"), data.shown);
}

/* The element that a view is in: the one that is there, or a new one. */
function placeFor(name) {
  const there = view.firstElementChild;
  if (there?.localName === name) return there;
  view.replaceChildren();
  view.scrollTo(0, 0);
  return make(name, view);
}

function showText(area, shown) {
  putText(area, shown.slice(0, MOST_SHOWN));
  while (area.nextSibling) area.nextSibling.remove();
  if (shown.length <= MOST_SHOWN) return;
  const more = make("button", view, `Show all ${shown.length.toLocaleString("en")} characters`);
  more.type = "button";
  more.onclick = () => {
    more.remove();
    putText(area, shown);
    view.focus();
  };
}

/* The pieces that hold already what they are to hold stay. */
function putText(area, shown) {
  let number = 0;
  for (let at = 0, to; at < shown.length; at = to, number++) {
    let size = 0;
    for (to = at; size < LINES_OF_PIECE && to < shown.length; size++) to = shown.indexOf("\n", to) + 1 || shown.length;
    const piece = area.children[number] || make("pre", area), words = shown.slice(at, to);
    if (piece.textContent !== words) piece.textContent = words;
    piece.style.containIntrinsicSize = `auto 40rem auto ${size * HEIGHT_OF_LINE}px`;
  }
  while (area.children.length > number) area.lastElementChild.remove();
}

/* Steps. */
function showSteps() {
  step.max = Math.max(1, count);
  if (isWhole || +step.value >= count) { isWhole = true; step.value = count; }
  step.disabled = count < 2;
  $("first").disabled = $("back").disabled = count < 2 || (!isWhole && +step.value <= 1);
  $("on").disabled = $("all").disabled = isWhole;
  const words = isWhole ? `all ${count} events` : `event ${step.value} of ${count}`;
  $("told").textContent = words;
  step.setAttribute("aria-valuetext", words);
}

function goStep(to) {
  if (count < 1) return;
  const number = Math.min(Math.max(to, 1), count);
  isWhole = number >= count;
  step.value = number;
  showSteps();
  changed();
}

/* Tabs: one is reached by Tab, the others from it by arrows. */
function showTabs() {
  const list = $("tabs");
  if (!list.children.length) {
    TABS.forEach(([name, words]) => {
      const button = make("button", list, words);
      button.type = "button";
      button.id = "tab-" + name;
      button.setAttribute("role", "tab");
      button.setAttribute("aria-controls", "view");
      button.onclick = () => chooseTab(name);
    });
  }
  TABS.forEach(([name]) => {
    $("tab-" + name).setAttribute("aria-selected", name === tab);
    $("tab-" + name).tabIndex = name === tab ? 0 : -1;
  });
  view.setAttribute("aria-labelledby", "tab-" + tab);
}

function chooseTab(name) {
  tab = name;
  showTabs();
  changed();
}

function onTabKey(event) {
  const at = TABS.findIndex(([name]) => name === tab);
  const to = {ArrowRight: at + 1, ArrowLeft: at - 1, Home: 0, End: TABS.length - 1}[event.key];
  if (to === undefined) return;
  event.preventDefault();
  chooseTab(TABS[(to + TABS.length) % TABS.length][0]);
  $("tab-" + tab).focus();
}
