/* The player's page: what is written is asked of the player, and its answer is shown. */
"use strict";
const LONG = 500;
const PAGE_OF_BUGS = "bugs.html";
let worker, asked = 0, isBusy = false, waits = false, places = [], slow = 0;

/* One question at a time, and then the newest. */
function ask() {
  if (!worker) return;
  if (isBusy) { waits = true; return; }
  isBusy = true;
  waits = false;
  slow = setTimeout(() => { $("progress").hidden = false; }, LONG);
  worker.postMessage({number: ++asked, text: schedule(), view: tab, step: isWhole ? 0 : +step.value});
}

function told({data}) {
  clearTimeout(slow);
  $("progress").hidden = true;
  isBusy = false;
  if (waits) ask();
  // What was asked of an older text is shown all the same: a newer answer follows.
  places = data.places;
  count = places.length;
  showFound(data);
  showSteps();
  showView(data);
  markLines(found, isWhole ? undefined : places[step.value - 1]?.[0]);
  showTime(data);
  document.body.dataset.answered = data.number;
}

function showTime({answer, finding, time}) {
  const isFull = answer === 3 || finding === 3;
  $("time").textContent = time.toFixed(0) + " ms";
  $("state").textContent = answer === -1 ? "the player stopped and began anew" : isFull ? "no memory is left" : "";
}

/* Something was changed: it is played, and a little later it stands in the address. */
function changed() {
  ask();
  writeAddressLater();
}

/* Behind each change of the text. The lines that have a colour keep it until they are told anew. */
function onInput() {
  showExample();
  showNumbers();
  changed();
}

/* What the example shows that the text is; of what others get wrong, a way to that. */
function showExample() {
  const at = exampleOf(schedule()), example = DATA.examples[at];
  $("example").value = at;
  $("shows").textContent = example ? example.shows + " " : "";
  const bug = /^peers\/(.*)/.exec(example?.name);
  if (bug) make("a", $("shows"), "What others do").href = `${PAGE_OF_BUGS}#${bug[1]}`;
}

/* A schedule that is no example has the first choice, which can't be chosen: its number is -1, as exampleOf has it. */
function fillExamples() {
  let group;
  const own = make("option", $("example"), "a schedule of your own");
  own.value = -1;
  own.hidden = own.disabled = true;
  DATA.examples.forEach(({kind, name}, at) => {
    if (group?.label !== kind) {
      group = make("optgroup", $("example"));
      group.label = kind;
    }
    make("option", group, name.replace(/^peers\//, "").replaceAll("_", " ")).value = at;
  });
}

function chooseExample() {
  setSchedule(DATA.examples[$("example").value].text);
  isWhole = true;
  showExample();
  changed();
}

function listen() {
  $("example").onchange = chooseExample;
  listenToText();
  step.oninput = () => goStep(+step.value);
  $("first").onclick = () => goStep(1);
  $("back").onclick = () => goStep(+step.value - 1);
  $("on").onclick = () => goStep(+step.value + 1);
  $("all").onclick = () => goStep(count);
  $("tabs").onkeydown = onTabKey;
  $("share").onclick = share;
  window.onhashchange = readAddress;
  document.addEventListener("keydown", event => {
    const run = event.altKey && {Comma: () => goStep(+step.value - 1), Period: () => goStep(+step.value + 1), KeyL: share}[event.code];
    if (run) { event.preventDefault(); run(); }
  });
}

worker = startPlayer(told);
if (worker) {
  $("made").textContent = "Version " + DATA.version + ".";
  fillExamples();
  listen();
  readAddress();
}
