/* The player: it calls the module, in a worker of the page, and in tests by itself. */
"use strict";
const VIEWS = {picture: 1, characters: 2, report: 3, bytes: 4, spelled: 5, connections: 6};
const UNPLAYED = 1, NO_ROOM = 2, NO_MEMORY = 3, STOPPED = -1;
/* So many events a picture has at most; a later step is shown with those before it. */
const DRAWN = 300;
const encoder = new TextEncoder(), decoder = new TextDecoder("utf-8", {ignoreBOM: true});
let module, exports;

function begin() {
  exports = new WebAssembly.Instance(module, {}).exports;
}

/* One call of the module with this text: its answer, and the text that it wrote. */
function call(text, ask) {
  const bytes = encoder.encode(text), size = BigInt(bytes.length);
  const given = exports.room(size || 1n), count = exports.room(8n);
  if (!given || !count) return {answer: NO_MEMORY, text: ""};
  new Uint8Array(exports.memory.buffer).set(bytes, Number(given));
  for (let room = 65536n; ; ) {
    const out = exports.room(room);
    if (!out) return {answer: NO_MEMORY, text: ""};
    // The answer is a byte: of a wider number that holds it nothing is said.
    const answer = ask(given, size, out, room, count) & 255;
    const written = new DataView(exports.memory.buffer).getBigUint64(Number(count), true);
    const part = answer === NO_ROOM ? "" : decoder.decode(new Uint8Array(exports.memory.buffer, Number(out), Number(written)).slice());
    exports.free_room(out);
    if (answer === NO_ROOM) { room = written; continue; }
    exports.free_room(given);
    exports.free_room(count);
    return {answer, text: part};
  }
}

/* Where the events stand in the text: for each where it begins and ends, and where the list ends. */
function placesOf(text) {
  const places = [];
  let depth = 0, inside = -1, from = -1, last = "", end = -1;
  for (let at = 0; at < text.length; at++) {
    const sign = text[at];
    if (sign === '"') {
      const start = at;
      for (at++; at < text.length && text[at] !== '"'; at++) if (text[at] === "\\") at++;
      if (depth === 1) last = text.slice(start + 1, at);
    } else if (sign === "[" || sign === "{") {
      depth++;
      if (depth === 2 && sign === "[" && last === "events" && inside < 0) inside = at;
      else if (depth === 3 && inside >= 0 && end < 0) from = at;
    } else if (sign === "]" || sign === "}") {
      if (depth === 3 && from >= 0) { places.push([from, at + 1]); from = -1; }
      if (depth === 2 && inside >= 0 && end < 0) end = at;
      depth--;
    }
  }
  return {places, end};
}

/* The schedule with its first events alone. */
function cutTo(text, {places, end}, step) {
  return step >= places.length || end < 0 || step < 1 ? text : text.slice(0, places[step - 1][1]) + text.slice(end);
}

/* A view of a schedule's play up to a step (0: all of it), and what is to be said of the schedule. */
function answerTo({text, view, step}) {
  const places = placesOf(text), count = places.places.length;
  const isWhole = !step || step >= count;
  const isDrawn = view === "picture" || view === "characters";
  const last = isWhole ? 0 : step, first = last > DRAWN ? last - DRAWN + 1 : 0;
  const said = call(text, (...rest) => exports.tds_explain(...rest));
  const played = isDrawn || isWhole ? text : cutTo(text, places, step);
  const shown = said.answer === UNPLAYED ? {answer: UNPLAYED, text: ""}
    : call(played, (...rest) => exports.tds_view(VIEWS[view], first, last, ...rest));
  return {answer: shown.answer, shown: shown.text, finding: said.answer, said: said.text, places: places.places};
}

/* A call that traps, as where the stack ends, leaves a memory that nothing is known of; one that finds none left
   leaves it full. */
function safely(request) {
  try {
    const done = answerTo(request);
    if (done.answer === NO_MEMORY || done.finding === NO_MEMORY) begin();
    return done;
  } catch (error) {
    begin();
    return {answer: STOPPED, shown: "", finding: STOPPED, said: String(error), places: []};
  }
}

self.onmessage = ({data}) => {
  if (data.module) {
    module = new WebAssembly.Module(data.module);
    begin();
    return;
  }
  const start = performance.now(), done = safely(data);
  self.postMessage({...done, number: data.number, view: data.view, time: performance.now() - start});
};
