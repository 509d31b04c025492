/* The address: an example's name, or the schedule itself, packed where the browser can. */
"use strict";
const LONGEST_ADDRESS = 30000, BEHIND_A_CHANGE = 400;
let writing = 0;

async function packed(words) {
  const body = new Blob([words]).stream().pipeThrough(new CompressionStream("deflate-raw"));
  const bytes = new Uint8Array(await new Response(body).arrayBuffer());
  return btoa(Array.from(bytes, it => String.fromCharCode(it)).join("")).replace(/\+/g, "-").replace(/\//g, "_").replace(/=+$/, "");
}

async function unpacked(word) {
  const bytes = Uint8Array.from(atob(word.replace(/-/g, "+").replace(/_/g, "/")), it => it.charCodeAt(0));
  return new Response(new Blob([bytes]).stream().pipeThrough(new DecompressionStream("deflate-raw"))).text();
}

/* The example that the text is, if it is one. */
function exampleOf(given) {
  return DATA.examples.findIndex(it => it.text === given);
}

async function addressOf(given) {
  const words = new URLSearchParams(), example = DATA.examples[exampleOf(given)];
  if (example) words.set("example", example.name);
  else if (window.CompressionStream) words.set("packed", await packed(given));
  else words.set("text", given);
  if (tab !== "picture") words.set("view", tab);
  if (!isWhole) words.set("step", step.value);
  return "#" + words;
}

/* Whether the schedule stands in the address now. What was changed meanwhile is written later. */
async function writeAddress() {
  const given = schedule(), to = await addressOf(given);
  if (given !== schedule()) return false;
  const isShort = to.length <= LONGEST_ADDRESS;
  history.replaceState(null, "", isShort ? to : location.pathname + location.search);
  return isShort;
}

function writeAddressLater() {
  clearTimeout(writing);
  writing = setTimeout(writeAddress, BEHIND_A_CHANGE);
}

/* The schedule that an address has, or null. */
async function scheduleIn(words) {
  if (!words.has("packed")) return words.get("text");
  try {
    return await unpacked(words.get("packed"));
  } catch {
    return null;
  }
}

async function readAddress() {
  const words = new URLSearchParams(location.hash.slice(1)), given = await scheduleIn(words);
  const named = DATA.examples.find(it => it.name === words.get("example"));
  const first = DATA.examples.find(it => it.name === "peers/begin_cancelled") || DATA.examples[0];
  tab = TABS.some(([name]) => name === words.get("view")) ? words.get("view") : "picture";
  setSchedule(given ?? (named || first)?.text ?? "");
  isWhole = !words.has("step");
  if (!isWhole) { step.max = 10000; step.value = words.get("step"); }
  showTabs();
  showExample();
  ask();
}

async function share() {
  clearTimeout(writing);
  const isWritten = await writeAddress();
  try {
    if (!isWritten) throw new Error("the schedule is too long for a link");
    await navigator.clipboard.writeText(location.href);
    $("state").textContent = "the link is copied";
  } catch (error) {
    $("state").textContent = isWritten ? "the link stands in the address" : error.message;
  }
}
