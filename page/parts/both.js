/* What both pages have: what is made, elements by name, the player in its worker, and pictures. */
"use strict";
const DATA = JSON.parse(document.getElementById("data").textContent || "{}");
const $ = name => document.getElementById(name);

const make = (name, parent, words = "", kind = "") => {
  const it = parent.appendChild(document.createElement(name));
  it.textContent = words;
  it.className = kind;
  return it;
};

/* A worker with the player in it, or nothing where the page has no module. */
function startPlayer(told) {
  if (!DATA.module) return null;
  $("state").textContent = "";
  const code = new Blob([$("player").textContent], {type: "text/javascript"});
  const worker = new Worker(URL.createObjectURL(code));
  worker.onmessage = told;
  worker.onerror = event => { $("state").textContent = "the player doesn't run here: " + event.message; };
  worker.postMessage({module: Uint8Array.from(atob(DATA.module), it => it.charCodeAt(0))});
  return worker;
}

/* What a picture says of itself, for those who hear it: its title, and its description. */
const WORDS_OF_PICTURE = /<title>(.*?)<\/title>\s*<desc>(.*?)<\/desc>/s;
const SIGNS = {"&lt;": "<", "&gt;": ">", "&quot;": '"', "&amp;": "&"};

function wordsOf(picture) {
  const [, title = "", words = ""] = WORDS_OF_PICTURE.exec(picture) || [];
  return `${title}. ${words}`.replace(/&(lt|gt|quot|amp);/g, sign => SIGNS[sign]);
}

/* Shows a picture as an image, so that nothing in it can run. */
function putPicture(image, picture) {
  const old = image.src, to = URL.createObjectURL(new Blob([picture], {type: "image/svg+xml"}));
  image.alt = wordsOf(picture);
  image.src = to;
  if (old) URL.revokeObjectURL(old);
}
