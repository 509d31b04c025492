/* The page of bugs: what happens here is drawn by the player, a schedule behind another. */
"use strict";
const images = [...document.querySelectorAll("img[data-bug]")];
let drawn = 0;

function draw() {
  const image = images[drawn];
  if (image) worker.postMessage({number: drawn, text: DATA.schedules[image.dataset.bug], view: "picture", step: 0});
  else document.body.dataset.drawn = drawn;
}

const worker = startPlayer(({data}) => {
  if (data.answer === 0) putPicture(images[drawn], data.shown);
  else images[drawn].alt = data.said;
  drawn++;
  draw();
});
if (worker) {
  $("made").textContent = "Version " + DATA.version + ".";
  draw();
}
