// Plays schedules by the player that is in the page, without a browser, and compares each report with its text:
//
// node test_page.mjs PAGE SCHEDULE.json..
//
// It says how many, as examples/c/oracle does; what differs is named, and the status is 1.
import { readFileSync } from "node:fs";

const [path, ...schedules] = process.argv.slice(2);
const page = readFileSync(path, "utf8");
const script = name => new RegExp(`<script id="${name}"[^>]*>(.*?)</script>`, "s").exec(page)[1];
const { module, examples } = JSON.parse(script("data"));
const answers = [];
const self = { postMessage: answer => answers.push(answer) };
new Function("self", script("player"))(self);
self.onmessage({ data: { module: Buffer.from(module, "base64") } });
const ask = (text, view) => (self.onmessage({ data: { text, view, step: 0 } }), answers.pop());

let wrong = 0;
for (const name of schedules) {
  const text = readFileSync(name, "utf8"), wanted = readFileSync(name.replace(/json$/, "txt"), "utf8");
  const isThere = examples.some(it => it.text === text), picture = ask(text, "picture").shown;
  if (ask(text, "report").shown === wanted && isThere && picture.startsWith("<svg") && picture.includes("<desc>")) continue;
  wrong++;
  console.log(`${name}: another text, no picture, or no example of the page`);
}
console.log(`${schedules.length} schedules, ${wrong} with another text`);
process.exitCode = wrong ? 1 : 0;
