// Asks the page's own player, as the page's worker does, without a browser:
//
// node ask.mjs PAGE <REQUESTS >ANSWERS
//
// Both are JSON: a list of requests, {text, view, step}, and a list of answers.
import { readFileSync } from "node:fs";

const page = readFileSync(process.argv[2], "utf8");
const script = name => new RegExp(`<script id="${name}"[^>]*>(.*?)</script>`, "s").exec(page)[1];
const { module } = JSON.parse(script("data"));
const answers = [];
const self = { postMessage: answer => answers.push(answer) };
new Function("self", script("player"))(self);
self.onmessage({ data: { module: Buffer.from(module, "base64") } });
for (const request of JSON.parse(readFileSync(0, "utf8"))) self.onmessage({ data: request });
process.stdout.write(JSON.stringify(answers));
