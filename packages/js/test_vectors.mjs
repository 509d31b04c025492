// Walks each answer of a release's examples/vectors.txt, whole and in single bytes, and looks at what is told of its tokens.
//
//     node test_vectors.mjs vectors.txt

import { readFileSync } from "node:fs";
import { Refused, Tells, Walk } from "mouktelf";

const place = it => `${it.start} ${it.length}`;
const hex = (number, digits) => number.toString(16).toUpperCase().padStart(digits, "0");

/** All that is told of a token. */
const words = {
  [Tells.NOTHING]: () => "",
  [Tells.DONE]: it => `${hex(it.status, 4)} ${it.command} ${it.value}`,
  [Tells.TRANSACTION]: it => `${it.change} transaction ${it.value} ${it.oldValue}`,
  [Tells.RESET]: it => `${it.change} reset`,
  [Tells.PACKET_SIZE]: it => `${it.change} size ${it.size}`,
  [Tells.VALUES]: it => `${it.change} values ${place(it.text)} ${place(it.others)}`,
  [Tells.OTHER_CHANGE]: it => `${it.change} other`,
  [Tells.MESSAGE]: it => `message ${it.number} ${it.state} ${it.severity} ${place(it.text)} ${place(it.others)}`,
  [Tells.RETURN_STATUS]: it => `value ${it.number}`,
  [Tells.SESSION_STATE]: it => `state ${it.size} ${it.isRecoverable ? "recoverable" : "lost"} ${place(it.text)}`,
  [Tells.UNCLEAR]: () => "unclear",
};

function line(it, form) {
  let told = words[it.tells](it);
  if (form === "short" && it.tells !== Tells.DONE) told = it.kind === 0xe3 ? it.change : "";
  return `${it.start} ${hex(it.kind, 2)} ${it.length} ${told}`.trimEnd();
}

function walked(pieces, form, agreed) {
  const walk = new Walk(4096, { encryption: agreed === "encryption", ranks: agreed === "ranks" }), lines = [];
  try {
    for (const piece of pieces) for (const it of walk.tokens(piece)) lines.push(line(it, form));
  } catch (refused) {
    if (!(refused instanceof Refused)) throw refused;
    return [...lines, `fault ${refused.number} at ${refused.at}`];
  }
  return [...lines, walk.isBetween ? "end" : "cut"];
}

let wrong = 0;
const answers = readFileSync(process.argv[2], "utf8").trimEnd().split("\n\n");
for (const answer of answers) {
  const [title, digits, ...wanted] = answer.split("\n"), [, name, form, agreed] = title.split(" ");
  const data = new Uint8Array(Buffer.from(digits.slice(1), "hex"));
  for (const pieces of [[data], Array.from(data, (_, at) => data.subarray(at, at + 1))]) {
    const told = walked(pieces, form, agreed);
    if (told.join("\n") === wanted.join("\n")) continue;
    wrong++;
    console.error(`${name} in ${pieces.length} pieces: ${told}, and ${wanted} is wanted`);
  }
}
console.log(`${answers.length} answers, whole and in single bytes, ${wrong} wrong`);
process.exitCode = wrong ? 1 : 0;
