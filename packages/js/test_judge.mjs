// Judges recorded connections, and compares what is found with what the file says: node test_judge.mjs FILE. The file is
// examples/captures.txt, whose first lines say its form.

import { readFileSync } from "node:fs";
import { What, judge } from "mouktelf/judge";

const KINDS = { ">": What.TO_SERVER, "<": What.TO_CLIENT, borrow: What.BORROWED, close: What.CLOSED };
let count = 0, wrong = 0, name = "", pieces = [];

for (const line of readFileSync(process.argv[2], "utf8").split("\n")) {
  const [word, ...more] = line.trim().split(/ +/);
  if (word === "=") {
    [count, name, pieces] = [count + 1, more.join(" "), []];
  } else if (word === "found") {
    const found = judge(pieces, { idle: 5_000_000, columns: 16 }).map(it => `${it.number}@${it.offset}=${it.value}`);
    if (found.join(" ") !== more.join(" ")) {
      wrong++;
      console.log(`${name}: ${found.join(" ")}, and the file has ${more.join(" ")}`);
    }
  } else if (word in KINDS) {
    pieces.push({ time: Number(more[0]), what: KINDS[word], bytes: new Uint8Array(Buffer.from(more[1] ?? "", "hex")) });
  }
}
for (const columns of [4097, -1, 1.5]) {
  try {
    judge([], { columns });
    wrong++;
    console.log(`${columns} columns aren't refused`);
  } catch (refused) {
    if (!(refused instanceof RangeError)) throw refused;
  }
}
console.log(`${count} captures`);
process.exitCode = wrong ? 1 : 0;
