// One request and its answer by known bytes, so many times: microseconds each, the fastest of 7 runs.

import { Answer, StrictClient, packetsOf } from "mouktelf";

const ANSWER = Uint8Array.from(Buffer.from(
  "0400002C0000010081010000000000000038016E00D105000000D106000000FD110000000200000000000000" +
  "0401001500000200FD000000000000000000000000", "hex"));
const TIMES = 20_000;

function exchange(client) {
  client.startBatch("rows 5 2");
  client.send();
  let told = 0, taken;
  for (const packet of packetsOf(ANSWER, 512)[0]) {
    taken = client.take(packet);
    told += taken.tokens.length;
  }
  if (taken.answer !== Answer.FINISHED) throw new Error(`${taken.answer}`);
  return told;
}

const client = new StrictClient(512);
let best = Infinity, told = 0;
for (let run = 0; run < 7; run++) {
  const begun = process.hrtime.bigint();
  for (let turn = 0; turn < TIMES; turn++) told = exchange(client);
  best = Math.min(best, Number(process.hrtime.bigint() - begun) / 1000 / TIMES);
}
console.log(`${best.toFixed(2)} microseconds, ${told} tokens`);
