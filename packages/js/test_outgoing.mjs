// The order of bytes: a request's packets, then its cancel's attention, also where the write of the first stalls and the cancel comes
// from another task; and that the wrong way, writes that wait for nobody, is seen, and what it does.

import assert from "node:assert/strict";
import { Answer, Client, Outgoing, Tells } from "mouktelf";

const LONG = "a".repeat(1999) + "A", ACKNOWLEDGEMENT = [0xfd, 0x20, ...Array(11).fill(0)];

/** A socket whose first write stalls until it may go on; it keeps the bytes in the order in which they went. */
function slow() {
  const it = { bytes: [], may: null };
  let first = new Promise(resolve => { it.may = resolve; });
  it.write = async data => {
    const waits = first;
    first = null;
    await waits;
    it.bytes.push(...data);
  };
  return it;
}

function packetsOn(wire) {
  const found = [];
  for (let at = 0; at < wire.length; at += found.at(-1).length) found.push(wire.slice(at, at + (wire[at + 2] << 8 | wire[at + 3])));
  return found;
}

const kinds = wire => packetsOn(wire).map(it => it[0]);
const packet = data => Uint8Array.from([4, 1, 0, 8 + data.length, 0, 0, 1, 0, ...data]);

/**
 * What a server gives for these bytes: to a request an INFO with its last letter and the last DONE, to an attention its
 * acknowledgement. A request that is cancelled before it is answered isn't answered.
 */
function answers(wire) {
  const gives = [];
  let isAnswer = false;
  for (const it of packetsOn(wire)) {
    if (it[0] === 6) {
      if (isAnswer) gives.pop();
      gives.push(packet(ACKNOWLEDGEMENT));
      isAnswer = false;
    } else if (it[1] & 1) {
      gives.push(packet([0xab, 16, 0, 1, 0, 0, 0, 1, 1, 1, 0, ...it.slice(-2), 0, 0, 0, 0, 0, 0, 0xfd, ...Array(12).fill(0)]));
      isAnswer = true;
    }
  }
  return gives;
}

function ask(client, text) {
  client.startBatch(text);
  return client.sendAll();
}

/** Hears one message: which request's answer is told, and the end. */
function hear(client, data) {
  const { answer, tokens } = client.hear(data);
  return [tokens.filter(it => it.tells === Tells.MESSAGE).map(it => String.fromCharCode(data[8 + it.text.start])).join(""), answer];
}

async function rightWay() {
  const client = new Client(512), socket = slow(), outgoing = new Outgoing(socket.write);
  let isWritten = false;
  const first = outgoing.put(ask(client, LONG)).then(() => { isWritten = true; });
  // The cancel waits for nothing, and the write stalls all the while.
  const [answer, attention] = client.cancel();
  outgoing.put(attention);
  await new Promise(resolve => { setTimeout(resolve, 20); });
  assert.deepEqual([answer, isWritten, socket.bytes], [Answer.ASKED, false, []]);
  socket.may();
  await first;
  assert.deepEqual(kinds(socket.bytes), [1, 1, 1, 1, 1, 1, 1, 1, 6]);
  const gives = answers(socket.bytes), before = socket.bytes.length;
  assert.deepEqual([gives.length, hear(client, gives[0])], [1, ["", Answer.ACKNOWLEDGED]]);
  await outgoing.put(ask(client, "B"));
  assert.deepEqual(hear(client, answers(socket.bytes.slice(before))[0]), ["B", Answer.FINISHED]);
}

/** The attention is first, and the next request is told the cancelled one's answer, with no error. */
async function wrongWay() {
  const client = new Client(512), socket = slow();
  const first = socket.write(ask(client, LONG));
  const second = socket.write(client.cancel()[1]);
  await second;
  socket.may();
  await first;
  assert.deepEqual(kinds(socket.bytes), [6, 1, 1, 1, 1, 1, 1, 1, 1], "the wrong way isn't seen");
  const gives = answers(socket.bytes);
  assert.deepEqual([gives.length, hear(client, gives[0])], [2, ["", Answer.ACKNOWLEDGED]]);
  ask(client, "B");
  assert.deepEqual(hear(client, gives[1]), ["A", Answer.FINISHED]);
}

/** Eight tasks put 200 numbers each; a writer that yields keeps their order. */
async function many() {
  const written = [], order = [], outgoing = new Outgoing(async data => {
    await null;
    written.push(...data);
  });
  await Promise.all(Array.from({ length: 8 }, async (_, task) => {
    for (let it = 0; it < 200; it++) {
      order.push(task, it);
      const put = outgoing.put(Uint8Array.of(task, it));
      if (it % 3 === task % 3) await put;
      else await null;
    }
  }));
  await outgoing.put(new Uint8Array());
  assert.deepEqual([written.length, written], [3200, order]);
}

/** A write that fails is told to all that wait, and to each later one. A writer that gives no promise writes at once. */
async function fails() {
  const outgoing = new Outgoing(() => { throw new Error("gone"); });
  for (const data of [[1], [2], []]) await assert.rejects(outgoing.put(Uint8Array.from(data)), /gone/);
  const written = [], other = new Outgoing(data => { written.push(...data); });
  other.put(new Uint8Array());
  await null;
  other.put(Uint8Array.of(1));
  assert.deepEqual(written, [1]);
  await other.put(Uint8Array.of(2));
  assert.deepEqual(written, [1, 2]);
}

const parts = [rightWay, wrongWay, many, fails];
for (const it of parts) await it();
console.log(`${parts.length} parts of what goes out, all right`);
