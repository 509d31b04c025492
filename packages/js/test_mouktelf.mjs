// What the package does without a socket: an exchange by known bytes, what is refused, and each schedule that is
// named, where the player's module is here, as in a release.
//
//     node test_mouktelf.mjs SCHEDULE.json ..
//
// The bytes stand in docs/PROTOCOL.md.

import assert from "node:assert/strict";
import { readFileSync } from "node:fs";
import { Answer, Client, Fault, MessageKind, Refused, Reset, Stage, StrictClient, Tells, Walk, login, packetsOf } from "mouktelf";

const bytes = digits => new Uint8Array(Buffer.from(digits, "hex"));
const hex = data => Buffer.from(data).toString("hex").toUpperCase();

const BEGIN = "0E010022000001001600000012000000020000000000000000000100000005000000";
const BEGUN = "0401002300000100E30B000808010000000000000000FD000000000000000000000000";
const SAID = "0400002800000100AB100050C30000010001006100000000000000FD010000000000000000000000";
const ROWS = "0400002C0000010081010000000000000038016E00D105000000D106000000FD110000000200000000000000";
const ENDED = "0401001500000200FD000000000000000000000000";
const ACKNOWLEDGED = "0401001500000100FD200000000000000000000000";
const ATTENTION = "0601000800000100";

function refuses(number, call) {
  assert.throws(call, fault => fault instanceof Fault && fault.number === number, `${call}`);
}

function exchange() {
  const client = new StrictClient(512);
  client.startBegin();
  const [answer, packet] = client.send();
  assert.deepEqual([answer, hex(packet)], [Answer.LAST, BEGIN]);
  const begun = client.take(bytes(BEGUN));
  assert.deepEqual(begun.tokens[0], { type: "change", kind: 8, descriptor: 1n });
  assert.deepEqual([begun.answer, client.descriptor], [Answer.FINISHED, 1n]);
  client.startBatch("rows 5 2");
  client.sendAll();
  const [packets, rest] = packetsOf(bytes(ROWS + ENDED + SAID.slice(0, 14)), 512);
  assert.deepEqual([packets.map(hex), hex(rest)], [[ROWS, ENDED], SAID.slice(0, 14)]);
  assert.deepEqual(client.take(packets[0]).tokens, [
    { type: "columns", count: 1 }, { type: "row", values: [5] }, { type: "row", values: [6] }, { type: "done", status: 0x11, rows: 2n },
  ]);
  assert.deepEqual([client.take(packets[1]).answer, client.stage], [Answer.FINISHED, Stage.IDLE]);
}

function cancelled() {
  const client = new StrictClient(512);
  client.startBatch("say a");
  client.sendAll();
  const said = { type: "info", number: 50000, state: 1, severity: 0, line: 0, text: "a" };
  assert.deepEqual(client.take(bytes(SAID)).tokens[0], said);
  assert.deepEqual([client.cancel()].map(([answer, data]) => [answer, hex(data)]), [[Answer.ASKED, ATTENTION]]);
  assert.equal(client.cancel()[0], Answer.ALREADY);
  assert.deepEqual(client.take(bytes(ENDED)), { answer: Answer.MORE, tokens: [] });
  assert.deepEqual([client.take(bytes(ACKNOWLEDGED)).answer, client.stage], [Answer.ACKNOWLEDGED, Stage.IDLE]);
}

/** A batch of 4,000 bytes goes out in 8 packets of 512; its answer, of any server, is heard token by token. */
function streamed() {
  const client = new Client(512), body = bytes("670065007400".repeat(667)).subarray(0, 4000), parts = [];
  client.startMessage(MessageKind.BATCH);
  for (let at = 0; at < body.length; at += 7) parts.push(...client.put(body.subarray(at, at + 7)));
  parts.push(...client.finish());
  assert.equal(parts.length, 8 * 8 + 22 + 4000);
  assert.deepEqual([0, 512, 7 * 512].map(at => parts[at + 1]), [0, 0, 1]);
  const walk = new Walk(), told = [];
  for (const token of walk.tokens(bytes("E30B0008080500000000000000" + "00" + ENDED.slice(16)))) told.push(client.heard(token));
  assert.deepEqual([told, client.messageEnded(), client.descriptor], [[true, true], Answer.FINISHED, 5n]);
  client.startMessage(MessageKind.PROCEDURE);
  client.finish();
  client.cancel();
  walk.restart();
  const heard = [...walk.tokens(bytes(ACKNOWLEDGED.slice(16)))].map(it => client.heard(it));
  assert.deepEqual([heard, client.messageEnded()], [[false], Answer.ACKNOWLEDGED]);
}

function asked() {
  const client = new Client(512);
  client.startBatch("say a");
  client.sendAll();
  return client;
}

/** All that is told of a token: what most haven't is read where it is asked for. */
function whole(it) {
  const { start, length, kind, tells, value, oldValue, text, others, number, size, status, command, change, state, severity } = it;
  return { start, length, kind, tells, value, oldValue, text, others, number, size, status, command, change, state, severity };
}

/** A packet in one call: what a walk finds and the client hears, in any pieces, also where that is more than goes into one. */
function heardAtOnce() {
  const begun = bytes("E30B0008080500000000000000" + "00" + ENDED.slice(16)), wanted = [...new Walk().tokens(begun)].map(whole);
  for (let cut = 0; cut < begun.length; cut++) {
    const client = asked(), first = client.hearData(begun.subarray(0, cut), false), last = client.hearData(begun.subarray(cut), true);
    assert.deepEqual([first.answer, last.answer, client.descriptor], [Answer.MORE, Answer.FINISHED, 5n]);
    assert.deepEqual([...first.tokens, ...last.tokens].map(whole), wanted);
  }
  const many = bytes("7901000000".repeat(300) + ENDED.slice(16)), client = asked();
  const { answer, tokens } = client.hear(bytes("0401000000000000" + hex(many)));
  assert.deepEqual([answer, client.stage, tokens.map(whole)], [Answer.FINISHED, Stage.IDLE, [...new Walk().tokens(many)].map(whole)]);
  client.startBatch("say a");
  client.sendAll();
  assert.deepEqual([client.follow(bytes("0401000000000000" + hex(many))), client.stage], [Answer.FINISHED, Stage.IDLE]);
  refuses(24, () => client.follow(new Uint8Array(7)));
  client.startBatch("say a");
  client.sendAll();
  const [told] = client.hear(bytes(SAID)).tokens;
  assert.deepEqual([told.tells, told.kind, told.number, told.text], [Tells.MESSAGE, 0xab, 50000, { start: 11, length: 2 }]);
  client.cancel();
  assert.deepEqual(client.hear(bytes(ENDED)), { answer: Answer.MORE, tokens: [] });
  assert.deepEqual(client.hear(bytes(ACKNOWLEDGED)), { answer: Answer.ACKNOWLEDGED, tokens: [] });
  refuses(24, () => client.hear(new Uint8Array(7)));
  const own = asked();
  assert.deepEqual([own.heardChange(8, 7n), own.heardOther(), own.heardDone(0xfd, 0)], [true, true, true]);
  assert.deepEqual([own.messageEnded(), own.descriptor], [Answer.FINISHED, 7n]);
}

/** A peer's fault is a peer's also at a message's end, and each number has a text of its own. */
function faultsOfAPeer() {
  for (const [data, number, count] of [["790100000000", 71, 1], ["7901", 75, 0]]) {
    const client = asked();
    assert.throws(() => client.hearData(bytes(data), true), why => why instanceof Fault && why.number === number && why.isPeer
      && why.tokens.length === count && (why instanceof Refused) === (number === 71) && (number !== 71 || why.at === 5));
    assert.equal(client.stage, Stage.BROKEN);
  }
  const client = new Client(512);
  client.markReset(Reset.FULL);
  client.startBatch("say a");
  client.sendAll();
  assert.throws(() => client.hear(bytes(ENDED)), why => why.number === 76 && why.isPeer);
  const numbers = [[20, 26], [31, 36], [41, 46], [51, 57], [61, 69], [71, 76]].flatMap(
    ([first, last]) => Array.from({ length: last - first + 1 }, (_, place) => first + place));
  const texts = new Set(numbers.map(it => new Fault(it).message.split(": ")[1]));
  assert.deepEqual([texts.size, texts.has("see mouktelf.h")], [numbers.length, false]);
  assert.deepEqual(numbers.filter(it => new Fault(it).isPeer), numbers.filter(it => it > 40));
}

/** 16,000 packets in one piece are cut in time that grows with it. */
function manyPackets() {
  const one = "04000023" + "00".repeat(31), [packets, rest] = packetsOf(bytes(one.repeat(16_000) + "04000023000000"), 512);
  assert.deepEqual([packets.length, hex(packets[15_999]), hex(rest)], [16_000, one, "04000023000000"]);
}

function refused() {
  for (const size of [0, 511, 32768, 65536, -1, 1.5, "512"]) refuses(23, () => new Client(size));
  const client = new StrictClient(512);
  refuses(23, () => client.startBatch(""));
  refuses(23, () => client.startBatch("a".repeat(2001)));
  refuses(23, () => client.startBegin(6));
  refuses(23, () => client.startBegin(-1));
  refuses(32, () => client.send());
  client.startBatch("say a");
  refuses(31, () => client.startBatch("say b"));
  refuses(31, () => client.markReset(Reset.FULL));
  assert.equal(client.cancel()[0], Answer.UNSENT);
  refuses(61, () => client.take(bytes(ENDED)));
  assert.equal(client.stage, Stage.BROKEN);
  refuses(33, () => client.startBatch("say a"));
  refuses(41, () => packetsOf(new Uint8Array(8).fill(255), 512));
  refuses(24, () => new StrictClient(512).take(new Uint8Array()));
  assert.equal(hex(login("sa")).slice(0, 24), "1001006A00000100" + "62000000");
}

async function schedules(names) {
  const { NotPlayed, play } = await import("mouktelf/play");
  for (const name of names) assert.equal(play(readFileSync(name)), readFileSync(name.replace(/json$/, "txt"), "utf8"), name);
  const one = { version: 1, packet_size: 512, max: 1, events: [["lease"]] };
  assert.ok(play(one).startsWith("1 leased 1 on 1 new\n"));
  assert.throws(() => play("["), why => why instanceof NotPlayed && why.message === "error: json");
}

exchange();
cancelled();
streamed();
heardAtOnce();
faultsOfAPeer();
manyPackets();
refused();
if (process.argv.length > 2) await schedules(process.argv.slice(2));
console.log(`${process.argv.length - 2} schedules, and all else is right`);
