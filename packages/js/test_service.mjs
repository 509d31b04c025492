// The table of connections without a socket: who is lent what, what is refused, and what drains.
//
// The bytes stand in docs/PROTOCOL.md; the numbers of faults are those of mouktelf.h.

import assert from "node:assert/strict";
import { Answer, Fault, MessageKind, Rest, Service, Stage, Walk } from "mouktelf";

const bytes = digits => new Uint8Array(Buffer.from(digits, "hex"));
const hex = data => Buffer.from(data).toString("hex").toUpperCase();
const BEGUN = bytes("0401002300000100E30B000808010000000000000000FD000000000000000000000000");
const ENDED = bytes("0401001500000200FD000000000000000000000000");
const RESET = bytes("0401001B00000100E30300120000FD000000000000000000000000");
const ACKNOWLEDGED = bytes("0401001500000100FD200000000000000000000000");
const ATTENTION = "0601000800000100";
const UNKNOWN = 34, ALL_IN_USE = 35, NOT_NOW = 36, OUT_OF_RANGE = 23;

function refuses(number, call) {
  assert.throws(call, fault => fault instanceof Fault && fault.number === number, `${call}`);
}

/** A batch goes out; the status of its packet, which has bit 8 (hexadecimal) where it asks for a full reset. */
function ask(service, lease) {
  const client = service.client(lease);
  client.startBatch("get a");
  return client.sendAll()[1];
}

function endsAs(ended, number, rest, sends = "") {
  assert.deepEqual([ended.number, ended.rest, hex(ended.sends)], [number, rest, sends]);
}

function oneLeaseEach() {
  const service = new Service(2, 512), first = service.lease(), second = service.lease();
  assert.deepEqual([first.number, first.had, second.number, second.had], [1n, false, 2n, false]);
  assert.notEqual(first.lease, second.lease);
  assert.deepEqual([service.count, service.holder(1), service.holder(2n)], [2, first.lease, second.lease]);
  refuses(ALL_IN_USE, () => service.lease());
  endsAs(service.giveBack(second.lease), 2n, Rest.FREE);
  const again = service.lease();
  assert.deepEqual([again.number, again.had], [2n, true]);
  assert.ok(again.lease !== first.lease && again.lease !== second.lease);
  refuses(ALL_IN_USE, () => service.lease());
}

function staleLeases() {
  const service = new Service(1, 512), spent = service.lease().lease, client = service.client(spent);
  client.startBatch("get a");
  // What hasn't gone out isn't cancelled at the server.
  endsAs(service.giveBack(spent), 1n, Rest.FREE);
  for (const call of ["send", "cancel", "finish", "startCommit", "messageEnded"]) refuses(UNKNOWN, () => client[call]());
  refuses(UNKNOWN, () => client.hear(ENDED));
  for (const call of ["client", "giveBack", "keep", "cleaned", "resume", "abandon"]) refuses(UNKNOWN, () => service[call](spent));
  // Nor do they when somebody else has the connection.
  const { lease } = service.lease();
  assert.equal(ask(service, lease), 9);
  refuses(UNKNOWN, () => client.cancel());
  refuses(UNKNOWN, () => service.giveBack(spent));
  assert.equal(service.client(lease).stage, Stage.READING);
}

/** A request is cancelled at the end of its lease: its connection isn't lent before the acknowledgement. */
function drains() {
  const service = new Service(1, 512), { lease } = service.lease();
  assert.equal(ask(service, lease), 1);
  refuses(NOT_NOW, () => service.drained(1));
  endsAs(service.giveBack(lease), 1n, Rest.DRAINING, ATTENTION);
  assert.equal(service.holder(1), 0n);
  refuses(ALL_IN_USE, () => service.lease());
  // The answer's end crosses the cancel.
  assert.deepEqual(service.hear(1, ENDED), { answer: Answer.MORE, tokens: [], lease: 0n, request: 0n });
  assert.equal(service.drained(1), Rest.DRAINING);
  refuses(ALL_IN_USE, () => service.lease());
  refuses(NOT_NOW, () => service.clean(1));
  assert.equal(service.hear(1, ACKNOWLEDGED).answer, Answer.ACKNOWLEDGED);
  refuses(NOT_NOW, () => service.drained(1));
  const lent = service.lease();
  assert.deepEqual([lent.number, lent.had, ask(service, lent.lease)], [1n, true, 9]);
  const came = service.hear(1n, RESET);
  assert.deepEqual([came.answer, came.lease, came.tokens.map(it => it.kind)], [Answer.FINISHED, lent.lease, [0xfd]]);
}

function kept() {
  const service = new Service(1, 512), { lease } = service.lease();
  refuses(NOT_NOW, () => service.keep(lease));
  const client = service.client(lease);
  client.startBegin();
  client.sendAll();
  service.hear(1, BEGUN);
  const ticket = service.keep(lease);
  refuses(UNKNOWN, () => client.startCommit());
  assert.equal(service.holder(1), ticket);
  refuses(ALL_IN_USE, () => service.lease());
  const lent = service.resume(ticket);
  assert.deepEqual([lent.number, lent.had, service.client(lent.lease).descriptor], [1n, true, 1n]);
  refuses(UNKNOWN, () => service.resume(ticket));
  // It goes on with its transaction: a reset that keeps that is asked for (bit 10).
  assert.equal(ask(service, lent.lease), 0x11);
  service.hear(1, RESET);
  const second = service.keep(lent.lease);
  endsAs(service.abandon(second), 1n, Rest.FREE);
  refuses(UNKNOWN, () => service.abandon(second));
}

function cleaned() {
  for (const [answer, rest, count] of [[RESET, Rest.FREE, 1], [ENDED, Rest.CLOSED, 0]]) {
    const service = new Service(1, 512);
    refuses(UNKNOWN, () => service.clean(1));
    const { lease } = service.lease();
    refuses(NOT_NOW, () => service.clean(1));
    service.giveBack(lease);
    const lent = service.clean(1);
    refuses(ALL_IN_USE, () => service.lease());
    assert.equal(ask(service, lent.lease), 9);
    refuses(NOT_NOW, () => service.cleaned(lent.lease));
    if (answer === RESET) service.hear(1, answer);
    else refuses(76, () => service.hear(1, answer));
    endsAs(service.cleaned(lent.lease), 1n, rest);
    assert.equal(service.count, count);
  }
}

/** Of three connections the first goes. The seats of the others move; their leases and requests are as they were. */
function lost() {
  const service = new Service(3, 512), clients = [0, 1, 2].map(() => service.lease().lease).map(it => service.client(it));
  for (const client of clients) {
    client.startBatch("get a");
    client.sendAll();
  }
  service.lost(1);
  refuses(UNKNOWN, () => clients[0].cancel());
  refuses(UNKNOWN, () => service.connection(1));
  refuses(UNKNOWN, () => service.lost(1));
  const [answer, attention] = clients[2].cancel();
  assert.deepEqual([service.count, answer, hex(attention)], [2, Answer.ASKED, ATTENTION]);
  assert.deepEqual([clients[1].stage, service.hear(2, ENDED).answer], [Stage.READING, Answer.FINISHED]);
  assert.equal(service.hear(3, ENDED).answer, Answer.MORE);
  assert.equal(service.lease().number, 4n);
}

/** A message in parts, of 12 bytes behind its headers of 22, by a client whose place is looked up in the middle of each call. */
function streamed() {
  const service = new Service(1, 512), client = service.client(service.lease().lease);
  client.startMessage(1);
  assert.equal(client.put(bytes("670065007400")).length, 0);
  assert.equal(client.put(bytes("200061000000")).length, 0);
  const packet = client.finish();
  assert.deepEqual([packet.length, hex(packet.subarray(30))], [42, "670065007400200061000000"]);
}

/** By lease and number alone: two requests, of which the second is cancelled, and nobody is told of its answer. */
function asks() {
  const service = new Service(1, 512), walk = new Walk(), { lease } = service.lease(), text = bytes("670065007400200061000000");
  assert.deepEqual(service.ask(lease, MessageKind.BATCH), { number: 1n, request: 1n });
  assert.equal(service.put(lease, text).length, 0);
  const packet = service.finish(lease);
  assert.deepEqual([hex(packet.subarray(0, 2)), hex(packet.subarray(30))], ["0101", hex(text)]);
  const done = [...walk.tokens(ENDED.subarray(8))];
  assert.deepEqual(done.map(it => service.came(1, it)), [{ lease, request: 1n, isTold: true }]);
  assert.deepEqual(service.messageEnded(1), { answer: Answer.FINISHED, lease, request: 1n });
  assert.equal(service.askBatch(lease, "get b").request, 2n);
  assert.deepEqual(service.cancel(lease).map((it, place) => (place ? hex(it) : it)), [Answer.ASKED, ATTENTION]);
  assert.equal(service.cancel(lease)[0], Answer.ALREADY);
  assert.deepEqual(done.map(it => service.came(1, it).isTold), [false]);
  assert.equal(service.messageEnded(1).answer, Answer.MORE);
  endsAs(service.giveBack(lease), 1n, Rest.DRAINING);
  refuses(UNKNOWN, () => service.ask(lease, MessageKind.BATCH));
  refuses(UNKNOWN, () => service.put(lease, text));
  refuses(UNKNOWN, () => service.finish(lease));
  refuses(UNKNOWN, () => service.cancel(lease));
  refuses(UNKNOWN, () => service.askBatch(lease, "a"));
  walk.restart();
  const acknowledged = [...walk.tokens(ACKNOWLEDGED.subarray(8))];
  assert.deepEqual(acknowledged.map(it => service.came(1, it)), [{ lease: 0n, request: 2n, isTold: false }]);
  refuses(ALL_IN_USE, () => service.lease());
  assert.deepEqual(service.messageEnded(1), { answer: Answer.ACKNOWLEDGED, lease: 0n, request: 2n });
  // It has drained: the next lease's first request asks for a reset, and is the third of its connection.
  const lent = service.lease(), third = service.askBatch(lent.lease, "get a");
  assert.deepEqual([third.number, third.request, third.packets[1]], [1n, 3n, 9]);
  // A message that ends inside a token breaks the connection.
  refuses(75, () => service.messageEnded(1, true));
  assert.equal(service.client(lent.lease).stage, Stage.BROKEN);
}

/** By number: whose a packet's tokens are. And the login agrees on other packets than were asked for, on one connection. */
function loggedIn() {
  const service = new Service(2, 4096), first = service.lease(), second = service.lease(), text = "a".repeat(1000);
  service.loggedIn(1, 512);
  const sizes = [first, second].map(it => service.askBatch(it.lease, text).packets.length);
  assert.deepEqual(sizes, [2022 + 8 * 5, 2022 + 8]);
  const { answer, lease, request } = service.hear(2, ENDED);
  assert.deepEqual([answer, lease, request], [Answer.FINISHED, second.lease, 1n]);
  const { request: next } = service.askBatch(second.lease, text);
  assert.deepEqual(service.follow(2, ENDED), { answer: Answer.FINISHED, tokens: [], lease: second.lease, request: next });
  assert.deepEqual([next, service.client(second.lease).stage], [2n, Stage.IDLE]);
  refuses(NOT_NOW, () => service.loggedIn(1, 4096));
  refuses(UNKNOWN, () => service.loggedIn(3, 4096));
  for (const size of [0, 511, 32768, 65536, -1]) {
    const other = new Service(1, 512);
    other.lease();
    refuses(OUT_OF_RANGE, () => other.loggedIn(1, size));
  }
}

function refused() {
  for (const size of [0, 511, 32768, 65536]) refuses(OUT_OF_RANGE, () => new Service(1, size));
  for (const most of [-1, 1.5, "1"]) refuses(OUT_OF_RANGE, () => new Service(most, 512));
  refuses(ALL_IN_USE, () => new Service(0, 512).lease());
  for (const number of [0, 1n, 2n ** 64n - 1n]) {
    refuses(UNKNOWN, () => new Service(1, 512).giveBack(number));
    refuses(UNKNOWN, () => new Service(1, 512).drained(number));
  }
  for (const number of [-1, 2n ** 64n, 1.5, "1"]) refuses(OUT_OF_RANGE, () => new Service(1, 512).lost(number));
}

const parts = [oneLeaseEach, staleLeases, drains, kept, cleaned, lost, streamed, asks, loggedIn, refused];
for (const it of parts) it();
console.log(`${parts.length} parts of the table, all right`);
