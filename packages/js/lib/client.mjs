// The client's end of one connection.

import { calls, memory } from "./calls.mjs";
import { Fault, done, within } from "./fault.mjs";
import { Tells, Walk, hears } from "./wire.mjs";

/** Who makes a client of a table's seat: `new Client(HELD, walk, () => ADDRESS)`. */
export const HELD = Symbol("held");

/** What a call did, as mouktelf.h numbers it. */
export const Answer = Object.freeze({
  MORE: 1, LAST: 2, FINISHED: 3, ACKNOWLEDGED: 4, NOTHING: 5, ALREADY: 6, UNSENT: 7, ASKED: 8,
});

/** What a client is doing. */
export const Stage = Object.freeze({ IDLE: 0, SENDING: 1, READING: 2, CANCELLING: 3, BROKEN: 4 });

/** The reset that the next request asks for. */
export const Reset = Object.freeze({ FULL: 1, KEEP_TRANSACTION: 2 });

/** Which message a request is (MS-TDS 2.2.1). */
export const MessageKind = Object.freeze({ BATCH: 1, PROCEDURE: 3, BULK_LOAD: 7, TRANSACTION: 14 });

const FULL = 1, TELL = 10, WANTS_BYTES = 24;
const MESSAGE_MOST = 4022, TO_CLIENT = 1, NO_NEXT = 255;
export const ATTENTION_MOST = 16, COUNT = 8, HEADER = 8;
// The sizes of the header's structs, and where their fields lie.
const PACKET = { size: 16 };
export const CLIENT = { size: 40, descriptor: 0, packetSize: 24, stage: 26, mark: 30, columns: 32 };
const PACKETS = 16;
/** Where it lies in memory. */
export const AT = Symbol("at");

/** The client's end of one connection to any server, for packets of 512 to 32,767 bytes. */
export class Client {
  #place;
  #walk;
  #message = new Uint8Array();
  #kept = new Uint8Array();
  #waiting = 0;

  /** `walk` is the one that it hears by, where the login acknowledged what a Walk has to know. */
  constructor(size, walk, place) {
    this.#walk = walk;
    if (size === HELD) {
      this.#place = place;
      return;
    }
    within(size, 0xffff);
    const at = memory.keep(this, CLIENT.size);
    this.#place = () => at;
    done(calls.tds_client_new(size, this.#value));
  }

  get [AT]() {
    return this.#place();
  }

  get #at() {
    return this.#place();
  }

  get #value() {
    return BigInt(this.#at);
  }

  get #size() {
    return memory.view().getUint16(this.#at + CLIENT.packetSize, true);
  }

  /** What it is doing: one of Stage. */
  get stage() {
    return memory.view().getUint8(this.#at + CLIENT.stage);
  }

  /** The descriptor of the open transaction, a BigInt, 0n for none. */
  get descriptor() {
    return memory.view().getBigUint64(this.#at + CLIENT.descriptor, true);
  }

  /** In idle: lets the next request ask for a reset. Of two marks the stronger one stays. */
  markReset(reset) {
    done(calls.tds_client_mark_reset(this.#value, within(reset, 255)));
  }

  /** In idle: takes a batch of 1 to 2,000 units of UTF-16. Nothing goes out yet. */
  startBatch(text) {
    const at = memory.lend(COUNT + MESSAGE_MOST + 2 * text.length), view = memory.view(), units = at + COUNT + MESSAGE_MOST;
    for (let place = 0; place < text.length; place++) view.setUint16(units + 2 * place, text.charCodeAt(place), true);
    this.#start(at, room => calls.tds_client_start_batch(this.#value, BigInt(units), BigInt(text.length), ...room));
  }

  /** In idle: takes the request to begin a transaction, at a level of 0 to 5. */
  startBegin(isolation = 0) {
    this.#startOf("tds_client_start_begin", isolation);
  }

  /** In idle: takes the request to commit, and to begin the next transaction at once at that level. */
  startCommit(next) {
    this.#startOf("tds_client_start_commit", next);
  }

  /** The same of a rollback. */
  startRollback(next) {
    this.#startOf("tds_client_start_rollback", next);
  }

  #startOf(name, level) {
    const number = level === undefined ? NO_NEXT : within(level, NO_NEXT - 1);
    this.#start(memory.lend(COUNT + MESSAGE_MOST), room => calls[name](this.#value, number, ...room));
  }

  /** Of the bytes at `at` the first are the count, and the next ones the message. */
  #start(at, call) {
    done(call([BigInt(at + COUNT), BigInt(MESSAGE_MOST), BigInt(at)]));
    this.#message = memory.copy(at + COUNT, memory.count(at));
  }

  /** In sending: the request's next packet, and whether it is the LAST or there are MORE: [answer, packet]. */
  send() {
    const length = this.#message.length, room = this.#size, at = memory.lend(COUNT + length + room), out = at + COUNT + length;
    memory.bytes(at + COUNT, length).set(this.#message);
    const answer = done(calls.tds_client_send(
      this.#value, BigInt(at + COUNT), BigInt(length), BigInt(out), BigInt(room), BigInt(at)));
    return [answer, memory.copy(out, memory.count(at))];
  }

  /** The packets of the request that are still to go out. */
  sendAll() {
    const packets = [];
    for (let answer = Answer.MORE; answer === Answer.MORE;) {
      let packet;
      [answer, packet] = this.send();
      packets.push(packet);
    }
    return joined(packets);
  }

  /** Cancels what is underway: [answer, bytes]. Behind ASKED send the bytes, and hear packets until ACKNOWLEDGED. */
  cancel() {
    const at = memory.lend(COUNT + ATTENTION_MOST);
    const answer = done(calls.tds_client_cancel(this.#value, BigInt(at + COUNT), BigInt(ATTENTION_MOST), BigInt(at)));
    return [answer, memory.copy(at + COUNT, memory.count(at))];
  }

  /** In idle: begins a message of a MessageKind that is sent in parts. Its body comes by `put`, and `finish` ends it. */
  startMessage(kind) {
    const room = this.#size - HEADER, at = memory.lend(COUNT + room);
    done(calls.tds_client_start_message(this.#value, within(kind, 255), BigInt(at + COUNT), BigInt(room), BigInt(at)));
    this.#kept = memory.copy(at + COUNT, room);
    this.#waiting = memory.count(at);
  }

  /** In sending: puts bytes of the message's body, and gives the packets that are full. */
  put(data) {
    const room = this.#size, kept = this.#kept.length, packets = [];
    for (let answer = FULL; answer === FULL;) {
      // waiting, taken, count; what is kept; the packet; the bytes
      const at = memory.lend(3 * COUNT + kept + room + data.length);
      const [taken, count, keeps] = [at + COUNT, at + 2 * COUNT, at + 3 * COUNT], out = keeps + kept, bytes = out + room;
      memory.setCount(at, this.#waiting);
      memory.bytes(keeps, kept).set(this.#kept);
      memory.bytes(bytes, data.length).set(data);
      answer = done(calls.tds_client_put(
        this.#value, BigInt(keeps), BigInt(kept), BigInt(at), BigInt(bytes), BigInt(data.length), BigInt(taken), BigInt(out),
        BigInt(room), BigInt(count)));
      packets.push(memory.copy(out, memory.count(count)));
      this.#kept = memory.copy(keeps, kept);
      this.#waiting = memory.count(at);
      data = data.subarray(memory.count(taken));
    }
    return joined(packets);
  }

  /** Ends the message, and gives its last packet. */
  finish() {
    const kept = this.#kept.length, room = this.#size, at = memory.lend(COUNT + kept + room), out = at + COUNT + kept;
    memory.bytes(at + COUNT, kept).set(this.#kept);
    done(calls.tds_client_finish(this.#value, BigInt(at + COUNT), BigInt(this.#waiting), BigInt(out), BigInt(room), BigInt(at)));
    return memory.copy(out, memory.count(at));
  }

  /** The walk that it hears by. */
  get walk() {
    return this.#walk ??= new Walk();
  }

  /**
   * Hears one packet of any server's answer, from its first byte to its last: {answer, tokens}, MORE, FINISHED or ACKNOWLEDGED, and
   * the tokens that end in it and are told. Where they stand is counted from their message's first byte: keep its packets' data until
   * it ends, if you read rows or texts. Behind a cancel nothing is told. A Fault has in `tokens` what was told before it.
   */
  hear(packet) {
    if (packet.length < HEADER) throw new Fault(WANTS_BYTES);
    return this.hearData(packet.subarray(HEADER), packet[1] & 1);
  }

  /** The same, where nobody wants the tokens: for who reads rows by a reader of his own, and wants the client's state alone. The answer. */
  follow(packet) {
    if (packet.length < HEADER) throw new Fault(WANTS_BYTES);
    return this.#hears(packet.subarray(HEADER), packet[1] & 1, false).answer;
  }

  /** The same of a packet's data, behind its header, or of a piece of them; `ends` is bit 1 of the packet's status, with its last piece. */
  hearData(data, ends) {
    const { answer, tokens } = this.#hears(data, ends, true);
    return { answer, tokens };
  }

  #hears(data, ends, tells) {
    const value = this.#value;
    return hears((...words) => calls.tds_client_hear(value, ...words), this.walk, data, ends, [], tells);
  }

  /** Hears a token that a walk of your own has found, in place of `hear`. Whether the caller that asked is told of it: behind a cancel nobody is. */
  heard(token) {
    switch (token.tells) {
      case Tells.DONE:
        return this.heardDone(token.kind, token.status);
      case Tells.TRANSACTION:
        // A begin tells the new descriptor, an end the old one.
        return this.heardChange(token.change, token.change === 8 || token.change === 11 ? token.value : token.oldValue);
      case Tells.RESET:
        return this.heardChange(18);
      default:
        return this.heardOther();
    }
  }

  /** Hears a DONE (FD), DONEPROC (FE) or DONEINPROC (FF) that a reader of your own has found. */
  heardDone(kind, status) {
    return done(calls.tds_client_heard_done(this.#value, kind, status)) === TELL;
  }

  /** Hears an ENVCHANGE of type 8 to 12, 17 or 18, with the transaction's descriptor: the new one of a begin, else the old. */
  heardChange(kind, descriptor = 0n) {
    return done(calls.tds_client_heard_change(this.#value, kind, descriptor)) === TELL;
  }

  /** Hears any other token. */
  heardOther() {
    return done(calls.tds_client_heard_other(this.#value)) === TELL;
  }

  /** Hears that a message has ended, behind the packet whose status has bit 1: MORE, FINISHED or ACKNOWLEDGED. */
  messageEnded() {
    return done(calls.tds_client_message_ended(this.#value));
  }

  /** The connection is lost: the client is broken, unless it is broken already. */
  lost() {
    calls.tds_client_lost(this.#value);
  }
}

export function joined(parts) {
  const all = new Uint8Array(parts.reduce((sum, it) => sum + it.length, 0));
  parts.reduce((at, it) => (all.set(it, at), at + it.length), 0);
  return all;
}

/** The packets from a server at the front of these bytes, and the rest, behind which the next bytes go: [packets, rest]. */
export function packetsOf(data, size) {
  within(size, 0xffff);
  const packets = [], at = memory.lend(COUNT + PACKETS * PACKET.size + data.length);
  const found = at + COUNT, bytes = found + PACKETS * PACKET.size;
  memory.bytes(bytes, data.length).set(data);
  for (let passed = 0; ;) {
    const answer = calls.tds_packets_read(
      BigInt(bytes + passed), BigInt(data.length - passed), size, TO_CLIENT, BigInt(found), BigInt(PACKETS), BigInt(at));
    const count = memory.count(at);
    for (let place = 0; place < count; place++) {
      const length = memory.count(found + place * PACKET.size);
      packets.push(data.subarray(passed, passed + length));
      passed += length;
    }
    if (answer === WANTS_BYTES) return [packets, data.subarray(passed)];
    done(answer);
  }
}
