// A table of connections that callers share, in front of any server: who holds each one, and what becomes of it.

import { calls, memory } from "./calls.mjs";
import { ATTENTION_MOST, CLIENT, COUNT, Client, HEADER, HELD, MessageKind, Stage, joined } from "./client.mjs";
import { Fault, done, within } from "./fault.mjs";
import { WALKED, WHOSE_AT, Walk, hears } from "./wire.mjs";

// The sizes of the header's structs, and where their fields lie.
const TABLE = { size: 32, last: 0, given: 8, count: 16, packetSize: 24 };
const SEAT = { size: 72, number: 40, holder: 48, asked: 56, place: 64 };
const ASKED = { size: 16, number: 0, request: 8 }, WHOSE = { size: 16, lease: 0, request: 8 }, FULL = 1, TELL = 10;
const LENT = { size: 24, lease: 0, number: 8, had: 16 };
// Where a seat is: lent, being cleaned, kept for a ticket.
const LENT_NOW = 1, KEPT = 3, MOST_SEATS = 1 << 20, OUT_OF_RANGE = 23, WANTS_BYTES = 24, NOT_NOW = 36;

/**
 * Where a connection is that nobody holds any more: it may be lent again; it drains until its acknowledgement has come; or it is
 * in the table no longer, and its socket is to be closed.
 */
export const Rest = Object.freeze({ FREE: 1, DRAINING: 2, CLOSED: 3 });

/** The number of a lease, a ticket or a connection: a BigInt, or a whole number. */
function id(number) {
  if (typeof number !== "bigint" && !Number.isSafeInteger(number)) throw new Fault(OUT_OF_RANGE);
  const wide = BigInt(number);
  if (wide !== BigInt.asUintN(64, wide)) throw new Fault(OUT_OF_RANGE);
  return wide;
}

/**
 * A table of at most so many connections, whose packets have 512 to 32,767 bytes. It has no lock and no socket. A call that
 * can't be done throws a Fault: 34 where there is no such lease, ticket or connection, 35 where none can be lent, 36 where a
 * connection isn't so that this can be done now. Leases, tickets and connections have BigInts as numbers.
 */
export class Service {
  #most;
  #at;
  #clients = new Map();
  /** Of a lease's request: what waits, and how much of it does. */
  #kept = new Map();
  /** Of a connection's number: the walk that it hears by. */
  #walks = new Map();

  constructor(most, size) {
    this.#most = within(most, MOST_SEATS);
    // A size that no client can have is refused.
    new Client(size);
    this.#at = memory.keep(this, TABLE.size + most * SEAT.size + COUNT);
    memory.view().setUint16(this.#at + TABLE.packetSize, size, true);
  }

  /** How many connections there are. */
  get count() {
    return memory.count(this.#at + TABLE.count);
  }

  #call(name, ...words) {
    return done(calls[name](BigInt(this.#at), BigInt(this.#at + TABLE.size), BigInt(this.#most), ...words));
  }

  #lend(name, ...words) {
    const at = memory.lend(LENT.size);
    this.#call(name, ...words, BigInt(at));
    const view = memory.view();
    return {
      lease: view.getBigUint64(at + LENT.lease, true), number: view.getBigUint64(at + LENT.number, true),
      had: view.getUint8(at + LENT.had) !== 0,
    };
  }

  #end(name, holder) {
    const at = memory.lend(COUNT), rest = this.#call(name, holder, BigInt(at));
    return this.#ended(holder, memory.view().getBigUint64(at, true), rest, new Uint8Array());
  }

  #ended(holder, number, rest, sends) {
    this.#forget(holder);
    if (rest === Rest.CLOSED) this.#walks.delete(number);
    return { number, rest, sends };
  }

  /**
   * The address of a connection's seat, which a call may move: by its lease, or by its number. A client asks for it in the middle
   * of a call, so what is lent isn't touched.
   */
  #seat(name, key) {
    const at = this.#at + TABLE.size + this.#most * SEAT.size;
    this.#call(name, key, BigInt(at));
    return this.#at + TABLE.size + memory.count(at) * SEAT.size;
  }

  /**
   * Lends a free connection that is idle, and marks it for a full reset; else a new one, which is to be opened and logged in:
   * {lease, number, had}. Fault 35: all are in use; wait until one is free.
   */
  lease() {
    return this.#lend("tds_service_lease");
  }

  #forget(lease) {
    this.#clients.delete(lease);
    this.#kept.delete(lease);
  }

  /** The size of the packets of a lease's connection. */
  #packetSize(key) {
    const seat = this.#seat("tds_service_find", key);
    return memory.view().getUint16(seat + CLIENT.packetSize, true);
  }

  /** Begins a request of a lease, of a MessageKind: {number, request}. Its body comes by `put`, and `finish` ends it. */
  ask(lease, kind) {
    const key = id(lease), room = this.#packetSize(key) - HEADER, at = memory.lend(COUNT + ASKED.size + room), asked = at + COUNT;
    const kept = asked + ASKED.size;
    this.#call("tds_service_ask", key, within(kind, 255), BigInt(kept), BigInt(room), BigInt(at), BigInt(asked));
    this.#kept.set(key, { kept: memory.copy(kept, room), waiting: memory.count(at) });
    const view = memory.view();
    return { number: view.getBigUint64(asked, true), request: view.getBigUint64(asked + ASKED.request, true) };
  }

  #waits(key) {
    return this.#kept.get(key) ?? { kept: new Uint8Array(this.#packetSize(key) - HEADER), waiting: 0 };
  }

  /** Puts bytes of the request's body, and gives the packets that are full. */
  put(lease, data) {
    const key = id(lease), waits = this.#waits(key), room = this.#packetSize(key), length = waits.kept.length, packets = [];
    for (let answer = FULL; answer === FULL;) {
      // waiting, taken, count; what is kept; the packet; the bytes
      const at = memory.lend(3 * COUNT + length + room + data.length);
      const [taken, count, kept] = [at + COUNT, at + 2 * COUNT, at + 3 * COUNT], out = kept + length, bytes = out + room;
      memory.setCount(at, waits.waiting);
      memory.bytes(kept, length).set(waits.kept);
      memory.bytes(bytes, data.length).set(data);
      answer = this.#call(
        "tds_service_put", key, BigInt(kept), BigInt(length), BigInt(at), BigInt(bytes), BigInt(data.length), BigInt(taken),
        BigInt(out), BigInt(room), BigInt(count));
      packets.push(memory.copy(out, memory.count(count)));
      waits.kept = memory.copy(kept, length);
      waits.waiting = memory.count(at);
      data = data.subarray(memory.count(taken));
    }
    return joined(packets);
  }

  /** Ends the request, and gives its last packet. */
  finish(lease) {
    const key = id(lease), { kept, waiting } = this.#waits(key), room = this.#packetSize(key);
    const at = memory.lend(COUNT + kept.length + room), out = at + COUNT + kept.length;
    memory.bytes(at + COUNT, kept.length).set(kept);
    this.#call("tds_service_finish", key, BigInt(at + COUNT), BigInt(waiting), BigInt(out), BigInt(room), BigInt(at));
    return memory.copy(out, memory.count(at));
  }

  /** Asks a batch, whole: {number, request, packets}. */
  askBatch(lease, text) {
    const body = new Uint8Array(2 * text.length), view = new DataView(body.buffer);
    for (let place = 0; place < text.length; place++) view.setUint16(2 * place, text.charCodeAt(place), true);
    return { ...this.ask(lease, MessageKind.BATCH), packets: joined([this.put(lease, body), this.finish(lease)]) };
  }

  /** Cancels what is underway: [answer, bytes]. Behind ASKED send the bytes; `messageEnded` hears its acknowledgement. */
  cancel(lease) {
    const at = memory.lend(COUNT + ATTENTION_MOST);
    const answer = this.#call("tds_service_cancel", id(lease), BigInt(at + COUNT), BigInt(ATTENTION_MOST), BigInt(at));
    return [answer, memory.copy(at + COUNT, memory.count(at))];
  }

  /**
   * Hears one packet on the connection of this number, whoever holds it, as `hear` of a client: {answer, tokens, lease, request}, the
   * lease that holds it (0n where none does) and its request, which are told the tokens. A connection that drained is free behind
   * ACKNOWLEDGED.
   */
  hear(number, packet) {
    return this.#hears(number, packet, true);
  }

  /** The same, where nobody wants the tokens: there are none. */
  follow(number, packet) {
    return this.#hears(number, packet, false);
  }

  #hears(number, packet, tells) {
    const key = id(number);
    this.#seat("tds_service_at", key);
    if (packet.length < HEADER) throw new Fault(WANTS_BYTES);
    const table = [BigInt(this.#at), BigInt(this.#at + TABLE.size), BigInt(this.#most), key];
    const { answer, tokens, at } = hears(
      (...words) => calls.tds_service_hear(...table, ...words), this.#walkOf(key), packet.subarray(HEADER), packet[1] & 1, [WHOSE_AT],
      tells);
    return { answer, tokens, ...whoseAt(at + WHOSE_AT) };
  }

  #walkOf(key) {
    if (!this.#walks.has(key)) this.#walks.set(key, new Walk());
    return this.#walks.get(key);
  }

  /**
   * The connection of this number, which is new, is logged in, and the login agreed on packets of this size; `walk` is the one that it
   * hears by, where the login acknowledged what a Walk has to know. Fault 36: something was asked on it.
   */
  loggedIn(number, size, walk) {
    const key = id(number), seat = this.#seat("tds_service_at", key), view = memory.view();
    if (view.getBigUint64(seat + SEAT.asked, true) || view.getUint8(seat + CLIENT.stage) !== Stage.IDLE || view.getUint8(seat + CLIENT.mark))
      throw new Fault(NOT_NOW);
    // A size that no client can have is refused before anything is written.
    new Client(size);
    done(calls.tds_client_new(size, BigInt(seat)));
    if (walk) this.#walks.set(key, walk);
  }

  /**
   * Hears a token that a walk of your own has found on the connection of this number, in place of `hear`: {lease, request, isTold}, whose it is
   * (0n where no lease holds the connection), and whether he is told.
   */
  came(number, token) {
    const at = memory.lend(WHOSE.size + WALKED.size), value = at + WHOSE.size, view = memory.view();
    memory.bytes(value, WALKED.size).fill(0);
    view.setBigUint64(value + WALKED.value, token.value, true);
    view.setBigUint64(value + WALKED.oldValue, token.oldValue, true);
    view.setUint16(value + WALKED.status, token.status, true);
    for (const [field, byte] of [[WALKED.kind, token.kind], [WALKED.told, token.tells], [WALKED.change, token.change]])
      view.setUint8(value + field, byte);
    const answer = this.#call("tds_service_came", id(number), BigInt(value), BigInt(at));
    return { ...whoseAt(at), isTold: answer === TELL };
  }

  /**
   * Behind `came` hears that a message has ended there, with the packet whose status has bit 1: {answer, lease, request}; `isCut` where the walk
   * isn't between two tokens then. FINISHED: the request has its whole answer. ACKNOWLEDGED: its cancel is acknowledged, and a
   * connection that drained is free. MORE: the acknowledgement is still to come.
   */
  messageEnded(number, isCut = false) {
    const at = memory.lend(WHOSE.size), answer = this.#call("tds_service_message_ended", id(number), Number(isCut), BigInt(at));
    return { answer, ...whoseAt(at) };
  }

  /**
   * The client of a lease's connection, for what the calls by lease don't do: to log in, say. A request that is asked by it isn't
   * counted in `request`. Behind the lease's end each of its calls throws Fault 34.
   */
  client(lease) {
    const key = id(lease), place = () => this.#seat("tds_service_find", key);
    place();
    if (!this.#clients.has(key)) {
      const number = memory.view().getBigUint64(place() + SEAT.number, true);
      this.#clients.set(key, new Client(HELD, this.#walkOf(number), place));
    }
    return this.#clients.get(key);
  }

  /** The client of the connection of this number, whoever holds it: for what comes on it. */
  connection(number) {
    const key = id(number), place = () => this.#seat("tds_service_at", key);
    place();
    return new Client(HELD, this.#walkOf(key), place);
  }

  /** The number of the lease, or of the ticket, that holds the connection of this number; 0n where none does. */
  holder(number) {
    const seat = this.#seat("tds_service_at", id(number)), view = memory.view(), place = view.getUint8(seat + SEAT.place);
    return place >= LENT_NOW && place <= KEPT ? view.getBigUint64(seat + SEAT.holder, true) : 0n;
  }

  /**
   * Ends a lease: {number, rest, sends}, the connection's number, where it is, and what is to be sent on it, since what is
   * underway is cancelled.
   */
  giveBack(lease) {
    const key = id(lease), at = memory.lend(2 * COUNT + ATTENTION_MOST), out = at + 2 * COUNT;
    const rest = this.#call(
      "tds_service_give_back", key, BigInt(out), BigInt(ATTENTION_MOST), BigInt(at), BigInt(at + COUNT));
    return this.#ended(key, memory.view().getBigUint64(at + COUNT, true), rest, memory.copy(out, memory.count(at)));
  }

  /**
   * For a connection that drains, each time that its client has taken something: FREE once the client is idle, else DRAINING.
   * Fault 36 where it doesn't drain.
   */
  drained(number) {
    return this.#call("tds_service_drained", id(number));
  }

  /** The connection of this number is lost: it is in the table no longer, and its lease unknown. */
  lost(number) {
    const key = id(number), holder = this.holder(key);
    this.#call("tds_service_lost", key);
    this.#forget(holder);
    this.#walks.delete(key);
  }

  /** Keeps a connection that is idle in a transaction, and gives a ticket for it. The lease is spent. */
  keep(lease) {
    const key = id(lease), at = memory.lend(COUNT);
    this.#call("tds_service_keep", key, BigInt(at));
    this.#forget(key);
    return memory.view().getBigUint64(at, true);
  }

  /** Lends a connection that was kept, and marks it for a reset that keeps its transaction. The ticket is spent. */
  resume(ticket) {
    return this.#lend("tds_service_resume", id(ticket));
  }

  /** Gives a connection up that was kept. The ticket is spent. */
  abandon(ticket) {
    return this.#end("tds_service_abandon", id(ticket));
  }

  /**
   * Lends the connection of this number, if it is free and idle, to be cleaned: ask a batch that does nothing on it, which asks
   * for a full reset, and call `cleaned` once it is answered.
   */
  clean(number) {
    return this.#lend("tds_service_clean", id(number));
  }

  /** Ends a lease of `clean`: FREE where the reset was done and no transaction is open, else CLOSED. */
  cleaned(lease) {
    return this.#end("tds_service_cleaned", id(lease));
  }
}

function whoseAt(at) {
  const view = memory.view();
  return { lease: view.getBigUint64(at, true), request: view.getBigUint64(at + WHOSE.request, true) };
}
