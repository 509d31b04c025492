// Where each token of an answer ends, for every type of column of TDS 7.2 to 7.4 (MS-TDS 2.2.7).

import { calls, memory } from "./calls.mjs";
import { FIRST_FAULT, Fault, Refused, within } from "./fault.mjs";

const COUNT = 8, WHOSE = 16, AT_ONCE = 256, TELL = 10, MORE = 1;
/** Where a table writes whose it is, in what `hears` lends. */
export const WHOSE_AT = 2 * COUNT;
/** Where a walk and its memory lie, for a client that hears by it. */
export const BOTH = Symbol("both");

/** What is told of a token that a walk finds: which fields of it count. */
export const Tells = Object.freeze({
  NOTHING: 0, DONE: 1, TRANSACTION: 2, RESET: 3, PACKET_SIZE: 4, VALUES: 5, OTHER_CHANGE: 6, MESSAGE: 7, RETURN_STATUS: 8,
  SESSION_STATE: 9, UNCLEAR: 10,
});

const ENDED = 0, GOES_ON = 1, WIRE_MEMORY = 8706, WIRE = { size: 104, refused: 24 };
export const WALKED = {
  size: 88, start: 0, length: 8, value: 16, oldValue: 24, text: 32, others: 48, number: 64, size32: 68, status: 72,
  command: 74, kind: 76, told: 77, change: 78, state: 79, severity: 80, recoverable: 81,
};

/**
 * Finds where each token of an answer ends, for every type of column of TDS 7.2 to 7.4 (MS-TDS 2.2.7). The bytes come in
 * pieces of any size: the data of packets of type 04.
 */
export class Walk {
  #at = memory.keep(this, WIRE.size + WIRE_MEMORY);

  /** Room for so many columns, 4,096 at most; what the login's FEATUREEXTACK acknowledged. */
  constructor(most = 4096, { encryption = false, ranks = false } = {}) {
    calls.tds_wire_new(within(most, 0xffff), Number(encryption), Number(ranks), ...this[BOTH]);
  }

  get [BOTH]() {
    return [BigInt(this.#at), BigInt(this.#at + WIRE.size)];
  }

  /** Takes bytes up to the end of one token: [count, token], where the token is null if none has ended. */
  next(data) {
    const at = memory.lend(COUNT + WALKED.size + data.length), token = at + COUNT, bytes = token + WALKED.size;
    memory.bytes(token, WALKED.size).fill(0);
    memory.bytes(bytes, data.length).set(data);
    const answer = calls.tds_wire_next(...this[BOTH], BigInt(bytes), BigInt(data.length), BigInt(at), BigInt(token));
    if (answer > GOES_ON) throw this.fault(answer);
    return [memory.count(at), answer === ENDED ? walkedAt(token) : null];
  }

  /** The fault of this number: of a byte that this walk has refused, with its place. */
  fault(number) {
    const refused = this.#at + WIRE.refused;
    return number < 71 || number > 74 ? new Fault(number)
      : new Refused(number, memory.count(refused), memory.view().getUint8(refused + 9));
  }

  /** The tokens that end in this piece. */
  *tokens(data) {
    while (data.length > 0) {
      const [count, token] = this.next(data);
      data = data.subarray(count);
      if (token) yield token;
    }
  }

  /** Whether a message may end here. */
  get isBetween() {
    return calls.tds_wire_is_between(...this[BOTH]) === 1;
  }

  /** Begins anew, before the first token of the next message. */
  restart() {
    calls.tds_wire_restart(...this[BOTH]);
  }
}

/**
 * Hears what ends in these data by this walk: {answer, tokens}. `call` is that of a client or of a table, to which the words behind are
 * handed, for 256 tokens at once; behind them come `more`. A Fault has in `tokens` what was told before it. Where nobody wants the tokens,
 * there are none.
 */
export function hears(call, walk, data, ends, more = [], tells = true) {
  const room = AT_ONCE * WALKED.size, at = memory.lend(2 * COUNT + WHOSE + room + data.length);
  const found = at + 2 * COUNT + WHOSE, bytes = found + room, tokens = [], [value, own] = walk[BOTH];
  const [first, count, taken, most, last] = [BigInt(found), BigInt(at + COUNT), BigInt(at), BigInt(AT_ONCE), Number(ends)];
  const behind = more.map(it => BigInt(at + it));
  memory.bytes(bytes, data.length).set(data);
  for (let passed = 0, answer = TELL; ;) {
    answer = call(value, own, BigInt(bytes + passed), BigInt(data.length - passed), last, taken, first, most, count, ...behind);
    const view = memory.view();
    for (let place = 0, all = tells ? memory.count(at + COUNT) : 0; place < all; place++) tokens.push(walkedIn(view, found + place * WALKED.size));
    if (answer !== TELL) {
      if (answer < FIRST_FAULT) return { answer: answer || MORE, tokens, at };
      throw Object.assign(walk.fault(answer), { tokens });
    }
    passed += memory.count(at);
  }
}

/** The token that lies there. */
export function walkedAt(at) {
  return walkedIn(memory.view(), at);
}

/** A number of 64 bits that is read as one of JavaScript's: places, which are below 2^53. */
function numberAt(view, at) {
  return view.getUint32(at, true) + view.getUint32(at + 4, true) * 2 ** 32;
}

/** A token that has ended. What most tokens haven't is read where it is asked for, of bytes of its own. */
class Walked {
  #own;

  constructor(view, at) {
    this.start = numberAt(view, at + WALKED.start);
    this.length = numberAt(view, at + WALKED.length);
    this.kind = view.getUint8(at + WALKED.kind);
    this.tells = view.getUint8(at + WALKED.told);
    this.#own = this.tells === Tells.NOTHING ? NOTHING : new DataView(view.buffer.slice(at, at + WALKED.size));
  }

  #place(field) {
    return { start: numberAt(this.#own, field), length: numberAt(this.#own, field + 8) };
  }

  get value() {
    return this.#own.getBigUint64(WALKED.value, true);
  }

  get oldValue() {
    return this.#own.getBigUint64(WALKED.oldValue, true);
  }

  get text() {
    return this.#place(WALKED.text);
  }

  get others() {
    return this.#place(WALKED.others);
  }

  get number() {
    return this.#own.getInt32(WALKED.number, true);
  }

  get size() {
    return this.#own.getUint32(WALKED.size32, true);
  }

  get status() {
    return this.#own.getUint16(WALKED.status, true);
  }

  get command() {
    return this.#own.getUint16(WALKED.command, true);
  }

  get change() {
    return this.#own.getUint8(WALKED.change);
  }

  get state() {
    return this.#own.getUint8(WALKED.state);
  }

  get severity() {
    return this.#own.getUint8(WALKED.severity);
  }

  get isRecoverable() {
    return this.#own.getUint8(WALKED.recoverable) === 1;
  }
}

const NOTHING = new DataView(new ArrayBuffer(WALKED.size));

function walkedIn(view, at) {
  return new Walked(view, at);
}
