// What both ends of a recorded connection do wrong: a test suite's, or a proxy's (docs/JUDGING.md says what is found).

import { Memory, library } from "./library.mjs";

const calls = await library("mouktelf_judge.wasm");
const memory = new Memory(calls);

/** What a piece is: bytes of a direction; or, without bytes, that the connection is lent to somebody else, or closed. */
export const What = Object.freeze({ TO_SERVER: 0, TO_CLIENT: 1, BORROWED: 2, CLOSED: 3 });

/** MS-TDS forbids it; it is lawful, and loses work or an answer; or a note. */
export const Level = Object.freeze({ BREACH: 0, RISK: 1, NOTE: 2 });

const JUDGED = 0, NO_ROOM = 1, MISFIT = 2, COUNT = 8;
// The sizes of the header's structs, and where their fields lie.
const LIMITS = { size: 16, idle: 0, columns: 8, encryption: 10, ranks: 11 };
const PIECE = { size: 24, time: 0, length: 8, what: 16 };
const FINDING = { size: 32, offset: 0, time: 8, value: 16, number: 24, level: 25, direction: 26 };

/**
 * The findings of one connection, from its first piece to its last: {number, level, direction, offset, time, value} each, the
 * last three as BigInts.
 *
 * A piece is {time, what, bytes}: its time in microseconds, what it is, and its bytes; they are cut as you like. A transaction may
 * be idle for `idle` microseconds (0: as long as it likes), and a result may have so many columns, 4,096 at most. `encryption` and
 * `ranks` (data classification of version 2) are what the login acknowledged.
 */
export function judge(pieces, { idle = 0, columns = 4096, encryption = false, ranks = false } = {}) {
  if (!Number.isInteger(columns) || columns < 0 || columns > 4096) throw new RangeError(`a result has at most 4096 columns, and not ${columns}`);
  const length = pieces.reduce((sum, it) => sum + (it.bytes?.length ?? 0), 0);
  for (let room = 64; ;) {
    const at = memory.lend(COUNT + LIMITS.size + PIECE.size * pieces.length + FINDING.size * room + length);
    const limits = at + COUNT, first = limits + LIMITS.size, findings = first + PIECE.size * pieces.length;
    const bytes = findings + FINDING.size * room, view = memory.view();
    view.setBigUint64(limits + LIMITS.idle, BigInt(idle), true);
    view.setUint16(limits + LIMITS.columns, columns, true);
    view.setUint8(limits + LIMITS.encryption, Number(encryption));
    view.setUint8(limits + LIMITS.ranks, Number(ranks));
    write(pieces, first, bytes);
    const answer = calls.tds_judge(
      BigInt(limits), BigInt(first), BigInt(pieces.length), BigInt(bytes), BigInt(length), BigInt(findings), BigInt(room), BigInt(at));
    if (answer === NO_ROOM) {
      room = memory.count(at);
      continue;
    }
    if (answer === MISFIT) throw new RangeError("a piece, or the limits");
    if (answer !== JUDGED) throw new RangeError("memory");
    return Array.from({ length: memory.count(at) }, (_, place) => findingAt(findings + FINDING.size * place));
  }
}

/** Each piece, and the bytes of all of them. */
function write(pieces, first, bytes) {
  const view = memory.view();
  let at = bytes;
  pieces.forEach((it, place) => {
    const piece = first + PIECE.size * place, own = it.bytes ?? new Uint8Array();
    view.setBigUint64(piece + PIECE.time, BigInt(it.time), true);
    memory.setCount(piece + PIECE.length, own.length);
    view.setUint8(piece + PIECE.what, it.what);
    memory.bytes(at, own.length).set(own);
    at += own.length;
  });
}

function findingAt(at) {
  const view = memory.view(), long = field => view.getBigUint64(at + field, true), byte = field => view.getUint8(at + field);
  return {
    number: byte(FINDING.number), level: byte(FINDING.level), direction: byte(FINDING.direction),
    offset: long(FINDING.offset), time: long(FINDING.time), value: long(FINDING.value),
  };
}
