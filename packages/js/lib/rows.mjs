// Where the values of rows stand: of the tokens that a client hears or a walk finds.

import { calls, memory } from "./calls.mjs";
import { Fault } from "./fault.mjs";

// The sizes of the header's structs, and where their fields lie.
const COLUMN = { size: 40, nameStart: 0, nameLength: 8, most: 16, userType: 20, flags: 24, kind: 26, precision: 27, scale: 28, collation: 29, form: 34 };
const PLACE = { size: 24, start: 0, length: 8, isNull: 16 };
const COUNT = 8, PARTS = 16, ENDED = 0, CUT = 1, SAME = 2, OTHER = 71, FULL = 74, MOST = 4096, IN_PARTS = 5, WANTS_BYTES = 24;

function done(answer) {
  if (answer === CUT) throw new Fault(WANTS_BYTES);
  if (answer > SAME) throw new Fault(answer);
  return answer;
}

/** A number of 64 bits that is read as one of JavaScript's: places, which are below 2^53. */
function placeAt(view, at) {
  return view.getUint32(at, true) + view.getUint32(at + 4, true) * 2 ** 32;
}

/** So many places of the library's memory, from this byte of it on, each behind so many bytes. */
function placesIn(at, count, before) {
  const view = memory.view(), all = [];
  for (const end = at + count * PLACE.size; at < end; at += PLACE.size)
    all.push(view.getUint8(at + PLACE.isNull) ? null : [before + placeAt(view, at), placeAt(view, at + PLACE.length)]);
  return all;
}

/** The columns of a result. */
export class Columns {
  #at;
  #count;
  /** Of each column (MS-TDS 2.2.7.4): {name, kind, size, precision, scale, collation, isInParts, flags, userType}. */
  columns = [];

  /**
   * What the COLMETADATA describes that these bytes begin with; null where it describes none, and those before it stay. `encryption`
   * says that the login acknowledged column encryption.
   */
  static of(token, encryption = false) {
    const most = token.length > 2 ? Math.min(token[1] | token[2] << 8, MOST) : 0, room = most * COLUMN.size;
    const at = memory.lend(2 * COUNT + room + token.length), found = at + 2 * COUNT, bytes = found + room;
    memory.bytes(bytes, token.length).set(token);
    const answer = done(calls.tds_columns(
      BigInt(bytes), BigInt(token.length), Number(encryption), BigInt(found), BigInt(most), BigInt(at), BigInt(at + COUNT)));
    return answer === SAME ? null : new Columns(memory.copy(found, memory.count(at) * COLUMN.size), token);
  }

  constructor(raw, token) {
    this.#count = raw.length / COLUMN.size;
    // Behind the columns there is room for what is taken of a row and what comes next, and for its places.
    this.#at = memory.keep(this, raw.length + 2 * COUNT + this.#count * PLACE.size);
    memory.bytes(this.#at, raw.length).set(raw);
    const view = new DataView(raw.buffer, raw.byteOffset, raw.length);
    for (let at = 0; at < raw.length; at += COLUMN.size) this.columns.push(columnIn(view, at, token));
  }

  /** Where each value stands in the row that these bytes begin with, a ROW or an NBCROW: [start, length], or null where it is null. */
  places(row) {
    const places = this.#places(), bytes = memory.lend(row.length);
    memory.bytes(bytes, row.length).set(row);
    done(calls.tds_row_places(
      BigInt(this.#at), BigInt(this.#count), BigInt(bytes), BigInt(row.length), BigInt(places), BigInt(this.#count), BigInt(places - COUNT)));
    return this.#found(0, this.#count);
  }

  /**
   * The same of all rows that these bytes begin with, one behind the other, from the first of these bytes on: {rows, taken}, where
   * `taken` is how many bytes they have. Behind them stands nothing, another token, or a row that isn't whole.
   */
  placesOfRows(bytes) {
    const most = Math.max(this.#count, MOST - MOST % Math.max(this.#count, 1)), at = memory.lend(2 * COUNT + most * PLACE.size + bytes.length);
    const found = at + 2 * COUNT, own = found + most * PLACE.size, rows = [];
    memory.bytes(own, bytes.length).set(bytes);
    for (let taken = 0, answer = FULL; ; taken += memory.count(at + COUNT)) {
      if (answer !== FULL) return { rows, taken };
      answer = calls.tds_places_of_rows(
        BigInt(this.#at), BigInt(this.#count), BigInt(own + taken), BigInt(bytes.length - taken), BigInt(found), BigInt(most), BigInt(at),
        BigInt(at + COUNT));
      if (![ENDED, CUT, OTHER, FULL].includes(answer)) throw new Fault(answer);
      for (let row = 0, many = memory.count(at); row < many; row++)
        rows.push(placesIn(found + row * this.#count * PLACE.size, this.#count, taken));
    }
  }

  /**
   * Of bytes that begin with the value of the column `first` of a row: the places of those values that are whole, as above, and where
   * the next value begins. `nulls` is the null bitmap of an NBCROW.
   */
  come(bytes, first = 0, nulls = new Uint8Array()) {
    const places = this.#places(), room = memory.lend(nulls.length + bytes.length), next = places - 2 * COUNT;
    memory.bytes(room, nulls.length).set(nulls);
    memory.bytes(room + nulls.length, bytes.length).set(bytes);
    const answer = calls.tds_row_values(
      BigInt(this.#at), BigInt(this.#count), BigInt(first), BigInt(room), BigInt(nulls.length), BigInt(room + nulls.length),
      BigInt(bytes.length), BigInt(places), BigInt(this.#count), BigInt(next), BigInt(next + COUNT));
    if (answer > CUT) throw new Fault(answer);
    return { places: this.#found(first, memory.count(next)), taken: memory.count(next + COUNT) };
  }

  #places() {
    return this.#at + this.#count * COLUMN.size + 2 * COUNT;
  }

  #found(first, behind) {
    return placesIn(this.#places() + first * PLACE.size, behind - first, 0);
  }
}

/** A value in parts as its bytes come, from its first one on. */
export class Parts {
  #at = memory.keep(this, PARTS + 3 * COUNT);
  isOver = false;
  isNull = false;

  /** Its own bytes among these, a piece for each part, and how many of these belong to the value: all of them, until it is over. */
  feed(bytes) {
    const pieces = [], room = memory.lend(bytes.length), counts = this.#at + PARTS;
    let at = 0;
    memory.bytes(room, bytes.length).set(bytes);
    while (!this.isOver && at < bytes.length) {
      const answer = calls.tds_parts_next(
        BigInt(this.#at), BigInt(room + at), BigInt(bytes.length - at), BigInt(counts), BigInt(counts + COUNT), BigInt(counts + 2 * COUNT));
      const start = at + memory.count(counts), count = memory.count(counts + COUNT);
      if (count) pieces.push(bytes.slice(start, start + count));
      at += memory.count(counts + 2 * COUNT);
      this.isOver = answer !== CUT;
      this.isNull = answer === SAME;
    }
    return { pieces, taken: at };
  }
}

function columnIn(view, at, token) {
  const start = placeAt(view, at), length = placeAt(view, at + COLUMN.nameLength), collation = view.byteOffset + at + COLUMN.collation;
  return {
    name: new TextDecoder("utf-16le").decode(token.slice(start, start + length)), kind: view.getUint8(at + COLUMN.kind),
    size: view.getUint32(at + COLUMN.most, true), precision: view.getUint8(at + COLUMN.precision), scale: view.getUint8(at + COLUMN.scale),
    collation: new Uint8Array(view.buffer.slice(collation, collation + 5)), isInParts: view.getUint8(at + COLUMN.form) === IN_PARTS,
    flags: view.getUint16(at + COLUMN.flags, true), userType: view.getUint32(at + COLUMN.userType, true),
  };
}
