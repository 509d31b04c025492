// The strict reader: the answers of the batch language, of tdsserve and of tests.

import { calls, memory } from "./calls.mjs";
import { AT, CLIENT, COUNT, Client, HEADER, Stage } from "./client.mjs";
import { done } from "./fault.mjs";

// The sizes of the header's structs, and where their fields lie.
const CURSOR = { size: 16, columns: 8 };
const TOKEN = {
  size: 32, value: 0, start: 8, number: 16, line: 20, status: 24, command: 26, kind: 28, state: 29, severity: 30, change: 31,
};
const TOKENS = 32, OK = 0, END = 9;

/**
 * A client that reads the batch language alone, a packet and its tokens at a time; whatever else a SQL Server answers it refuses. What
 * it takes, no walk sees: `take` all packets of an answer, or `hear` all of them.
 */
export class StrictClient extends Client {
  /**
   * Takes one packet of an answer, from its first byte to its last: {answer, tokens}, where the answer is MORE, FINISHED or
   * ACKNOWLEDGED. Behind a cancel no token is told.
   */
  take(packet) {
    const own = this[AT], isTold = this.stage === Stage.READING, columns = memory.view().getUint8(own + CLIENT.columns);
    const at = memory.lend(packet.length + 1);
    memory.bytes(at, packet.length).set(packet);
    const answer = done(calls.tds_client_take(BigInt(own), BigInt(at), BigInt(packet.length)));
    return { answer, tokens: isTold ? tokensOf(packet.subarray(HEADER), columns) : [] };
  }
}

/** The tokens of a packet's data, {type, ..} each, where the client knew so many columns before it. */
function tokensOf(data, columns) {
  const at = memory.lend(COUNT + CURSOR.size + TOKENS * TOKEN.size + data.length), cursor = at + COUNT;
  const first = cursor + CURSOR.size, bytes = first + TOKENS * TOKEN.size, told = [];
  memory.bytes(cursor, CURSOR.size).fill(0);
  memory.bytes(cursor + CURSOR.columns, 1)[0] = columns;
  memory.bytes(bytes, data.length).set(data);
  for (let answer = OK; answer !== END;) {
    answer = done(calls.tds_tokens_next(
      BigInt(bytes), BigInt(data.length), BigInt(cursor), BigInt(first), BigInt(TOKENS), BigInt(at)));
    for (let place = 0; place < memory.count(at); place++) told.push(tokenAt(first + place * TOKEN.size, data));
  }
  return told;
}

const utf16 = new TextDecoder("utf-16le");

function tokenAt(at, data) {
  const view = memory.view(), start = memory.count(at + TOKEN.start), number = view.getInt32(at + TOKEN.number, true);
  const value = view.getBigUint64(at + TOKEN.value, true), kind = view.getUint8(at + TOKEN.kind);
  const own = new DataView(data.buffer, data.byteOffset + start);
  switch (kind) {
    case 0xab:
    case 0xaa: {
      const from = start + 11, text = utf16.decode(data.subarray(from, from + 2 * own.getUint16(9, true)));
      const [state, severity] = [view.getUint8(at + TOKEN.state), view.getUint8(at + TOKEN.severity)];
      return { type: kind === 0xaa ? "error" : "info", number, state, severity, line: view.getInt32(at + TOKEN.line, true), text };
    }
    case 0x79:
      return { type: "returnStatus", value: number };
    case 0x81:
      return { type: "columns", count: Number(value) };
    case 0xd1:
      return { type: "row", values: Array.from({ length: Number(value) }, (_, place) => own.getInt32(1 + 4 * place, true)) };
    case 0xe3:
      return { type: "change", kind: view.getUint8(at + TOKEN.change), descriptor: value };
    default:
      return { type: "done", status: view.getUint16(at + TOKEN.status, true), rows: value };
  }
}
