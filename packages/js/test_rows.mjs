// Where the values of rows stand, by hand (MS-TDS 2.2.7.4, 2.2.7.17, 2.2.7.13): of an INTN, a VARCHAR, an NVARCHAR(max) in two parts.

import assert from "node:assert";
import { Columns, Fault, Parts } from "mouktelf";

const bytes = (...texts) => Uint8Array.from(Buffer.from(texts.join(""), "hex"));
const columns = Columns.of(bytes("810300", "00000000090026", "04016E00", "000000000900A7", "0A000904000000", "017400", "000000000900E7", "FFFF0904000000", "016D00"));
assert.deepEqual(columns.columns.map(it => [it.name, it.kind, it.size, it.isInParts]), [["n", 0x26, 4, false], ["t", 0xa7, 10, false], ["m", 0xe7, 65535, true]]);
assert.deepEqual([...columns.columns[1].collation], [9, 4, 0, 0, 0]);
assert.deepEqual([columns.columns[0].flags, columns.columns[0].userType], [9, 0]);
const row = bytes("D1", "0407000000", "02006180", "0400000000000000", "020000007800", "020000007900", "00000000", "D1");
assert.deepEqual(columns.places(row), [[2, 4], [8, 2], [18, 12]]);
assert.deepEqual(columns.places(bytes("D2060409000000")), [[3, 4], null, null]);
for (const [token, number] of [[row.subarray(0, 20), 24], [bytes("FD"), 71]])
  assert.throws(() => columns.places(token), it => it instanceof Fault && it.number === number);
// Both rows behind one another, and a DONE; where the second is cut; more than are found by one call.
const first = [[2, 4], [8, 2], [18, 12]], both = bytes(Buffer.from(row.subarray(0, -1)).toString("hex"), "D2060409000000", "FD");
assert.deepEqual(columns.placesOfRows(both), { rows: [first, [[37, 4], null, null]], taken: 41 });
assert.deepEqual(columns.placesOfRows(both.subarray(0, 40)), { rows: [first], taken: 34 });
assert.deepEqual(columns.placesOfRows(new Uint8Array()), { rows: [], taken: 0 });
const many = columns.placesOfRows(bytes("D2060409000000".repeat(3000), "FD"));
assert.deepEqual([many.taken, many.rows.length, many.rows[2999]], [21000, 3000, [[20996, 4], null, null]]);
// Its bytes up to anywhere: the values that are whole, from any column on, and one in parts as it comes.
assert.deepEqual(columns.come(row.subarray(1, 20)), { places: [[1, 4], [7, 2]], taken: 9 });
assert.deepEqual(columns.come(row.subarray(1, 8)), { places: [[1, 4]], taken: 5 });
assert.deepEqual(columns.come(row.subarray(6), 1), { places: [[2, 2], [12, 12]], taken: 28 });
assert.deepEqual(columns.come(bytes("09000000"), 0, bytes("06")), { places: [], taken: 0 });
assert.deepEqual(columns.come(bytes("0409000000"), 0, bytes("06")), { places: [[1, 4], null, null], taken: 5 });
const parts = new Parts(), empty = new Parts();
assert.deepEqual(parts.feed(row.subarray(10, 23)), { pieces: [bytes("78")], taken: 13 });
assert.deepEqual(parts.feed(row.subarray(23)), { pieces: [bytes("00"), bytes("7900")], taken: 11 });
assert.deepEqual([parts.isOver, parts.isNull], [true, false]);
assert.deepEqual(empty.feed(bytes("FFFFFFFFFFFFFFFFD1")), { pieces: [], taken: 8 });
assert.deepEqual([empty.isOver, empty.isNull], [true, true]);
assert.equal(Columns.of(bytes("81FFFF")), null);
assert.throws(() => Columns.of(bytes("8101000000000009009904016E00")), it => it.number === 73);
console.log("places of rows, all right");
