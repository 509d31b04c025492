// An answer of 600 rows of one INTN in a packet, heard in one call, by a client and by a table, and where its values stand: microseconds
// of a processor a row, the fewest of 7 runs.

import { Client, Columns, Service } from "mouktelf";

const ROWS = 600, TIMES = 200;
const PACKET = Uint8Array.from(Buffer.from("04010E33000001008101000000000009002604016E00" + "D10407000000".repeat(ROWS) + "FD1000C1000100000000000000", "hex"));

const spent = () => {
  const { user, system } = process.cpuUsage();
  return user + system;
};
function fewest(what, once) {
  let best = Infinity, count;
  for (let run = 0; run < 7; run++) {
    const begun = spent();
    for (let turn = 0; turn < TIMES; turn++) count = once();
    best = Math.min(best, (spent() - begun) / TIMES / ROWS);
  }
  process.stdout.write(`${best.toFixed(3)} microseconds a row, ${count} ${what}; `);
}

const client = new Client(4096), service = new Service(1, 4096), { lease, number } = service.lease();
fewest("tokens heard by a client", () => {
  client.startBatch("a");
  client.send();
  return client.hear(PACKET).tokens.length;
});
fewest("by a client that tells nothing", () => {
  client.startBatch("a");
  client.send();
  client.follow(PACKET);
  return 0;
});
fewest("by a table", () => {
  service.askBatch(lease, "a");
  return service.hear(number, PACKET).tokens.length;
});
const columns = Columns.of(PACKET.subarray(8)), first = 22, size = 6;
fewest("places alone", () => {
  let count = 0;
  for (let at = first; count < ROWS; at += size) count += columns.places(PACKET.subarray(at, at + size)).length;
  return count;
});
fewest("places in one call", () => columns.placesOfRows(PACKET.subarray(first)).rows.length);
console.log();
