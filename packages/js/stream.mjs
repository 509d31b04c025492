// Streams a table of ten types, and cancels it in the middle, as a second thread asks: tdsserve --real 127.0.0.1:1433 & node stream.mjs 1433

import { once } from "node:events";
import net from "node:net";
import { Worker } from "node:worker_threads";
import { Answer, Client, Columns, Outgoing, isLetIn, login, packetsOf } from "mouktelf";

const TABLE = "select cast(1 as bit),cast(7 as tinyint),cast(8 as smallint),cast(9 as int),cast(10 as bigint),cast(1.50 as decimal(9,2)),"
  + "cast('a' as nvarchar(9)),cast('b' as varchar(9)),cast(0x0102 as varbinary(9)),cast('2026-11-28' as date);";
const COLMETADATA = 0x81, ROW = 0xd1, NBCROW = 0xd2;

const socket = net.connect(Number(process.argv[2]), "127.0.0.1"), client = new Client(4096);
await once(socket, "connect");
const outgoing = new Outgoing(bytes => { socket.write(bytes); });

async function* allPackets() {
  let packets, rest = new Uint8Array();
  for await (const piece of socket) {
    [packets, rest] = packetsOf(Buffer.concat([rest, piece]), 4096);
    yield* packets;
  }
}

/** The rows of the answer as they come, and at last what became of it. */
async function* rows(packets) {
  for (let data = Buffer.alloc(0), columns, answer = Answer.MORE; answer === Answer.MORE;) {
    const packet = (await packets.next()).value, heard = client.hear(packet);
    data = Buffer.concat([data, packet.subarray(8)]);
    answer = heard.answer;
    for (const token of heard.tokens) {
      const own = data.subarray(token.start, token.start + token.length);
      if (token.kind === COLMETADATA) columns = Columns.of(own) ?? columns;
      if (token.kind === ROW || token.kind === NBCROW) yield columns.places(own);
    }
    if (answer !== Answer.MORE) console.log(answer === Answer.FINISHED ? "finished" : "cancelled");
  }
}

/** The second thread says by a message when to cancel; the client is this one's, and the bytes go out behind the request's. */
const second = new Worker("const { parentPort: it } = require('node:worker_threads'); it.on('message', () => it.postMessage('cancel'))", { eval: true });
second.on("message", () => outgoing.put(client.cancel()[1]));

socket.write(login("sa", 4096));
const packets = allPackets();
if (!isLetIn((await packets.next()).value)) throw new Error("the server let nobody in");
for (const [text, most] of [[TABLE.repeat(4) + "rows 0 64;".repeat(64), 3], ["rows 7 2", 9]]) {
  let count = 0;
  client.startBatch(text);
  outgoing.put(client.sendAll());
  for await (const places of rows(packets)) {
    if (++count <= most) console.log(places.map(it => it?.[1] ?? "-").join(" "));
    if (count === most) second.postMessage("rows"), await once(second, "message");
  }
}
socket.end();
await second.terminate();
