// Over a socket of node: logs in to a server of the batch language (tdsserve, also with --real), begins a transaction, is given rows,
// cancels a batch in its middle, and commits.
//
//     tdsserve 127.0.0.1:1433 & node login.mjs 1433

import { once } from "node:events";
import net from "node:net";
import { Answer, Client, Outgoing, Tells, isLetIn, login, packetsOf } from "mouktelf";

const SIZE = 4096, COLMETADATA = 0x81, ROW = 0xd1, NBCROW = 0xd2, INTN = 0x26;

/** The first value of a row, a whole number of four bytes: a walk says where rows stand, and values are yours to read (MS-TDS 2.2.7). */
function firstOf(columns, row) {
  const nulls = row[0] === ROW ? 0 : (columns.readUInt16LE(1) + 7) >> 3;
  return row.readInt32LE(1 + nulls + (columns[9] === INTN ? 1 : 0));
}

class Connection {
  client = new Client(SIZE);
  #came = new Uint8Array();
  #packets = [];

  static async open(port, name) {
    const self = new Connection();
    self.socket = net.connect(port, "127.0.0.1");
    await once(self.socket, "connect");
    // A socket of node keeps what waits, so no write of it is waited for.
    self.outgoing = new Outgoing(bytes => { self.socket.write(bytes); });
    self.pieces = self.socket[Symbol.asyncIterator]();
    self.socket.write(login(name, SIZE));
    if (!isLetIn(await self.packet())) throw new Error("the server let nobody in");
    console.log("logged in");
    return self;
  }

  async packet() {
    while (this.#packets.length === 0) {
      const { value, done } = await this.pieces.next();
      if (done) {
        this.client.lost();
        throw new Error("the server has gone");
      }
      [this.#packets, this.#came] = packetsOf(Buffer.concat([this.#came, value]), SIZE);
    }
    return this.#packets.shift();
  }

  /** Nothing is awaited between a call and its `put`. */
  send() {
    this.outgoing.put(this.client.sendAll());
  }

  /** Any task may: its bytes go out behind the request's. */
  cancel() {
    const [answer, attention] = this.client.cancel();
    this.outgoing.put(attention);
    return answer;
  }

  /** Hears packets until the request is settled, and shows what is told. */
  async hear() {
    let data = Buffer.alloc(0), columns, answer = Answer.MORE, tokens;
    while (answer === Answer.MORE) {
      const packet = await this.packet();
      data = Buffer.concat([data, packet.subarray(8)]);
      ({ answer, tokens } = this.client.hear(packet));
      for (const token of tokens) {
        const cut = ({ start, length }) => data.subarray(start, start + length), own = cut(token);
        if (token.tells === Tells.MESSAGE) console.log(token.kind === 0xab ? "info" : "error", cut(token.text).toString("utf16le"));
        else if (token.kind === COLMETADATA) columns = own;
        else if (token.kind === ROW || token.kind === NBCROW) console.log("row", firstOf(columns, own));
      }
    }
    console.log(answer === Answer.FINISHED ? "finished" : "cancelled");
  }

  tell() {
    console.log("in a transaction:", this.client.descriptor ? "yes" : "no");
  }
}

const it = await Connection.open(Number(process.argv[2] ?? 1433), "sa");
it.client.startBegin();
it.send();
await it.hear();
it.client.startBatch("set a 5;say hello;rows 7 2");
it.send();
await it.hear();
it.client.startBatch("rows 0 64;rows 0 64;rows 0 64");
it.send();
const answer = it.cancel();
if (answer !== Answer.ASKED) throw new Error(`cancel: ${answer}`);
await it.hear();
it.tell();
it.client.startCommit();
it.send();
await it.hear();
it.tell();
it.socket.end();
