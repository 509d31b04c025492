// What goes out on a connection, in the order of the calls that gave it.

/**
 * What goes out on one connection, written in the order of the calls, one piece behind the other. `write` takes bytes, and gives a
 * promise where it may wait, or nothing, as a socket of node's, which keeps what waits itself.
 *
 *     const outgoing = new Outgoing(bytes => socket.write(bytes));
 *     client.startBatch("rows 7 2");
 *     outgoing.put(client.sendAll());       // before anything else is awaited
 *     outgoing.put(client.cancel()[1]);     // at any time, of any task: behind the request, and it waits for nothing
 */
export class Outgoing {
  #write;
  #waiting = [];
  #isWriting = false;
  #drains;
  #failed = null;

  constructor(write) {
    this.#write = write;
  }

  /**
   * Puts bytes behind those that wait, and answers at once. What it gives may be awaited: they are written then. Where a write fails,
   * so do all that waited, and each later one.
   */
  put(bytes) {
    if (bytes.length) this.#waiting.push(bytes);
    if (!this.#isWriting) {
      this.#drains = this.#drain();
      // Nobody has to await it.
      this.#drains.catch(() => {});
    }
    return this.#drains;
  }

  async #drain() {
    this.#isWriting = true;
    try {
      while (this.#waiting.length && !this.#failed) await this.#write(this.#waiting.shift());
    } catch (why) {
      this.#failed = { why };
    } finally {
      this.#isWriting = false;
    }
    if (this.#failed) {
      this.#waiting = [];
      throw this.#failed.why;
    }
  }
}
