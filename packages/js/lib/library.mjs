// The modules of WebAssembly that lie beside this file, and their memory.

export const VERSION = "0.1.0";

/**
 * The calls of a module of this folder. It imports nothing, so it can reach nothing. `version` is the call that says of which
 * version it is, where it has one.
 */
export async function library(name, version) {
  const url = new URL(name, import.meta.url);
  const bytes = url.protocol === "file:"
    ? await (await import("node:fs/promises")).readFile(url)
    : await (await fetch(url)).arrayBuffer();
  const { exports } = (await WebAssembly.instantiate(bytes, {})).instance;
  const [major, minor, patch] = VERSION.split(".").map(Number);
  if (version && exports[version]() !== 10_000 * major + 100 * minor + patch)
    throw new Error(`${name} is ${exports[version]()}, and ${VERSION} is wanted`);
  const calls = { ...exports };
  // An answer is a byte; what stands above it is left from elsewhere.
  for (const call of Object.keys(exports).filter(it => it.startsWith("tds_"))) calls[call] = (...words) => exports[call](...words) & 0xff;
  return calls;
}

/** Bytes of a module's memory. One part is lent to each call anew; a value that lives longer has room of its own. */
export class Memory {
  #exports;
  #at = 0;
  #size = 0;
  #values;

  constructor(exports) {
    this.#exports = exports;
    this.#values = new FinalizationRegistry(at => exports.free_room(BigInt(at)));
  }

  /** The address of so many bytes, up to the next call of it. */
  lend(size) {
    if (size > this.#size) {
      if (this.#size) this.#exports.free_room(BigInt(this.#at));
      this.#size = 0;
      this.#at = this.#room(Math.max(size, 1 << 14));
      this.#size = Math.max(size, 1 << 14);
    }
    return this.#at;
  }

  /** The address of so many bytes, all 0, which are free again where nobody has `owner`. */
  keep(owner, size) {
    const at = this.#room(size);
    this.bytes(at, size).fill(0);
    this.#values.register(owner, at);
    return at;
  }

  #room(size) {
    const at = Number(this.#exports.room(BigInt(size)));
    if (!at) throw new RangeError("memory");
    return at;
  }

  bytes(at, length) {
    return new Uint8Array(this.#exports.memory.buffer, at, length);
  }

  /** A copy, which no later call changes. */
  copy(at, length) {
    return this.bytes(at, length).slice();
  }

  view() {
    return new DataView(this.#exports.memory.buffer);
  }

  count(at) {
    return Number(this.view().getBigUint64(at, true));
  }

  setCount(at, value) {
    this.view().setBigUint64(at, BigInt(value), true);
  }
}
