// Schedules of pooled sessions: a text in, its report out.

import { Memory, library } from "./library.mjs";

const calls = await library("mouktelf_play.wasm", "mouktelf_play_version").catch(why => {
  if (why.code !== "ENOENT") throw why;
  throw new Error("mouktelf_play.wasm, the player's module, isn't in a clone: a release's packages/js has it, and the program tdsplay plays");
});
const memory = new Memory(calls);
const PLAYED = 0, NO_ROOM = 2, COUNT = 8;

/** The line that says why a schedule isn't played, as `error: schedule 3`. */
export class NotPlayed extends Error {}

/** The report's text of a schedule: a file's text or bytes, or what stands for its JSON. */
export function play(schedule) {
  const isText = typeof schedule === "string";
  const text = schedule instanceof Uint8Array ? schedule : new TextEncoder().encode(isText ? schedule : JSON.stringify(schedule));
  for (let room = 1 << 16; ;) {
    const at = memory.lend(COUNT + text.length + room), out = at + COUNT + text.length;
    memory.bytes(at + COUNT, text.length).set(text);
    const status = calls.tds_play(BigInt(at + COUNT), BigInt(text.length), BigInt(out), BigInt(room), BigInt(at));
    const count = memory.count(at);
    if (status === NO_ROOM) {
      room = count;
      continue;
    }
    const said = new TextDecoder().decode(memory.bytes(out, count));
    if (status !== PLAYED) throw new NotPlayed(said.trimEnd());
    return said;
  }
}
