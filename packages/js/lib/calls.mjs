// The calls of the client's and the table's module, and their memory.

import { Memory, library } from "./library.mjs";

export const calls = await library("mouktelf.wasm", "mouktelf_version");
export const memory = new Memory(calls);
