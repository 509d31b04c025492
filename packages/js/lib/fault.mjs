// Why a call was not done, or what the peer did wrong.

const OUT_OF_RANGE = 23;
/** From this number on a call was not done. */
export const FIRST_FAULT = 20;
// The one table of what each number says; the packages for other languages have the same (tests/versions compares them).
const WORDS = {
  20: "this is no client, or no walk",
  21: "the buffer is too short",
  22: "memory, or a number, is used up",
  23: "a size, a text, a level or a kind is out of range",
  24: "less than a packet is there",
  25: "bytes stand behind the packet",
  26: "this is no place in these data",
  31: "a request is underway",
  32: "no request is going out",
  33: "the client is broken",
  34: "there is no such lease, ticket or connection",
  35: "all connections are in use",
  36: "not as the connection stands now",
  41: "a packet of a type that no packet has",
  42: "a packet that goes the other way",
  43: "a packet's length is under that of its header",
  44: "a packet is longer than the login agreed on",
  45: "a packet's status is wrong",
  46: "a packet in a message's middle has no data",
  51: "a token that the batch language hasn't",
  52: "a token is cut off at its packet's end",
  53: "a token's length is wrong",
  54: "an ENVCHANGE that the batch language hasn't",
  55: "a DONE's status is wrong",
  56: "a row of the batch language, and no columns are known",
  57: "a column that the batch language hasn't",
  61: "an answer where nothing was asked",
  62: "an answer while the request goes out",
  63: "an acknowledgement that nobody asked for",
  64: "a transaction's end or begin that can't be",
  65: "a reset that nobody asked for",
  66: "no final DONE",
  67: "tokens behind the final DONE",
  68: "data that are no tokens of the batch language",
  69: "the connection is lost",
  71: "a token that no answer has",
  72: "a row, and no columns are known",
  73: "a type that no column has",
  74: "more columns than there is room for",
  75: "the answer ended inside a token",
  76: "the request asked for a reset, and its answer tells of none",
};
const FIRST_OF_PEER = 41;

/** Why a call was not done, or what the peer did wrong: a number of mouktelf.h, from 20 on. */
export class Fault extends Error {
  constructor(number, more = "") {
    super(`fault ${number}${more}: ${WORDS[number] ?? "see mouktelf.h"}`);
    this.number = number;
  }

  /** Whether the peer broke the protocol, or is gone: close the connection. */
  get isPeer() {
    return this.number >= FIRST_OF_PEER;
  }
}

/** A byte that no answer has: `number` as mouktelf.h numbers it (71 to 74), and its place in the message. */
export class Refused extends Fault {
  constructor(number, at, byte) {
    super(number, ` at ${at}, the byte ${byte}`);
    Object.assign(this, { at, byte });
  }
}

export function done(number) {
  if (number >= FIRST_FAULT) throw new Fault(number);
  return number;
}

/** A number that a call takes: of another one nothing is called. */
export function within(number, most) {
  if (!Number.isInteger(number) || number < 0 || number > most) throw new Fault(OUT_OF_RANGE);
  return number;
}
