// The client's end of a connection that speaks the Tabular Data Stream (MS-TDS), and a table of connections that callers share,
// over a module that is compiled from proved source. It does no input or output: bytes go in, bytes and tokens come out, and the
// socket is yours.

export { Answer, Client, MessageKind, Reset, Stage, packetsOf } from "./client.mjs";
export { Fault, Refused } from "./fault.mjs";
export { VERSION } from "./library.mjs";
export { isLetIn, login } from "./login.mjs";
export { Outgoing } from "./outgoing.mjs";
export { Columns, Parts } from "./rows.mjs";
export { Rest, Service } from "./service.mjs";
export { StrictClient } from "./strict.mjs";
export { Tells, Walk } from "./wire.mjs";
