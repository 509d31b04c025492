// LOGIN7 (MS-TDS 2.2.6.4), as far as a test server wants it. Nothing of it is proved, and a real server wants more:
// PRELOGIN before it, a password, and mostly TLS.

const FIXED = 94, OFFSETS = [36, 40, 44, 48, 52, 56, 60, 64, 68, 78, 82, 86], USER = 40;

/** A login of TDS 7.4 by this name, of up to 128 units, that asks for packets of this size. */
export function login(name, size = 4096) {
  const user = name.slice(0, 128), end = FIXED + 2 * user.length, packet = new Uint8Array(8 + end);
  packet.set([0x10, 1, (8 + end) >> 8, (8 + end) & 255, 0, 0, 1, 0]);
  const body = new DataView(packet.buffer, 8);
  [end, 0x74000004, size].forEach((number, place) => body.setUint32(4 * place, number, true));
  // Texts: where each begins, and how many units it has. The user's is the second, the others are empty.
  for (const at of OFFSETS) {
    body.setUint16(at, at === USER ? FIXED : end, true);
    body.setUint16(at + 2, at === USER ? user.length : 0, true);
  }
  for (let place = 0; place < user.length; place++) body.setUint16(FIXED + 2 * place, user.charCodeAt(place), true);
  return packet;
}

/** Whether the answer to a login has a LOGINACK (2.2.7.14). */
export function isLetIn(packet) {
  for (let at = 8; at + 2 < packet.length && packet[at] !== 0xfd; at += 3 + (packet[at + 1] | packet[at + 2] << 8))
    if (packet[at] === 0xad) return true;
  return false;
}
