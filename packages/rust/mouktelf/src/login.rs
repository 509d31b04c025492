//! LOGIN7 (MS-TDS 2.2.6.4), as far as a test server wants it. Nothing of it is proved, and a real server wants more:
//! PRELOGIN before it, a password, and mostly TLS.

/// The bytes of LOGIN7 before its texts.
const FIXED: u16 = 94;

/// The places of where each text begins; the user's is the second.
const TEXTS: [usize; 12] = [36, 40, 44, 48, 52, 56, 60, 64, 68, 78, 82, 86];

/// A login of TDS 7.4 by this name, of up to 128 units, that asks for packets of this size.
pub fn login(name: &str, size: u16) -> Vec<u8> {
    let user: Vec<u16> = name.encode_utf16().take(128).collect();
    let end = FIXED + 2 * user.len() as u16;
    let mut body = vec![0; usize::from(FIXED)];
    body[..2].copy_from_slice(&end.to_le_bytes());
    body[4..8].copy_from_slice(&0x7400_0004_u32.to_le_bytes());
    body[8..10].copy_from_slice(&size.to_le_bytes());
    for place in TEXTS {
        let (begins, units) = if place == 40 { (FIXED, user.len() as u16) } else { (end, 0) };
        body[place..place + 2].copy_from_slice(&begins.to_le_bytes());
        body[place + 2..place + 4].copy_from_slice(&units.to_le_bytes());
    }
    let mut packet = vec![0x10, 1];
    packet.extend((8 + end).to_be_bytes());
    packet.extend([0, 0, 1, 0]);
    packet.extend(body);
    packet.extend(user.iter().flat_map(|unit| unit.to_le_bytes()));
    packet
}

/// Whether the answer to a login has a LOGINACK (2.2.7.14).
pub fn is_let_in(packet: &[u8]) -> bool {
    let mut at = 8;
    while at + 2 < packet.len() && packet[at] != 0xFD {
        if packet[at] == 0xAD {
            return true;
        }
        at += 3 + usize::from(u16::from_le_bytes([packet[at + 1], packet[at + 2]]));
    }
    false
}
