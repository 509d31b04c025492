package mouktelf

import (
	"encoding/binary"
	"unicode/utf16"
)

// Login is LOGIN7 (MS-TDS 2.2.6.4) of TDS 7.4 by this name, of up to 128 units, that asks for packets of this size, as far as
// a test server wants it. Nothing of it is proved, and a real server wants PRELOGIN before it, a password, and mostly TLS.
func Login(name string, size uint16) []byte {
	user := utf16.Encode([]rune(name))
	if len(user) > 128 {
		user = user[:128]
	}
	const fixed = 94
	end := fixed + 2*len(user)
	packet := make([]byte, 8+end)
	packet[0], packet[1], packet[6] = 0x10, 1, 1
	binary.BigEndian.PutUint16(packet[2:], uint16(8+end))
	body := packet[8:]
	binary.LittleEndian.PutUint32(body, uint32(end))
	binary.LittleEndian.PutUint32(body[4:], 0x74000004)
	binary.LittleEndian.PutUint32(body[8:], uint32(size))
	// Texts: where each begins, and how many units it has. The user's is the second, the others are empty.
	for _, field := range []int{36, 40, 44, 48, 52, 56, 60, 64, 68, 78, 82, 86} {
		begins, units := end, 0
		if field == 40 {
			begins, units = fixed, len(user)
		}
		binary.LittleEndian.PutUint16(body[field:], uint16(begins))
		binary.LittleEndian.PutUint16(body[field+2:], uint16(units))
	}
	for place, unit := range user {
		binary.LittleEndian.PutUint16(body[fixed+2*place:], unit)
	}
	return packet
}

// IsLetIn says whether the answer to a login has a LOGINACK (2.2.7.14).
func IsLetIn(packet []byte) bool {
	for at := 8; at+2 < len(packet) && packet[at] != 0xFD; at += 3 + int(packet[at+1]) + int(packet[at+2])<<8 {
		if packet[at] == 0xAD {
			return true
		}
	}
	return false
}
