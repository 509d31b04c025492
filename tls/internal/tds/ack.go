package tds

import "encoding/binary"

// Tokens of a login's answer (MS-TDS 2.2.7).
const (
	tokenError         = 0xAA
	tokenInfo          = 0xAB
	tokenLoginAck      = 0xAD
	tokenEnvChange     = 0xE3
	tokenSSPI          = 0xED
	tokenDone          = 0xFD
	tokenAndLengthSize = 3
)

// An AckEditor replaces the version of TDS in the LOGINACK of a login's answer (MS-TDS 2.2.7.14). It is
// given the answer's bytes as they come, cut anywhere, and keeps none of them.
type AckEditor struct {
	from byte // the version's first byte, by which it is known
	to   [4]byte

	header int // how many bytes of the packet's header have come
	packet [HeaderSize]byte
	left   int // of the packet's data

	token  int // how many bytes of the token and its length have come
	start  [tokenAndLengthSize]byte
	place  int // in the token's body
	edits  bool
	isOver bool
}

// NewAckEditor has LOGINACK say one version in the place of another.
func NewAckEditor(version, by uint32) *AckEditor {
	e := &AckEditor{from: byte(version >> 24)}
	binary.BigEndian.PutUint32(e.to[:], by)
	return e
}

// IsOver tells whether nothing more is replaced: behind LOGINACK, and at what doesn't stand before one.
func (e *AckEditor) IsOver() bool { return e.isOver }

// Edit replaces within the answer's next bytes.
func (e *AckEditor) Edit(bytes []byte) {
	for place := range bytes {
		if e.isOver {
			return
		}
		e.take(&bytes[place])
	}
}

func (e *AckEditor) take(b *byte) {
	if e.header < HeaderSize {
		e.packet[e.header] = *b
		if e.header++; e.header == HeaderSize {
			n, err := Header(e.packet).Data()
			e.isOver = err != nil || Header(e.packet).Kind() != Answer
			if e.left = n; n == 0 {
				e.header = 0
			}
		}
		return
	}
	if e.left--; e.left == 0 {
		e.header = 0
	}
	if e.token < tokenAndLengthSize {
		e.start[e.token] = *b
		e.token++
		switch e.start[0] {
		case tokenError, tokenInfo, tokenEnvChange, tokenSSPI, tokenLoginAck:
			if e.token == tokenAndLengthSize && e.length() == 0 {
				e.token = 0
			}
		default:
			e.isOver = true
		}
		return
	}
	if e.start[0] == tokenLoginAck {
		e.ack(b)
	}
	if e.place++; e.place == e.length() {
		e.isOver = e.start[0] == tokenLoginAck
		e.token, e.place = 0, 0
	}
}

func (e *AckEditor) length() int { return int(e.start[1]) | int(e.start[2])<<8 }

// ack is a byte of LOGINACK's body: the interface, and then the version.
func (e *AckEditor) ack(b *byte) {
	if e.place == 1 {
		e.edits = *b == e.from
	}
	if 1 <= e.place && e.place <= 4 && e.edits {
		*b = e.to[e.place-1]
	}
}
