package tds

import (
	"encoding/binary"
	"fmt"
	"io"
	"unicode/utf16"
)

// The versions of TDS, as numbers (MS-TDS 2.2.6.4, 2.2.7.14). LOGIN7 has its low byte first, LOGINACK its
// high byte.
const (
	Version74 = 0x74000004
	Version8  = 0x08000000
)

const (
	versionFrom = HeaderSize + 4
	versionTo   = versionFrom + 4
)

// A Login is the beginning of a LOGIN7: its first packet, or what LoginPacketSize holds of it.
type Login struct {
	bytes []byte
	left  int // of the packet, what isn't read yet
}

// ReadLogin reads the beginning of a LOGIN7. A packet of another kind is an error.
func ReadLogin(from io.Reader) (*Login, error) {
	bytes := make([]byte, LoginPacketSize)
	if _, err := io.ReadFull(from, bytes[:HeaderSize]); err != nil {
		return nil, err
	}
	l := &Login{bytes: bytes}
	if kind := l.Header().Kind(); kind != Login7 {
		return nil, fmt.Errorf("a packet of kind 0x%02x in the place of LOGIN7", byte(kind))
	}
	n, err := l.Header().Data()
	if err != nil {
		return nil, err
	}
	if l.left = n; n > MaxMessage {
		n = MaxMessage
	}
	if _, err := io.ReadFull(from, bytes[HeaderSize:HeaderSize+n]); err != nil {
		return nil, err
	}
	l.bytes, l.left = bytes[:HeaderSize+n], l.left-n
	return l, nil
}

// Header is the packet's header.
func (l *Login) Header() Header {
	var h Header
	copy(h[:], l.bytes)
	return h
}

// Version is the version of TDS that it asks for, 0 where it is cut before.
func (l *Login) Version() uint32 {
	if len(l.bytes) < versionTo {
		return 0
	}
	return binary.LittleEndian.Uint32(l.bytes[versionFrom:])
}

// SetVersion has it ask for another version, where it isn't cut before.
func (l *Login) SetVersion(version uint32) {
	if len(l.bytes) >= versionTo {
		binary.LittleEndian.PutUint32(l.bytes[versionFrom:], version)
	}
}

// Send writes it, and copies what is left of its packet.
func (l *Login) Send(to io.Writer, from io.Reader) error {
	if _, err := to.Write(l.bytes); err != nil {
		return err
	}
	_, err := io.CopyN(to, from, int64(l.left))
	return err
}

// CopyPacket copies one packet of LOGIN7, and gives its header.
func CopyPacket(to io.Writer, from io.Reader) (Header, error) {
	l, err := ReadLogin(from)
	if err != nil {
		return Header{}, err
	}
	return l.Header(), l.Send(to, from)
}

// Refusal is the data of an answer that refuses a login of this version: ERROR and DONE (MS-TDS 2.2.7.10,
// 2.2.7.6). Of the text 400 characters count.
func Refusal(version, number uint32, text string) []byte {
	units := utf16.Encode([]rune(text))
	if len(units) > 400 {
		units = units[:400]
	}
	line, rows := 4, 8 // the sizes of the line's number and of the count of rows
	if major := version >> 24; 0x70 <= major && major < 0x72 || version <= 0x07FFFFFF {
		line, rows = 2, 4
	}
	body := binary.LittleEndian.AppendUint32(nil, number)
	body = append(body, 1, 20) // state, class
	body = appendUnits(binary.LittleEndian.AppendUint16(body, uint16(len(units))), units)
	name := utf16.Encode([]rune("tdstls"))
	body = appendUnits(append(body, byte(len(name))), name)
	body = append(body, 0) // no procedure
	body = append(body, []byte{1, 0, 0, 0}[:line]...)
	data := binary.LittleEndian.AppendUint16([]byte{tokenError}, uint16(len(body)))
	data = append(append(data, body...), tokenDone, 2, 0, 0, 0)
	return append(data, make([]byte, rows)...)
}

func appendUnits(to []byte, units []uint16) []byte {
	for _, unit := range units {
		to = binary.LittleEndian.AppendUint16(to, unit)
	}
	return to
}
