"""What stands in the printed Go file before its functions: the machine, and its memory."""

# So many bytes are read, copied or cleared at once by one instruction or few.
SLACK = 128

FIRST = """// Code that is printed; DO NOT EDIT. It is Go made from proved source, and no Go that is proved.

package {package}

import (
{imports}
)

const (
	imageSize = {size}
	stackAt   = (imageSize + 15) &^ 15
	stackSize = {stack}
	slack     = {slack}
	// Whether a number lies in memory low byte first, wherever it begins.
	isPlain = runtime.GOARCH == "amd64" || runtime.GOARCH == "arm64"
)

// The constants, as they lie in memory from address 0 on.
const image = "{image}"

var _ = bits.OnesCount
"""

HELPERS = """// A machine is the memory of one call: the constants, a stack, and what is lent to the call. Behind its end lie so many bytes as are
// read or written at once, so that of an address its first byte alone is looked at.
type machine struct {
	b  []byte
	sp uint64
}

func newMachine() *machine {
	m := &machine{make([]byte, stackAt+stackSize, stackAt+stackSize+1<<16), stackAt}
	copy(m.b, image)
	return m
}

// begin takes back all that was lent.
func (m *machine) begin() { m.b, m.sp = m.b[:stackAt+stackSize], stackAt }

// hand lends bytes to the call, and says where they lie.
func (m *machine) hand(bytes []byte) uint64 {
	at := m.space(len(bytes))
	copy(m.b[at:], bytes)
	return at
}

// space lends so many bytes, whatever they are.
func (m *machine) space(size int) uint64 {
	at := (len(m.b) + 15) &^ 15
	wanted := at + size
	if wanted+slack > cap(m.b) {
		m.b = append(make([]byte, 0, 2*wanted+slack), m.b...)
	}
	m.b = m.b[:wanted]
	return uint64(at)
}

// room lends so many bytes, all of them 0.
func (m *machine) room(size int) uint64 {
	at := m.space(size)
	lent := m.b[at:]
	for k := range lent {
		lent[k] = 0
	}
	return at
}

// wrote are bytes that a call wrote, as many as it says: none where it says that there is no room.
func (m *machine) wrote(at, count, room uint64) []byte {
	if count > room {
		return nil
	}
	return m.b[at : at+count]
}

func (m *machine) read8(p uint64) uint8     { return m.b[p] }
func (m *machine) write8(p uint64, v uint8) { m.b[p] = v }

func (m *machine) read16(p uint64) uint16 {
	if isPlain {
		return *(*uint16)(unsafe.Pointer(&m.b[p]))
	}
	return binary.LittleEndian.Uint16(m.b[p:])
}

func (m *machine) write16(p uint64, v uint16) {
	if isPlain {
		*(*uint16)(unsafe.Pointer(&m.b[p])) = v
		return
	}
	binary.LittleEndian.PutUint16(m.b[p:], v)
}

func (m *machine) read32(p uint64) uint32 {
	if isPlain {
		return *(*uint32)(unsafe.Pointer(&m.b[p]))
	}
	return binary.LittleEndian.Uint32(m.b[p:])
}

func (m *machine) write32(p uint64, v uint32) {
	if isPlain {
		*(*uint32)(unsafe.Pointer(&m.b[p])) = v
		return
	}
	binary.LittleEndian.PutUint32(m.b[p:], v)
}

func (m *machine) read64(p uint64) uint64 {
	if isPlain {
		return *(*uint64)(unsafe.Pointer(&m.b[p]))
	}
	return binary.LittleEndian.Uint64(m.b[p:])
}

func (m *machine) write64(p uint64, v uint64) {
	if isPlain {
		*(*uint64)(unsafe.Pointer(&m.b[p])) = v
		return
	}
	binary.LittleEndian.PutUint64(m.b[p:], v)
}

// A number of 3, 5, 6 or 7 bytes.
func (m *machine) readOdd(p uint64, size int) (v uint64) {
	for k := size - 1; k >= 0; k-- {
		v = v<<8 | uint64(m.b[p+uint64(k)])
	}
	return v
}

func (m *machine) writeOdd(p uint64, v uint64, size int) {
	for k := 0; k < size; k++ {
		m.b[p+uint64(k)] = byte(v >> (8 * k))
	}
}

func (m *machine) move(to, from, size uint64) {
	if size > 0 {
		copy(m.b[to:to+size], m.b[from:from+size])
	}
}

func (m *machine) fill(to uint64, value uint8, size uint64) {
	filled := m.b[to : to+size]
	if value == 0 {
		// Go clears in one go.
		for k := range filled {
			filled[k] = 0
		}
		return
	}
	for k := range filled {
		filled[k] = value
	}
}

func (m *machine) compare(a, b, size uint64) uint32 {
	if size == 0 {
		return 0
	}
	return uint32(bytes.Compare(m.b[a:a+size], m.b[b:b+size]))
}

func bit(is bool) uint8 {
	if is {
		return 1
	}
	return 0
}

type number interface {
	uint8 | uint16 | uint32 | uint64 | int8 | int16 | int32 | int64
}

func least[T number](a, b T) T {
	if a < b {
		return a
	}
	return b
}

func most[T number](a, b T) T {
	if a > b {
		return a
	}
	return b
}
"""
