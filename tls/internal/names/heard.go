package names

import (
	"encoding/binary"
	"net"
	"sync"
	"time"
)

// heard are the times to live in the answers of servers of names (RFC 1035), the shortest one.
type heard struct {
	lock  sync.Mutex
	found bool
	least uint32
}

// life is the shortest one; where there was none, Default.
func (h *heard) life() time.Duration {
	h.lock.Lock()
	defer h.lock.Unlock()
	if !h.found {
		return Default
	}
	return time.Duration(h.least) * time.Second
}

func (h *heard) add(life uint32) {
	h.lock.Lock()
	defer h.lock.Unlock()
	if !h.found || life < h.least {
		h.found, h.least = true, life
	}
}

// hear gives a connection that hears what is read of it: over UDP a read is a message, over TCP each has its length in
// front. It stays a net.PacketConn where it is one, since Go's resolver tells the two apart by that.
func (h *heard) hear(link net.Conn) net.Conn {
	if packets, isPackets := link.(net.PacketConn); isPackets {
		return &overUDP{Conn: link, PacketConn: packets, heard: h}
	}
	return &overTCP{Conn: link, heard: h}
}

type overUDP struct {
	net.Conn
	net.PacketConn
	heard *heard
}

func (u *overUDP) Read(to []byte) (int, error) {
	count, err := u.Conn.Read(to)
	u.heard.message(to[:count])
	return count, err
}

func (u *overUDP) Close() error                        { return u.Conn.Close() }
func (u *overUDP) LocalAddr() net.Addr                 { return u.Conn.LocalAddr() }
func (u *overUDP) SetDeadline(at time.Time) error      { return u.Conn.SetDeadline(at) }
func (u *overUDP) SetReadDeadline(at time.Time) error  { return u.Conn.SetReadDeadline(at) }
func (u *overUDP) SetWriteDeadline(at time.Time) error { return u.Conn.SetWriteDeadline(at) }

type overTCP struct {
	net.Conn
	heard *heard
	kept  []byte
}

func (t *overTCP) Read(to []byte) (int, error) {
	count, err := t.Conn.Read(to)
	t.kept = append(t.kept, to[:count]...)
	for len(t.kept) >= 2 {
		end := 2 + int(binary.BigEndian.Uint16(t.kept))
		if len(t.kept) < end {
			break
		}
		t.heard.message(t.kept[2:end])
		t.kept = t.kept[end:]
	}
	return count, err
}

// message hears an answer: a header of 12 bytes, questions, and records, each a name, a type, a class, a time to live
// and data. What is cut off counts as far as it goes. Of records addresses and other names count (types 1, 28 and 5).
func (h *heard) message(m []byte) {
	if len(m) < 12 {
		return
	}
	at := 12
	for left := binary.BigEndian.Uint16(m[4:]); left > 0; left-- {
		if at = behindName(m, at); at < 0 {
			return
		}
		at += 4
	}
	for left := binary.BigEndian.Uint16(m[6:]); left > 0; left-- {
		if at = behindName(m, at); at < 0 || at+10 > len(m) {
			return
		}
		switch binary.BigEndian.Uint16(m[at:]) {
		case 1, 5, 28:
			h.add(binary.BigEndian.Uint32(m[at+4:]))
		}
		at += 10 + int(binary.BigEndian.Uint16(m[at+8:]))
	}
}

// behindName is the place behind a name, -1 where the message ends in it.
func behindName(m []byte, at int) int {
	for at < len(m) {
		switch length := int(m[at]); {
		case length == 0:
			return at + 1
		case length >= 0xc0:
			return at + 2
		default:
			at += 1 + length
		}
	}
	return -1
}
