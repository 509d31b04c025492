package tds

import (
	"errors"
	"fmt"
	"io"
	"net"
)

// A Stage is how a Conn carries what TLS reads and writes.
type Stage int

const (
	// Plain carries bytes as they are.
	Plain Stage = iota
	// Wrapped carries them in PRELOGIN packets: the handshake of TDS 7.
	Wrapped
	// Records carries them as they are, and gives a reader at most the end of one TLS record. So nothing
	// behind a record is taken before its reader asks for more: clear bytes may follow.
	Records
)

const (
	recordHeader   = 5
	maxRecord      = 16384 + 2048
	firstRecord    = 0x14 // change_cipher_spec
	alertRecord    = 0x15
	handshakeStart = 0x16 // handshake: what a TLS connection begins with
	lastRecord     = 0x17 // application_data
)

// A Socket is one of TCP or of the system's own (Unix).
type Socket interface {
	net.Conn
	CloseWrite() error
}

// A Conn is a socket below TLS. It reads ahead one byte at most, and only where it is asked to (Peek).
type Conn struct {
	net.Conn // without the socket's shortcuts around Read and Write
	socket   Socket
	stage    Stage  // of reading
	wraps    bool   // of writing
	ahead    []byte // read from the socket, not yet looked at
	head     []byte // of a record's header, what its reader hasn't got
	left     int    // of the packet or record underway, what its reader hasn't got
	number   byte
}

// NewConn puts a Conn on a socket.
func NewConn(socket Socket) *Conn { return &Conn{Conn: socket, socket: socket} }

// CloseWrite tells the peer that nothing more comes.
func (c *Conn) CloseWrite() error { return c.socket.CloseWrite() }

// Abort closes the socket at once; a peer that still sends is reset.
func (c *Conn) Abort() {
	if tcp, is := c.socket.(*net.TCPConn); is {
		tcp.SetLinger(0)
	}
	c.socket.Close()
}

// IsTLS tells whether a TLS connection begins with this byte.
func IsTLS(first byte) bool { return first == handshakeStart }

// IsRecord tells whether this byte begins a TLS record. None begins a packet of TDS.
func IsRecord(first byte) bool { return firstRecord <= first && first <= lastRecord }

// Peek is the next byte of the socket, which stays to be read.
func (c *Conn) Peek() (byte, error) {
	if len(c.ahead) == 0 {
		var one [1]byte
		if _, err := io.ReadFull(c.socket, one[:]); err != nil {
			return 0, err
		}
		c.ahead = one[:]
	}
	return c.ahead[0], nil
}

// SetStage changes how bytes are carried. In the middle of a packet or of a record it is an error. Where
// it is called by the reader while another goroutine writes, neither the old nor the new stage is Wrapped.
func (c *Conn) SetStage(stage Stage) error {
	if c.left > 0 || len(c.head) > 0 {
		return errors.New("bytes behind the end of a TLS message")
	}
	c.stage = stage
	if wraps := stage == Wrapped; wraps != c.wraps { // so that a writer's field isn't written for nothing
		c.wraps = wraps
	}
	return nil
}

// socketReader reads what was peeked at, and then the socket.
type socketReader struct{ c *Conn }

func (r socketReader) Read(p []byte) (int, error) {
	if len(r.c.ahead) > 0 {
		n := copy(p, r.c.ahead)
		r.c.ahead = r.c.ahead[n:]
		return n, nil
	}
	return r.c.socket.Read(p)
}

// Read reads what the stage carries.
func (c *Conn) Read(p []byte) (int, error) {
	var err error
	switch {
	case len(p) == 0:
		return 0, nil
	case c.stage == Plain:
		return socketReader{c}.Read(p)
	case len(c.head) > 0:
		n := copy(p, c.head)
		c.head = c.head[n:]
		return n, nil
	case c.left == 0 && c.stage == Wrapped:
		err = c.nextPacket()
	case c.left == 0:
		if err = c.nextRecord(); err == nil {
			return c.Read(p)
		}
	}
	if err != nil {
		return 0, err
	}
	if len(p) > c.left {
		p = p[:c.left]
	}
	n, err := socketReader{c}.Read(p)
	c.left -= n
	if err == io.EOF {
		err = io.ErrUnexpectedEOF
	}
	return n, err
}

// nextPacket reads a PRELOGIN packet's header.
func (c *Conn) nextPacket() error {
	h, err := ReadHeader(socketReader{c})
	if err != nil {
		return err
	}
	if h.Kind() != Prelogin {
		return fmt.Errorf("a packet of kind 0x%02x within the TLS handshake", byte(h.Kind()))
	}
	n, err := h.Data()
	if err != nil {
		return err
	}
	if n == 0 {
		return errors.New("an empty packet within the TLS handshake")
	}
	c.left = n
	return nil
}

// nextRecord reads a record's header.
func (c *Conn) nextRecord() error {
	head := make([]byte, recordHeader)
	if _, err := io.ReadFull(socketReader{c}, head); err != nil {
		return err
	}
	n := int(head[3])<<8 | int(head[4])
	if !IsRecord(head[0]) || n > maxRecord {
		return errors.New("no TLS record where one was awaited")
	}
	c.head, c.left = head, n
	return nil
}

// SkipAlert reads a TLS alert where one comes next, and drops it: some clients say goodbye to a TLS that
// was for the login alone.
func (c *Conn) SkipAlert() error {
	first, err := c.Peek()
	if err != nil || first != alertRecord {
		return err
	}
	if err := c.nextRecord(); err != nil {
		return err
	}
	_, err = io.CopyN(io.Discard, socketReader{c}, int64(c.left))
	c.head, c.left = nil, 0
	return err
}

// Write writes as the stage carries: in the stage Wrapped in packets of at most LoginPacketSize, all in
// one call.
func (c *Conn) Write(p []byte) (int, error) {
	if !c.wraps {
		return c.socket.Write(p)
	}
	out := make([]byte, 0, len(p)+HeaderSize*(len(p)/MaxMessage+1))
	for rest := p; len(rest) > 0; {
		n := len(rest)
		if n > MaxMessage {
			n = MaxMessage
		}
		c.number++
		h := MakeHeader(Prelogin, n == len(rest), n, c.number)
		out = append(append(out, h[:]...), rest[:n]...)
		rest = rest[n:]
	}
	if _, err := c.socket.Write(out); err != nil {
		return 0, err
	}
	return len(p), nil
}
