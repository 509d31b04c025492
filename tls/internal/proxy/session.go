package proxy

import (
	"crypto/tls"
	"errors"
	"io"
	"net"
	"os"
	"sync"
	"sync/atomic"
	"time"

	"tdstls/internal/tds"
)

// A side is one of a session's two ends: a socket, and the TLS on it where there is one.
type side struct {
	conn *tds.Conn
	tls  *tls.Conn // nil where what follows the login is clear
	// before is done by the side's reader before all else.
	before func() error
}

func (s *side) stream() io.ReadWriter {
	if s.tls != nil {
		return s.tls
	}
	return s.conn
}

func (s *side) closeWrite() {
	if s.tls != nil {
		s.tls.CloseWrite()
	}
	s.conn.CloseWrite()
}

// A session is a connection that was accepted (near) and the one that was made for it (far).
type session struct {
	proxy    *Proxy
	number   uint64
	from     string
	deadline time.Time
	what     string // of the log's line

	loginOnly bool  // a Client's: what follows the login's first packet is clear
	down      error // a Server's: why its clear server can't be had

	carried  atomic.Int64 // when bytes were last carried, in the clock's nanoseconds; 0 before the login
	isEnding atomic.Bool  // one of its sides has ended

	mutex   sync.Mutex // of what abort may meet
	near    side
	far     side
	aborted bool
	why     string
}

func (s *session) run() {
	defer s.proxy.forget(s)
	started := time.Now()
	s.near.conn.SetDeadline(s.deadline)
	// A goroutine of its own, whose stack has grown by the handshake, ends with it.
	opened := make(chan error)
	go func() { opened <- s.proxy.Mode.open(s) }()
	if err := <-opened; err != nil {
		s.near.conn.Close()
		if s.far.conn != nil {
			s.far.conn.Close()
		}
		s.proxy.Log.Printf("%d refused from=%s %swhy=%q", s.number, s.from, s.what, explain(err))
		return
	}
	s.carried.Store(time.Now().UnixNano())
	s.near.conn.SetDeadline(time.Time{})
	s.far.conn.SetDeadline(time.Time{})
	s.proxy.Log.Printf("%d open from=%s at=%s via=%s to=%s %sms=%d", s.number, s.from, told(s.near.conn.LocalAddr()),
		told(s.far.conn.LocalAddr()), told(s.far.conn.RemoteAddr()), s.what, time.Since(started).Milliseconds())
	s.what = ""
	var up, down int64
	upEnded := make(chan struct{})
	go func() {
		defer close(upEnded)
		up = s.oneWay(&s.far, &s.near, "near")
	}()
	down = s.oneWay(&s.near, &s.far, "far")
	<-upEnded
	s.near.conn.Close()
	s.far.conn.Close()
	s.proxy.Log.Printf("%d end from=%s up=%d down=%d s=%.1f why=%q",
		s.number, s.from, up, down, time.Since(started).Seconds(), s.why)
}

// dial makes the far connection.
func (s *session) dial() error {
	socket, err := s.proxy.Forward.connect(net.Dialer{Deadline: s.deadline}, s.proxy.ForwardIsLocal)
	if err != nil {
		return err
	}
	s.mutex.Lock()
	defer s.mutex.Unlock()
	s.far.conn = tds.NewConn(socket)
	if s.aborted {
		socket.Close()
	}
	if err := s.far.conn.SetDeadline(s.deadline); err != nil || !s.proxy.TellsClient {
		return err
	}
	_, err = socket.Write(headerFor(s.near.conn.RemoteAddr(), s.near.conn.LocalAddr()))
	return err
}

// oneWay carries what one side sends to the other, and its end, and gives how many bytes. Where either
// fails, both are cut.
func (s *session) oneWay(to, from *side, name string) int64 {
	var err error
	if before := from.before; before != nil {
		from.before = nil // with what it keeps
		err = before()
	}
	var count int64
	if err == nil {
		count, err = s.pump(to.stream(), from.stream())
	}
	if err == nil || err == io.EOF {
		s.note(name + " closed")
		s.carried.Store(time.Now().UnixNano())
		s.isEnding.Store(true)
		to.closeWrite()
		if to == &s.near {
			s.near.conn.SetReadDeadline(time.Now().Add(s.proxy.Limits.Linger))
		}
		return count
	}
	s.cut(name + ": " + explain(err))
	return count
}

// isSilent tells whether nothing was carried for too long.
func (s *session) isSilent(now time.Time) bool {
	carried, limit := s.carried.Load(), s.proxy.Limits.Silence
	if s.isEnding.Load() {
		limit = s.proxy.Limits.Linger
	}
	return carried != 0 && limit > 0 && now.UnixNano()-carried > int64(limit)
}

// note keeps the first reason for the session's end.
func (s *session) note(why string) {
	s.mutex.Lock()
	defer s.mutex.Unlock()
	if s.why == "" {
		s.why = why
	}
}

// cut cuts both connections.
func (s *session) cut(why string) {
	s.note(why)
	s.mutex.Lock()
	defer s.mutex.Unlock()
	s.aborted = true
	s.near.conn.Abort()
	if s.far.conn != nil {
		s.far.conn.Abort()
	}
}

// refuse answers a login by an error that its driver shows. What the driver still sends is dropped for a
// moment, so that the answer isn't lost by a reset.
func (s *session) refuse(login *tds.Login, from io.Reader, to io.Writer, number uint32, text string) {
	if tds.WriteMessage(to, tds.Answer, tds.Refusal(login.Version(), number, text)) != nil {
		return
	}
	if inside, is := to.(*tls.Conn); is {
		inside.CloseWrite()
	}
	s.near.conn.CloseWrite()
	s.near.conn.SetReadDeadline(time.Now().Add(time.Second))
	io.CopyN(io.Discard, from, 1<<16)
}

// extend gives the driver a moment more than the time limit, once, to be told why it isn't served.
func (s *session) extend() {
	if least := time.Now().Add(time.Second); s.deadline.Before(least) {
		s.near.conn.SetDeadline(least)
	}
}

// refuseNext reads a login and refuses it.
func (s *session) refuseNext(from io.Reader, to io.Writer, number uint32, text string) {
	if login, err := tds.ReadLogin(from); err == nil {
		s.refuse(login, from, to, number, text)
	}
}

func explain(err error) string {
	switch {
	case errors.Is(err, os.ErrDeadlineExceeded):
		return "time limit"
	case errors.Is(err, io.EOF), errors.Is(err, io.ErrUnexpectedEOF):
		return "closed early"
	}
	text := err.Error()
	if len(text) > 300 {
		text = text[:300]
	}
	return text
}

const (
	smallBuffer = 2 << 10
	largeBuffer = 32 << 10
)

// largeBuffers lie here between two uses. A connection that is idle has a small one alone.
var largeBuffers = sync.Pool{New: func() any { return new([largeBuffer]byte) }}

// pump carries bytes until their end, and gives how many. It reads no more before all was written: so a
// slow peer slows the other one down.
func (s *session) pump(to io.Writer, from io.Reader) (count int64, err error) {
	small := make([]byte, smallBuffer)
	buf := small
	var large *[largeBuffer]byte
	defer func() {
		if large != nil {
			largeBuffers.Put(large)
		}
	}()
	for {
		n, err := from.Read(buf)
		if n > 0 {
			s.carried.Store(time.Now().UnixNano())
			if _, err := to.Write(buf[:n]); err != nil {
				return count, err
			}
			count += int64(n)
		}
		switch {
		case err == io.EOF:
			return count, nil
		case err != nil:
			return count, err
		case large == nil && n == len(small):
			large = largeBuffers.Get().(*[largeBuffer]byte)
			buf = large[:]
		case large != nil && n < len(small):
			largeBuffers.Put(large)
			large, buf = nil, small
		}
	}
}

// editAck carries a login's answer up to its LOGINACK, in which one version takes the place of another.
func (s *session) editAck(version, by uint32) error {
	to, from, buf := s.near.stream(), s.far.stream(), make([]byte, tds.LoginPacketSize)
	for editor := tds.NewAckEditor(version, by); !editor.IsOver(); {
		n, err := from.Read(buf)
		editor.Edit(buf[:n])
		if _, err := to.Write(buf[:n]); err != nil {
			return err
		}
		if err != nil {
			return err
		}
	}
	return nil
}
