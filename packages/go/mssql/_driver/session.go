package mssql

import (
	"bytes"
	"context"
	"database/sql/driver"
	"errors"
	"fmt"
	"io"
	"sync"
	"syscall"
	"time"

	tds "mouktelf"
)

// session is all of a connection that is logged in, asked of the proved client: whether a request is underway, which packets,
// headers and resets go out, which transaction is open, where each token of an answer ends, which are told, and where a cancel has
// ended. The driver spells requests, and reads the tokens that are told.
type session struct {
	lock        sync.Mutex // of the client and of what stands below it: a cancel comes from another goroutine than the one that reads
	client      *tds.Client
	requests    uint64 // how many were asked
	isAnswering bool   // an answer is given on: its caller has all of it once that is over
	isTold      bool   // what comes is told: no cancel went out
	open        uint64 // the transaction that its caller knows of: at a begin, and at the cancel of any other request
	cancelAt    time.Time

	asked  chan answer // to what hears the answers: one at a time is asked
	isOver bool        // the connection is closed

	outgoing *tds.Outgoing
	raw      syscall.RawConn // the socket, where the system lets one look
	from     io.ReadWriter   // the socket, or TLS over it
	size     uint16
	patience time.Duration // of each read and write, and of a cancel's acknowledgement

	kind       packetType // of the newest request
	next       packetType // of the message that the driver writes, where nothing of it is put yet; else none
	refused    error      // why the message that is being written wasn't begun
	isHalfSent bool       // a message was begun, and isn't finished

	came   []byte // of what came, the beginning of a packet
	kept   []byte // of a message, the bytes behind the token that was told last, of which before lie in front
	before uint64
	told   []tds.Walked
	token  bytes.Reader // the token that the driver reads
}

// errNotification is what a query notification is told: the client writes no header for it.
var errNotification = errors.New("mssql: a query notification has a header that the client doesn't write")

const (
	// notIdle says that a request is underway: TDS_NOT_IDLE of mouktelf.h.
	notIdle = tds.Fault(31)
	// atOnce is how much is read at once.
	atOnce = 1 << 16
)

func newSession(buf *tdsBuffer, conn *timeoutConn) (*session, error) {
	client, err := tds.New(uint16(buf.PackageSize()))
	s := &session{client: client, from: buf.transport, size: uint16(buf.PackageSize()), patience: conn.timeout}
	if it, is := conn.c.(syscall.Conn); is {
		s.raw, _ = it.SyscallConn()
	}
	s.outgoing = tds.NewOutgoing(buf.transport, &s.lock)
	s.came = make([]byte, 0, atOnce)
	s.asked = make(chan answer, 1)
	if err == nil {
		go s.answersAll()
	}
	return s, err
}

// asks does one thing with the client, and sends what is to go out, in the order of the calls. No lock is held while it is written:
// no cancel waits behind a write that stalls.
func (s *session) asks(what func(client *tds.Client, out *[]byte) error) (err error) {
	failed := s.outgoing.Do(func(out *[]byte) error {
		err = what(s.client, out)
		return nil
	})
	if failed != nil {
		return s.lost(failed)
	}
	return err
}

// looks asks the client something that sends nothing.
func (s *session) looks(what func(client *tds.Client)) {
	s.lock.Lock()
	defer s.lock.Unlock()
	what(s.client)
}

// start begins a message, whose headers the client writes: with its first part.
func (s *session) start(kind packetType) {
	s.next, s.refused = kind, nil
}

// begun begins a request in a call of the client, which `start` makes.
func (s *session) begun(kind packetType, client *tds.Client, start func() error) error {
	if err := start(); err != nil {
		return err
	}
	if len(s.came) > 0 {
		client.Lost()
		return errors.New("mssql: a part of a packet has come where nothing was asked")
	}
	s.kind, s.isTold, s.open, s.cancelAt = kind, true, client.Descriptor(), time.Time{}
	s.requests++
	return nil
}

// put sends a part of the message.
func (s *session) put(part []byte, isLast bool) error {
	if s.refused != nil {
		return s.refused
	}
	err := s.asks(func(client *tds.Client, out *[]byte) error {
		if kind := s.next; kind != 0 {
			s.next = 0
			s.refused = s.begun(kind, client, func() error {
				if s.isAnswering {
					return notIdle
				}
				return client.StartMessage(uint8(kind))
			})
			if s.refused != nil {
				return s.refused
			}
			s.isHalfSent = true
		}
		err := client.Put(part, out)
		if err == nil && isLast {
			err = client.Finish(out)
		}
		return err
	})
	s.isHalfSent = s.isHalfSent && !(isLast && err == nil)
	return err
}

// notSent is what the caller is told where a request isn't out, so that no server does it: that another one is underway, or that
// the connection is bad. Behind the latter database/sql asks again, on another one.
func notSent(err error) error {
	if errors.Is(err, notIdle) {
		return err
	}
	return driver.ErrBadConn
}

// lost says that the connection is lost. Nothing says then whether the request was done, so this is never driver.ErrBadConn.
func (s *session) lost(why error) error {
	s.looks((*tds.Client).Lost)
	if why == io.EOF {
		why = errors.New("the server has closed it")
	}
	return fmt.Errorf("mssql: the connection is lost: %w", why)
}

// cancel sends an attention where this request is underway still, and one only: never one for a later request.
func (s *session) cancel(request uint64) error {
	return s.asks(func(client *tds.Client, out *[]byte) error {
		if request != s.requests || client.Idle() {
			return nil
		}
		answer, err := client.Cancel(out)
		if err == nil && answer == tds.Asked {
			s.isTold, s.cancelAt = false, time.Now()
			if s.kind != packTransMgrReq {
				s.open = client.Descriptor()
			}
		}
		return err
	})
}

// cancelBehind cancels the newest request where the context ends before what it gives is closed. That is nil where no context ends.
func (s *session) cancelBehind(ctx context.Context) (over chan struct{}) {
	if ctx.Done() == nil {
		return nil
	}
	over = make(chan struct{})
	cancel := s.canceller()
	go func() {
		select {
		case <-ctx.Done():
			cancel()
		case <-over:
		}
	}()
	return over
}

// canceller cancels the request that is the newest now, where it is underway still when that is called.
func (s *session) canceller() (cancel func()) {
	s.lock.Lock()
	defer s.lock.Unlock()
	request := s.requests
	return func() { s.cancel(request) }
}

// rollBack ends the open transaction, and waits for the answer.
func (s *session) rollBack() error {
	err := s.asks(func(client *tds.Client, out *[]byte) error {
		err := s.begun(packTransMgrReq, client, func() error { return client.StartRollback(tds.NoNext) })
		for answer := tds.More; err == nil && answer == tds.More; {
			answer, err = client.Send(out)
		}
		return err
	})
	if err == nil {
		_, err = s.hearAnswer(nil)
	}
	if err == nil && s.descriptor() != 0 {
		err = s.lost(errors.New("a rollback wasn't done"))
	}
	return err
}

// rollBackUntold ends the transaction that a cancelled request began: whoever asked was told that it failed.
func (s *session) rollBackUntold() error {
	if open := s.descriptor(); open == 0 || open == s.open {
		return nil
	}
	return s.rollBack()
}

// giveUp ends a message that nobody finishes, as that of a bulk load.
func (s *session) giveUp() {
	s.next = 0
	if !s.isHalfSent {
		return
	}
	s.isHalfSent = false
	if s.cancel(s.requests) == nil && !s.isIdle() {
		s.hearAnswer(nil)
	}
}

func (s *session) descriptor() (open uint64) {
	s.looks(func(client *tds.Client) { open = client.Descriptor() })
	return open
}

// isIdle says whether nothing is underway, and nobody is given an answer.
func (s *session) isIdle() (is bool) {
	s.looks(func(client *tds.Client) { is = client.Idle() && !s.isAnswering })
	return is
}

// ResetSession is called by database/sql before a connection is lent again: the next request asks for a reset. One that the server
// has closed meanwhile, or that said something unasked, is bad.
func (c *MssqlConn) ResetSession(context.Context) error {
	s := c.sess.buf.session
	if _, isPlain := s.from.(*timeoutConn); s.raw == nil || hasCome(s.raw, isPlain) {
		s.lost(io.EOF)
		return driver.ErrBadConn
	}
	err := error(nil)
	s.looks(func(client *tds.Client) { err = client.MarkReset(false) })
	if err != nil {
		return driver.ErrBadConn
	}
	return nil
}

// IsValid is called by database/sql before a connection goes back: a message that was half sent is given up, and an open
// transaction rolled back. One whose client isn't idle then is closed.
func (c *MssqlConn) IsValid() bool {
	s := c.sess.buf.session
	s.giveUp()
	if s.isIdle() && s.descriptor() != 0 && s.rollBack() != nil {
		return false
	}
	return s.isIdle()
}
