package mssql

import (
	"context"
	"errors"
	"fmt"
	"io"
	"time"

	tds "mouktelf"
)

// ahead is how many rows are read before they are asked for: so neither side waits for each of them.
const ahead = 24

// answer is that of the request that is out, for whoever asked.
type answer struct {
	ctx  context.Context
	sess *tdsSession
	ch   chan tokenStruct
}

// beginAnswer gives the caller the answer of the request that is out, beside whatever else it does.
func beginAnswer(ctx context.Context, sess *tdsSession, ch chan tokenStruct) {
	s := sess.buf.session
	if s == nil {
		go processResponse(ctx, sess, ch)
		return
	}
	s.lock.Lock()
	defer s.lock.Unlock()
	if !s.isOver {
		select {
		case s.asked <- answer{ctx, sess, ch}:
			return
		default:
		}
	}
	go s.answers(ctx, sess, ch)
}

// answersAll hears one answer after another, up to the connection's end: what hears goes deep, and so one stack grows once.
func (s *session) answersAll() {
	for it := range s.asked {
		s.answers(it.ctx, it.sess, it.ch)
	}
}

// end says that the connection is closed: nobody asks any more.
func (s *session) end() {
	s.lock.Lock()
	defer s.lock.Unlock()
	if !s.isOver {
		s.isOver = true
		close(s.asked)
	}
}

// answers hears the answer of the request that is out, and gives the caller what the client tells. Behind the end of the channel the
// client is idle, or broken.
func (s *session) answers(ctx context.Context, sess *tdsSession, ch chan tokenStruct) {
	defer close(ch)
	if !s.beginsAnswering() {
		ch <- errors.New("mssql: no request is out")
		return
	}
	defer s.hasAnswered()
	over := s.cancelBehind(ctx)
	to := &teller{sess: sess, ch: ch}
	did, err := s.hearAnswer(to)
	if over != nil {
		close(over)
	}
	if err == nil && did == tds.Acknowledged {
		err = s.rollBackUntold()
		if err == nil {
			err = ctx.Err()
		}
		if err == nil {
			err = context.Canceled // its rows were closed
		}
	} else if err == nil {
		err = to.failed
	}
	if err != nil {
		ch <- err
	}
}

// beginsAnswering says whether a request is out, whose answer is given on from now on.
func (s *session) beginsAnswering() bool {
	s.lock.Lock()
	defer s.lock.Unlock()
	if s.isHalfSent || s.client.Idle() && !s.isAnswering {
		return false
	}
	s.isAnswering = true
	return true
}

func (s *session) hasAnswered() {
	s.lock.Lock()
	s.isAnswering = false
	s.lock.Unlock()
}

// drain waits for the end of an answer of which the caller wants no more.
func drain(ch chan tokenStruct) {
	for range ch {
	}
}

// hearAnswer hears packets until the answer has ended: tds.Finished or tds.Acknowledged. What is told goes to this teller, if any.
func (s *session) hearAnswer(to *teller) (tds.Answer, error) {
	for {
		packets, rest, fault := tds.Packets(s.came, s.size)
		answer := tds.More
		for _, packet := range packets {
			var err error
			// behind the end of an answer a packet is a fault
			if answer, err = s.hear(packet, to); err != nil {
				return answer, s.lost(err)
			}
		}
		s.came = append(s.came[:0], rest...)
		if fault != nil {
			return answer, s.lost(fault)
		}
		if answer != tds.More {
			return answer, nil
		}
		if err := s.read(); err != nil {
			return answer, s.lost(err)
		}
	}
}

// read waits for more bytes. A cancel has a limit of its own, whatever comes meanwhile.
func (s *session) read() error {
	s.lock.Lock()
	since := s.cancelAt
	s.lock.Unlock()
	if !since.IsZero() && s.patience > 0 && time.Since(since) > s.patience {
		return fmt.Errorf("no cancel was acknowledged within %v", s.patience)
	}
	count, err := s.from.Read(s.came[len(s.came):cap(s.came)])
	s.came = s.came[:len(s.came)+count]
	if count > 0 {
		return nil
	}
	return err
}

// hear hears one packet, and tells its tokens.
func (s *session) hear(packet []byte, to *teller) (answer tds.Answer, err error) {
	s.told = s.told[:0]
	s.lock.Lock()
	answer, err = s.client.Hear(packet, &s.told)
	isTold := s.isTold && to != nil
	s.lock.Unlock()
	data := packet[8:]
	if len(s.kept) > 0 {
		s.kept = append(s.kept, data...)
		data = s.kept
	}
	for i := 0; isTold && i < len(s.told); i++ {
		start := s.told[i].Start - s.before
		to.tells(data[start : start+s.told[i].Length])
	}
	switch count := len(s.told); {
	case packet[1]&1 == 1:
		s.kept, s.before = s.kept[:0], 0
	case !isTold:
		s.kept = s.kept[:0]
	case count > 0:
		behind := s.told[count-1].Start + s.told[count-1].Length
		s.kept, s.before = append(s.kept[:0], data[behind-s.before:]...), behind
	case len(s.kept) == 0:
		s.kept = append(s.kept, data...)
	}
	return answer, err
}

// readAll reads so many bytes of a token, or of what comes where nobody is logged in yet. It is io.ReadFull without an interface: so
// Go's compiler sees that the few bytes of a number needn't be on the heap.
func (r *tdsBuffer) readAll(buf []byte) error {
	for read := 0; read < len(buf); {
		count, err := r.Read(buf[read:])
		if read += count; err == io.EOF && read > 0 {
			err = io.ErrUnexpectedEOF
		}
		if err != nil && read < len(buf) {
			return err
		}
	}
	return nil
}

// teller gives one answer's tokens to whoever asked, read by the driver's own readers.
type teller struct {
	sess    *tdsSession
	ch      chan tokenStruct
	columns []columnStruct
	errs    []Error
	failed  error // a token can't be read: the rest isn't told
}

// tells reads one token, from its first byte to its last, and gives it on.
func (to *teller) tells(own []byte) {
	defer func() {
		if why := recover(); why != nil {
			to.failed = fmt.Errorf("mssql: a token can't be read: %v", why)
		}
	}()
	if to.failed != nil {
		return
	}
	r := to.sess.buf
	r.session.token.Reset(own[1:])
	switch kind := token(own[0]); kind {
	case tokenRow, tokenNbcRow:
		row := make([]interface{}, len(to.columns))
		if kind == tokenRow {
			parseRow(r, to.columns, row)
		} else {
			parseNbcRow(r, to.columns, row)
		}
		to.ch <- row
	case tokenColMetadata:
		to.columns = parseColMetadata72(r)
		to.ch <- to.columns
	case tokenReturnStatus:
		to.ch <- parseReturnStatus(r)
	case tokenDoneInProc:
		done := parseDoneInProc(r)
		to.logs(doneStruct(done))
		to.ch <- done
	case tokenDone, tokenDoneProc:
		to.tellsDone(parseDone(r))
	case tokenError, tokenInfo:
		to.hearsMessage(kind, parseError72(r))
	}
}

func (to *teller) tellsDone(done doneStruct) {
	done.errors = to.errs
	to.logs(done)
	if done.Status&doneSrvError != 0 {
		to.ch <- errors.New("SQL Server had internal error")
		return
	}
	to.ch <- done
}

func (to *teller) logs(done doneStruct) {
	if to.sess.logFlags&logRows != 0 && done.Status&doneCount != 0 {
		to.sess.log.Printf("(%d row(s) affected)\n", done.RowCount)
	}
}

func (to *teller) hearsMessage(kind token, message Error) {
	flag := uint64(logMessages)
	if kind == tokenError {
		to.errs = append(to.errs, message)
		flag = logErrors
	}
	if to.sess.logFlags&flag != 0 {
		to.sess.log.Println(message.Message)
	}
}
