package mouktelf

import (
	"bytes"
	"errors"
	"runtime"
	"strings"
	"sync"
	"testing"
)

// slow is a socket whose first write stalls until it may go on; it keeps the bytes in the order in which they went.
type slow struct {
	bytes      []byte
	once       sync.Once
	begun, may chan struct{}
}

func newSlow() *slow { return &slow{begun: make(chan struct{}), may: make(chan struct{})} }

func (it *slow) Write(data []byte) (int, error) {
	it.once.Do(func() { close(it.begun) })
	<-it.may
	it.bytes = append(it.bytes, data...)
	return len(data), nil
}

// kinds are the types of the packets on the wire.
func kinds(wire []byte) (found []byte) {
	for len(wire) > 0 {
		found = append(found, wire[0])
		wire = wire[int(wire[2])<<8|int(wire[3]):]
	}
	return found
}

// answers is what a server gives for these bytes: to a request an INFO with its last letter and the last DONE, to an attention its
// acknowledgement. A request that is cancelled before it is answered isn't answered.
func answers(wire []byte) (gives [][]byte) {
	var text []byte
	for len(wire) > 0 {
		length := int(wire[2])<<8 | int(wire[3])
		switch packet := wire[:length]; {
		case packet[0] == 6:
			if last := len(gives) - 1; last >= 0 && len(gives[last]) > 21 {
				gives = gives[:last]
			}
			gives, text = append(gives, bytesOf(acknowledgedBytes)), nil
		case packet[1]&1 == 0:
			text = append(text, packet[8:]...)
		default:
			text = append(text, packet[8:]...)
			said := append(bytesOf("0401002800000100AB10000100000001010100"), text[len(text)-2:]...)
			gives, text = append(gives, append(append(said, make([]byte, 6)...), bytesOf("FD000000000000000000000000")...)), nil
		}
		wire = wire[length:]
	}
	return gives
}

func asks1(client *Client, text string, out *[]byte) error {
	err := client.StartBatch(text)
	for answer := More; err == nil && answer == More; {
		answer, err = client.Send(out)
	}
	return err
}

// hears1 hears one message: which request's answer is told, and the end.
func hears1(t *testing.T, client *Client, packet []byte) (text string, answer Answer) {
	t.Helper()
	var told []Walked
	answer, err := client.Hear(packet, &told)
	if err != nil {
		t.Fatal(err)
	}
	for _, it := range told {
		if it.Tells == TellsMessage {
			text += string(rune(packet[8+it.Text.Start]))
		}
	}
	return text, answer
}

// A request's packets, then its cancel's attention, though the write of the first stalls and the cancel is another goroutine's.
func TestOrder(t *testing.T) {
	client, _ := New(512)
	socket, done := newSlow(), make(chan error)
	outgoing := NewOutgoing(socket, nil)
	go func() {
		done <- outgoing.Do(func(out *[]byte) error { return asks1(client, strings.Repeat("a", 1999)+"A", out) })
	}()
	<-socket.begun
	// The cancel doesn't wait behind the write, which stalls all the while.
	is(t, 0, outgoing.Do(func(out *[]byte) error {
		answer, err := client.Cancel(out)
		is(t, answer, err, Asked)
		return err
	}), 0)
	close(socket.may)
	is(t, 0, <-done, 0)
	is(t, kinds(socket.bytes), nil, []byte{1, 1, 1, 1, 1, 1, 1, 1, 6})
	gives := answers(socket.bytes)
	is(t, len(gives), nil, 1)
	text, answer := hears1(t, client, gives[0])
	is(t, answer, nil, Acknowledged)
	is(t, text, nil, "")
	before := len(socket.bytes)
	is(t, 0, outgoing.Do(func(out *[]byte) error { return asks1(client, "B", out) }), 0)
	text, answer = hears1(t, client, answers(socket.bytes[before:])[0])
	is(t, answer, nil, Finished)
	is(t, text, nil, "B")
}

// Each call under a lock, and the writes where they happen to come, is seen: the attention is first, and the next request is told the
// cancelled one's answer, with no error.
func TestWrongOrder(t *testing.T) {
	client, _ := New(512)
	var lock sync.Mutex
	socket, done, fast := newSlow(), make(chan error), []byte(nil)
	go func() {
		var out []byte
		lock.Lock()
		err := asks1(client, strings.Repeat("a", 1999)+"A", &out)
		lock.Unlock()
		socket.Write(out)
		done <- err
	}()
	<-socket.begun
	lock.Lock()
	_, err := client.Cancel(&fast)
	lock.Unlock()
	close(socket.may)
	is(t, 0, err, 0)
	is(t, 0, <-done, 0)
	wire := append(fast, socket.bytes...)
	is(t, kinds(wire), nil, []byte{6, 1, 1, 1, 1, 1, 1, 1, 1})
	gives := answers(wire)
	is(t, len(gives), nil, 2)
	_, answer := hears1(t, client, gives[0])
	is(t, answer, nil, Acknowledged)
	var out []byte
	is(t, 0, asks1(client, "B", &out), 0)
	text, answer := hears1(t, client, gives[1])
	is(t, answer, nil, Finished)
	is(t, text, nil, "A")
}

type yields struct{ bytes []byte }

func (it *yields) Write(data []byte) (int, error) {
	runtime.Gosched()
	it.bytes = append(it.bytes, data...)
	return len(data), nil
}

// Eight goroutines append 200 numbers each; a writer that yields keeps the order of the lock.
func TestMany(t *testing.T) {
	socket, order := &yields{}, []byte(nil)
	outgoing, all := NewOutgoing(socket, &sync.Mutex{}), sync.WaitGroup{}
	for it := byte(0); it < 8; it++ {
		all.Add(1)
		go func(it byte) {
			defer all.Done()
			for k := byte(0); k < 200; k++ {
				outgoing.Do(func(out *[]byte) error {
					order, *out = append(order, it, k), append(*out, it, k)
					return nil
				})
			}
		}(it)
	}
	all.Wait()
	if !bytes.Equal(socket.bytes, order) || len(order) != 3200 {
		t.Error(len(socket.bytes), len(order))
	}
}

type fails struct{}

var errGone = errors.New("gone")

func (fails) Write([]byte) (int, error) { return 0, errGone }

// A write that fails is told to whoever writes, and to each later call.
func TestFails(t *testing.T) {
	outgoing := NewOutgoing(fails{}, nil)
	for _, data := range []string{"a", "b", ""} {
		if err := outgoing.Do(func(out *[]byte) error { *out = append(*out, data...); return nil }); err != errGone {
			t.Error(data, err)
		}
	}
}
