package mouktelf

import (
	"encoding/hex"
	"reflect"
	"strings"
	"testing"
)

// The bytes stand in docs/PROTOCOL.md.
const (
	begunBytes        = "0401002300000100E30B000808010000000000000000FD000000000000000000000000"
	endedBytes        = "0401001500000200FD000000000000000000000000"
	resetBytes        = "0401001B00000100E30300120000FD000000000000000000000000"
	acknowledgedBytes = "0401001500000100FD200000000000000000000000"
	attentionBytes    = "0601000800000100"
)

func bytesOf(digits string) []byte {
	bytes, err := hex.DecodeString(digits)
	if err != nil {
		panic(err)
	}
	return bytes
}

// is says that what came with an error, or none, is this.
func is(t *testing.T, got any, err error, wanted any) {
	t.Helper()
	if err != nil || !reflect.DeepEqual(got, wanted) {
		t.Errorf("%v (%v), and %v is wanted", got, err, wanted)
	}
}

func refuses(t *testing.T, err error, wanted Fault) {
	t.Helper()
	if err != error(wanted) {
		t.Errorf("%v, and %v is wanted", err, wanted)
	}
}

func table(t *testing.T, most int) *Service {
	service, err := NewService(most, 512)
	if err != nil {
		t.Fatal(err)
	}
	return service
}

func lease(t *testing.T, service *Service) Lent {
	t.Helper()
	lent, err := service.Lease()
	if err != nil {
		t.Fatal(err)
	}
	return lent
}

// asks sends a request; the status of its packet has bit 8 (hexadecimal) where it asks for a full reset.
func asks(service *Service, lease uint64, start func(client *Client) error) (status byte, err error) {
	err = service.With(lease, func(client *Client) error {
		var out []byte
		if err := start(client); err != nil {
			return err
		}
		_, err := client.Send(&out)
		status = out[1]
		return err
	})
	return status, err
}

func get(client *Client) error { return client.StartBatch("get a") }

func takes(service *Service, number uint64, packet string) (answer Answer, err error) {
	var told []Walked
	answer, _, err = service.Hear(number, bytesOf(packet), &told)
	return answer, err
}

func TestOneLeaseEach(t *testing.T) {
	service := table(t, 2)
	first, second := lease(t, service), lease(t, service)
	is(t, first.Number, nil, uint64(1))
	is(t, second.Number, nil, uint64(2))
	if first.Had || second.Had || first.Lease == second.Lease || service.Len() != 2 {
		t.Error(first, second, service.Len())
	}
	holder, err := service.Holder(2)
	is(t, holder, err, second.Lease)
	_, err = service.Lease()
	refuses(t, err, AllInUse)
	ended, err := service.GiveBack(second.Lease)
	is(t, ended, err, Ended{2, Free, []byte{}})
	again := lease(t, service)
	if again.Number != 2 || !again.Had || again.Lease == first.Lease || again.Lease == second.Lease {
		t.Error(again)
	}
	_, err = service.Lease()
	refuses(t, err, AllInUse)
}

func TestStaleLeases(t *testing.T) {
	service := table(t, 1)
	spent := lease(t, service).Lease
	var held *Client
	is(t, 0, service.With(spent, func(client *Client) error { held = client; return get(client) }), 0)
	// A client that is kept from there does nothing, and the table's own calls wait until it is given back.
	refuses(t, held.StartCommit(NoNext), Fault(33))
	is(t, 0, service.With(spent, func(*Client) error {
		_, err := service.GiveBack(spent)
		refuses(t, err, NotNow)
		_, err = service.Lease()
		refuses(t, err, NotNow)
		refuses(t, service.Lost(1), NotNow)
		return nil
	}), 0)
	// What hasn't gone out isn't cancelled at the server.
	ended, err := service.GiveBack(spent)
	is(t, ended, err, Ended{1, Free, []byte{}})
	status, err := asks(service, lease(t, service).Lease, get)
	is(t, status, err, byte(9))
	// Somebody else has the connection.
	refuses(t, service.With(spent, func(*Client) error { t.Error("a spent lease"); return nil }), NoSuch)
	_, err = service.GiveBack(spent)
	refuses(t, err, NoSuch)
	_, err = service.Keep(spent)
	refuses(t, err, NoSuch)
	_, err = service.Cleaned(spent)
	refuses(t, err, NoSuch)
	_, err = service.Resume(spent)
	refuses(t, err, NoSuch)
	_, err = service.Abandon(spent)
	refuses(t, err, NoSuch)
}

// A request is cancelled at the end of its lease: its connection isn't lent before the acknowledgement.
func TestDrains(t *testing.T) {
	service := table(t, 1)
	first := lease(t, service).Lease
	status, err := asks(service, first, get)
	is(t, status, err, byte(1))
	_, err = service.Drained(1)
	refuses(t, err, NotNow)
	ended, err := service.GiveBack(first)
	is(t, ended, err, Ended{1, Draining, bytesOf(attentionBytes)})
	holder, err := service.Holder(1)
	is(t, holder, err, uint64(0))
	_, err = service.Lease()
	refuses(t, err, AllInUse)
	// The answer's end crosses the cancel.
	answer, err := takes(service, 1, endedBytes)
	is(t, answer, err, More)
	rest, err := service.Drained(1)
	is(t, rest, err, Draining)
	_, err = service.Lease()
	refuses(t, err, AllInUse)
	_, err = service.Clean(1)
	refuses(t, err, NotNow)
	answer, err = takes(service, 1, acknowledgedBytes)
	is(t, answer, err, Acknowledged)
	_, err = service.Drained(1)
	refuses(t, err, NotNow)
	lent := lease(t, service)
	is(t, lent, nil, Lent{lent.Lease, 1, true})
	status, err = asks(service, lent.Lease, get)
	is(t, status, err, byte(9))
	answer, err = takes(service, 1, resetBytes)
	is(t, answer, err, Finished)
}

func TestKept(t *testing.T) {
	service := table(t, 1)
	first := lease(t, service).Lease
	_, err := service.Keep(first)
	refuses(t, err, NotNow)
	_, err = asks(service, first, func(client *Client) error { return client.StartBegin(0) })
	is(t, 0, err, 0)
	answer, err := takes(service, 1, begunBytes)
	is(t, answer, err, Finished)
	ticket, err := service.Keep(first)
	refuses(t, service.With(first, func(*Client) error { return nil }), NoSuch)
	holder, _ := service.Holder(1)
	is(t, holder, err, ticket)
	_, err = service.Lease()
	refuses(t, err, AllInUse)
	lent, err := service.Resume(ticket)
	is(t, lent, err, Lent{lent.Lease, 1, true})
	is(t, 0, service.With(lent.Lease, func(client *Client) error { is(t, client.Descriptor(), nil, uint64(1)); return nil }), 0)
	_, err = service.Resume(ticket)
	refuses(t, err, NoSuch)
	// It goes on with its transaction: a reset that keeps that is asked for (bit 10).
	status, err := asks(service, lent.Lease, get)
	is(t, status, err, byte(0x11))
	_, err = takes(service, 1, resetBytes)
	is(t, 0, err, 0)
	ticket, _ = service.Keep(lent.Lease)
	ended, err := service.Abandon(ticket)
	is(t, ended, err, Ended{Number: 1, Rest: Free})
	_, err = service.Abandon(ticket)
	refuses(t, err, NoSuch)
}

func TestCleaned(t *testing.T) {
	for _, it := range []struct {
		answer string
		rest   Rest
		count  int
	}{{resetBytes, Free, 1}, {endedBytes, Closed, 0}} {
		service := table(t, 1)
		_, err := service.Clean(1)
		refuses(t, err, NoSuch)
		first := lease(t, service).Lease
		_, err = service.Clean(1)
		refuses(t, err, NotNow)
		_, err = service.GiveBack(first)
		is(t, 0, err, 0)
		lent, err := service.Clean(1)
		is(t, lent.Number, err, uint64(1))
		_, err = service.Lease()
		refuses(t, err, AllInUse)
		status, err := asks(service, lent.Lease, get)
		is(t, status, err, byte(9))
		_, err = service.Cleaned(lent.Lease)
		refuses(t, err, NotNow)
		if _, err = takes(service, 1, it.answer); it.rest == Free {
			is(t, 0, err, 0)
		} else {
			refuses(t, err, Fault(76))
		}
		ended, err := service.Cleaned(lent.Lease)
		is(t, ended, err, Ended{Number: 1, Rest: it.rest})
		is(t, service.Len(), nil, it.count)
	}
}

// Of three connections the first goes. The seats of the others move; their leases and requests are as they were.
func TestLost(t *testing.T) {
	service := table(t, 3)
	leases := []uint64{lease(t, service).Lease, lease(t, service).Lease, lease(t, service).Lease}
	for _, it := range leases {
		_, err := asks(service, it, get)
		is(t, 0, err, 0)
	}
	is(t, 0, service.Lost(1), 0)
	refuses(t, service.With(leases[0], func(*Client) error { return nil }), NoSuch)
	refuses(t, service.Lost(1), NoSuch)
	is(t, service.Len(), nil, 2)
	var out []byte
	is(t, 0, service.With(leases[2], func(client *Client) error {
		answer, err := client.Cancel(&out)
		is(t, answer, err, Asked)
		return nil
	}), 0)
	is(t, out, nil, bytesOf(attentionBytes))
	answer, err := takes(service, 2, endedBytes)
	is(t, answer, err, Finished)
	answer, err = takes(service, 3, endedBytes)
	is(t, answer, err, More)
	is(t, lease(t, service).Number, nil, uint64(4))
}

// What waits of a message in parts is there at the next call; the headers have 22 bytes.
func TestStreamed(t *testing.T) {
	service, out := table(t, 1), []byte(nil)
	lease := lease(t, service).Lease
	for _, step := range []func(client *Client) error{
		func(client *Client) error { return client.StartMessage(Batch) },
		func(client *Client) error { return client.Put(bytesOf("670065007400"), &out) },
		func(client *Client) error { return client.Put(bytesOf("200061000000"), &out) },
	} {
		is(t, len(out), service.With(lease, step), 0)
	}
	err := service.With(lease, func(client *Client) error { return client.Finish(&out) })
	is(t, len(out), err, 42)
	is(t, out[30:], nil, bytesOf("670065007400200061000000"))
}

func tokenOf(t *testing.T, walk *Walk, packet string) *Walked {
	_, token, err := walk.Next(bytesOf(packet)[8:])
	if err != nil || token == nil {
		t.Fatal("no token", err)
	}
	return token
}

// By lease and number alone: two requests, of which the second is cancelled, and nobody is told of its answer.
func TestAsks(t *testing.T) {
	service, walk, out := table(t, 1), NewWalk(16, false, false), []byte(nil)
	first, body := lease(t, service).Lease, bytesOf("67006500740020006100")
	asked, err := service.Ask(first, Batch)
	is(t, asked, err, Requested{1, 1})
	is(t, len(out), service.Put(first, body, &out), 0)
	err = service.Finish(first, &out)
	is(t, append(out[:2:2], out[30:]...), err, append([]byte{1, 1}, body...))
	done := tokenOf(t, walk, endedBytes)
	whose, err := service.Came(1, done)
	is(t, whose, err, Whose{first, 1, true})
	answer, whose, err := service.MessageEnded(1, false)
	is(t, answer, err, Finished)
	is(t, whose, nil, Whose{first, 1, true})
	asked, err = service.AskBatch(first, "get b", &out)
	is(t, asked, err, Requested{1, 2})
	out = nil
	answer, err = service.Cancel(first, &out)
	is(t, answer, err, Asked)
	is(t, out, nil, bytesOf(attentionBytes))
	answer, err = service.Cancel(first, &out)
	is(t, answer, err, Already)
	whose, err = service.Came(1, done)
	is(t, whose, err, Whose{first, 2, false})
	answer, _, err = service.MessageEnded(1, false)
	is(t, answer, err, More)
	ended, err := service.GiveBack(first)
	is(t, ended, err, Ended{1, Draining, []byte{}})
	refuses(t, service.Put(first, body, &out), NoSuch)
	refuses(t, service.Finish(first, &out), NoSuch)
	_, err = service.Cancel(first, &out)
	refuses(t, err, NoSuch)
	_, err = service.Ask(first, Batch)
	refuses(t, err, NoSuch)
	_, err = service.AskBatch(first, "a", &out)
	refuses(t, err, NoSuch)
	walk.Restart()
	whose, err = service.Came(1, tokenOf(t, walk, acknowledgedBytes))
	is(t, whose, err, Whose{0, 2, false})
	_, err = service.Lease()
	refuses(t, err, AllInUse)
	answer, _, err = service.MessageEnded(1, false)
	is(t, answer, err, Acknowledged)
	// It has drained: the next lease's first request asks for a reset, and is the third of its connection.
	out = nil
	asked, err = service.AskBatch(lease(t, service).Lease, "get a", &out)
	is(t, asked, err, Requested{1, 3})
	is(t, out[1], nil, byte(9))
	// A message that ends inside a token breaks the connection.
	_, _, err = service.MessageEnded(1, true)
	refuses(t, err, Fault(75))
}

// By number: whose a packet's tokens are, and that nobody is told of what drains.
func TestHears(t *testing.T) {
	service, told, out := table(t, 1), []Walked(nil), []byte(nil)
	first := lease(t, service).Lease
	_, err := service.AskBatch(first, "get a", &out)
	is(t, len(out), err, 40)
	answer, whose, err := service.Hear(1, bytesOf(endedBytes), &told)
	is(t, whose, err, Whose{first, 1, true})
	if answer != Finished || len(told) != 1 || told[0].Tells != TellsDone {
		t.Error(answer, told)
	}
	// Where nobody wants the tokens.
	_, err = service.AskBatch(first, "get a", &out)
	is(t, len(out), err, 80)
	answer, whose, err = service.Hear(1, bytesOf(endedBytes), nil)
	is(t, whose, err, Whose{first, 2, true})
	is(t, answer, nil, Finished)
	_, err = service.AskBatch(first, "get a", &out)
	is(t, len(out), err, 120)
	ended, err := service.GiveBack(first)
	is(t, ended.Rest, err, Draining)
	answer, whose, err = service.Hear(1, bytesOf(acknowledgedBytes), &told)
	is(t, whose, err, Whose{0, 3, false})
	is(t, answer, nil, Acknowledged)
	is(t, lease(t, service).Had, nil, true)
	_, _, err = service.Hear(2, bytesOf(endedBytes), &told)
	refuses(t, err, NoSuch)
	_, _, err = service.Hear(1, nil, &told)
	refuses(t, err, Fault(24))
}

// The login agrees on other packets than were asked for: the connection's client is one of that size, and no other's is.
func TestLoggedIn(t *testing.T) {
	service, err := NewService(2, 4096)
	is(t, 0, err, 0)
	first, second, text := lease(t, service), lease(t, service), strings.Repeat("a", 1000)
	is(t, 0, service.LoggedIn(1, 512, nil), 0)
	var small, large []byte
	_, err = service.AskBatch(first.Lease, text, &small)
	is(t, len(small), err, 2022+8*5)
	_, err = service.AskBatch(second.Lease, text, &large)
	is(t, len(large), err, 2022+8)
	refuses(t, service.LoggedIn(1, 4096, nil), NotNow)
	refuses(t, service.LoggedIn(3, 4096, nil), NoSuch)
	for _, size := range []uint16{0, 511, 32768, 65535} {
		service := table(t, 1)
		lease(t, service)
		refuses(t, service.LoggedIn(1, size, nil), Fault(23))
	}
}

func TestRefused(t *testing.T) {
	for _, size := range []uint16{0, 511, 32768, 65535} {
		_, err := NewService(1, size)
		refuses(t, err, Fault(23))
	}
	_, err := NewService(-1, 512)
	refuses(t, err, Fault(23))
	_, err = table(t, 0).Lease()
	refuses(t, err, AllInUse)
	for _, number := range []uint64{0, 1, 1<<64 - 1} {
		_, err = table(t, 1).GiveBack(number)
		refuses(t, err, NoSuch)
		_, err = table(t, 1).Drained(number)
		refuses(t, err, NoSuch)
		refuses(t, table(t, 1).Lost(number), NoSuch)
	}
}
