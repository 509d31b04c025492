package mouktelf

import (
	"bytes"
	"errors"
	"reflect"
	"strings"
	"testing"
)

func asked(t *testing.T) *Client {
	t.Helper()
	client, err := New(512)
	is(t, 0, err, 0)
	var out []byte
	is(t, 0, client.StartBatch("say a"), 0)
	_, err = client.Send(&out)
	is(t, len(out), err, 40)
	return client
}

func found(t *testing.T, data []byte) (all []Walked) {
	t.Helper()
	for walk := NewWalk(16, false, false); len(data) > 0; {
		count, token, err := walk.Next(data)
		if err != nil {
			t.Fatal(err)
		}
		if token != nil {
			all = append(all, *token)
		}
		data = data[count:]
	}
	return all
}

// A packet in one call: what a walk finds and the client hears, in any pieces, also where that is more than goes into one.
func TestHear(t *testing.T) {
	data := append(bytes.Repeat(bytesOf("7901000000"), 300), bytesOf("FD000000000000000000000000")...)
	for cut := 0; cut < 40; cut++ {
		client, told := asked(t), []Walked(nil)
		answer, err := client.HearData(data[:cut], false, &told)
		is(t, answer, err, More)
		answer, err = client.HearData(data[cut:], true, &told)
		is(t, answer, err, Finished)
		if !reflect.DeepEqual(told, found(t, data)) || !client.Idle() {
			t.Error(cut, len(told))
		}
	}
	client, told := asked(t), []Walked(nil)
	answer, err := client.Hear(append([]byte{4, 1, 0, 0, 0, 0, 0, 0}, data...), &told)
	is(t, answer, err, Finished)
	is(t, len(told), nil, 301)
	_, err = client.Hear(nil, &told)
	refuses(t, err, Fault(24))
	// Where nobody wants the tokens the client hears the same.
	quiet := asked(t)
	answer, err = quiet.HearData(data, true, nil)
	is(t, answer, err, Finished)
	is(t, quiet.Idle(), nil, true)
}

// Nothing is allocated for a packet whose tokens have room.
func TestHearAllocatesNothing(t *testing.T) {
	client, told := asked(t), make([]Walked, 0, 1000)
	data := bytes.Repeat(bytesOf("7901000000"), 300)
	most := testing.AllocsPerRun(100, func() {
		told = told[:0]
		if _, err := client.HearData(data, false, &told); err != nil || len(told) != 300 {
			t.Error(err, len(told))
		}
	})
	// A pool may be emptied in between.
	if most > 0.5 {
		t.Error(most, "allocations")
	}
}

// A peer's fault is a peer's also at a message's end, and each number has a text of its own.
func TestFaults(t *testing.T) {
	for _, it := range []struct {
		digits string
		fault  Fault
		count  int
	}{{"790100000000", 71, 1}, {"7901", 75, 0}} {
		client, told := asked(t), []Walked(nil)
		_, err := client.HearData(bytesOf(it.digits), true, &told)
		var fault Fault
		if !errors.As(err, &fault) || fault != it.fault || !fault.IsPeer() || len(told) != it.count {
			t.Error(err, told)
		}
		var refused Refused
		if errors.As(err, &refused) != (it.fault == 71) || refused.At != uint64(5*it.count) {
			t.Error(err)
		}
		refuses(t, client.StartBegin(0), Fault(33))
	}
	client, told := asked(t), []Walked(nil)
	_, err := client.HearData(bytesOf(endedBytes)[8:], true, &told)
	is(t, 0, err, 0)
	is(t, 0, client.MarkReset(false), 0)
	var out []byte
	is(t, 0, client.StartBatch("a"), 0)
	_, err = client.Send(&out)
	is(t, out[1], err, byte(9))
	_, err = client.Hear(bytesOf(endedBytes), &told)
	refuses(t, err, Fault(76))
	texts := map[string]bool{}
	for number := Fault(20); number < 77; number++ {
		if text := number.Error()[len("fault 20: "):]; text != "see mouktelf.h" {
			texts[text] = true
			if number.IsPeer() != (number > 40) {
				t.Error(number)
			}
		}
	}
	is(t, len(texts), nil, 7+6+6+7+9+6)
}

// What arrives in one piece is cut in time that grows with it.
func TestPackets(t *testing.T) {
	packet := append([]byte{4, 0, 0, 35}, make([]byte, 31)...)
	packets, rest, err := Packets(append(bytes.Repeat(packet, 16000), packet[:7]...), 512)
	is(t, len(packets), err, 16000)
	is(t, rest, nil, packet[:7])
	is(t, packets[15999], nil, packet)
}

// The strict reader takes the batch language, and nothing else.
func TestStrict(t *testing.T) {
	client, err := NewStrict(512)
	is(t, 0, err, 0)
	var out []byte
	is(t, 0, client.StartBatch("rows 5 1"), 0)
	_, err = client.Send(&out)
	is(t, len(out), err, 46)
	_, _, err = client.Take(bytesOf("0401002500000100" + strings.Repeat("00", 29)))
	refuses(t, err, Fault(68))
}
