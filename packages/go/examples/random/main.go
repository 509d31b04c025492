// Random calls of clients and walks, and one number of all that they answered. Compiled with cgo and without it, over C and
// over Go that was printed from the same module, it is the same number.
//
//	go run ./examples/random CALLS
package main

import (
	"encoding/hex"
	"fmt"
	"hash/fnv"
	"math/rand"
	"os"
	"strconv"
	"strings"

	"mouktelf"
)

// Packets that a server may send, to be changed (docs/PROTOCOL.md).
var packets = decoded(
	"0401002300000100E30B000808010000000000000000FD000000000000000000000000",
	"0400002800000100AB100050C30000010001006100000000000000FD010000000000000000000000",
	"0400002C0000010081010000000000000038016E00D105000000D106000000FD110000000200000000000000",
	"0400001A000001007900000000FD010000000000000000000000",
	"0400000E00000100E30300120000",
	"0401001500000200FD000000000000000000000000",
	"0401001500000100FD200000000000000000000000",
	"0401003800000100 810100 00000000 0900 E7 0800 0904D00034 01 7300 D1 0200 6100 E30700 01 01 7800 01 6D00 FD1000C1000100000000000000",
)

func decoded(digits ...string) (all [][]byte) {
	for _, it := range digits {
		bytes, err := hex.DecodeString(strings.ReplaceAll(it, " ", ""))
		if err != nil {
			panic(err)
		}
		all = append(all, bytes)
	}
	return all
}

type run struct {
	random *rand.Rand
	client *mouktelf.StrictClient
	walk   *mouktelf.Walk
	said   func(words ...any)
}

// packet is one of the packets, mostly with a byte changed or cut.
func (r *run) packet() []byte {
	bytes := append([]byte(nil), packets[r.random.Intn(len(packets))]...)
	switch r.random.Intn(4) {
	case 0:
		bytes[r.random.Intn(len(bytes))] = byte(r.random.Intn(256))
	case 1:
		bytes = bytes[:r.random.Intn(len(bytes)+1)]
	}
	return bytes
}

func (r *run) text() string {
	units := make([]rune, r.random.Intn(40))
	if r.random.Intn(50) == 0 {
		units = make([]rune, 1990+r.random.Intn(20))
	}
	for i := range units {
		units[i] = rune('a' + r.random.Intn(26))
	}
	return string(units)
}

func (r *run) take(packet []byte) {
	answer, tokens, err := r.client.Take(packet)
	r.said(answer, err)
	for tokens != nil {
		token, err := tokens.Next()
		if err != nil {
			r.said(err)
		}
		if token == nil {
			break
		}
		r.said(*token)
	}
}

// one is one call, of any of the package.
func (r *run) one() {
	var out []byte
	switch r.random.Intn(17) {
	case 0:
		client, err := mouktelf.NewStrict(uint16([]int{511, 512, 4096, 32767, 32768, r.random.Intn(65536)}[r.random.Intn(6)]))
		if r.said(err); err == nil {
			r.client = client
		}
	case 1:
		r.said(r.client.StartBatch(r.text()))
	case 2:
		r.said(r.client.StartBegin(uint8(r.random.Intn(8))))
	case 3:
		r.said(r.client.StartCommit(uint8(r.random.Intn(256))), r.client.StartRollback(mouktelf.NoNext))
	case 4, 5:
		answer, err := r.client.Send(&out)
		r.said(answer, err, out)
	case 6:
		answer, err := r.client.Cancel(&out)
		r.said(answer, err, out)
	case 7, 8, 9:
		r.take(r.packet())
	case 10:
		found, rest, err := mouktelf.Packets(append(r.packet(), r.packet()...), 512)
		r.said(found, rest, err)
	case 11:
		r.said(r.client.MarkReset(r.random.Intn(2) == 0))
	case 12:
		if r.said(r.client.StartMessage(uint8(r.random.Intn(16)))); r.random.Intn(2) == 0 {
			r.said(r.client.Put(make([]byte, r.random.Intn(3000)), &out), out)
			r.said(r.client.Finish(&out), out)
		}
	case 13:
		told, err := r.client.HeardChange(uint8(r.random.Intn(20)), r.random.Uint64())
		r.said(told, err)
		answer, err := r.client.MessageEnded()
		r.said(answer, err)
	case 14:
		told, err := r.client.HeardDone(uint8(0xFD+r.random.Intn(3)), uint16(r.random.Intn(65536)))
		r.said(told, err)
	case 15:
		var told []mouktelf.Walked
		answer, err := r.client.Hear(r.packet(), &told)
		r.said(answer, err, told)
		if err != nil {
			r.client.Walk().Restart()
		}
	default:
		r.walked()
	}
	r.said(r.client.Idle(), r.client.Descriptor())
}

// walked hands an answer to the walk in pieces.
func (r *run) walked() {
	rest := r.packet()
	if len(rest) < 8 {
		return
	}
	for rest = rest[8:]; len(rest) > 0; {
		piece := rest[:1+r.random.Intn(len(rest))]
		count, token, err := r.walk.Next(piece)
		if r.said(count, err); token != nil {
			r.said(*token)
			told, err := r.client.Heard(token)
			r.said(told, err)
		}
		if err != nil {
			break
		}
		rest = rest[count:]
	}
	r.said(r.walk.Between())
	r.walk.Restart()
}

func main() {
	calls := 100000
	if len(os.Args) > 1 {
		given, err := strconv.Atoi(os.Args[1])
		if err != nil {
			fmt.Fprintln(os.Stderr, "usage: random CALLS")
			os.Exit(2)
		}
		calls = given
	}
	sum := fnv.New64a()
	client, err := mouktelf.NewStrict(512)
	if err != nil {
		panic(err)
	}
	r := &run{rand.New(rand.NewSource(1)), client, mouktelf.NewWalk(4096, false, false), func(words ...any) { fmt.Fprintln(sum, words...) }}
	for i := 0; i < calls; i++ {
		r.one()
	}
	fmt.Printf("%d calls, %016x\n", calls, sum.Sum64())
}
