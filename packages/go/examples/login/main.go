// Over a socket: logs in to a server of the batch language (tdsserve, also with --real), begins a transaction, is given rows,
// cancels a batch in its middle, and commits.
//
//	tdsserve 127.0.0.1:1433 & go run ./examples/login 1433
package main

import (
	"encoding/binary"
	"fmt"
	"net"
	"os"
	"unicode/utf16"

	"mouktelf"
)

const size = 4096

func must(err error) {
	if err != nil {
		fmt.Fprintln(os.Stderr, err)
		os.Exit(1)
	}
}

// connection is a socket, its client, what goes out, and what came and is no packet yet.
type connection struct {
	socket   net.Conn
	client   *mouktelf.Client
	outgoing *mouktelf.Outgoing
	came     []byte
	packets  [][]byte
}

// packet is the next one, from its first byte to its last.
func (it *connection) packet() []byte {
	for len(it.packets) == 0 {
		piece := make([]byte, size)
		count, err := it.socket.Read(piece)
		if err != nil {
			it.client.Lost()
			must(err)
		}
		it.packets, it.came, err = mouktelf.Packets(append(it.came, piece[:count]...), size)
		must(err)
	}
	first := it.packets[0]
	it.packets = it.packets[1:]
	return first
}

func (it *connection) logIn(name string) {
	_, err := it.socket.Write(mouktelf.Login(name, size))
	must(err)
	if !mouktelf.IsLetIn(it.packet()) {
		must(fmt.Errorf("the server let nobody in"))
	}
	fmt.Println("logged in")
}

// ask starts a request and sends it.
func (it *connection) ask(start func() error) {
	must(it.outgoing.Do(func(out *[]byte) error {
		err := start()
		for answer := mouktelf.More; err == nil && answer == mouktelf.More; {
			answer, err = it.client.Send(out)
		}
		return err
	}))
}

func (it *connection) askBatch(text string) {
	it.ask(func() error { return it.client.StartBatch(text) })
}

// cancel may be called by any goroutine: its bytes go out behind the request's.
func (it *connection) cancel() (answer mouktelf.Answer) {
	must(it.outgoing.Do(func(out *[]byte) (err error) {
		answer, err = it.client.Cancel(out)
		return err
	}))
	return answer
}

func text(data []byte) string {
	units := make([]uint16, len(data)/2)
	for i := range units {
		units[i] = binary.LittleEndian.Uint16(data[2*i:])
	}
	return string(utf16.Decode(units))
}

// first is the first value of a row, a whole number of four bytes: a walk says where rows stand, and values are yours to read
// (MS-TDS 2.2.7).
func first(columns, row []byte) int32 {
	at := 1
	if row[0] == 0xD2 { // NBCROW: a bit for each column
		at += (int(binary.LittleEndian.Uint16(columns[1:])) + 7) / 8
	}
	if columns[9] == 0x26 { // INTN: its length
		at++
	}
	return int32(binary.LittleEndian.Uint32(row[at:]))
}

// hear hears packets until the request is settled, and shows what is told.
func (it *connection) hear() {
	var data, columns []byte
	var told []mouktelf.Walked
	for answer := mouktelf.More; answer == mouktelf.More; {
		packet := it.packet()
		data, told = append(data, packet[8:]...), told[:0]
		must(it.outgoing.Do(func(*[]byte) (err error) {
			answer, err = it.client.Hear(packet, &told)
			return err
		}))
		for _, token := range told {
			own := data[token.Start : token.Start+token.Length]
			switch {
			case token.Tells == mouktelf.TellsMessage:
				fmt.Println("info", text(data[token.Text.Start:token.Text.Start+token.Text.Length]))
			case token.Kind == 0x81:
				columns = own
			case token.Kind == 0xD1 || token.Kind == 0xD2:
				fmt.Println("row", first(columns, own))
			}
		}
		switch answer {
		case mouktelf.Finished:
			fmt.Println("finished")
		case mouktelf.Acknowledged:
			fmt.Println("cancelled")
		}
	}
}

func (it *connection) tellTransaction() {
	word := "yes"
	if it.client.Descriptor() == 0 {
		word = "no"
	}
	fmt.Println("in a transaction:", word)
}

func main() {
	port := "1433"
	if len(os.Args) > 1 {
		port = os.Args[1]
	}
	socket, err := net.Dial("tcp", "127.0.0.1:"+port)
	must(err)
	client, err := mouktelf.New(size)
	must(err)
	it := &connection{socket: socket, client: client, outgoing: mouktelf.NewOutgoing(socket, nil)}
	it.logIn("sa")
	it.ask(func() error { return client.StartBegin(0) })
	it.hear()
	it.askBatch("set a 5;say hello;rows 7 2")
	it.hear()
	it.askBatch("rows 0 64;rows 0 64;rows 0 64")
	if it.cancel() != mouktelf.Asked {
		must(fmt.Errorf("nothing is cancelled"))
	}
	it.hear()
	it.tellTransaction()
	it.ask(func() error { return client.StartCommit(mouktelf.NoNext) })
	it.hear()
	it.tellTransaction()
}
