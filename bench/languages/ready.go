// A server for bench/languages that sends bytes which lie ready, so that what is measured is the driver: `rows` has 20,000 rows of ten
// types, any other text one row; `endless` has a packet of an answer that goes on, and waits for the attention. It lets everybody in,
// says its port, and ends with its standard input.
package main

import (
	"bytes"
	"encoding/binary"
	"encoding/hex"
	"fmt"
	"io"
	"net"
	"os"
	"strings"
)

const rows, size = 20_000, 4096

// A column's type (MS-TDS 2.2.5.4) and its value.
var types = [][2]string{
	{"2604", "0406000000"}, {"2608", "08FFFFFFFFFFFFFFFF"}, {"6801", "0101"}, {"6D08", "08000000000000F83F"},
	{"6A090A02", "05019D000000"}, {"E73C000904D00034", "160073006F006D0065007400680069006E00670020002E00"},
	{"A71E000904D00034", "0500706C61696E"}, {"A51000", "08000102030405060708"}, {"28", "03B3470B"}, {"2A07", "088076CD9564B3470B"},
}

func decoded(digits string) []byte {
	data, err := hex.DecodeString(strings.ReplaceAll(digits, " ", ""))
	if err != nil {
		panic(err)
	}
	return data
}

// packets are a message's, the last one with this status.
func packets(data []byte, last byte) (all []byte) {
	for len(data) > 0 {
		part := data
		if len(part) > size-8 {
			part = part[:size-8]
		}
		data = data[len(part):]
		header := []byte{4, 0, 0, 0, 0, 51, 1, 0}
		if len(data) == 0 {
			header[1] = last
		}
		binary.BigEndian.PutUint16(header[2:], uint16(8+len(part)))
		all = append(append(all, header...), part...)
	}
	return all
}

func done(status uint16, count uint64) []byte {
	data := make([]byte, 13)
	data[0] = 0xFD
	binary.LittleEndian.PutUint16(data[1:], status)
	binary.LittleEndian.PutUint64(data[5:], count)
	return data
}

func table() []byte {
	data, row := []byte{0x81, byte(len(types)), 0}, []byte{0xD1}
	for _, it := range types {
		data = append(append(append(data, 0, 0, 0, 0, 9, 0), decoded(it[0])...), 1, 'c', 0)
		row = append(row, decoded(it[1])...)
	}
	return append(append(data, bytes.Repeat(row, rows)...), done(0x10, rows)...)
}

var (
	reset    = decoded("E30300120000")
	one      = append(decoded("8101000000000009002604016E00D10401000000"), done(0x10, 1)...)
	prelogin = packets(decoded("0000 0B00 0601 0011 0001 FF0B 0000 0000 0002"), 1)
	login    = packets(append(decoded("E30B000404340030003900360000"), append(decoded("AD0C00017400000401700001000000"), done(0, 0)...)...), 1)
	// whether the request asks for a reset
	tables = map[bool][]byte{false: packets(table(), 1), true: packets(append(reset, table()...), 1)}
	ones   = map[bool][]byte{false: packets(one, 1), true: packets(append(decoded("E30300120000"), one...), 1)}
	begins = map[bool][]byte{false: packets(one[:20], 0), true: packets(append(decoded("E30300120000"), one[:20]...), 0)}
	ends   = packets(done(0x20, 0), 1)
)

func message(from io.Reader) (kind, first byte, body []byte, err error) {
	header := make([]byte, 8)
	for status := byte(0); status&1 == 0; status = header[1] {
		if _, err = io.ReadFull(from, header); err != nil {
			return
		}
		part := make([]byte, binary.BigEndian.Uint16(header[2:])-8)
		if _, err = io.ReadFull(from, part); err != nil {
			return
		}
		if body == nil {
			first = header[1]
		}
		kind, body = header[0], append(body, part...)
	}
	return
}

func serve(conn net.Conn) {
	defer conn.Close()
	for {
		kind, status, body, err := message(conn)
		if err != nil {
			return
		}
		isReset, answer := status&8 != 0, []byte(nil)
		switch {
		case kind == 0x12:
			answer = prelogin
		case kind == 0x10:
			answer = login
		case kind == 6:
			answer = ends
		case bytes.HasSuffix(body, []byte("r\x00o\x00w\x00s\x00")):
			answer = tables[isReset]
		case bytes.HasSuffix(body, []byte("e\x00n\x00d\x00l\x00e\x00s\x00s\x00")):
			answer = begins[isReset]
		default:
			answer = ones[isReset]
		}
		conn.Write(answer)
	}
}

func main() {
	place, err := net.Listen("tcp", "127.0.0.1:0")
	if err != nil {
		panic(err)
	}
	fmt.Println(place.Addr().(*net.TCPAddr).Port)
	go func() {
		io.Copy(io.Discard, os.Stdin)
		os.Exit(0)
	}()
	for {
		conn, err := place.Accept()
		if err != nil {
			return
		}
		go serve(conn)
	}
}
