// A driver with a reader of its own: it streams its requests, reads the tokens of seven answers as a
// SQL Server gives them (MS-TDS 2.2.7), and tells the client of each.
package main

import (
	"bytes"
	"encoding/binary"
	"encoding/hex"
	"fmt"
	"os"

	tds "mouktelf"
)

const done = "FD0000C1000100000000000000"

var answers = [][2]string{
	{"DONE alone", ""},
	{"USE x", "E3070001017800016D00"},
	{"SET LANGUAGE", "E3070002017800016D00"},
	{"EXEC p", "FF1100C1000100000000000000" + "7900000000" + "FE0000E0000000000000000000"},
	{"NVARCHAR", "810100000000000900E708000904D0003401" + "7300" + "D102006100"},
	{"INTN", "81010000000000090026" + "04016E00" + "D10407000000"},
	{"ORDER BY", "A902000100"},
	{"BEGIN TRAN", "E30B000808050000000000000000"},
}

const acknowledged = "A902000100" + "FD200000000000000000000000"

func expect(what string, holds bool, err error) {
	if !holds || err != nil {
		fmt.Fprintln(os.Stderr, what, "another answer is wanted", err)
		os.Exit(1)
	}
}

// send sends a batch of so many bytes in packets of 512.
func send(client *tds.Client, body int) {
	var out []byte
	expect("start", true, client.StartMessage(tds.Batch))
	for rest := bytes.Repeat([]byte("g\x00e\x00t\x00"), body/6+1)[:body]; len(rest) > 0; {
		part := 5
		if len(rest) < part {
			part = len(rest)
		}
		expect("put", true, client.Put(rest[:part], &out))
		rest = rest[part:]
	}
	expect("finish", true, client.Finish(&out))
	fmt.Printf("sent %d packets, %d bytes\n", (len(out)+511)/512, len(out))
}

func two(bytes []byte) int { return int(binary.LittleEndian.Uint16(bytes)) }

// token tells the client of the token at the front, and says how long it is.
func token(client *tds.Client, data []byte, column *byte) (told bool, length int, err error) {
	switch kind := data[0]; kind {
	case 0xFD, 0xFE, 0xFF:
		told, err = client.HeardDone(kind, uint16(two(data[1:])))
		return told, 13, err
	case 0xE3:
		if data[3] < 8 || data[3] > 10 {
			told, err = client.HeardOther()
		} else if at := 6; data[4] == 8 {
			told, err = client.HeardChange(data[3], binary.LittleEndian.Uint64(data[at-1:]))
		} else {
			told, err = client.HeardChange(data[3], binary.LittleEndian.Uint64(data[at:]))
		}
		return told, 3 + two(data[1:]), err
	}
	told, err = client.HeardOther()
	switch data[0] {
	case 0x79:
		return told, 5, err
	case 0x81:
		*column = data[9]
		if *column == 0xE7 {
			return told, 20, err
		}
		return told, 14, err
	case 0xD1:
		if *column != 0xE7 {
			return told, 2 + int(data[1]), err
		}
	}
	return told, 3 + two(data[1:]), err
}

// hear hears an answer, and counts what the caller is told of.
func hear(client *tds.Client, what, digits string, wanted tds.Answer) {
	data, err := hex.DecodeString(digits)
	expect(what, true, err)
	count, column := 0, byte(0)
	for len(data) > 0 {
		told, length, err := token(client, data, &column)
		expect(what, true, err)
		if told {
			count++
		}
		data = data[length:]
	}
	answer, err := client.MessageEnded()
	expect(what, answer == wanted && client.Idle(), err)
	fmt.Printf("%s: %d told\n", what, count)
}

func main() {
	client, err := tds.New(512)
	expect("new", true, err)
	for i, it := range answers {
		body := 6
		if i == 0 {
			body = 4000
		}
		send(client, body)
		hear(client, it[0], it[1]+done, tds.Finished)
	}
	expect("descriptor", client.Descriptor() == 5, nil)
	send(client, 6)
	var out []byte
	answer, err := client.Cancel(&out)
	expect("cancel", answer == tds.Asked, err)
	hear(client, "cancelled", acknowledged, tds.Acknowledged)
	_, err = client.HeardOther()
	expect("unasked", err == tds.Fault(61), nil)
}
