// A request and its answer, a cancel that crosses the answer's end, a reset and a peer's fault.
package main

import (
	"bytes"
	"encoding/hex"
	"fmt"
	"os"

	tds "mouktelf"
)

const (
	begun        = "0401002300000100E30B000808010000000000000000FD000000000000000000000000"
	said         = "0400002800000100AB100050C30000010001006100000000000000FD010000000000000000000000"
	rows         = "0400002C0000010081010000000000000038016E00D105000000D106000000FD110000000200000000000000"
	nothingSet   = "0400001A000001007900000000FD010000000000000000000000"
	resetStep    = "0400000E00000100E30300120000"
	ended        = "0401001500000200FD000000000000000000000000"
	acknowledged = "0401001500000100FD200000000000000000000000"
)

func must(err error) {
	if err != nil {
		fmt.Fprintln(os.Stderr, err)
		os.Exit(1)
	}
}

func expect(what string, holds bool) {
	if !holds {
		must(fmt.Errorf("%s: another answer is wanted", what))
	}
}

// receive takes what came packet by packet, and prints what is told.
func receive(client *tds.StrictClient, digits string) (answer tds.Answer, err error) {
	piece, err := hex.DecodeString(digits)
	must(err)
	packets, _, err := tds.Packets(piece, 512)
	must(err)
	for _, packet := range packets {
		var tokens *tds.Tokens
		if answer, tokens, err = client.Take(packet); err != nil {
			return 0, err
		}
		for {
			token, err := tokens.Next()
			must(err)
			if token == nil {
				break
			}
			show(token)
		}
	}
	return answer, nil
}

func show(token *tds.Token) {
	switch token.Kind {
	case 0xAB:
		fmt.Println("info", token.Number, token.Text)
	case 0x79:
		fmt.Println("status", token.Number)
	case 0x81:
		fmt.Println("columns", token.Value)
	case 0xD1:
		fmt.Println("row", token.Values[0])
	case 0xFD:
		fmt.Printf("done %04x %d\n", token.Status, token.Value)
	}
}

func ask(client *tds.StrictClient, started error) (out []byte) {
	must(started)
	for {
		answer, err := client.Send(&out)
		must(err)
		if answer == tds.Last {
			return out
		}
	}
}

func connection() {
	client, err := tds.NewStrict(512)
	must(err)
	ask(client, client.StartBegin(0))
	answer, err := receive(client, begun)
	expect("begin", err == nil && answer == tds.Finished && client.Descriptor() == 1)
	ask(client, client.StartBatch("rows 5 2"))
	answer, err = receive(client, rows+ended)
	expect("rows", err == nil && answer == tds.Finished)

	ask(client, client.StartBatch("say a"))
	receive(client, said)
	var out []byte
	answer, err = client.Cancel(&out)
	expect("cancel", err == nil && answer == tds.Asked && bytes.Equal(out, []byte{6, 1, 0, 8, 0, 0, 1, 0}))
	answer, err = receive(client, ended)
	expect("crossed", err == nil && answer == tds.More)
	answer, err = receive(client, acknowledged)
	expect("acknowledged", err == nil && answer == tds.Acknowledged && client.Idle())

	must(client.MarkReset(false))
	out = ask(client, client.StartBatch("get x"))
	expect("reset", out[0] == 1 && out[1] == 9)
	receive(client, resetStep)
	expect("no transaction", client.Descriptor() == 0)
	answer, err = receive(client, nothingSet+ended)
	expect("get", err == nil && answer == tds.Finished)

	_, err = receive(client, ended)
	expect("unasked", err == tds.Fault(61))
	client.Lost()
	expect("broken", client.StartBatch("get x") == tds.Fault(33))
}

func main() {
	connection()
}
