// Streams a table of ten types, and cancels it in the middle, from a second goroutine: tdsserve --real 127.0.0.1:1433 & stream 1433
package main

import (
	"fmt"
	"mouktelf"
	"net"
	"os"
	"strings"
)

const table = "select cast(1 as bit),cast(7 as tinyint),cast(8 as smallint),cast(9 as int),cast(10 as bigint),cast(1.50 as decimal(9,2))," +
	"cast('a' as nvarchar(9)),cast('b' as varchar(9)),cast(0x0102 as varbinary(9)),cast('2026-11-28' as date);"

var words = map[mouktelf.Answer]string{mouktelf.Finished: "finished", mouktelf.Acknowledged: "cancelled"}

func must[T any](it T, err error) T {
	if err != nil {
		panic(err)
	}
	return it
}

func main() {
	socket, client, places := must(net.Dial("tcp", "127.0.0.1:"+os.Args[1])), must(mouktelf.New(4096)), make([]mouktelf.RowPlace, 10)
	outgoing, rest, piece, done := mouktelf.NewOutgoing(socket, nil), []byte(nil), make([]byte, 4096), make(chan error)
	must(socket.Write(mouktelf.Login("sa", 4096)))
	must(socket.Read(piece)) // its answer is one packet: mouktelf.IsLetIn
	for turn, text := range []string{strings.Repeat(table, 4) + strings.Repeat("rows 0 64;", 64), "rows 7 2"} {
		answer, most, count, data, columns := mouktelf.More, []int{3, 9}[turn], 0, []byte(nil), (*mouktelf.Columns)(nil)
		must(0, client.StartBatch(text))
		must(0, outgoing.Do(func(out *[]byte) error { must(client.Send(out)); return nil }))
		for told := []mouktelf.Walked(nil); answer == mouktelf.More; told = told[:0] {
			packets, left, err := mouktelf.Packets(append(rest, piece[:must(socket.Read(piece))]...), 4096)
			must(0, err)
			for rest = left; len(packets) > 0; packets = packets[1:] {
				data = append(data, packets[0][8:]...)
				must(0, outgoing.Do(func(*[]byte) error { answer = must(client.Hear(packets[0], &told)); return nil }))
			}
			for _, token := range told {
				if own := data[token.Start : token.Start+token.Length]; token.Kind == 0x81 {
					columns = must(mouktelf.NewColumns(own, false))
				} else if token.Kind == 0xD1 || token.Kind == 0xD2 {
					row, _ := "", must(columns.Places(own, places))
					for _, it := range places[:len(columns.Columns)] {
						row += map[bool]string{true: "- ", false: fmt.Sprint(it.Length) + " "}[it.Null]
					}
					if count++; count <= most {
						fmt.Println(strings.TrimSpace(row))
					}
					if count == most {
						go func() { done <- outgoing.Do(func(out *[]byte) error { _, err := client.Cancel(out); return err }) }()
						must(0, <-done)
					}
				}
			}
		}
		fmt.Println(words[answer])
	}
}
