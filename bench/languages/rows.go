// An answer of 600 rows of one INTN in a packet, heard in one call, by a client and by a table, and where its values stand: microseconds
// of a processor a row, the fewest of 7 runs, and what is allocated of it.
package main

import (
	"bytes"
	"encoding/hex"
	"fmt"
	"os"
	"runtime"
	"syscall"

	"mouktelf"
)

const rows, times = 600, 200

func must(err error) {
	if err != nil {
		fmt.Fprintln(os.Stderr, err)
		os.Exit(1)
	}
}

func decoded(digits string) []byte {
	data, err := hex.DecodeString(digits)
	must(err)
	return data
}

func spent() float64 {
	var it syscall.Rusage
	must(syscall.Getrusage(syscall.RUSAGE_SELF, &it))
	return float64(it.Utime.Sec+it.Stime.Sec)*1e6 + float64(it.Utime.Usec+it.Stime.Usec)
}

func fewest(what string, once func() int) {
	best, count := 1e9, 0
	var before, after runtime.MemStats
	for run := 0; run < 7; run++ {
		runtime.ReadMemStats(&before)
		begun := spent()
		for i := 0; i < times; i++ {
			count = once()
		}
		if took := (spent() - begun) / times / rows; took < best {
			best = took
		}
		runtime.ReadMemStats(&after)
	}
	fmt.Printf("%.3f microseconds and %.3f allocations a row, %d %s; ", best, float64(after.Mallocs-before.Mallocs)/times/rows, count, what)
}

func main() {
	packet := append(decoded("04010E33000001008101000000000009002604016E00"), bytes.Repeat(decoded("D10407000000"), rows)...)
	packet = append(packet, decoded("FD1000C1000100000000000000")...)
	client, err := mouktelf.New(4096)
	must(err)
	service, err := mouktelf.NewService(1, 4096)
	must(err)
	lent, err := service.Lease()
	must(err)
	told, out := []mouktelf.Walked(nil), []byte(nil)
	fewest("tokens heard by a client", func() int {
		out, told = out[:0], told[:0]
		must(client.StartBatch("a"))
		_, err := client.Send(&out)
		must(err)
		_, err = client.Hear(packet, &told)
		must(err)
		return len(told)
	})
	fewest("by a client that tells nothing", func() int {
		out = out[:0]
		must(client.StartBatch("a"))
		_, err := client.Send(&out)
		must(err)
		_, err = client.Hear(packet, nil)
		must(err)
		return 0
	})
	fewest("by a table", func() int {
		out, told = out[:0], told[:0]
		_, err := service.AskBatch(lent.Lease, "a", &out)
		must(err)
		_, _, err = service.Hear(lent.Number, packet, &told)
		must(err)
		return len(told)
	})
	columns, err := mouktelf.NewColumns(packet[8:], false)
	must(err)
	places := make([]mouktelf.RowPlace, len(columns.Columns))
	fewest("places alone", func() int {
		rest := packet[22:]
		for i := 0; i < rows; i++ {
			taken, err := columns.Places(rest, places)
			must(err)
			rest = rest[taken:]
		}
		return rows * len(places)
	})
	room := make([]mouktelf.RowPlace, rows)
	fewest("places in one call", func() int {
		found, _, err := columns.PlacesOfRows(packet[22:], room)
		must(err)
		return found
	})
	fmt.Println()
}
