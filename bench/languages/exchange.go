// One request and its answer by known bytes, so many times: microseconds each, the fastest of 7 runs.
package main

import (
	"encoding/hex"
	"fmt"
	"os"
	"time"

	"mouktelf"
)

const answer = "0400002C0000010081010000000000000038016E00D105000000D106000000FD110000000200000000000000" +
	"0401001500000200FD000000000000000000000000"
const times = 20000

func must(err error) {
	if err != nil {
		fmt.Fprintln(os.Stderr, err)
		os.Exit(1)
	}
}

func exchange(client *mouktelf.StrictClient, came []byte, out []byte) (told int) {
	must(client.StartBatch("rows 5 2"))
	_, err := client.Send(&out)
	must(err)
	packets, _, err := mouktelf.Packets(came, 512)
	must(err)
	for _, packet := range packets {
		_, tokens, err := client.Take(packet)
		must(err)
		for {
			token, err := tokens.Next()
			must(err)
			if token == nil {
				break
			}
			told++
		}
	}
	return told
}

func main() {
	came, err := hex.DecodeString(answer)
	must(err)
	client, err := mouktelf.NewStrict(512)
	must(err)
	best, told := 1e9, 0
	for run := 0; run < 7; run++ {
		begun := time.Now()
		for i := 0; i < times; i++ {
			told = exchange(client, came, nil)
		}
		if took := float64(time.Since(begun).Nanoseconds()) / 1000 / times; took < best {
			best = took
		}
	}
	fmt.Printf("%.2f microseconds, %d tokens\n", best, told)
}
