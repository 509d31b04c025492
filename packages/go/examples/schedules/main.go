//go:build play

// Plays each schedule that is named, and compares its report with the text beside it.
//
//	go run -tags play ./examples/schedules FILE.json ..
package main

import (
	"bytes"
	"fmt"
	"os"
	"strings"

	"mouktelf/play"
)

func main() {
	others := 0
	for _, name := range os.Args[1:] {
		schedule, err := os.ReadFile(name)
		if err != nil {
			fmt.Fprintln(os.Stderr, err)
			os.Exit(1)
		}
		wanted, err := os.ReadFile(strings.TrimSuffix(name, ".json") + ".txt")
		if err != nil {
			fmt.Fprintln(os.Stderr, err)
			os.Exit(1)
		}
		text, err := play.Play(schedule)
		if err != nil || !bytes.Equal(text, wanted) {
			fmt.Fprintln(os.Stderr, name, "another text", err)
			others++
		}
	}
	fmt.Printf("%d schedules, %d with another text\n", len(os.Args)-1, others)
	if others > 0 {
		os.Exit(1)
	}
}
