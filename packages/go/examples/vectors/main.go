// Walks each answer of a release's examples/vectors.txt, whole and in single bytes, and looks at what is told of its tokens.
//
//	go run ./examples/vectors vectors.txt
package main

import (
	"encoding/hex"
	"fmt"
	"os"
	"strings"

	"mouktelf"
)

func place(it mouktelf.Place) string { return fmt.Sprintf("%d %d", it.Start, it.Length) }

// words is all that is told of a token.
func words(it *mouktelf.Walked) string {
	switch it.Tells {
	case mouktelf.TellsDone:
		return fmt.Sprintf("%04X %d %d", it.Status, it.Command, it.Value)
	case mouktelf.TellsTransaction:
		return fmt.Sprintf("%d transaction %d %d", it.Change, it.Value, it.OldValue)
	case mouktelf.TellsReset:
		return fmt.Sprintf("%d reset", it.Change)
	case mouktelf.TellsPacketSize:
		return fmt.Sprintf("%d size %d", it.Change, it.Size)
	case mouktelf.TellsValues:
		return fmt.Sprintf("%d values %s %s", it.Change, place(it.Text), place(it.Others))
	case mouktelf.TellsOtherChange:
		return fmt.Sprintf("%d other", it.Change)
	case mouktelf.TellsMessage:
		return fmt.Sprintf("message %d %d %d %s %s", it.Number, it.State, it.Severity, place(it.Text), place(it.Others))
	case mouktelf.TellsReturnStatus:
		return fmt.Sprintf("value %d", it.Number)
	case mouktelf.TellsSessionState:
		return fmt.Sprintf("state %d %s %s", it.Size, map[bool]string{true: "recoverable", false: "lost"}[it.Recoverable], place(it.Text))
	case mouktelf.TellsUnclear:
		return "unclear"
	}
	return ""
}

func line(it *mouktelf.Walked, form string) string {
	told := words(it)
	if form == "short" && it.Tells != mouktelf.TellsDone {
		told = ""
		if it.Kind == 0xE3 {
			told = fmt.Sprint(it.Change)
		}
	}
	return strings.TrimSpace(fmt.Sprintf("%d %02X %d %s", it.Start, it.Kind, it.Length, told))
}

func walked(data []byte, size int, form, agreed string) (lines []string) {
	walk := mouktelf.NewWalk(4096, agreed == "encryption", agreed == "ranks")
	for len(data) > 0 {
		piece := data[:min(size, len(data))]
		count, token, err := walk.Next(piece)
		if refused, is := err.(mouktelf.Refused); is {
			return append(lines, fmt.Sprintf("fault %d at %d", uint8(refused.Fault), refused.At))
		}
		if token != nil {
			lines = append(lines, line(token, form))
		}
		data = data[count:]
	}
	if walk.Between() {
		return append(lines, "end")
	}
	return append(lines, "cut")
}

func min(a, b int) int {
	if a < b {
		return a
	}
	return b
}

func main() {
	if len(os.Args) != 2 {
		fmt.Fprintln(os.Stderr, "usage: vectors FILE")
		os.Exit(2)
	}
	text, err := os.ReadFile(os.Args[1])
	if err != nil {
		fmt.Fprintln(os.Stderr, err)
		os.Exit(2)
	}
	answers, wrong := strings.Split(strings.TrimSpace(string(text)), "\n\n"), 0
	for _, answer := range answers {
		lines := strings.Split(answer, "\n")
		title := strings.Fields(lines[0])
		data, err := hex.DecodeString(lines[1][1:])
		if err != nil {
			fmt.Fprintln(os.Stderr, err)
			os.Exit(2)
		}
		for _, size := range []int{len(data), 1} {
			if told := walked(data, size, title[2], title[3]); strings.Join(told, "\n") != strings.Join(lines[2:], "\n") {
				wrong++
				fmt.Fprintf(os.Stderr, "%s in pieces of %d: %q, and %q is wanted\n", title[1], size, told, lines[2:])
			}
		}
	}
	fmt.Printf("%d answers, whole and in single bytes, %d wrong\n", len(answers), wrong)
	if wrong > 0 {
		os.Exit(1)
	}
}
