// Command measure compares ways to a TDS server, for tls/tests/bench.
//
//	measure latency WINDOWS WAY..    a request's median in microseconds, in windows of 100 that take turns
//	measure idle COUNT PID WAY       what memory each idle connection takes in this process
//	measure bulk WAY..               megabytes a second of long answers
//
// A WAY is NAME=KIND:ADDR; KIND is clear, or on, login or strict: this program speaks TLS then.
package main

import (
	"bufio"
	"crypto/tls"
	"encoding/binary"
	"errors"
	"fmt"
	"io"
	"net"
	"os"
	"sort"
	"strconv"
	"strings"
	"time"

	"tdstls/internal/tds"
)

func check(err error) {
	if err != nil {
		fmt.Fprintln(os.Stderr, "measure:", err)
		os.Exit(1)
	}
}

type way struct{ name, kind, address string }

func ways(words []string) []way {
	var all []way
	for _, word := range words {
		name, rest, _ := strings.Cut(word, "=")
		kind, address, _ := strings.Cut(rest, ":")
		all = append(all, way{name, kind, address})
	}
	return all
}

func packet(kind tds.Kind, data []byte) []byte {
	h := tds.MakeHeader(kind, true, len(data), 1)
	return append(h[:], data...)
}

func batch(text string) []byte {
	data := []byte{22, 0, 0, 0, 18, 0, 0, 0, 2, 0, 0, 0, 0, 0, 0, 0, 0, 0, 1, 0, 0, 0}
	for _, unit := range text {
		data = append(data, byte(unit), 0)
	}
	return packet(tds.Batch, data)
}

func answer(from io.Reader) ([]byte, error) {
	var data []byte
	for {
		h, err := tds.ReadHeader(from)
		if err != nil {
			return nil, err
		}
		n, err := h.Data()
		if err != nil {
			return nil, err
		}
		part := make([]byte, n)
		if _, err := io.ReadFull(from, part); err != nil {
			return nil, err
		}
		if data = append(data, part...); h.Last() {
			return data, nil
		}
	}
}

// connect logs in.
func (w way) connect() (io.ReadWriteCloser, error) {
	made, err := net.Dial("tcp", w.address)
	if err != nil {
		return nil, err
	}
	conn := tds.NewConn(made.(*net.TCPConn))
	config := &tls.Config{InsecureSkipVerify: true, MaxVersion: tls.VersionTLS12, DynamicRecordSizingDisabled: true}
	var stream, login io.ReadWriteCloser = conn, conn
	if w.kind == "strict" {
		config.MaxVersion, config.NextProtos = tls.VersionTLS13, []string{"tds/8.0"}
		inside := tls.Client(conn, config)
		stream, login = inside, inside
	}
	asks := map[string]tds.Encryption{"clear": tds.EncryptNotSupported, "on": tds.EncryptOn, "login": tds.EncryptOff}[w.kind]
	stream.Write(packet(tds.Prelogin, tds.OwnOptions(asks).Bytes()))
	if _, err := answer(stream); err != nil {
		return nil, err
	}
	if w.kind == "on" || w.kind == "login" {
		conn.SetStage(tds.Wrapped)
		inside := tls.Client(conn, config)
		if err := inside.Handshake(); err != nil {
			return nil, err
		}
		conn.SetStage(tds.Plain)
		login = inside
		if w.kind == "on" {
			stream = inside
		}
	}
	data := make([]byte, 94)
	binary.LittleEndian.PutUint32(data, 94)
	binary.LittleEndian.PutUint32(data[4:], 0x74000004)
	binary.LittleEndian.PutUint32(data[8:], 4096)
	login.Write(packet(tds.Login7, data))
	_, err = answer(stream)
	return stream, err
}

func ask(stream io.ReadWriter, first int) error {
	if _, err := stream.Write(batch(fmt.Sprintf("rows %d 3", first))); err != nil {
		return err
	}
	got, err := answer(stream)
	if err != nil {
		return err
	}
	row := binary.LittleEndian.AppendUint32([]byte{0xD1}, uint32(first+2))
	if !strings.Contains(string(got), string(row)) {
		return errors.New("another answer")
	}
	return nil
}

func latency(all []way, windows int) {
	streams := make([]io.ReadWriter, len(all))
	times := make([][]float64, len(all))
	for place, w := range all {
		stream, err := w.connect()
		check(err)
		streams[place] = stream
	}
	for window := 0; window <= windows; window++ {
		for place, stream := range streams {
			for turn := 0; turn < 100; turn++ {
				started := time.Now()
				check(ask(stream, turn))
				if window > 0 { // the first one warms up
					times[place] = append(times[place], float64(time.Since(started).Nanoseconds())/1000)
				}
			}
		}
	}
	first := 0.0
	for place, w := range all {
		sort.Float64s(times[place])
		n := len(times[place])
		median := times[place][n/2]
		if place == 0 {
			first = median
		}
		fmt.Printf("%-34s  median %.1f us, %+.1f us; 90%% %.1f; 99%% %.1f\n", w.name, median, median-first,
			times[place][n*9/10], times[place][n*99/100])
	}
}

// resident is a process's memory in KB.
func resident(pid string) int {
	text, err := os.ReadFile("/proc/" + pid + "/status")
	check(err)
	for _, line := range strings.Split(string(text), "\n") {
		if strings.HasPrefix(line, "VmRSS:") {
			n, _ := strconv.Atoi(strings.Fields(line)[1])
			return n
		}
	}
	return 0
}

func idle(count int, pid string, w way) {
	before := resident(pid)
	var keep []io.ReadWriteCloser
	for len(keep) < count {
		stream, err := w.connect()
		check(err)
		check(ask(stream, 7))
		keep = append(keep, stream)
	}
	now := resident(pid)
	fmt.Printf("%s: %d KB before, %d KB with %d idle connections: %.1f KB each\n", w.name, before, now, count,
		float64(now-before)/float64(count))
	for _, stream := range keep {
		stream.Close()
	}
}

func bulk(all []way) {
	text := strings.TrimSuffix(strings.Repeat("rows 0 64;", 60), ";")
	for _, w := range all {
		stream, err := w.connect()
		check(err)
		from := bufio.NewReaderSize(stream, 1<<16)
		started, total := time.Now(), 0
		for time.Since(started) < 2*time.Second {
			// Several requests at a time would end the connection; so the way there and back is in it.
			_, err := stream.Write(batch(text))
			check(err)
			data, err := answer(from)
			check(err)
			total += len(data)
		}
		fmt.Printf("%s: %.0f MB/s\n", w.name, float64(total)/1e6/time.Since(started).Seconds())
		stream.Close()
	}
}

func number(word string) int {
	n, err := strconv.Atoi(word)
	check(err)
	return n
}

func main() {
	switch words := os.Args[2:]; os.Args[1] {
	case "latency":
		latency(ways(words[1:]), number(words[0]))
	case "idle":
		idle(number(words[0]), words[1], ways(words[2:])[0])
	case "bulk":
		bulk(ways(words))
	}
}
