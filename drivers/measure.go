// The time of a request at tdsserve, and of a plain echo of the same bytes in the same run.
//
// measure PORT PID: where the server listens, and its process. It starts two further processes of itself:
// `measure echo HEX` answers each 46 bytes by these bytes, `measure flood PORT` sends rubbish without end.
package main

import (
	"bufio"
	"bytes"
	"encoding/binary"
	"encoding/hex"
	"fmt"
	"io"
	"net"
	"os"
	"os/exec"
	"sort"
	"strings"
	"time"
)

const asked = "rows 7 3"
const windows = 40
const inWindow = 500

func check(err error) {
	if err != nil {
		fmt.Fprintln(os.Stderr, "measure:", err)
		os.Exit(1)
	}
}

// login7 is a LOGIN7 of TDS 7.4 without texts.
func login7() []byte {
	body := make([]byte, 94)
	binary.LittleEndian.PutUint32(body, 94)
	binary.LittleEndian.PutUint32(body[4:], 0x74000004)
	binary.LittleEndian.PutUint32(body[8:], 4096)
	return packet(16, body)
}

func packet(kind byte, body []byte) []byte {
	head := []byte{kind, 1, 0, 0, 0, 0, 1, 0}
	binary.BigEndian.PutUint16(head[2:], uint16(8+len(body)))
	return append(head, body...)
}

// batch is a request outside of a transaction.
func batch(text string) []byte {
	body := []byte{22, 0, 0, 0, 18, 0, 0, 0, 2, 0, 0, 0, 0, 0, 0, 0, 0, 0, 1, 0, 0, 0}
	for _, unit := range text {
		body = append(body, byte(unit), 0)
	}
	return packet(1, body)
}

// message reads packets up to the end of a message.
func message(from io.Reader) []byte {
	var all []byte
	for {
		head := make([]byte, 8)
		_, err := io.ReadFull(from, head)
		check(err)
		body := make([]byte, int(binary.BigEndian.Uint16(head[2:]))-8)
		_, err = io.ReadFull(from, body)
		check(err)
		all = append(append(all, head...), body...)
		if head[1]&1 == 1 {
			return all
		}
	}
}

func dial(port string) net.Conn {
	conn, err := net.Dial("tcp", "127.0.0.1:"+port)
	check(err)
	return conn
}

func window(conn net.Conn, request []byte, answer []byte) []float64 {
	came := make([]byte, len(answer))
	var times []float64
	for turn := 0; turn < inWindow; turn++ {
		started := time.Now()
		_, err := conn.Write(request)
		check(err)
		_, err = io.ReadFull(conn, came)
		check(err)
		times = append(times, float64(time.Since(started).Nanoseconds())/1000)
		if !bytes.Equal(came, answer) {
			check(fmt.Errorf("another answer"))
		}
	}
	return times
}

func median(times []float64) float64 {
	sort.Float64s(times)
	return times[len(times)/2]
}

// both are the medians at the server and at the echo, in windows that take turns.
func both(server net.Conn, echo net.Conn, request []byte, answer []byte) (float64, float64) {
	var atServer, atEcho []float64
	for turn := 0; turn < windows; turn++ {
		atServer = append(atServer, window(server, request, answer)...)
		atEcho = append(atEcho, window(echo, request, answer)...)
	}
	return median(atServer), median(atEcho)
}

func serveEcho(answer []byte) {
	listener, err := net.Listen("tcp", "127.0.0.1:0")
	check(err)
	fmt.Println(listener.Addr().(*net.TCPAddr).Port)
	conn, err := listener.Accept()
	check(err)
	request := make([]byte, len(batch(asked)))
	for {
		if _, err := io.ReadFull(conn, request); err != nil {
			return
		}
		conn.Write(answer)
	}
}

func flood(port string) {
	rubbish := bytes.Repeat([]byte{0xa5}, 4096)
	for {
		conn, err := net.Dial("tcp", "127.0.0.1:"+port)
		if err != nil {
			continue
		}
		for err == nil {
			_, err = conn.Write(rubbish)
		}
		conn.Close()
	}
}

func start(words ...string) (*exec.Cmd, io.Reader) {
	child := exec.Command(os.Args[0], words...)
	out, err := child.StdoutPipe()
	check(err)
	check(child.Start())
	return child, out
}

func memory(pid string) string {
	text, err := os.ReadFile("/proc/" + pid + "/status")
	check(err)
	for _, line := range strings.Split(string(text), "\n") {
		if strings.HasPrefix(line, "VmHWM") {
			return strings.TrimSpace(strings.TrimPrefix(line, "VmHWM:"))
		}
	}
	return "?"
}

func main() {
	switch os.Args[1] {
	case "echo":
		answer, err := hex.DecodeString(os.Args[2])
		check(err)
		serveEcho(answer)
		return
	case "flood":
		flood(os.Args[2])
		return
	}
	server := dial(os.Args[1])
	server.Write(login7())
	message(server)
	request := batch(asked)
	server.Write(request)
	answer := message(server)
	child, out := start("echo", hex.EncodeToString(answer))
	port, err := bufio.NewReader(out).ReadString('\n')
	check(err)
	echo := dial(strings.TrimSpace(port))
	defer child.Process.Kill()
	alone, plain := both(server, echo, request, answer)
	fmt.Printf("alone: a request %.1f us, an echo of the same %d and %d bytes %.1f us: %.2f times\n",
		alone, len(request), len(answer), plain, alone/plain)
	flooding, _ := start("flood", os.Args[1])
	defer flooding.Process.Kill()
	time.Sleep(200 * time.Millisecond)
	beside, plainBeside := both(server, echo, request, answer)
	fmt.Printf("beside a flood: a request %.1f us, %.2f times; an echo %.1f us\n",
		beside, beside/alone, plainBeside)
	fmt.Printf("the server had at most %s\n", memory(os.Args[2]))
}
