package names

import (
	"bufio"
	"encoding/binary"
	"fmt"
	"net"
	"path/filepath"
	"strings"
	"testing"
)

// serveNames answers each question over UDP: of type 1 (an address of four bytes) with these records.
func serveNames(t *testing.T, lives []uint32, addresses [][4]byte) string {
	link, err := net.ListenPacket("udp", "127.0.0.1:0")
	if err != nil {
		t.Fatal(err)
	}
	t.Cleanup(func() { link.Close() })
	go func() {
		question := make([]byte, 512)
		for {
			count, from, err := link.ReadFrom(question)
			if err != nil {
				return
			}
			end := behindName(question[:count], 12) + 4
			answer := append([]byte{}, question[:end]...)
			answer[2], answer[3] = 0x81, 0x80
			binary.BigEndian.PutUint32(answer[8:], 0)
			if binary.BigEndian.Uint16(question[end-4:]) != 1 {
				binary.BigEndian.PutUint16(answer[6:], 0)
			} else {
				binary.BigEndian.PutUint16(answer[6:], uint16(len(addresses)))
				for i, it := range addresses {
					answer = append(answer, 0xc0, 12, 0, 1, 0, 1)
					answer = binary.BigEndian.AppendUint32(answer, lives[i])
					answer = append(answer, 0, 4, it[0], it[1], it[2], it[3])
				}
			}
			link.WriteTo(answer, from)
		}
	}()
	return link.LocalAddr().String()
}

func TestTheShortestLifeIsTold(t *testing.T) {
	at := serveNames(t, []uint32{90, 17}, [][4]byte{{192, 0, 2, 1}, {192, 0, 2, 2}})
	line := (&Server{At: at}).Line("sql.example")
	words := strings.Fields(line)
	if len(words) != 4 || words[0] != "sql.example" || words[1] != "17" {
		t.Fatalf("%q", line)
	}
}

func TestWhatHasNoAddressIsSaid(t *testing.T) {
	at := serveNames(t, nil, nil)
	if line := (&Server{At: at}).Line("none.example"); !strings.HasPrefix(line, "none.example ! ") {
		t.Fatalf("%q", line)
	}
	if line := (&Server{At: at}).Line("a b"); !strings.HasPrefix(line, "! ! ") {
		t.Fatalf("%q", line)
	}
}

func TestLinesAreAnswered(t *testing.T) {
	at := serveNames(t, []uint32{5}, [][4]byte{{192, 0, 2, 9}})
	listener, err := net.Listen("unix", filepath.Join(t.TempDir(), "names"))
	if err != nil {
		t.Fatal(err)
	}
	defer listener.Close()
	go (&Server{At: at}).Serve(listener)
	link, err := net.Dial("unix", listener.Addr().String())
	if err != nil {
		t.Fatal(err)
	}
	defer link.Close()
	fmt.Fprint(link, "one.example\ntwo.example\n")
	found, lines := map[string]bool{}, bufio.NewScanner(link)
	for i := 0; i < 2 && lines.Scan(); i++ {
		found[lines.Text()] = true
	}
	if !found["one.example 5 192.0.2.9"] || !found["two.example 5 192.0.2.9"] {
		t.Fatalf("%v", found)
	}
}

func TestHalfAMessageIsHeardAsFarAsItGoes(t *testing.T) {
	whole := append([]byte{0, 1, 0x81, 0x80, 0, 0, 0, 2, 0, 0, 0, 0}, 0, 0, 1, 0, 1, 0, 0, 0, 8, 0, 4, 1, 2, 3, 4)
	for end := range whole {
		h := &heard{}
		h.message(whole[:end])
		if h.found != (end >= 23) {
			t.Fatalf("%d bytes: %v", end, h.found)
		}
	}
}
