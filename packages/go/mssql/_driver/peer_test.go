package mssql

import (
	"database/sql"
	"encoding/binary"
	"fmt"
	"io"
	"net"
	"sync"
	"testing"
	"unicode/utf16"
)

// peer is a server of a test's own: what it says to a request the test says.
type peer struct {
	t      *testing.T
	place  net.Listener
	lock   sync.Mutex
	asked  []request // on all connections, in the order in which they came
	opened int
	says   func(*line, request)
}

// line is one connection of a peer.
type line struct {
	*peer
	net.Conn
	number int
}

// request is a whole message: its type, its first packet's status, the last one's, the transaction that its headers name, and its
// body behind them.
type request struct {
	kind          packetType
	status, ended byte
	descriptor    uint64
	body          []byte
	line          int
}

func (it request) text() string {
	units := make([]uint16, len(it.body)/2)
	for i := range units {
		units[i] = binary.LittleEndian.Uint16(it.body[2*i:])
	}
	return string(utf16.Decode(units))
}

func (it request) String() string {
	what := map[packetType]string{packAttention: "attention", packBulkLoadBCP: "bulk load"}[it.kind]
	switch it.kind {
	case packSQLBatch:
		what = it.text()
	case packTransMgrReq:
		what = map[byte]string{5: "begin", 7: "commit", 8: "rollback"}[it.body[0]]
	}
	if it.descriptor != 0 {
		what += fmt.Sprintf(" in %d", it.descriptor)
	}
	if it.status&8 != 0 {
		what += ", a reset"
	}
	if it.ended&2 != 0 {
		what += ", ignored"
	}
	return what
}

// serve begins a peer, and opens a pool of so many connections to it.
func serve(t *testing.T, most int, says func(*line, request)) (*peer, *sql.DB) {
	place, err := net.Listen("tcp", "127.0.0.1:0")
	if err != nil {
		t.Fatal(err)
	}
	p := &peer{t: t, place: place, says: says}
	go func() {
		for {
			conn, err := place.Accept()
			if err != nil {
				return
			}
			p.lock.Lock()
			p.opened++
			it := &line{p, conn, p.opened}
			p.lock.Unlock()
			go it.run()
		}
	}()
	db, err := sql.Open("sqlserver", fmt.Sprintf("sqlserver://a:b@127.0.0.1:%d?encrypt=disable&connection+timeout=2", place.Addr().(*net.TCPAddr).Port))
	if err != nil {
		t.Fatal(err)
	}
	db.SetMaxOpenConns(most)
	db.SetMaxIdleConns(most)
	t.Cleanup(func() {
		db.Close()
		place.Close()
	})
	return p, db
}

func (it *line) run() {
	defer it.Close()
	for {
		came, err := it.next()
		if err != nil {
			return
		}
		switch came.kind {
		case packPrelogin:
			// encryption isn't supported
			it.sends([]byte{1, 0, 6, 0, 1, 0xFF, encryptNotSup})
		case packLogin7:
			it.sends(append([]byte{0xAD, 12, 0, 1, 0x74, 0, 0, 4, 1, 'p', 0, 1, 0, 0, 0}, done(0, 0)...))
		default:
			if came.kind != packBulkLoadBCP && came.kind != packAttention {
				count := binary.LittleEndian.Uint32(came.body)
				came.descriptor = binary.LittleEndian.Uint64(came.body[10:])
				came.body = came.body[count:]
			}
			it.lock.Lock()
			it.asked = append(it.asked, came)
			it.lock.Unlock()
			it.says(it, came)
		}
	}
}

// next reads a message.
func (it *line) next() (request, error) {
	came := request{line: it.number}
	for first := true; ; first = false {
		header := make([]byte, 8)
		if _, err := io.ReadFull(it, header); err != nil {
			return came, err
		}
		part := make([]byte, binary.BigEndian.Uint16(header[2:])-8)
		if _, err := io.ReadFull(it, part); err != nil {
			return came, err
		}
		if first {
			came.kind, came.status = packetType(header[0]), header[1]
		}
		came.body, came.ended = append(came.body, part...), header[1]
		if header[1]&1 != 0 {
			return came, nil
		}
	}
}

// says what these requests were, joined, and forgets them.
func (p *peer) heard() (all []string) {
	p.lock.Lock()
	defer p.lock.Unlock()
	for _, it := range p.asked {
		all = append(all, it.String())
	}
	p.asked = nil
	return all
}

// sends sends a whole message, in packets of at most 4,096 bytes.
func (it *line) sends(data []byte) { it.cuts(data, 4088, true) }

// cuts sends data in packets with so many bytes each. ends says whether the message does.
func (it *line) cuts(data []byte, each int, ends bool) {
	for first := true; first || len(data) > 0; first = false {
		part := data
		if len(part) > each {
			part = part[:each]
		}
		data = data[len(part):]
		header := []byte{4, 0, 0, 0, 0, 0, 1, 0}
		if ends && len(data) == 0 {
			header[1] = 1
		}
		binary.BigEndian.PutUint16(header[2:], uint16(8+len(part)))
		it.Write(append(header, part...))
	}
}

func done(status uint16, count uint64) []byte {
	data := make([]byte, 13)
	data[0] = 0xFD
	binary.LittleEndian.PutUint16(data[1:], status)
	binary.LittleEndian.PutUint64(data[5:], count)
	return data
}

// acknowledged is a message that acknowledges an attention.
func acknowledged() []byte { return done(doneAttn, 0) }

// rows is an answer of one INTN column: these rows, and what ends it.
func rows(status uint16, numbers ...int32) []byte {
	data := []byte{0x81, 1, 0, 0, 0, 0, 0, 9, 0, 0x26, 4, 1, 'n', 0}
	for _, it := range numbers {
		data = append(data, 0xD1, 4, byte(it), byte(it>>8), byte(it>>16), byte(it>>24))
	}
	return append(data, done(status|doneCount, uint64(len(numbers)))...)
}

// changed is an ENVCHANGE of a transaction: 8 with its number behind the type, 9 and 10 with it at the end; or of a reset.
func changed(kind byte, number uint64) []byte {
	descriptor := make([]byte, 8)
	binary.LittleEndian.PutUint64(descriptor, number)
	body := append(append([]byte{kind, 0, 8}, descriptor...))
	if kind == 8 {
		body = append(append([]byte{kind, 8}, descriptor...), 0)
	} else if kind == envResetConnAck {
		body = []byte{kind, 0, 0}
	}
	return append([]byte{0xE3, byte(len(body)), 0}, body...)
}

// failed is an ERROR with this text.
func failed(text string) []byte {
	body := append([]byte{0x51, 0xC3, 0, 0, 1, 16, byte(len(text)), 0}, str2ucs2(text)...)
	body = append(body, 0, 0, 1, 0, 0, 0)
	return append([]byte{0xAA, byte(len(body)), byte(len(body) >> 8)}, body...)
}

// reset is what an answer to a request that asks for a reset begins with.
func reset(it request) []byte {
	if it.status&8 != 0 {
		return changed(envResetConnAck, 0)
	}
	return nil
}
