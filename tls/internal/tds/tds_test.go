package tds

import (
	"bytes"
	"io"
	"net"
	"strings"
	"testing"
	"testing/iotest"
)

// What go-mssqldb sends: VERSION, ENCRYPTION, INSTOPT, THREADID, MARS, and their data in this order.
var prelogin = []byte{
	0, 0, 26, 0, 6, 1, 0, 32, 0, 1, 2, 0, 33, 0, 1, 3, 0, 34, 0, 4, 4, 0, 38, 0, 1, 0xFF,
	1, 2, 3, 4, 5, 6, 1, 0, 9, 9, 9, 9, 0,
}

func TestOptionsKeepAllButEncryption(t *testing.T) {
	options, err := ParseOptions(prelogin)
	if err != nil {
		t.Fatal(err)
	}
	if e := options.Encryption(); e != EncryptOn {
		t.Fatal(e)
	}
	if !bytes.Equal(options.Bytes(), prelogin) {
		t.Fatalf("% x", options.Bytes())
	}
	wanted := append([]byte(nil), prelogin...)
	wanted[32] = 2
	if got := options.With(EncryptNotSupported).Bytes(); !bytes.Equal(got, wanted) {
		t.Fatalf("% x", got)
	}
}

func TestOptionsWithoutEncryption(t *testing.T) {
	options, err := ParseOptions([]byte{0, 0, 6, 0, 1, 0xFF, 7})
	if err != nil || options.Encryption() != EncryptNotSupported {
		t.Fatal(err, options.Encryption())
	}
	again, err := ParseOptions(options.With(EncryptOff).Bytes())
	if err != nil || again.Encryption() != EncryptOff {
		t.Fatal(err, again)
	}
}

func TestOptionsThatLie(t *testing.T) {
	for name, data := range map[string][]byte{
		"none":           {},
		"no end":         {1, 0, 5, 0, 1},
		"cut":            {1, 0, 6},
		"beyond":         {1, 0, 6, 0, 2, 0xFF, 1},
		"far beyond":     {1, 0xFF, 0xFF, 0xFF, 0xFF, 0xFF, 1},
		"twice":          {1, 0, 0, 0, 1, 1, 0, 0, 0, 1, 0xFF},
		"many ones":      bytes.Repeat([]byte{1}, 300),
		"the same":       {0, 0, 11, 0, 6, 1, 0, 16, 0, 1, 0xFF, 1, 2, 3, 4, 5, 6},
		"the list":       {1, 0, 0, 0, 1, 0xFF, 2},
		"the list's end": {1, 0, 5, 0, 1, 0xFF, 2},
		"33 options": append(func() (all []byte) {
			for token := byte(0); token < 33; token++ {
				all = append(all, token, 0, 0, 0, 0)
			}
			return all
		}(), 0xFF),
	} {
		if _, err := ParseOptions(data); err == nil {
			t.Errorf("%s is taken", name)
		}
	}
}

func packets(kind Kind, parts ...[]byte) []byte {
	var out []byte
	for place, part := range parts {
		h := MakeHeader(kind, place == len(parts)-1, len(part), byte(place+1))
		out = append(append(out, h[:]...), part...)
	}
	return out
}

func TestReadMessage(t *testing.T) {
	whole := packets(Prelogin, prelogin)
	many := packets(Prelogin, prelogin[:1], prelogin[1:20], prelogin[20:])
	for _, each := range [][]byte{whole, many} {
		from := bytes.NewReader(append(append([]byte(nil), each...), 0x16))
		got, err := ReadMessage(iotest.OneByteReader(from), Prelogin)
		if err != nil || !bytes.Equal(got, prelogin) {
			t.Fatalf("% x %v", got, err)
		}
		if from.Len() != 1 {
			t.Fatal("it read behind the message")
		}
		for end := range each {
			if _, err := ReadMessage(bytes.NewReader(each[:end]), Prelogin); err == nil {
				t.Fatalf("cut at %d it is taken", end)
			}
		}
	}
}

// endless is a message that never ends.
type endless struct{ part []byte }

func (e *endless) Read(p []byte) (int, error) {
	if len(e.part) == 0 {
		h := MakeHeader(Prelogin, false, 1, 0)
		e.part = append(h[:], 1)
	}
	n := copy(p, e.part)
	e.part = e.part[n:]
	return n, nil
}

func TestMessagesThatLie(t *testing.T) {
	for name, from := range map[string]io.Reader{
		"an endless one": &endless{},
		"a short length": bytes.NewReader([]byte{0x12, 1, 0, 7, 0, 0, 0, 0}),
		"a long length":  bytes.NewReader(append([]byte{0x12, 1, 0xFF, 0xFF, 0, 0, 0, 0}, make([]byte, 65527)...)),
		"empty packets":  bytes.NewReader(bytes.Repeat([]byte{0x12, 0, 0, 8, 0, 0, 0, 0}, 100)),
		"another kind":   bytes.NewReader(packets(Login7, prelogin)),
	} {
		if _, err := ReadMessage(from, Prelogin); err == nil || err == io.ErrUnexpectedEOF {
			t.Errorf("%s: %v", name, err)
		}
	}
}

func pair(t *testing.T) (*Conn, *net.TCPConn) {
	t.Helper()
	listener, err := net.Listen("tcp", "127.0.0.1:0")
	if err != nil {
		t.Fatal(err)
	}
	defer listener.Close()
	made, err := net.Dial("tcp", listener.Addr().String())
	if err != nil {
		t.Fatal(err)
	}
	accepted, err := listener.Accept()
	if err != nil {
		t.Fatal(err)
	}
	t.Cleanup(func() { made.Close(); accepted.Close() })
	return NewConn(accepted.(*net.TCPConn)), made.(*net.TCPConn)
}

func TestWrapped(t *testing.T) {
	conn, peer := pair(t)
	go peer.Write(append(packets(Prelogin, []byte("abc"), []byte("defgh")), "raw"...))
	first, err := conn.Peek()
	if err != nil || first != byte(Prelogin) {
		t.Fatal(first, err)
	}
	conn.SetStage(Wrapped)
	got := make([]byte, 8)
	if _, err := io.ReadFull(conn, got[:5]); err != nil || string(got[:5]) != "abcde" {
		t.Fatal(string(got), err)
	}
	if conn.SetStage(Plain) == nil {
		t.Fatal("the stage changes within a packet")
	}
	if _, err := io.ReadFull(conn, got[5:]); err != nil || string(got) != "abcdefgh" {
		t.Fatal(string(got), err)
	}
	if err := conn.SetStage(Plain); err != nil {
		t.Fatal(err)
	}
	if _, err := io.ReadFull(conn, got[:3]); err != nil || string(got[:3]) != "raw" {
		t.Fatal(string(got), err)
	}

	conn.SetStage(Wrapped)
	sent := bytes.Repeat([]byte("0123456789"), 1000)
	go func() {
		conn.Write(sent)
		conn.CloseWrite()
	}()
	all, err := io.ReadAll(peer)
	if err != nil || len(all) != len(sent)+3*HeaderSize {
		t.Fatal(len(all), err)
	}
	var came []byte
	for len(all) > 0 {
		h, _ := ReadHeader(bytes.NewReader(all))
		n, err := h.Data()
		if err != nil || h.Kind() != Prelogin || h.Last() != (HeaderSize+n == len(all)) {
			t.Fatal(h, err)
		}
		came, all = append(came, all[HeaderSize:HeaderSize+n]...), all[HeaderSize+n:]
	}
	if !bytes.Equal(came, sent) {
		t.Fatal("other bytes came")
	}
}

func TestRecordsAreReadOneByOne(t *testing.T) {
	conn, peer := pair(t)
	go peer.Write([]byte("\x17\x03\x03\x00\x03abc\x15\x03\x03\x00\x02xy\x10clear"))
	conn.SetStage(Records)
	got := make([]byte, 100)
	var all []byte
	for len(all) < 8 {
		n, err := conn.Read(got)
		if err != nil {
			t.Fatal(err)
		}
		all = append(all, got[:n]...)
	}
	if string(all) != "\x17\x03\x03\x00\x03abc" {
		t.Fatalf("%q", all)
	}
	if err := conn.SkipAlert(); err != nil {
		t.Fatal(err)
	}
	if err := conn.SetStage(Plain); err != nil {
		t.Fatal(err)
	}
	if _, err := io.ReadFull(conn, got[:6]); err != nil || string(got[:6]) != "\x10clear" {
		t.Fatalf("%q %v", got[:6], err)
	}
}

func TestLogins(t *testing.T) {
	body := bytes.Repeat([]byte{1, 2, 3, 4, 0, 0, 0, 8}, 8000)
	for _, size := range []int{0, 1, 7, 8, 100, 4088, 4089, 8000, 60000} {
		sent := packets(Login7, body[:size])
		var came bytes.Buffer
		from := bytes.NewReader(append(append([]byte(nil), sent...), 9))
		login, err := ReadLogin(iotest.HalfReader(from))
		if err != nil {
			t.Fatal(size, err)
		}
		if size >= 8 {
			if login.Version() != Version8 {
				t.Fatalf("%x", login.Version())
			}
			copy(sent[12:], []byte{4, 0, 0, 0x74})
		}
		login.SetVersion(Version74)
		if err := login.Send(&came, iotest.OneByteReader(from)); err != nil || !login.Header().Last() || from.Len() != 1 {
			t.Fatal(size, err, from.Len())
		}
		if !bytes.Equal(came.Bytes(), sent) {
			t.Fatalf("%d: other bytes came", size)
		}
	}
	for name, data := range map[string][]byte{
		"another kind": packets(Prelogin, body[:100]),
		"a lie":        {0x10, 1, 0, 7, 0, 0, 0, 0},
		"cut":          packets(Login7, body[:100])[:50],
	} {
		if _, err := ReadLogin(bytes.NewReader(data)); err == nil {
			t.Errorf("%s is taken", name)
		}
	}
}

// answers are answers to a login: ENVCHANGE, LOGINACK, a packet's header between the bytes of its version,
// and DONE, whose bytes look like those of another LOGINACK.
func answers(version ...byte) []byte {
	front := []byte{0xE3, 2, 0, 0x74, 0, 0xAB, 1, 0, 0xAD, 0xAD, 10, 0, 1}
	back := []byte{0, 0, 11, 0, 0, 1, 0xFD, 0xAD, 10, 0, 1, 0x74, 0, 0, 4, 0, 0, 0, 0}
	return packets(Answer, append(front, version[:2]...), append(append([]byte(nil), version[2:]...), back[1:]...))
}

func TestLoginAck(t *testing.T) {
	for _, each := range []struct {
		version, by  uint32
		is, becoming []byte
	}{
		{Version74, Version8, []byte{0x74, 0, 0, 4}, []byte{8, 0, 0, 0}},
		{Version8, Version74, []byte{8, 0, 0, 0}, []byte{0x74, 0, 0, 4}},
		{Version74, Version8, []byte{0x73, 0x0B, 0, 3}, []byte{0x73, 0x0B, 0, 3}},
	} {
		for cut := 0; cut <= len(answers(each.is...)); cut++ {
			got, editor := answers(each.is...), NewAckEditor(each.version, each.by)
			editor.Edit(got[:cut])
			editor.Edit(got[cut:])
			if !bytes.Equal(got, answers(each.becoming...)) || !editor.IsOver() {
				t.Fatalf("cut at %d: % x", cut, got)
			}
		}
	}
	refused := packets(Answer, Refusal(Version74, 1, "no"))
	editor := NewAckEditor(Version74, Version8)
	if editor.Edit(refused); !editor.IsOver() || !bytes.Equal(refused, packets(Answer, Refusal(Version74, 1, "no"))) {
		t.Fatal("a refusal is changed")
	}
}

// FuzzLoginAck edits any bytes whole and byte by byte: the same comes out.
func FuzzLoginAck(f *testing.F) {
	f.Add(answers(0x74, 0, 0, 4))
	f.Add(packets(Answer, Refusal(Version74, 1, "no")))
	f.Fuzz(func(t *testing.T, data []byte) {
		whole, cut := append([]byte(nil), data...), append([]byte(nil), data...)
		one, other := NewAckEditor(Version74, Version8), NewAckEditor(Version74, Version8)
		one.Edit(whole)
		for place := range cut {
			other.Edit(cut[place : place+1])
		}
		if !bytes.Equal(whole, cut) || one.IsOver() != other.IsOver() {
			t.Fatalf("% x, % x", whole, cut)
		}
	})
}

func TestRefusal(t *testing.T) {
	text := strings.Repeat("é", 10000)
	wide, narrow := Refusal(0x74000004, 1, text), Refusal(0x71000001, 1, text)
	if len(wide) > MaxMessage || len(wide) != len(narrow)+6 {
		t.Fatal(len(wide), len(narrow))
	}
	if len(Refusal(0x08000000, 1, text)) != len(wide) || len(Refusal(0x07000000, 1, text)) != len(narrow) {
		t.Fatal("the wrong layout")
	}
	login, err := ReadLogin(bytes.NewReader(packets(Login7, []byte{9, 0, 0, 0, 4, 0, 0, 0x74, 1})))
	if err != nil || login.Version() != Version74 {
		t.Fatal(login, err)
	}
}

func FuzzParseOptions(f *testing.F) {
	f.Add(prelogin)
	f.Fuzz(func(t *testing.T, data []byte) {
		options, err := ParseOptions(data)
		if err != nil {
			return
		}
		with := options.With(EncryptRequired)
		again, err := ParseOptions(with.Bytes())
		if len(with.Bytes()) <= MaxMessage && (err != nil || !bytes.Equal(again.Bytes(), with.Bytes())) {
			t.Fatalf("% x: %v", data, err)
		}
		if err == nil && again.Encryption() != EncryptRequired {
			t.Fatal(again.Encryption())
		}
	})
}
