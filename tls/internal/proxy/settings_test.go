package proxy

import (
	"bytes"
	"crypto/tls"
	"encoding/binary"
	"io"
	"net"
	"os"
	"path/filepath"
	"strings"
	"testing"
	"time"

	"tdstls/internal/selfsigned"
	"tdstls/internal/standin"
	"tdstls/internal/tds"
)

// logInTo logs in with the login alone or all encrypted, and gives what the answer is and the rest goes by.
func logInTo(t testing.TB, address string, e tds.Encryption) (io.ReadWriteCloser, []byte) {
	t.Helper()
	conn := dialClear(t, address)
	inside, _ := handshake(t, conn, e, 4088)
	inside.Write(packet(tds.Login7, true, loginData(tds.Version74, 0)))
	var stream io.ReadWriteCloser = inside
	if e == tds.EncryptOff {
		stream = conn
	}
	return stream, answer(t, stream)
}

// waitFor waits until it holds.
func waitFor(t testing.TB, what string, holds func() bool) {
	t.Helper()
	for until := time.Now().Add(20 * time.Second); !holds(); time.Sleep(5 * time.Millisecond) {
		if time.Now().After(until) {
			t.Fatal(what)
		}
	}
}

func TestAnswersByItself(t *testing.T) {
	clear, at := startStandin(t)
	mode := newServer(DemandLogin)
	mode.Answers = true
	_, secret, _ := start(t, mode, at, Limits{})
	waits := dialClear(t, secret)
	handshake(t, waits, tds.EncryptOn, 4088)
	if clear.Encryptions[tds.EncryptNotSupported].Load() != 0 {
		t.Fatal("the clear server is dialled before a login")
	}
	for _, e := range []tds.Encryption{tds.EncryptOn, tds.EncryptOff} {
		stream, got := logInTo(t, secret, e)
		if !bytes.Contains(got, []byte{0xAD}) {
			t.Fatalf("% x", got)
		}
		askRows(t, stream, 7)
	}
	if n := clear.Encryptions[tds.EncryptNotSupported].Load(); n != 2 {
		t.Fatal(n, "PRELOGINs for two logins")
	}
	nobody := listen(t)
	nobody.Close()
	mode = newServer(DemandNothing)
	mode.Answers = true
	_, secret, _ = start(t, mode, nobody.Addr().String(), Limits{})
	if _, got := logInTo(t, secret, tds.EncryptOn); got[0] != 0xAA || binary.LittleEndian.Uint32(got[3:]) != errorNoServer {
		t.Fatalf("% x", got)
	}
}

func TestSilence(t *testing.T) {
	_, at := startStandin(t)
	p, secret, logged := start(t, newServer(DemandNothing), at, Limits{Silence: 400 * time.Millisecond})
	silent, talks := logIn(t, secret), logIn(t, secret)
	for turn := int32(0); turn < 10; turn++ {
		askRows(t, talks, turn)
		time.Sleep(100 * time.Millisecond)
	}
	if _, err := silent.Read(make([]byte, 1)); err == nil || p.Sessions() != 1 {
		t.Fatal("it isn't cut", err)
	}
	waitFor(t, "no line tells of silence", func() bool { return strings.Contains(logged.String(), `why="silence"`) })
}

// TestSilenceBehindAnEnd has a clear server that never ends.
func TestSilenceBehindAnEnd(t *testing.T) {
	listener := listen(t)
	go func() {
		for {
			if conn, err := listener.Accept(); err == nil {
				defer conn.Close()
				continue
			}
			return
		}
	}()
	p, secret, _ := start(t, newServer(DemandNothing), listener.Addr().String(), Limits{Linger: 200 * time.Millisecond})
	conn := dialClear(t, secret)
	conn.Write(packet(tds.Login7, true, loginData(tds.Version74, 0)))
	conn.CloseWrite()
	if _, err := conn.Read(make([]byte, 1)); err == nil {
		t.Fatal("bytes came")
	}
	waitFor(t, "the session outlives its limit", func() bool { return p.Sessions() == 0 })
}

func TestRate(t *testing.T) {
	_, at := startStandin(t)
	_, secret, logged := start(t, newServer(DemandLogin), at, Limits{Handshakes: 4, Login: 2 * time.Second})
	started := time.Now()
	for turn := 0; turn < 6; turn++ { // four at once, and two that wait a quarter of a second each
		stream, _ := logInTo(t, secret, tds.EncryptOn)
		stream.Close()
	}
	if took := time.Since(started); took < 300*time.Millisecond {
		t.Fatal("six handshakes took", took)
	}
	// More than the limit's time has room for: the last ones are refused.
	for turn := 0; turn < 20; turn++ {
		conn := dialClear(t, secret)
		conn.Write(preloginPacket(tds.EncryptOn))
		answer(t, conn)
		conn.Write(packet(tds.Prelogin, true, []byte{0x16}))
	}
	waitFor(t, "none is refused", func() bool { return strings.Contains(logged.String(), "too many handshakes a second") })
}

func TestUnixSockets(t *testing.T) {
	folder := t.TempDir()
	path := filepath.Join(folder, "clear")
	listener, err := net.Listen("unix", path)
	if err != nil {
		t.Fatal(err)
	}
	defer listener.Close()
	go new(standin.Server).Serve(listener)
	_, secret, logged := start(t, newServer(DemandLogin), unixPrefix+path, Limits{})
	client, err := ParseAddress(unixPrefix + filepath.Join(folder, "near"))
	if err != nil {
		t.Fatal(err)
	}
	own, _ := startAt(t, client, newClient("localhost", authorities, nil, WantAll), secret, Limits{})
	conn, err := net.Dial("unix", client.text)
	if err != nil {
		t.Fatal(err)
	}
	conn.Write(preloginPacket(tds.EncryptNotSupported))
	answer(t, conn)
	conn.Write(packet(tds.Login7, true, loginData(tds.Version74, 0)))
	answer(t, conn)
	askRows(t, conn, 7)
	conn.(*net.UnixConn).CloseWrite()
	if _, err := conn.Read(make([]byte, 1)); err != io.EOF {
		t.Fatal(err)
	}
	waitFor(t, "no line", func() bool { return strings.Contains(logged.String(), "via=unix to=unix") })
	if info, err := os.Stat(client.text); err != nil || info.Mode().Perm() != 0o600 {
		t.Fatal(info, err)
	}
	// Another one may not take its place, while it listens; and takes what nobody listens at any more.
	if _, err := client.Listen(true); err == nil {
		t.Fatal("two listen at the same path")
	}
	own.(*net.UnixListener).SetUnlinkOnClose(false)
	own.Close()
	again, err := client.Listen(true)
	if err != nil {
		t.Fatal(err)
	}
	again.Close()
	// Whoever connects to a file that is no socket is refused as at a socket that nobody listens at.
	other := filepath.Join(folder, "file")
	if err := os.WriteFile(other, []byte("kept"), 0o600); err != nil {
		t.Fatal(err)
	}
	if _, err := (Address{"unix", other}).Listen(true); err == nil {
		t.Fatal("it listens at a file")
	}
	if kept, err := os.ReadFile(other); err != nil || string(kept) != "kept" {
		t.Fatal("the file is gone: ", err)
	}
}

func TestAddresses(t *testing.T) {
	for text, good := range map[string]bool{"127.0.0.1:1": true, "[::1]:1": true, "a:1": true, "unix:/x": true, "unix:": false, "a": false, "": false} {
		if a, err := ParseAddress(text); (err == nil) != good || good && a.String() != text {
			t.Error(text, a, err)
		}
	}
	all, err := ParseAddress("0.0.0.0:0")
	if err != nil {
		t.Fatal(err)
	}
	if _, err := all.Listen(true); err == nil {
		t.Fatal("the clear side is open to others")
	}
}

func TestClientCertificates(t *testing.T) {
	_, at := startStandin(t)
	trusted := newServer(DemandAll)
	trusted.Use(Material{Certificates: []tls.Certificate{certificate}, Authorities: authorities})
	other, _, err := selfsigned.MakeSmall([]string{"localhost"})
	if err != nil {
		t.Fatal(err)
	}
	_, secret, logged := start(t, trusted, at, Limits{})
	for _, want := range []Want{WantAll, WantStrict} {
		for name, certificates := range map[string][]tls.Certificate{"its own": {certificate}, "none": nil, "another's": {other}} {
			client := newClient("localhost", authorities, nil, want)
			client.Use(Material{Authorities: authorities, Certificates: certificates})
			_, address, _ := start(t, client, secret, Limits{})
			conn := dialClear(t, address)
			conn.Write(packet(tds.Login7, true, loginData(tds.Version74, 0)))
			got, err := tryAnswer(conn)
			if isIn := err == nil && bytes.Contains(got, []byte{0xAD, 24}); isIn != (name == "its own") {
				t.Errorf("%s, %v: % x", name, want, got)
			}
		}
	}
	if !strings.Contains(logged.String(), "client didn't provide a certificate") {
		t.Error(logged)
	}
}

// TestUseAgain has another certificate for the connections that come then.
func TestUseAgain(t *testing.T) {
	_, at := startStandin(t)
	mode := newServer(DemandLogin)
	_, secret, _ := start(t, mode, at, Limits{})
	first, _ := logInTo(t, secret, tds.EncryptOn)
	made, _, err := selfsigned.MakeSmall([]string{"other"})
	if err != nil {
		t.Fatal(err)
	}
	mode.Use(Material{Certificates: []tls.Certificate{made}})
	conn := dialClear(t, secret)
	conn.Write(preloginPacket(tds.EncryptOn))
	answer(t, conn)
	below := &under{&inPackets{Conn: conn, size: 4088}}
	inside := tls.Client(below, &tls.Config{InsecureSkipVerify: true})
	if err := inside.Handshake(); err != nil {
		t.Fatal(err)
	}
	if got := inside.ConnectionState().PeerCertificates[0].Raw; !bytes.Equal(got, made.Certificate[0]) {
		t.Fatal("it has the certificate of before")
	}
	askRows(t, first, 7)
}

func TestRead(t *testing.T) {
	folder := t.TempDir()
	wrong := filepath.Join(folder, "wrong")
	os.WriteFile(wrong, []byte("nothing"), 0o600)
	for _, files := range [][3]string{{wrong, wrong, ""}, {folder + "/none", wrong, ""}, {"", "", wrong}, {"", "", folder + "/none"}} {
		if _, err := Read(files[0], files[1], files[2]); err == nil {
			t.Error(files, "are taken")
		}
	}
	if m, err := Read("", "", ""); err != nil || !m.Until().IsZero() {
		t.Error(m, err)
	}
	if until := (Material{Certificates: []tls.Certificate{certificate}}).Until(); until.Before(time.Now()) {
		t.Error(until)
	}
}

// strictLogin logs in by TDS 8.0, and gives the version of its LOGINACK.
func strictLogin(t testing.TB, address string, version uint32) []byte {
	t.Helper()
	config := &tls.Config{RootCAs: authorities, ServerName: "localhost", NextProtos: []string{ALPN}}
	conn, err := tls.Dial("tcp", address, config)
	if err != nil {
		t.Fatal(err)
	}
	defer conn.Close()
	conn.Write(preloginPacket(tds.EncryptOn))
	answer(t, conn)
	conn.Write(packet(tds.Login7, true, loginData(version, 0)))
	got := answer(t, conn)
	askRows(t, conn, 7)
	place := bytes.Index(got, []byte{0xAD, 24, 0, 1})
	if place < 0 {
		t.Fatalf("% x", got)
	}
	return got[place+4 : place+8]
}

func TestVersions(t *testing.T) {
	old, new := []byte{0x74, 0, 0, 4}, []byte{8, 0, 0, 0}
	for _, each := range []struct {
		login8, ack8 bool
		asked, heard uint32
		told         []byte
	}{
		{false, false, tds.Version8, tds.Version74, old},
		{true, false, tds.Version8, tds.Version8, old},
		{false, true, tds.Version8, tds.Version74, new},
		{false, true, tds.Version74, tds.Version74, old},
	} {
		clear, at := startStandin(t)
		mode := newServer(DemandAll)
		mode.Login8, mode.Ack8 = each.login8, each.ack8
		_, secret, _ := start(t, mode, at, Limits{})
		if got := strictLogin(t, secret, each.asked); !bytes.Equal(got, each.told) || clear.Version.Load() != each.heard {
			t.Errorf("%+v: % x, %x", each, got, clear.Version.Load())
		}
	}
	// A client that asks for 8.0 in the name of one that knows 7.4 alone.
	clear, at := startStandin(t)
	server := newServer(DemandAll)
	server.Login8, server.Ack8 = true, true
	_, secret, _ := start(t, server, at, Limits{})
	for _, ack8 := range []bool{false, true} {
		client := newClient("localhost", authorities, nil, WantStrict)
		client.Login8, client.Ack8 = true, ack8
		_, address, _ := start(t, client, secret, Limits{})
		conn := dialClear(t, address)
		conn.Write(packet(tds.Login7, true, loginData(tds.Version74, 0)))
		wanted := append([]byte{0xAD, 24, 0, 1}, map[bool][]byte{false: old, true: new}[ack8]...)
		if got := answer(t, conn); !bytes.Contains(got, wanted) || clear.Version.Load() != tds.Version8 {
			t.Errorf("%v: % x, %x", ack8, got, clear.Version.Load())
		}
		askRows(t, conn, 7)
	}
}

// FuzzClient sends any bytes at once to a client's clear side, and FuzzFar answers a client's PRELOGIN by any.
func FuzzClient(f *testing.F) {
	for _, seed := range [][]byte{
		preloginPacket(tds.EncryptNotSupported), packet(tds.Login7, true, loginData(tds.Version74, 0)),
		append(preloginPacket(tds.EncryptOff), packet(tds.Login7, true, loginData(tds.Version74, 9000))...), {0x12, 1, 0, 7},
	} {
		f.Add(seed)
	}
	_, at := startStandin(f)
	_, secret, _ := start(f, newServer(DemandLogin), at, Limits{Login: 5 * time.Second})
	p, address, _ := start(f, newClient("localhost", authorities, nil, WantAll), secret, Limits{Login: 5 * time.Second})
	f.Fuzz(func(t *testing.T, data []byte) { throw(t, p, address, data) })
}

func FuzzFar(f *testing.F) {
	f.Add(packet(tds.Answer, true, tds.OwnOptions(tds.EncryptOn).Bytes()))
	f.Add(append(packet(tds.Answer, true, tds.OwnOptions(tds.EncryptOff).Bytes()), packet(tds.Prelogin, true, []byte{0x16, 3, 3, 0, 1, 2})...))
	f.Add([]byte{4, 1, 0, 7})
	said := make(chan []byte, 1)
	listener := listen(f)
	go func() {
		for {
			conn, err := listener.Accept()
			if err != nil {
				return
			}
			conn.Write(<-said)
			conn.(*net.TCPConn).CloseWrite()
			io.Copy(io.Discard, conn)
			conn.Close()
		}
	}()
	p, address, _ := start(f, newClient("localhost", authorities, nil, WantLogin), listener.Addr().String(), Limits{Login: 5 * time.Second})
	f.Fuzz(func(t *testing.T, data []byte) {
		said <- data
		throw(t, p, address, append(preloginPacket(tds.EncryptNotSupported), packet(tds.Login7, true, loginData(tds.Version74, 0))...))
	})
}

// throw sends bytes and their end; the proxy must close, and no session may be left.
func throw(t *testing.T, p *Proxy, address string, data []byte) {
	conn := dialClear(t, address)
	conn.Write(data)
	conn.CloseWrite()
	io.Copy(io.Discard, conn)
	conn.Close()
	// On a busy machine a session ends some time behind its connection.
	waitFor(t, "over 100 sessions are left", func() bool { return p.Sessions() <= 100 })
}

// TestForwardIsLocal has a clear server that isn't this machine's: nothing goes there.
func TestForwardIsLocal(t *testing.T) {
	_, secret, logged := start(t, newServer(DemandLogin), "192.0.2.1:1", Limits{}) // nobody's (RFC 5737)
	if _, got := logInTo(t, secret, tds.EncryptOn); binary.LittleEndian.Uint32(got[3:]) != errorNoServer {
		t.Fatalf("% x", got)
	}
	waitFor(t, "no line says why", func() bool { return strings.Contains(logged.String(), "is no loopback address") })
}
