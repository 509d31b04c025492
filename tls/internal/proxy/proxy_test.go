package proxy

import (
	"bytes"
	"crypto/sha256"
	"crypto/tls"
	"crypto/x509"
	"encoding/binary"
	"encoding/hex"
	"errors"
	"fmt"
	"io"
	"log"
	"math/rand"
	"net"
	"strings"
	"sync"
	"testing"
	"time"

	"tdstls/internal/selfsigned"
	"tdstls/internal/standin"
	"tdstls/internal/tds"
)

const password = "geheim"

var certificate, authorities = makeCertificate()

func makeCertificate() (tls.Certificate, *x509.CertPool) {
	made, pem, err := selfsigned.MakeSmall([]string{"localhost", "127.0.0.1"})
	if err != nil {
		panic(err)
	}
	pool := x509.NewCertPool()
	pool.AppendCertsFromPEM(pem)
	return made, pool
}

// lines are a log's.
type lines struct {
	mutex sync.Mutex
	text  bytes.Buffer
}

func (l *lines) Write(p []byte) (int, error) {
	l.mutex.Lock()
	defer l.mutex.Unlock()
	return l.text.Write(p)
}

func (l *lines) String() string {
	l.mutex.Lock()
	defer l.mutex.Unlock()
	return l.text.String()
}

func listen(t testing.TB) *net.TCPListener {
	t.Helper()
	listener, err := net.ListenTCP("tcp", &net.TCPAddr{IP: net.IPv4(127, 0, 0, 1)})
	if err != nil {
		t.Fatal(err)
	}
	t.Cleanup(func() { listener.Close() })
	return listener
}

func newServer(demand Demand) *Server {
	m := &Server{Demand: demand}
	m.Use(Material{Certificates: []tls.Certificate{certificate}})
	return m
}

func newClient(name string, trusted *x509.CertPool, pin []byte, want Want) *Client {
	m := &Client{Name: name, Pin: pin, Want: want}
	m.Use(Material{Authorities: trusted})
	return m
}

// start serves a mode before an address. At the test's end no session may be left.
func start(t testing.TB, mode Mode, forward string, limits Limits) (*Proxy, string, *lines) {
	t.Helper()
	p, logged := newProxy(t, mode, forward, limits)
	listener := serve(t, p, Address{"tcp", "127.0.0.1:0"}, logged)
	return p, listener.Addr().String(), logged
}

// startAt serves a mode at an address.
func startAt(t testing.TB, at Address, mode Mode, forward string, limits Limits) (net.Listener, *lines) {
	t.Helper()
	p, logged := newProxy(t, mode, forward, limits)
	return serve(t, p, at, logged), logged
}

func newProxy(t testing.TB, mode Mode, forward string, limits Limits) (*Proxy, *lines) {
	t.Helper()
	if limits.Connections == 0 {
		limits.Connections = 1000
	}
	if limits.Login == 0 {
		limits.Login = 60 * time.Second
	}
	if limits.Linger == 0 {
		limits.Linger = 10 * time.Second
	}
	to, err := ParseAddress(forward)
	if err != nil {
		t.Fatal(err)
	}
	logged := new(lines)
	return &Proxy{Mode: mode, Forward: to, ForwardIsLocal: true, Limits: limits, Log: log.New(logged, "", 0)}, logged
}

func serve(t testing.TB, p *Proxy, at Address, logged *lines) net.Listener {
	t.Helper()
	listener, err := at.Listen(true)
	if err != nil {
		t.Fatal(err)
	}
	go p.Serve(listener)
	t.Cleanup(func() {
		listener.Close()
		if cut := p.Drain(60 * time.Second); cut > 0 {
			t.Errorf("%d sessions are left", cut)
		}
		if strings.Contains(logged.String(), password) {
			t.Error("the log has the password")
		}
		if t.Failed() {
			t.Log(logged.String())
		}
	})
	return listener
}

func startStandin(t testing.TB) (*standin.Server, string) {
	server, listener := new(standin.Server), listen(t)
	go server.Serve(listener)
	return server, listener.Addr().String()
}

func packet(kind tds.Kind, last bool, data []byte) []byte {
	h := tds.MakeHeader(kind, last, len(data), 1)
	return append(h[:], data...)
}

func preloginPacket(e tds.Encryption) []byte {
	return packet(tds.Prelogin, true, tds.OwnOptions(e).Bytes())
}

// loginData is a LOGIN7 with a password in clear, as no driver writes it, and more behind it.
func loginData(version uint32, more int) []byte {
	data := make([]byte, 94, 94+len(password)+more)
	binary.LittleEndian.PutUint32(data[4:], version)
	data = append(append(data, password...), make([]byte, more)...)
	binary.LittleEndian.PutUint32(data, uint32(len(data)))
	return data
}

func batch(text string) []byte {
	data := []byte{22, 0, 0, 0, 18, 0, 0, 0, 2, 0, 0, 0, 0, 0, 0, 0, 0, 0, 1, 0, 0, 0}
	for _, unit := range text {
		data = append(data, byte(unit), 0)
	}
	return packet(tds.Batch, true, data)
}

// answer reads a message.
func answer(t testing.TB, from io.Reader) []byte {
	t.Helper()
	data, err := tryAnswer(from)
	if err != nil {
		t.Fatal(err)
	}
	return data
}

func tryAnswer(from io.Reader) ([]byte, error) {
	var data []byte
	for {
		h, err := tds.ReadHeader(from)
		if err != nil {
			return nil, err
		}
		n, err := h.Data()
		if err != nil || h.Kind() != tds.Answer {
			return nil, fmt.Errorf("another packet: %x %v", h, err)
		}
		part := make([]byte, n)
		if _, err := io.ReadFull(from, part); err != nil {
			return nil, err
		}
		if data = append(data, part...); h.Last() {
			return data, nil
		}
	}
}

func dialClear(t testing.TB, address string) *net.TCPConn {
	t.Helper()
	conn, err := net.Dial("tcp", address)
	if err != nil {
		t.Fatal(err)
	}
	t.Cleanup(func() { conn.Close() })
	conn.SetDeadline(time.Now().Add(60 * time.Second))
	return conn.(*net.TCPConn)
}

// logIn logs in at a clear address.
func logIn(t testing.TB, address string) *net.TCPConn {
	t.Helper()
	conn := dialClear(t, address)
	conn.Write(preloginPacket(tds.EncryptNotSupported))
	options, err := tds.ParseOptions(answer(t, conn))
	if err != nil || options.Encryption() != tds.EncryptNotSupported {
		t.Fatal(options, err)
	}
	conn.Write(packet(tds.Login7, true, loginData(tds.Version74, 0)))
	if !bytes.Contains(answer(t, conn), []byte{0xAD}) {
		t.Fatal("not let in")
	}
	return conn
}

func askRows(t testing.TB, conn io.ReadWriter, first int32) {
	t.Helper()
	conn.Write(batch(fmt.Sprintf("rows %d 3", first)))
	got := answer(t, conn)
	for place := int32(0); place < 3; place++ {
		row := binary.LittleEndian.AppendUint32([]byte{0xD1}, uint32(first+place))
		if !bytes.Contains(got, row) {
			t.Fatalf("no row %d in % x", first+place, got)
		}
	}
}

func TestBackToBack(t *testing.T) {
	for _, each := range []struct {
		name   string
		want   Want
		demand Demand
		told   string
	}{
		{"on", WantAll, DemandNothing, "encrypt=on tls=1.2"},
		{"login", WantLogin, DemandLogin, "encrypt=login tls=1.2"},
		{"login upgraded", WantLogin, DemandAll, "encrypt=on tls=1.2"},
		{"strict", WantStrict, DemandAll, "encrypt=strict tls=1.3"},
	} {
		t.Run(each.name, func(t *testing.T) {
			clear, at := startStandin(t)
			_, secret, serverLog := start(t, newServer(each.demand), at, Limits{})
			_, address, clientLog := start(t, newClient("localhost", authorities, nil, each.want), secret, Limits{})
			conn := logIn(t, address)
			for turn := int32(0); turn < 20; turn++ {
				askRows(t, conn, turn)
			}
			conn.Write(batch("big 3000"))
			if n := len(answer(t, conn)); n < 3000*1000 {
				t.Fatal(n)
			}
			conn.Write(batch("wait"))
			started := time.Now()
			time.Sleep(20 * time.Millisecond)
			conn.Write(packet(tds.Attention, true, nil))
			if got := answer(t, conn); got[1] != 0x20 || time.Since(started) > 2*time.Second {
				t.Fatal("no attention is acknowledged", got)
			}
			askRows(t, conn, 5)
			if clear.Attentions.Load() != 1 || clear.Encryptions[tds.EncryptNotSupported].Load() != 1 {
				t.Fatal("the clear server met something else")
			}
			for _, l := range []*lines{serverLog, clientLog} {
				if !strings.Contains(l.String(), each.told) {
					t.Fatalf("%q isn't told in %s", each.told, l)
				}
			}
		})
	}
}

func TestLoginWithoutPrelogin(t *testing.T) {
	_, at := startStandin(t)
	_, secret, _ := start(t, newServer(DemandLogin), at, Limits{})
	_, address, _ := start(t, newClient("localhost", authorities, nil, WantAll), secret, Limits{})
	conn := dialClear(t, address)
	conn.Write(append(packet(tds.Login7, true, loginData(tds.Version74, 0)), batch("rows 7 3")...))
	answer(t, conn)
	if got := answer(t, conn); got[0] != 0x81 {
		t.Fatalf("% x", got)
	}
	// Clear to the server that demands encryption: it is told why.
	conn = dialClear(t, secret)
	conn.Write(packet(tds.Login7, true, loginData(tds.Version74, 0)))
	if got := answer(t, conn); got[0] != 0xAA || binary.LittleEndian.Uint32(got[3:]) != errorClear {
		t.Fatalf("% x", got)
	}
	if _, err := conn.Read(make([]byte, 1)); err != io.EOF {
		t.Fatal(err)
	}
}

// slow writes byte by byte, in packets of at most so many bytes.
type slow struct{ net.Conn }

func (s slow) Write(p []byte) (int, error) {
	for place := range p {
		if _, err := s.Conn.Write(p[place : place+1]); err != nil {
			return place, err
		}
	}
	return len(p), nil
}

// inPackets puts what is written into PRELOGIN packets of few bytes, and takes what comes out of them.
type inPackets struct {
	net.Conn
	size int
	left int
}

func (w *inPackets) Write(p []byte) (int, error) {
	for rest := p; len(rest) > 0; {
		n := len(rest)
		if n > w.size {
			n = w.size
		}
		if _, err := w.Conn.Write(packet(tds.Prelogin, n == len(rest), rest[:n])); err != nil {
			return 0, err
		}
		rest = rest[n:]
	}
	return len(p), nil
}

func (w *inPackets) Read(p []byte) (int, error) {
	if w.left == 0 {
		h, err := tds.ReadHeader(w.Conn)
		if err != nil {
			return 0, err
		}
		if h.Kind() != tds.Prelogin {
			return 0, errors.New("another kind of packet")
		}
		w.left, _ = h.Data()
	}
	if len(p) > w.left {
		p = p[:w.left]
	}
	n, err := w.Conn.Read(p)
	w.left -= n
	return n, err
}

// under is a transport that is changed below a TLS connection.
type under struct{ net.Conn }

// handshake asks for this encryption and does the handshake of TDS 7, as a driver of its own.
func handshake(t testing.TB, conn net.Conn, e tds.Encryption, size int) (*tls.Conn, tds.Encryption) {
	t.Helper()
	data := tds.OwnOptions(e).Bytes()
	conn.Write(append(packet(tds.Prelogin, false, data[:3]), packet(tds.Prelogin, true, data[3:])...))
	options, err := tds.ParseOptions(answer(t, conn))
	if err != nil {
		t.Fatal(err)
	}
	below := &under{&inPackets{Conn: conn, size: size}}
	inside := tls.Client(below, &tls.Config{RootCAs: authorities, ServerName: "localhost"})
	if err := inside.Handshake(); err != nil {
		t.Fatal(err)
	}
	below.Conn = conn
	return inside, options.Encryption()
}

func TestPieces(t *testing.T) {
	_, at := startStandin(t)
	_, secret, _ := start(t, newServer(DemandLogin), at, Limits{})
	for _, size := range []int{1, 7, 4088} {
		conn := slow{dialClear(t, secret)}
		inside, told := handshake(t, conn, tds.EncryptOn, size)
		if told != tds.EncryptOn {
			t.Fatal(told)
		}
		inside.Write(packet(tds.Login7, true, loginData(tds.Version74, 5000)))
		answer(t, inside)
		askRows(t, inside, 7)
		inside.Close()
	}
}

// TestLoginOnlyInPackets has LOGIN7 in several packets, all of which some drivers encrypt, and some the
// first one alone.
func TestLoginOnlyInPackets(t *testing.T) {
	_, at := startStandin(t)
	_, secret, _ := start(t, newServer(DemandLogin), at, Limits{})
	data := loginData(tds.Version74, 9000)
	parts := [][]byte{packet(tds.Login7, false, data[:4088]), packet(tds.Login7, false, data[4088:8176]),
		packet(tds.Login7, true, data[8176:])}
	for _, how := range []string{"all", "all in one record", "first", "first, all at once", "goodbye"} {
		t.Run(how, func(t *testing.T) {
			conn := dialClear(t, secret)
			inside, told := handshake(t, conn, tds.EncryptOff, 4088)
			if told != tds.EncryptOff {
				t.Fatal(told)
			}
			switch how {
			case "all", "goodbye":
				for _, part := range parts {
					inside.Write(part)
				}
			case "all in one record":
				inside.Write(bytes.Join(parts, nil))
			case "first":
				inside.Write(parts[0])
				time.Sleep(10 * time.Millisecond)
				conn.Write(append(parts[1], parts[2]...))
			case "first, all at once":
				held := &hold{Conn: conn}
				inside.NetConn().(*under).Conn = held
				inside.Write(parts[0])
				conn.Write(bytes.Join([][]byte{held.held, parts[1], parts[2]}, nil))
			}
			if how == "goodbye" {
				inside.CloseWrite()
			}
			answer(t, conn)
			conn.SetDeadline(time.Now().Add(60 * time.Second)) // CloseWrite has set one
			askRows(t, conn, 7)
		})
	}
}

// hold keeps what is written.
type hold struct {
	net.Conn
	held []byte
}

func (h *hold) Write(p []byte) (int, error) {
	h.held = append(h.held, p...)
	return len(p), nil
}

func TestStrict(t *testing.T) {
	clear, at := startStandin(t)
	_, secret, _ := start(t, newServer(DemandAll), at, Limits{})
	config := &tls.Config{RootCAs: authorities, ServerName: "localhost", NextProtos: []string{ALPN}}
	conn, err := tls.Dial("tcp", secret, config)
	if err != nil {
		t.Fatal(err)
	}
	defer conn.Close()
	conn.Write(preloginPacket(tds.EncryptOn))
	options, err := tds.ParseOptions(answer(t, conn))
	if err != nil || options.Encryption() != tds.EncryptOn {
		t.Fatal(options, err)
	}
	conn.Write(packet(tds.Login7, true, loginData(0x08000000, 0)))
	answer(t, conn)
	askRows(t, conn, 7)
	if v := clear.Version.Load(); v != tds.Version74 {
		t.Fatalf("%x", v)
	}
	for _, protocols := range [][]string{nil, {"http/1.1"}} {
		config.NextProtos = protocols
		conn, err := tls.Dial("tcp", secret, config)
		if err != nil {
			continue
		}
		conn.Write(preloginPacket(tds.EncryptOn))
		if _, err := conn.Read(make([]byte, 1)); err == nil {
			t.Fatal("it takes the protocols", protocols)
		}
		conn.Close()
	}
}

func TestCertificates(t *testing.T) {
	_, at := startStandin(t)
	_, secret, _ := start(t, newServer(DemandLogin), at, Limits{})
	sum := sha256.Sum256(certificate.Certificate[0])
	other := sha256.Sum256(nil)
	for name, each := range map[string]struct {
		mode  *Client
		taken bool
	}{
		"authority":         {newClient("localhost", authorities, nil, WantAll), true},
		"another authority": {newClient("localhost", x509.NewCertPool(), nil, WantAll), false},
		"another name":      {newClient("example.org", authorities, nil, WantLogin), false},
		"strict":            {newClient("example.org", authorities, nil, WantStrict), false},
		"pin":               {newClient("example.org", nil, sum[:], WantAll), true},
		"another pin":       {newClient("localhost", authorities, other[:], WantAll), false},
	} {
		t.Run(name, func(t *testing.T) {
			_, address, _ := start(t, each.mode, secret, Limits{})
			conn := dialClear(t, address)
			conn.Write(preloginPacket(tds.EncryptNotSupported))
			answer(t, conn)
			conn.Write(packet(tds.Login7, true, loginData(tds.Version74, 0)))
			got := answer(t, conn)
			if taken := got[0] == 0xE3; taken != each.taken {
				t.Fatalf("taken: %v, % x", taken, got)
			}
		})
	}
}

func TestServerThatDoesNotEncrypt(t *testing.T) {
	clear, at := startStandin(t)
	for _, want := range []Want{WantAll, WantLogin, WantStrict} {
		_, address, _ := start(t, newClient("localhost", authorities, nil, want), at, Limits{Login: 2 * time.Second})
		conn := dialClear(t, address)
		conn.Write(packet(tds.Login7, true, loginData(tds.Version74, 0)))
		if got, err := tryAnswer(conn); err == nil && got[0] != 0xAA {
			t.Fatalf("% x", got)
		}
	}
	if clear.Version.Load() != 0 {
		t.Fatal("a login came in clear")
	}
}

func TestClearServerIsDown(t *testing.T) {
	listener := listen(t)
	nobody := listener.Addr().String()
	listener.Close()
	_, secret, _ := start(t, newServer(DemandNothing), nobody, Limits{})
	isTold := func(got []byte) {
		t.Helper()
		if got[0] != 0xAA || binary.LittleEndian.Uint32(got[3:]) != errorNoServer {
			t.Fatalf("% x", got)
		}
	}
	for _, e := range []tds.Encryption{tds.EncryptOn, tds.EncryptOff} {
		conn := dialClear(t, secret)
		inside, told := handshake(t, conn, e, 4088)
		if told != e {
			t.Fatal(told)
		}
		inside.Write(packet(tds.Login7, true, loginData(tds.Version74, 0)))
		var from io.Reader = inside
		if e == tds.EncryptOff {
			from = conn
		}
		isTold(answer(t, from))
		if _, err := from.Read(make([]byte, 1)); err != io.EOF {
			t.Fatal(err)
		}
	}
	conn := dialClear(t, secret)
	conn.Write(preloginPacket(tds.EncryptNotSupported))
	answer(t, conn)
	conn.Write(packet(tds.Login7, true, loginData(tds.Version74, 0)))
	isTold(answer(t, conn))
}

func TestHalfClose(t *testing.T) {
	// A server that logs in, and answers once its client has ended.
	listener := listen(t)
	go func() {
		for {
			conn, err := listener.Accept()
			if err != nil {
				return
			}
			go func() {
				defer conn.Close()
				tds.ReadMessage(conn, tds.Prelogin)
				tds.WriteMessage(conn, tds.Answer, tds.OwnOptions(tds.EncryptNotSupported).Bytes())
				all, _ := io.ReadAll(conn)
				time.Sleep(50 * time.Millisecond)
				tds.WriteMessage(conn, tds.Answer, all[:4])
			}()
		}
	}()
	for _, want := range []Want{WantAll, WantLogin, WantStrict} {
		_, secret, _ := start(t, newServer(DemandLogin), listener.Addr().String(), Limits{})
		_, address, _ := start(t, newClient("localhost", authorities, nil, want), secret, Limits{})
		conn := dialClear(t, address)
		conn.Write(preloginPacket(tds.EncryptNotSupported))
		answer(t, conn)
		conn.Write(packet(tds.Login7, true, loginData(tds.Version74, 0)))
		conn.CloseWrite()
		if got := answer(t, conn); len(got) != 4 || got[0] != byte(tds.Login7) {
			t.Fatalf("% x", got)
		}
		if _, err := conn.Read(make([]byte, 1)); err != io.EOF {
			t.Fatal(err)
		}
	}
}

func TestBackPressure(t *testing.T) {
	// A server that sends without end behind the login, and tells how much went out.
	listener := listen(t)
	sent := make(chan int64, 1)
	go func() {
		conn, err := listener.Accept()
		if err != nil {
			return
		}
		defer conn.Close()
		tds.ReadMessage(conn, tds.Prelogin)
		tds.WriteMessage(conn, tds.Answer, tds.OwnOptions(tds.EncryptNotSupported).Bytes())
		total := int64(0)
		for part := make([]byte, 1<<16); ; {
			conn.SetWriteDeadline(time.Now().Add(700 * time.Millisecond))
			n, err := conn.Write(part)
			if total += int64(n); err != nil {
				sent <- total
				return
			}
		}
	}()
	_, secret, _ := start(t, newServer(DemandLogin), listener.Addr().String(), Limits{})
	conn := dialClear(t, secret)
	inside, _ := handshake(t, conn, tds.EncryptOn, 4088)
	inside.Write(packet(tds.Login7, true, loginData(tds.Version74, 0)))
	total := <-sent // nothing is read here meanwhile
	if total > 32<<20 {
		t.Fatalf("%d bytes went to a peer that takes none", total)
	}
	conn.Close()
	t.Logf("%d bytes waited in sockets", total)
}

func TestTimeLimit(t *testing.T) {
	_, at := startStandin(t)
	_, secret, logged := start(t, newServer(DemandLogin), at, Limits{Login: 300 * time.Millisecond})
	steps := map[string]func(net.Conn){
		"silent":        func(net.Conn) {},
		"half a header": func(c net.Conn) { c.Write([]byte{0x12, 1, 0}) },
		"prelogin":      func(c net.Conn) { c.Write(preloginPacket(tds.EncryptOn)); answer(t, c) },
		"handshake":     func(c net.Conn) { handshake(t, c, tds.EncryptOn, 4088) },
		"drips": func(c net.Conn) {
			for {
				if _, err := c.Write([]byte{0x12}[:1]); err != nil {
					return
				}
				time.Sleep(100 * time.Millisecond)
			}
		},
	}
	for name, step := range steps {
		t.Run(name, func(t *testing.T) {
			conn := dialClear(t, secret)
			started := time.Now()
			step(conn)
			io.Copy(io.Discard, conn)
			if took := time.Since(started); took > 3*time.Second {
				t.Fatal(took)
			}
		})
	}
	if !strings.Contains(logged.String(), `why="time limit"`) {
		t.Fatal(logged)
	}
}

func TestTooMany(t *testing.T) {
	_, at := startStandin(t)
	_, secret, _ := start(t, newServer(DemandNothing), at, Limits{Connections: 2})
	first, second := logIn(t, secret), logIn(t, secret)
	third := dialClear(t, secret)
	if _, err := third.Read(make([]byte, 1)); err == nil {
		t.Fatal("the third is served")
	}
	askRows(t, first, 1)
	askRows(t, second, 2)
	second.Close()
	for until := time.Now().Add(5 * time.Second); ; time.Sleep(10 * time.Millisecond) {
		conn := dialClear(t, secret)
		conn.Write(preloginPacket(tds.EncryptNotSupported))
		if _, err := tryAnswer(conn); err == nil {
			return
		}
		if time.Now().After(until) {
			t.Fatal("no place is left by the one that ended")
		}
	}
}

func TestDrain(t *testing.T) {
	_, at := startStandin(t)
	p, secret, _ := start(t, newServer(DemandNothing), at, Limits{})
	ends, stays := logIn(t, secret), logIn(t, secret)
	go func() {
		time.Sleep(50 * time.Millisecond)
		askRows(t, ends, 1)
		ends.Close()
	}()
	if cut := p.Drain(500 * time.Millisecond); cut != 1 {
		t.Fatal("cut", cut)
	}
	if _, err := stays.Read(make([]byte, 1)); err == nil {
		t.Fatal("it wasn't cut")
	}
}

// recorder keeps a driver's bytes.
type recorder struct {
	net.Conn
	sent bytes.Buffer
}

func (r *recorder) Write(p []byte) (int, error) {
	r.sent.Write(p)
	return r.Conn.Write(p)
}

// TestCutsAndRubbish sends beginnings of a lawful exchange, alone and with rubbish behind, and rubbish.
func TestCutsAndRubbish(t *testing.T) {
	_, at := startStandin(t)
	p, secret, _ := start(t, newServer(DemandLogin), at, Limits{})
	record := &recorder{Conn: dialClear(t, secret)}
	inside, _ := handshake(t, record, tds.EncryptOn, 4088)
	inside.Write(packet(tds.Login7, true, loginData(tds.Version74, 0)))
	answer(t, inside)
	lawful := record.sent.Bytes()
	random := rand.New(rand.NewSource(1))
	firsts := []byte{0x12, 0x12, 0x10, 0x16, 0x16, 0x01, 0x17}
	for turn := 0; turn < 600; turn++ {
		var data []byte
		if turn < 300 {
			data = append(data, lawful[:random.Intn(len(lawful))]...)
		} else {
			data = append(data, firsts[random.Intn(len(firsts))], 1, 0, byte(random.Intn(64)))
		}
		if turn%2 == 1 {
			junk := make([]byte, random.Intn(200))
			random.Read(junk)
			data = append(data, junk...)
		}
		conn := dialClear(t, secret)
		conn.Write(data)
		conn.Close()
	}
	inside, _ = handshake(t, dialClear(t, secret), tds.EncryptOn, 4088)
	inside.Write(packet(tds.Login7, true, loginData(tds.Version74, 0)))
	answer(t, inside)
	askRows(t, inside, 7)
	inside.Close()
	record.Close()
	for until := time.Now().Add(10 * time.Second); p.Sessions() > 0; time.Sleep(10 * time.Millisecond) {
		if time.Now().After(until) {
			t.Fatal(p.Sessions(), "sessions are left")
		}
	}
}

func TestManyAtOnce(t *testing.T) {
	_, at := startStandin(t)
	_, secret, _ := start(t, newServer(DemandLogin), at, Limits{})
	for _, want := range []Want{WantAll, WantLogin, WantStrict} {
		_, address, _ := start(t, newClient("localhost", authorities, nil, want), secret, Limits{})
		var wait sync.WaitGroup
		for place := int32(0); place < 50; place++ {
			conn := logIn(t, address)
			wait.Add(1)
			go func(place int32) {
				defer wait.Done()
				defer conn.Close()
				for turn := int32(0); turn < 50; turn++ {
					askRows(t, conn, 1000*place+turn)
				}
			}(place)
		}
		wait.Wait()
	}
}

// FuzzServer sends any bytes at once; the server must close, and no session may be left.
func FuzzServer(f *testing.F) {
	hello, _ := hex.DecodeString("16030100050100000100")
	for _, seed := range [][]byte{
		preloginPacket(tds.EncryptOn), append(preloginPacket(tds.EncryptOff), packet(tds.Prelogin, true, hello)...),
		hello, packet(tds.Login7, true, loginData(tds.Version74, 0)), {0x12, 1, 0, 7, 0, 0, 0, 0},
	} {
		f.Add(seed)
	}
	_, at := startStandin(f)
	p, secret, _ := start(f, newServer(DemandNothing), at, Limits{Login: 5 * time.Second})
	f.Fuzz(func(t *testing.T, data []byte) { throw(t, p, secret, data) })
}
