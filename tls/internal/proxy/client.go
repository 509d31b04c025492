package proxy

import (
	"bytes"
	"crypto/sha256"
	"crypto/tls"
	"errors"
	"fmt"
	"io"
	"sync/atomic"

	"tdstls/internal/tds"
)

// Want is which encryption a Client asks its server for.
type Want int

// What may be wanted.
const (
	WantAll    Want = iota // ENCRYPT_ON
	WantLogin              // ENCRYPT_OFF: the login's first packet, or all where the server says so
	WantStrict             // TDS 8.0
)

// Client takes clear TDS, and speaks TLS to a server.
type Client struct {
	Want Want
	// Name is what the server's certificate must be for.
	Name string
	// Pin, where it is given, is the SHA-256 of the one certificate that is trusted, whatever its name.
	Pin []byte
	// Login8 has a LOGIN7 of 7.4 ask a server of TDS 8.0 for 8.0.
	Login8 bool
	// Ack8 has the client read 8.0 in LOGINACK where such a server says so. Else it reads 7.4.
	Ack8 bool

	config atomic.Pointer[tls.Config]
}

// Use has the connections that come from here on use these authorities, and this certificate where the
// server asks for one.
func (m *Client) Use(material Material) {
	config := &tls.Config{
		ServerName:                  m.Name,
		RootCAs:                     material.Authorities,
		Certificates:                material.Certificates,
		MinVersion:                  tls.VersionTLS12,
		DynamicRecordSizingDisabled: true,
	}
	if m.Pin != nil {
		config.InsecureSkipVerify = true // VerifyConnection is asked instead
		config.VerifyConnection = func(state tls.ConnectionState) error {
			sum := sha256.Sum256(state.PeerCertificates[0].Raw)
			if !bytes.Equal(sum[:], m.Pin) {
				return fmt.Errorf("another certificate: its SHA-256 is %x", sum)
			}
			return nil
		}
	}
	if m.Want == WantStrict {
		config.NextProtos = []string{ALPN}
	} else {
		config.MaxVersion = tls.VersionTLS12
	}
	m.config.Store(config)
}

func (m *Client) open(s *session) error {
	first, err := s.near.conn.Peek()
	if err != nil {
		return err
	}
	options, own := tds.OwnOptions(tds.EncryptOff), true
	switch tds.Kind(first) {
	case tds.Prelogin:
		if options, err = readOptions(s.near.conn, tds.Prelogin); err != nil {
			return err
		}
		own = false
		if e := options.Encryption(); e == tds.EncryptOn || e == tds.EncryptRequired {
			err := errors.New("the client demands encryption on the clear side")
			m.tell(s, own, errorClear, err)
			return err
		}
	case tds.Login7: // some clients send no PRELOGIN
	default:
		return fmt.Errorf("no TDS: it begins with the byte 0x%02x", first)
	}
	answered, err := m.connect(s, options)
	if err != nil {
		m.tell(s, own, errorNoServer, err)
		return err
	}
	if !own {
		clear := answered.With(tds.EncryptNotSupported)
		if err := tds.WriteMessage(s.near.conn, tds.Answer, clear.Bytes()); err != nil {
			return err
		}
	}
	return m.login(s)
}

// tell lets the driver show why it isn't served: by the answer to its login, and so to its PRELOGIN first.
// It has a moment for its login, also where the server has used up the time limit.
func (m *Client) tell(s *session, own bool, number uint32, why error) {
	s.extend()
	if !own {
		clear := tds.OwnOptions(tds.EncryptNotSupported)
		if tds.WriteMessage(s.near.conn, tds.Answer, clear.Bytes()) != nil {
			return
		}
	}
	s.refuseNext(s.near.conn, s.near.conn, number, "tdstls: "+explain(why))
}

// connect connects to the server, up to where the login may be sent, and gives its answer to PRELOGIN.
func (m *Client) connect(s *session, options tds.Options) (tds.Options, error) {
	if err := s.dial(); err != nil {
		return tds.Options{}, err
	}
	if m.Want == WantStrict {
		inside, err := m.handshake(s)
		if err != nil {
			return tds.Options{}, err
		}
		if inside.ConnectionState().NegotiatedProtocol != ALPN {
			return tds.Options{}, fmt.Errorf("the server doesn't name the protocol %s", ALPN)
		}
		s.what = "encrypt=strict " + describe(inside)
		s.far.tls = inside
		return exchange(inside, options.With(tds.EncryptNotSupported))
	}
	asks := tds.EncryptOn
	if m.Want == WantLogin {
		asks = tds.EncryptOff
	}
	answered, err := exchange(s.far.conn, options.With(asks))
	if err != nil {
		return tds.Options{}, err
	}
	e := answered.Encryption()
	s.what = fmt.Sprintf("answered=%v ", e)
	all := e == tds.EncryptOn || e == tds.EncryptRequired
	if !all && (e != tds.EncryptOff || m.Want != WantLogin) {
		return tds.Options{}, fmt.Errorf("the server doesn't encrypt: it answers %v to %v", e, asks)
	}
	if err := s.far.conn.SetStage(tds.Wrapped); err != nil {
		return tds.Options{}, err
	}
	inside, err := m.handshake(s)
	if err != nil {
		return tds.Options{}, err
	}
	s.far.tls = inside
	if all {
		s.what += "encrypt=on " + describe(inside)
	} else {
		s.what += "encrypt=login " + describe(inside)
		s.loginOnly = true
	}
	return answered, s.far.conn.SetStage(tds.Plain)
}

func (m *Client) handshake(s *session) (*tls.Conn, error) {
	if err := s.proxy.pace.wait(s.proxy.Limits.Handshakes, s.deadline); err != nil {
		return nil, err
	}
	inside := tls.Client(s.far.conn, m.config.Load())
	return inside, shakeHands(inside)
}

// login carries the login's first packet. Where the login alone is encrypted, what follows is clear.
func (m *Client) login(s *session) error {
	login, err := tds.ReadLogin(s.near.conn)
	if err != nil {
		return err
	}
	if m.Want == WantStrict {
		if m.Login8 && login.Version() == tds.Version74 {
			login.SetVersion(tds.Version8)
		}
		if !m.Ack8 {
			s.far.before = func() error { return s.editAck(tds.Version8, tds.Version74) }
		}
	}
	if err := login.Send(s.far.tls, s.near.conn); err != nil {
		return err
	}
	if s.loginOnly {
		s.far.tls = nil
	}
	return nil
}

func exchange(server io.ReadWriter, options tds.Options) (tds.Options, error) {
	if err := tds.WriteMessage(server, tds.Prelogin, options.Bytes()); err != nil {
		return tds.Options{}, err
	}
	answered, err := readOptions(server, tds.Answer)
	if err != nil {
		return tds.Options{}, fmt.Errorf("the server's answer to PRELOGIN: %w", err)
	}
	return answered, nil
}
