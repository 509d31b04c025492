package proxy

import (
	"bufio"
	"crypto/tls"
	"errors"
	"fmt"
	"io"
	"sync/atomic"

	"tdstls/internal/tds"
)

// Demand is the least encryption that a driver must take.
type Demand int

// What may be demanded.
const (
	// DemandNothing lets a driver log in in clear where it says that it can't encrypt.
	DemandNothing Demand = iota
	// DemandLogin lets a driver have its login alone encrypted.
	DemandLogin
	// DemandAll has everything encrypted.
	DemandAll
)

// textNoServer is all that a driver learns, who isn't logged in yet. The log says why.
const textNoServer = "tdstls: the server behind it can't be reached."

// Server speaks TLS to drivers, and clear TDS to a server that has none.
type Server struct {
	Demand Demand
	// Answers has PRELOGIN answered here. So the clear server is dialled when a login has come, and not before.
	Answers bool
	// Login8 has a LOGIN7 of TDS 8.0 say so to the clear server, which else reads 7.4.
	Login8 bool
	// Ack8 has a driver that asks for TDS 8.0 read so in LOGINACK, where the clear server says 7.4.
	Ack8 bool

	// configs are those of TDS 7, where the handshake goes inside PRELOGIN, and of TDS 8.0.
	configs atomic.Pointer[struct{ inside, strict *tls.Config }]
}

// Use has the connections that come from here on use these certificates.
func (m *Server) Use(material Material) {
	inside := &tls.Config{
		Certificates: material.Certificates,
		MinVersion:   tls.VersionTLS12,
		MaxVersion:   tls.VersionTLS12, // of TLS 1.3 drivers of TDS 7 don't expect the order of flights
		// A session ticket of TLS 1.3 would come as a record behind the handshake.
		SessionTicketsDisabled:      true,
		DynamicRecordSizingDisabled: true,
	}
	if material.Authorities != nil {
		inside.ClientAuth, inside.ClientCAs = tls.RequireAndVerifyClientCert, material.Authorities
	}
	strict := inside.Clone()
	strict.MaxVersion, strict.NextProtos = 0, []string{ALPN}
	m.configs.Store(&struct{ inside, strict *tls.Config }{inside, strict})
}

func (m *Server) open(s *session) error {
	first, err := s.near.conn.Peek()
	switch {
	case err != nil:
		return err
	case tds.IsTLS(first):
		return m.openStrict(s)
	case tds.Kind(first) == tds.Prelogin:
		return m.openInside(s)
	case tds.Kind(first) == tds.Login7 && m.Demand == DemandNothing:
		s.what = "encrypt=none "
		if !m.Answers {
			s.down = s.dial()
		}
		return m.login(s, s.near.conn, false)
	case tds.Kind(first) == tds.Login7:
		s.refuseNext(s.near.conn, s.near.conn, errorClear, "Encryption is required, and the client asked for none.")
		return errors.New("LOGIN7 in clear")
	}
	return fmt.Errorf("neither TDS nor TLS: it begins with the byte 0x%02x", first)
}

// openStrict is TDS 8.0: TLS first, and all of TDS within.
func (m *Server) openStrict(s *session) error {
	if err := s.proxy.pace.wait(s.proxy.Limits.Handshakes, s.deadline); err != nil {
		return err
	}
	inside := tls.Server(s.near.conn, m.configs.Load().strict)
	if err := shakeHands(inside); err != nil {
		return err
	}
	s.what = "encrypt=strict " + describe(inside)
	if inside.ConnectionState().NegotiatedProtocol != ALPN {
		return fmt.Errorf("TLS without the protocol %s", ALPN)
	}
	s.near.tls = inside
	options, err := readOptions(inside, tds.Prelogin)
	if err != nil {
		return err
	}
	answer := options.Encryption()
	if answer > tds.EncryptRequired {
		answer = tds.EncryptNotSupported
	}
	if err := m.prelogin(s, inside, options, answer); err != nil {
		return err
	}
	return m.login(s, inside, true)
}

// openInside is TDS 7: PRELOGIN first, and the TLS handshake in its packets.
func (m *Server) openInside(s *session) error {
	options, err := readOptions(s.near.conn, tds.Prelogin)
	if err != nil {
		return err
	}
	asked := options.Encryption()
	s.what = fmt.Sprintf("asked=%v ", asked)
	answer, err := m.answer(asked)
	if err != nil {
		return err
	}
	if err := m.prelogin(s, s.near.conn, options, answer); err != nil {
		return err
	}
	if answer == tds.EncryptNotSupported {
		s.what += "encrypt=none "
		return m.login(s, s.near.conn, false)
	}
	inside, err := m.handshakeInside(s)
	if err != nil {
		return err
	}
	if answer == tds.EncryptOff {
		s.what += "encrypt=login " + describe(inside)
		return m.loginOnly(s, inside)
	}
	s.what += "encrypt=on " + describe(inside)
	if err := s.near.conn.SetStage(tds.Plain); err != nil {
		return err
	}
	s.near.tls = inside
	return m.login(s, inside, false)
}

// answer is what a driver is answered that asked for this.
func (m *Server) answer(asked tds.Encryption) (tds.Encryption, error) {
	switch {
	case asked == tds.EncryptOn, asked == tds.EncryptRequired:
		return tds.EncryptOn, nil
	case asked == tds.EncryptOff && m.Demand < DemandAll:
		return tds.EncryptOff, nil
	case asked == tds.EncryptNotSupported && m.Demand == DemandNothing:
		return tds.EncryptNotSupported, nil
	case asked == tds.EncryptOff, asked == tds.EncryptNotSupported:
		return tds.EncryptRequired, nil // some drivers do encrypt then
	}
	return 0, fmt.Errorf("PRELOGIN asks for the encryption %v", asked)
}

// prelogin lets the clear server answer the driver's PRELOGIN in all but the encryption. Where that
// server can't be had its driver is told so by the answer to its login.
func (m *Server) prelogin(s *session, near io.Writer, options tds.Options, answer tds.Encryption) error {
	answered := tds.OwnOptions(answer)
	if !m.Answers {
		if asked, err := m.ask(s, options.With(tds.EncryptNotSupported)); err == nil {
			answered = asked
		} else {
			s.down = fmt.Errorf("the clear server: %w", err)
		}
	}
	return tds.WriteMessage(near, tds.Answer, answered.With(answer).Bytes())
}

// ask connects to the clear server, and gives its answer to PRELOGIN.
func (m *Server) ask(s *session, options tds.Options) (tds.Options, error) {
	if err := s.dial(); err != nil {
		return tds.Options{}, err
	}
	answered, err := exchange(s.far.conn, options)
	if err != nil {
		return tds.Options{}, err
	}
	if e := answered.Encryption(); e != tds.EncryptNotSupported && e != tds.EncryptOff {
		return tds.Options{}, fmt.Errorf("it answers PRELOGIN with ENCRYPTION %v", e)
	}
	return answered, nil
}

func (m *Server) handshakeInside(s *session) (*tls.Conn, error) {
	first, err := s.near.conn.Peek()
	if err != nil {
		return nil, err
	}
	if tds.Kind(first) == tds.Login7 {
		s.refuseNext(s.near.conn, s.near.conn, errorClear, "Encryption is required, and the client doesn't encrypt.")
		return nil, errors.New("LOGIN7 in clear")
	}
	if err := s.proxy.pace.wait(s.proxy.Limits.Handshakes, s.deadline); err != nil {
		return nil, err
	}
	if err := s.near.conn.SetStage(tds.Wrapped); err != nil {
		return nil, err
	}
	inside := tls.Server(s.near.conn, m.configs.Load().inside)
	return inside, shakeHands(inside)
}

// login carries the login's first packet.
func (m *Server) login(s *session, from io.ReadWriter, strict bool) error {
	_, err := m.sendLogin(s, from, from, strict)
	return err
}

// sendLogin carries the login's first packet to the clear server, which is dialled now where it wasn't
// yet. Where it can't be had the login is refused.
func (m *Server) sendLogin(s *session, from io.Reader, to io.Writer, strict bool) (tds.Header, error) {
	login, err := tds.ReadLogin(from)
	if err != nil {
		return tds.Header{}, err
	}
	if m.Answers {
		if _, err := m.ask(s, tds.OwnOptions(tds.EncryptNotSupported)); err != nil {
			s.down = fmt.Errorf("the clear server: %w", err)
		}
	}
	if s.down != nil {
		s.refuse(login, from, to, errorNoServer, textNoServer)
		return tds.Header{}, s.down
	}
	if strict && login.Version() == tds.Version8 {
		if m.Ack8 {
			s.far.before = func() error { return s.editAck(tds.Version74, tds.Version8) }
		}
		if !m.Login8 {
			login.SetVersion(tds.Version74)
		}
	}
	return login.Header(), login.Send(s.far.conn, from)
}

// loginOnly carries the first packet of a login that is encrypted, and has its reader do the rest.
func (m *Server) loginOnly(s *session, inside *tls.Conn) error {
	if err := s.near.conn.SetStage(tds.Records); err != nil {
		return err
	}
	// A record's data come in one Read where they have room. So what is left of a record is seen here.
	from := bufio.NewReaderSize(inside, 1<<14)
	header, err := m.sendLogin(s, from, s.near.conn, false)
	if err != nil {
		return err
	}
	s.near.before = func() error { return m.loginRest(s, from, header.Last()) }
	return nil
}

// loginRest carries the further packets of such a login. Whether they are encrypted is told by their
// first byte: drivers differ in it. Behind the last one all is clear.
func (m *Server) loginRest(s *session, from *bufio.Reader, last bool) error {
	for !last {
		if from.Buffered() == 0 {
			next, err := s.near.conn.Peek()
			if err != nil {
				return err
			}
			if !tds.IsRecord(next) {
				return s.near.conn.SetStage(tds.Plain)
			}
		}
		h, err := tds.CopyPacket(s.far.conn, from)
		if err != nil {
			return err
		}
		last = h.Last()
	}
	if from.Buffered() > 0 {
		return errors.New("bytes behind LOGIN7 in its TLS record")
	}
	if err := s.near.conn.SkipAlert(); err != nil {
		return err
	}
	return s.near.conn.SetStage(tds.Plain)
}

func readOptions(from io.Reader, kind tds.Kind) (tds.Options, error) {
	data, err := tds.ReadMessage(from, kind)
	if err != nil {
		return tds.Options{}, err
	}
	return tds.ParseOptions(data)
}
