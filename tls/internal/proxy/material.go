package proxy

import (
	"crypto/tls"
	"crypto/x509"
	"fmt"
	"os"
	"time"
)

// ALPN is the protocol that TDS 8.0 names in its TLS handshake.
const ALPN = "tds/8.0"

// SQL Server's numbers for a client that must encrypt and doesn't, and for a connection that failed while
// it was made.
const (
	errorClear    = 17835
	errorNoServer = 17830
)

// Material is what TLS is made of: certificates of one's own, and whom to trust.
type Material struct {
	Certificates []tls.Certificate
	// Authorities that are trusted. A Server demands a certificate of its drivers where they are given; a
	// Client trusts the system's where they aren't.
	Authorities *x509.CertPool
}

// Read reads it from PEM files: a certificate with its chain and its key, and authorities; "" for none.
func Read(certFile, keyFile, authoritiesFile string) (Material, error) {
	var m Material
	if certFile != "" {
		certificate, err := tls.LoadX509KeyPair(certFile, keyFile)
		if err != nil {
			return m, fmt.Errorf("%s, %s: %w", certFile, keyFile, err)
		}
		m.Certificates = []tls.Certificate{certificate}
	}
	if authoritiesFile != "" {
		text, err := os.ReadFile(authoritiesFile)
		if err != nil {
			return m, err
		}
		m.Authorities = x509.NewCertPool()
		if !m.Authorities.AppendCertsFromPEM(text) {
			return m, fmt.Errorf("%s has no certificate", authoritiesFile)
		}
	}
	return m, nil
}

// Until is until when its certificate is valid; the zero time where it has none.
func (m Material) Until() time.Time {
	if len(m.Certificates) == 0 {
		return time.Time{}
	}
	leaf, err := x509.ParseCertificate(m.Certificates[0].Certificate[0])
	if err != nil {
		return time.Time{}
	}
	return leaf.NotAfter
}

// shakeHands makes TLS.
func shakeHands(made *tls.Conn) error {
	if err := made.Handshake(); err != nil {
		return fmt.Errorf("TLS: %w", err)
	}
	return nil
}

var versionNames = map[uint16]string{
	tls.VersionTLS10: "1.0", tls.VersionTLS11: "1.1", tls.VersionTLS12: "1.2", tls.VersionTLS13: "1.3",
}

func describe(made *tls.Conn) string {
	state := made.ConnectionState()
	return fmt.Sprintf("tls=%s suite=%s ", versionNames[state.Version], tls.CipherSuiteName(state.CipherSuite))
}
