// Command testcerts writes certificates for tests, and their keys, into a folder: testcerts FOLDER.
//
// Each is its own authority. own and second are for localhost, expired and early too, which aren't valid
// now; other is for other.example.
package main

import (
	"crypto/rand"
	"crypto/rsa"
	"crypto/x509"
	"encoding/pem"
	"fmt"
	"os"
	"path/filepath"
	"time"

	"tdstls/internal/selfsigned"
)

func main() {
	if len(os.Args) != 2 {
		fmt.Fprintln(os.Stderr, "usage: testcerts FOLDER")
		os.Exit(2)
	}
	now := time.Now()
	year, yearAgo := now.AddDate(1, 0, 0), now.AddDate(-1, 0, 0)
	here := []string{"localhost", "127.0.0.1", "::1"}
	for name, how := range map[string]struct {
		names       []string
		from, until time.Time
	}{
		"own":     {here, yearAgo, year},
		"second":  {here, yearAgo, year},
		"expired": {here, yearAgo, now.AddDate(0, -1, 0)},
		"early":   {here, now.AddDate(0, 1, 0), year},
		"other":   {[]string{"other.example"}, yearAgo, year},
	} {
		if err := write(filepath.Join(os.Args[1], name), how.names, how.from, how.until); err != nil {
			fmt.Fprintln(os.Stderr, "testcerts:", err)
			os.Exit(1)
		}
	}
}

// write writes a certificate to PATH.pem and its key to PATH.key. A key is RSA, which every driver knows.
func write(path string, names []string, from, until time.Time) error {
	key, err := rsa.GenerateKey(rand.Reader, 2048)
	if err != nil {
		return err
	}
	_, certificate, err := selfsigned.Sign(names, key, from, until)
	if err != nil {
		return err
	}
	der, err := x509.MarshalPKCS8PrivateKey(key)
	if err != nil {
		return err
	}
	if err := os.WriteFile(path+".pem", certificate, 0o644); err != nil {
		return err
	}
	return os.WriteFile(path+".key", pem.EncodeToMemory(&pem.Block{Type: "PRIVATE KEY", Bytes: der}), 0o600)
}
