package proxy

import (
	"encoding/hex"
	"net"
	"testing"
)

// Headers by hand, from the protocol's own page.
func TestHeader(t *testing.T) {
	address := func(text string) net.Addr {
		made, err := net.ResolveTCPAddr("tcp", text)
		if err != nil {
			t.Fatal(err)
		}
		return made
	}
	const signature = "0d0a0d0a000d0a515549540a"
	for _, it := range []struct {
		client, came net.Addr
		want         string
	}{
		{address("192.0.2.7:50000"), address("198.51.100.1:1433"), "2111000c" + "c0000207" + "c6336401" + "c350" + "0599"},
		{address("[2001:db8::7]:50001"), address("[2001:db8::1]:1433"), "21210024" +
			"20010db8000000000000000000000007" + "20010db8000000000000000000000001" + "c351" + "0599"},
		{&net.UnixAddr{Name: "/x", Net: "unix"}, address("127.0.0.1:1"), "20000000"},
	} {
		if got := hex.EncodeToString(headerFor(it.client, it.came)); got != signature+it.want {
			t.Errorf("%v: %s", it.client, got)
		}
	}
}
