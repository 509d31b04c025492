package proxy

import (
	"errors"
	"fmt"
	"net"
	"os"
	"strings"
	"syscall"

	"tdstls/internal/tds"
)

// An Address is where to listen or to connect: HOST:PORT, or unix:PATH for a socket of the system's own.
type Address struct{ network, text string }

const unixPrefix = "unix:"

// ParseAddress reads an address.
func ParseAddress(text string) (Address, error) {
	if strings.HasPrefix(text, unixPrefix) {
		if path := text[len(unixPrefix):]; path != "" {
			return Address{"unix", path}, nil
		}
		return Address{}, errors.New("unix: without a path")
	}
	if _, _, err := net.SplitHostPort(text); err != nil {
		return Address{}, err
	}
	return Address{"tcp", text}, nil
}

func (a Address) String() string {
	if a.IsUnix() {
		return unixPrefix + a.text
	}
	return a.text
}

// IsUnix tells whether it is a socket of the system's own.
func (a Address) IsUnix() bool { return a.network == "unix" }

// Host is the host of HOST:PORT.
func (a Address) Host() string {
	host, _, _ := net.SplitHostPort(a.text)
	return host
}

// Listen listens at the address. Where isLocal is set nobody but this machine's users may reach it: it is
// a loopback address, or a socket that its owner alone may open.
func (a Address) Listen(isLocal bool) (net.Listener, error) {
	if a.IsUnix() {
		return a.listenUnix()
	}
	address, err := net.ResolveTCPAddr("tcp", a.text)
	if err != nil {
		return nil, err
	}
	if isLocal && !address.IP.IsLoopback() {
		return nil, NotLocal{a}
	}
	return net.ListenTCP("tcp", address)
}

// NotLocal is the error of a clear side that others may reach.
type NotLocal struct{ At Address }

func (n NotLocal) Error() string {
	return fmt.Sprintf("%v is no loopback address, and what goes there is clear (-clear-beyond-loopback allows it)", n.At)
}

// listenUnix takes the place of a socket that nobody listens at any more. A file of another kind stays.
func (a Address) listenUnix() (net.Listener, error) {
	if made, err := net.Dial("unix", a.text); err == nil {
		made.Close()
		return nil, fmt.Errorf("%v: somebody listens there", a)
	} else if errors.Is(err, syscall.ECONNREFUSED) && isSocket(a.text) {
		os.Remove(a.text)
	}
	before := syscall.Umask(0o177)
	defer syscall.Umask(before)
	return net.Listen("unix", a.text)
}

func isSocket(path string) bool {
	info, err := os.Lstat(path)
	return err == nil && info.Mode().Type() == os.ModeSocket
}

// connect connects to the address with this dialer. Where isLocal is set nothing is sent to an address that
// is no loopback one, whatever the host's name is looked up to.
func (a Address) connect(dialer net.Dialer, isLocal bool) (tds.Socket, error) {
	if isLocal && !a.IsUnix() {
		dialer.Control = func(_, address string, _ syscall.RawConn) error {
			if host, _, err := net.SplitHostPort(address); err != nil || !net.ParseIP(host).IsLoopback() {
				return NotLocal{a}
			}
			return nil
		}
	}
	made, err := dialer.Dial(a.network, a.text)
	if err != nil {
		return nil, err
	}
	return made.(tds.Socket), nil
}

// told is how the log names an end of a socket: one of the system's own has mostly no name.
func told(address net.Addr) string {
	if address.Network() == "unix" {
		return "unix"
	}
	return address.String()
}
