// Package names answers over a socket which addresses a name has, and for how long that holds.
//
// A line asks: a name. A line answers: the name, the seconds for which the answer lives, and addresses, the first one
// preferred; or the name, a `!`, and why it has none. Answers come as they are found, in any order.
package names

import (
	"bufio"
	"context"
	"fmt"
	"net"
	"strings"
	"sync"
	"time"
)

const (
	// longest is a question's limit, and the most addresses of an answer.
	longest = 5 * time.Second
	most    = 4
	// atOnce is the most questions of one who asks that are open at a time.
	atOnce = 16
	// mostName is the most bytes of a line that asks.
	mostName = 256
)

// Default is the time to live of what no server of names has said, as a line of /etc/hosts.
const Default = 30 * time.Second

// A Server answers with the system's settings: /etc/hosts and /etc/resolv.conf.
type Server struct {
	// At is where servers of names are asked, in the place of those of /etc/resolv.conf: for tests.
	At string
}

// Serve answers whoever comes, until the listener is closed.
func (s *Server) Serve(listener net.Listener) error {
	for {
		link, err := listener.Accept()
		if err != nil {
			return err
		}
		go s.answer(link)
	}
}

func (s *Server) answer(link net.Conn) {
	defer link.Close()
	var lock sync.Mutex
	free := make(chan struct{}, atOnce)
	lines := bufio.NewScanner(link)
	lines.Buffer(make([]byte, mostName), mostName)
	for lines.Scan() {
		name := lines.Text()
		free <- struct{}{}
		go func() {
			line := s.Line(name)
			lock.Lock()
			fmt.Fprintln(link, line)
			lock.Unlock()
			<-free
		}()
	}
}

// Line is the answer of a name.
func (s *Server) Line(name string) string {
	if strings.ContainsAny(name, " \t\r!") || name == "" {
		return "! ! that is no name"
	}
	addresses, life, err := s.look(name)
	if err != nil {
		return fmt.Sprintf("%s ! %v", name, plain(err))
	}
	words := []string{name, fmt.Sprint(int(life / time.Second))}
	return strings.Join(append(words, addresses...), " ")
}

// look asks the resolver of Go, and hears the times to live in what servers answer it.
func (s *Server) look(name string) ([]string, time.Duration, error) {
	within, stop := context.WithTimeout(context.Background(), longest)
	defer stop()
	heard := &heard{}
	resolver := net.Resolver{PreferGo: true, StrictErrors: false, Dial: func(c context.Context, network, address string) (net.Conn, error) {
		if s.At != "" {
			address = s.At
		}
		var dialer net.Dialer
		link, err := dialer.DialContext(c, network, address)
		if err != nil {
			return nil, err
		}
		return heard.hear(link), nil
	}}
	found, err := resolver.LookupIPAddr(within, name)
	if err != nil {
		return nil, 0, err
	}
	var addresses []string
	for _, it := range found {
		if it.Zone == "" && len(addresses) < most {
			addresses = append(addresses, it.IP.String())
		}
	}
	if len(addresses) == 0 {
		return nil, 0, fmt.Errorf("no address")
	}
	return addresses, heard.life(), nil
}

// plain is an error in a line.
func plain(err error) string {
	return strings.Map(func(r rune) rune {
		if r < ' ' || r > '~' {
			return '?'
		}
		return r
	}, err.Error())
}
