// Package proxy puts TLS before a TDS server that has none (Server), or behind a TDS client that has none
// (Client).
package proxy

import (
	"errors"
	"log"
	"net"
	"sync"
	"time"

	"tdstls/internal/tds"
)

// A Mode opens sessions: from an accepted connection up to the login's first packet.
type Mode interface {
	open(*session) error
	// Use has the connections that come from here on use this.
	Use(Material)
}

// Limits bound what a peer can have.
type Limits struct {
	// Connections at a time. The next one is closed at once.
	Connections int
	// Handshakes that are begun in a second, 0 for any number. A peer waits for its turn.
	Handshakes int
	// Login is the time from the accept to the login's first packet.
	Login time.Duration
	// Silence is how long a session may carry nothing, 0 for as long as it likes.
	Silence time.Duration
	// Linger is Silence behind the end of one of its sides, and the time in which a driver that was told the
	// end may still send.
	Linger time.Duration
}

// A Proxy accepts connections, and gives each to its mode.
type Proxy struct {
	Mode    Mode
	Forward Address
	// ForwardIsLocal refuses a forward connection that leaves this machine's loopback addresses.
	ForwardIsLocal bool
	// TellsClient has each forward connection begin with the header of the PROXY protocol, version 2.
	TellsClient bool
	Limits      Limits
	Log         *log.Logger

	mutex    sync.Mutex
	sessions map[*session]struct{}
	running  sync.WaitGroup
	numbers  uint64
	pace     pace
}

// Serve accepts connections until the listener is closed.
func (p *Proxy) Serve(listener net.Listener) error {
	over := make(chan struct{})
	defer close(over)
	go p.watch(over)
	for {
		socket, err := listener.Accept()
		switch {
		case errors.Is(err, net.ErrClosed):
			return nil
		case err != nil: // no descriptors left, say
			p.Log.Printf("accept: %v", err)
			time.Sleep(50 * time.Millisecond)
			continue
		}
		if s := p.admit(socket.(tds.Socket)); s != nil {
			go s.run()
		}
	}
}

// Drain waits until all sessions have ended, for so long; then it cuts the others, and tells how many.
func (p *Proxy) Drain(limit time.Duration) int {
	ended := make(chan struct{})
	go func() {
		p.running.Wait()
		close(ended)
	}()
	until := time.After(limit)
	look := time.NewTicker(p.lookInterval())
	defer look.Stop()
	for {
		select {
		case <-ended:
			return 0
		case <-look.C:
			p.cutSilent(time.Now())
		case <-until:
			cut := 0
			for _, s := range p.all() {
				s.cut("drained")
				cut++
			}
			<-ended
			return cut
		}
	}
}

// Sessions is how many sessions there are.
func (p *Proxy) Sessions() int { return len(p.all()) }

func (p *Proxy) all() []*session {
	p.mutex.Lock()
	defer p.mutex.Unlock()
	all := make([]*session, 0, len(p.sessions))
	for s := range p.sessions {
		all = append(all, s)
	}
	return all
}

func (p *Proxy) admit(socket tds.Socket) *session {
	p.mutex.Lock()
	defer p.mutex.Unlock()
	p.numbers++
	from := told(socket.RemoteAddr())
	if len(p.sessions) >= p.Limits.Connections {
		p.Log.Printf("%d refused from=%s why=%q", p.numbers, from, "too many connections")
		socket.Close()
		return nil
	}
	s := &session{
		proxy:    p,
		number:   p.numbers,
		from:     from,
		deadline: time.Now().Add(p.Limits.Login),
		near:     side{conn: tds.NewConn(socket)},
	}
	if p.sessions == nil {
		p.sessions = make(map[*session]struct{})
	}
	p.sessions[s] = struct{}{}
	p.running.Add(1)
	return s
}

func (p *Proxy) forget(s *session) {
	p.mutex.Lock()
	delete(p.sessions, s)
	p.mutex.Unlock()
	p.running.Done()
}

// watch cuts silent sessions, until the proxy accepts no more.
func (p *Proxy) watch(over <-chan struct{}) {
	look := time.NewTicker(p.lookInterval())
	defer look.Stop()
	for {
		select {
		case <-over:
			return
		case <-look.C:
			p.cutSilent(time.Now())
		}
	}
}

// lookInterval is how often silence is looked for: so that a session is cut a quarter of its limit late.
func (p *Proxy) lookInterval() time.Duration {
	least := p.Limits.Linger
	if silence := p.Limits.Silence; silence > 0 && silence < least {
		least = silence
	}
	switch interval := least / 4; {
	case interval > time.Second:
		return time.Second
	case interval < 10*time.Millisecond:
		return 10 * time.Millisecond
	default:
		return interval
	}
}

func (p *Proxy) cutSilent(now time.Time) {
	for _, s := range p.all() {
		if s.isSilent(now) {
			s.cut("silence")
		}
	}
}

// A pace lets so many begin in a second, the first of them at once.
type pace struct {
	mutex sync.Mutex
	next  time.Time
}

var errTooFast = errors.New("too many handshakes a second")

// wait waits for a turn, and fails where that would come behind the deadline.
func (p *pace) wait(aSecond int, deadline time.Time) error {
	if aSecond == 0 {
		return nil
	}
	now := time.Now()
	p.mutex.Lock()
	if first := now.Add(-time.Second); p.next.Before(first) {
		p.next = first
	}
	turn := p.next.Add(time.Second / time.Duration(aSecond))
	if turn.After(deadline) {
		p.mutex.Unlock()
		return errTooFast
	}
	p.next = turn
	p.mutex.Unlock()
	time.Sleep(turn.Sub(now))
	return nil
}
