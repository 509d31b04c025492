// Command tdstls puts TLS before a TDS server that has none (tdstls server), or behind a TDS client that
// has none (tdstls client), and answers tdsrelay which addresses a name has (tdstls names).
// docs/ENCRYPTION.md and docs/RELAY.md say how.
package main

import (
	"context"
	"encoding/hex"
	"errors"
	"flag"
	"fmt"
	"log"
	"os"
	"os/signal"
	"runtime/debug"
	"strings"
	"syscall"
	"time"

	"tdstls/internal/names"
	"tdstls/internal/proxy"
	"tdstls/internal/selfsigned"
)

const version = "tdstls 0.1.0"

const usage = `usage: tdstls server -listen ADDR -forward ADDR (-cert FILE -key FILE | -selfsigned [-cert FILE])
       tdstls client -listen ADDR -forward ADDR [-ca FILE] [-servername NAME] [-encrypt on|login|strict]
       tdstls names -listen unix:PATH
       tdstls -version
ADDR is HOST:PORT; where what goes there is clear it may be unix:PATH. Each with -h tells all its flags.
`

func main() {
	debug.SetGCPercent(50) // idle connections are most of its memory
	if len(os.Args) < 2 {
		fmt.Fprint(os.Stderr, usage)
		os.Exit(2)
	}
	var err error
	switch os.Args[1] {
	case "server":
		err = serverMain(os.Args[2:])
	case "client":
		err = clientMain(os.Args[2:])
	case "names":
		err = namesMain(os.Args[2:])
	case "-h", "-help", "--help":
		fmt.Print(usage)
	case "-version", "--version":
		fmt.Println(version)
	default:
		fmt.Fprint(os.Stderr, usage)
		os.Exit(2)
	}
	var wrong wrongWords
	var notLocal proxy.NotLocal
	switch {
	case errors.As(err, &wrong), errors.As(err, &notLocal):
		fmt.Fprintln(os.Stderr, "tdstls:", err)
		os.Exit(2)
	case err != nil:
		fmt.Fprintln(os.Stderr, "tdstls:", err)
		os.Exit(1)
	}
}

// wrongWords is an error of the command line: exit status 2.
type wrongWords struct{ text string }

func (w wrongWords) Error() string { return w.text }

func wrongf(format string, args ...any) error { return wrongWords{fmt.Sprintf(format, args...)} }

// common are the flags of both modes.
type common struct {
	listen, forward string
	cert, key       string
	beyond          bool
	login8, ack8    string
	drain           time.Duration
	limits          proxy.Limits

	at, to proxy.Address
}

func flags(name string) (*flag.FlagSet, *common) {
	set, c := flag.NewFlagSet("tdstls "+name, flag.ExitOnError), new(common)
	set.StringVar(&c.listen, "listen", "", "`ADDR` to accept connections at")
	set.StringVar(&c.forward, "forward", "", "`ADDR` to connect to for each of them")
	set.StringVar(&c.cert, "cert", "", "PEM `FILE` of a certificate of one's own and its chain; read again at SIGHUP")
	set.StringVar(&c.key, "key", "", "PEM `FILE` of its key")
	set.BoolVar(&c.beyond, "clear-beyond-loopback", false, "let the clear side leave this machine's loopback addresses")
	set.IntVar(&c.limits.Connections, "max", 1024, "connections at a time")
	set.IntVar(&c.limits.Handshakes, "rate", 0, "TLS handshakes that are begun in a second, 0 for any number; the others wait")
	set.DurationVar(&c.limits.Login, "handshake", 10*time.Second, "time from the accept to the login's first packet")
	set.DurationVar(&c.limits.Silence, "silence", 0, "time for which a connection may carry nothing behind its login, 0 for any")
	set.DurationVar(&c.limits.Linger, "linger", 10*time.Second, "the same, where one of its sides has ended")
	set.DurationVar(&c.drain, "drain", 30*time.Second, "time that connections have to end after SIGTERM")
	return set, c
}

func (c *common) check(set *flag.FlagSet) error {
	switch {
	case set.NArg() > 0:
		return wrongf("the word %q is one too many", set.Arg(0))
	case c.listen == "" || c.forward == "":
		return wrongf("-listen and -forward must be given")
	case c.limits.Connections < 1:
		return wrongf("-max must be 1 or more")
	case c.limits.Handshakes < 0 || c.limits.Handshakes > 1e6:
		return wrongf("-rate must be 0 to 1000000")
	case c.limits.Login <= 0 || c.limits.Linger <= 0 || c.limits.Silence < 0 || c.drain < 0:
		return wrongf("-handshake and -linger must be above 0, -silence and -drain 0 or more")
	}
	var err error
	if c.at, err = proxy.ParseAddress(c.listen); err != nil {
		return wrongf("-listen: %v", err)
	}
	if c.to, err = proxy.ParseAddress(c.forward); err != nil {
		return wrongf("-forward: %v", err)
	}
	return nil
}

// isNew reads a setting of TDS 8.0.
func isNew(name, version string) (bool, error) {
	if version != "7.4" && version != "8.0" {
		return false, wrongf("-%s must be 7.4 or 8.0", name)
	}
	return version == "8.0", nil
}

func (c *common) areNew() (login, ack bool, err error) {
	if login, err = isNew("login8", c.login8); err == nil {
		ack, err = isNew("ack8", c.ack8)
	}
	return login, ack, err
}

func serverMain(words []string) error {
	set, c := flags("server")
	own := set.Bool("selfsigned", false, "make a certificate, for tests; it is written to -cert where that is given, its key nowhere")
	names := set.String("names", "localhost,127.0.0.1,::1", "names and addresses of that certificate")
	require := set.String("require", "login", "the least encryption that a driver must take: none|login|all")
	answers := set.Bool("answer", false, "answer PRELOGIN here, and dial the clear server once a login has come")
	tells := set.Bool("proxy", false, "tell the clear server each client's address, by a header of the PROXY protocol, version 2")
	drivers := set.String("client-ca", "", "PEM `FILE` of authorities, by one of which each driver must have a certificate")
	set.StringVar(&c.login8, "login8", "7.4", "what a LOGIN7 of TDS 8.0 says to the clear server: 7.4|8.0")
	set.StringVar(&c.ack8, "ack8", "7.4", "what such a driver reads where that server's LOGINACK says 7.4: 7.4|8.0")
	set.Parse(words)
	if err := c.check(set); err != nil {
		return err
	}
	mode := &proxy.Server{Answers: *answers}
	var known bool
	demands := map[string]proxy.Demand{"none": proxy.DemandNothing, "login": proxy.DemandLogin, "all": proxy.DemandAll}
	if mode.Demand, known = demands[*require]; !known {
		return wrongf("-require must be none, login or all")
	}
	var err error
	if mode.Login8, mode.Ack8, err = c.areNew(); err != nil {
		return err
	}
	switch {
	case c.at.IsUnix():
		return wrongf("-listen must be HOST:PORT")
	case *own && c.key != "", !*own && (c.cert == "" || c.key == ""):
		return wrongf("give -cert and -key, or -selfsigned without -key")
	}
	load := func() (proxy.Material, error) { return proxy.Read(c.cert, c.key, *drivers) }
	if *own {
		made, pem, err := selfsigned.Make(strings.Split(*names, ","))
		if err == nil && c.cert != "" {
			err = os.WriteFile(c.cert, pem, 0o644)
		}
		if err != nil {
			return err
		}
		load = func() (proxy.Material, error) {
			m, err := proxy.Read("", "", *drivers)
			m.Certificates = append(m.Certificates, made)
			return m, err
		}
	}
	return c.serve(&proxy.Proxy{Mode: mode, ForwardIsLocal: !c.beyond, TellsClient: *tells}, load, false)
}

func clientMain(words []string) error {
	set, c := flags("client")
	authorities := set.String("ca", "", "PEM `FILE` of the authorities that are trusted, in the place of the system's")
	pin := set.String("pin", "", "SHA-256 of the one certificate that is trusted, in `HEX`, in the place of all authorities")
	name := set.String("servername", "", "`NAME` that the certificate must have; else that of -forward")
	encrypt := set.String("encrypt", "on", "on|login|strict (TDS 8.0)")
	set.StringVar(&c.login8, "login8", "7.4", "what a LOGIN7 of 7.4 asks a server of TDS 8.0 for: 7.4|8.0")
	set.StringVar(&c.ack8, "ack8", "7.4", "what the client reads where such a server's LOGINACK says 8.0: 7.4|8.0")
	set.Parse(words)
	if err := c.check(set); err != nil {
		return err
	}
	mode := &proxy.Client{Name: *name}
	var known bool
	wants := map[string]proxy.Want{"on": proxy.WantAll, "login": proxy.WantLogin, "strict": proxy.WantStrict}
	if mode.Want, known = wants[*encrypt]; !known {
		return wrongf("-encrypt must be on, login or strict")
	}
	var err error
	if mode.Login8, mode.Ack8, err = c.areNew(); err != nil {
		return err
	}
	if *pin != "" {
		if mode.Pin, err = hex.DecodeString(strings.ReplaceAll(*pin, ":", "")); err != nil || len(mode.Pin) != 32 {
			return wrongf("-pin must be 64 hexadecimal digits")
		}
	}
	switch {
	case c.to.IsUnix():
		return wrongf("-forward must be HOST:PORT")
	case (c.cert == "") != (c.key == ""):
		return wrongf("-cert and -key go together")
	case mode.Name == "":
		mode.Name = c.to.Host()
	}
	load := func() (proxy.Material, error) { return proxy.Read(c.cert, c.key, *authorities) }
	return c.serve(&proxy.Proxy{Mode: mode}, load, !c.beyond)
}

// namesMain answers tdsrelay which addresses a name has, until SIGTERM or SIGINT.
func namesMain(words []string) error {
	set := flag.NewFlagSet("tdstls names", flag.ExitOnError)
	listen := set.String("listen", "", "`unix:PATH` of the socket at which tdsrelay asks (its --names)")
	server := set.String("server", "", "`ADDR` of the server of names, in the place of those of /etc/resolv.conf")
	set.Parse(words)
	at, err := proxy.ParseAddress(*listen)
	if set.NArg() > 0 || err != nil || !at.IsUnix() {
		return wrongf("-listen must be unix:PATH, and there are no other words")
	}
	listener, err := at.Listen(true)
	if err != nil {
		return err
	}
	signals, stop := signal.NotifyContext(context.Background(), syscall.SIGTERM, os.Interrupt)
	defer stop()
	go func() {
		<-signals.Done()
		listener.Close()
	}()
	err = (&names.Server{At: *server}).Serve(listener)
	if signals.Err() != nil {
		return nil
	}
	return err
}

// serve accepts connections until SIGTERM or SIGINT, and waits for them then; a second signal ends it. At
// SIGHUP it reads its certificates again.
func (c *common) serve(p *proxy.Proxy, load func() (proxy.Material, error), listenIsLocal bool) error {
	p.Forward, p.Limits, p.Log = c.to, c.limits, log.New(os.Stderr, "", log.LstdFlags|log.LUTC)
	material, err := load()
	if err != nil {
		return err
	}
	use(p, material)
	listener, err := c.at.Listen(listenIsLocal)
	if err != nil {
		return err
	}
	again := make(chan os.Signal, 1)
	signal.Notify(again, syscall.SIGHUP)
	go func() {
		for range again {
			if material, err := load(); err == nil {
				use(p, material)
			} else {
				p.Log.Printf("the certificates stay as they were: %v", err)
			}
		}
	}()
	signals, stop := signal.NotifyContext(context.Background(), syscall.SIGTERM, os.Interrupt)
	defer stop()
	go func() {
		<-signals.Done()
		stop() // the next signal ends the program as ever
		listener.Close()
	}()
	if c.at.IsUnix() {
		p.Log.Printf("listens at=%v forward=%v", c.at, c.to)
	} else {
		p.Log.Printf("listens at=%v forward=%v", listener.Addr(), c.to)
	}
	if err := p.Serve(listener); err != nil {
		return err
	}
	p.Log.Printf("drains connections=%d limit=%v", p.Sessions(), c.drain)
	cut := p.Drain(c.drain)
	p.Log.Printf("ended cut=%d", cut)
	return nil
}

// use has new connections use this, and tells until when a certificate of one's own is valid.
func use(p *proxy.Proxy, material proxy.Material) {
	p.Mode.Use(material)
	until := material.Until()
	switch {
	case until.IsZero():
		p.Log.Printf("certificates read")
	case time.Now().After(until):
		p.Log.Printf("certificates read until=%s: IT HAS EXPIRED, and drivers that look refuse it", until.UTC().Format(time.RFC3339))
	default:
		p.Log.Printf("certificates read until=%s", until.UTC().Format(time.RFC3339))
	}
}
