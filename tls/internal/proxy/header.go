package proxy

import (
	"encoding/binary"
	"net"
)

// The header of the PROXY protocol, version 2: its signature, and its version with the two commands.
const (
	headerSignature = "\r\n\r\n\x00\r\nQUIT\n"
	commandLocal    = 0x20
	commandProxy    = 0x21
)

// Families of addresses, each with the protocol TCP.
const (
	familyNone = 0x00
	familyTCP4 = 0x11
	familyTCP6 = 0x21
)

// headerFor is the header that says who is behind a connection: the client's address and port, and those that
// it came to. Where they aren't addresses of TCP it says that the connection is the proxy's own.
func headerFor(client, came net.Addr) []byte {
	from, isFrom := client.(*net.TCPAddr)
	to, isTo := came.(*net.TCPAddr)
	if !isFrom || !isTo {
		return header(commandLocal, familyNone)
	}
	family, source, target := byte(familyTCP4), from.IP.To4(), to.IP.To4()
	if source == nil || target == nil {
		family, source, target = familyTCP6, from.IP.To16(), to.IP.To16()
	}
	if source == nil || target == nil {
		return header(commandLocal, familyNone)
	}
	return header(commandProxy, family, source, target, port(from), port(to))
}

func port(address *net.TCPAddr) []byte {
	return binary.BigEndian.AppendUint16(nil, uint16(address.Port))
}

func header(command, family byte, parts ...[]byte) []byte {
	var body []byte
	for _, part := range parts {
		body = append(body, part...)
	}
	made := append([]byte(headerSignature), command, family)
	return append(binary.BigEndian.AppendUint16(made, uint16(len(body))), body...)
}
