//go:build linux || darwin || freebsd || netbsd || openbsd || dragonfly

package mssql

import "syscall"

// hasCome says whether the peer of an idle connection has closed it or, where it isn't encrypted, has sent something. It waits for
// nothing, and takes nothing.
func hasCome(raw syscall.RawConn, isPlain bool) bool {
	count, why := 0, error(nil)
	err := raw.Control(func(place uintptr) { count, why = peeks(place) })
	if err != nil || why == nil {
		// encrypted, what lies there may be TLS's own
		return err != nil || count <= 0 || isPlain
	}
	return why != syscall.EAGAIN && why != syscall.EWOULDBLOCK && why != syscall.EINTR
}
