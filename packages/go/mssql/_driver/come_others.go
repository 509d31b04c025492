//go:build (linux && !amd64 && !arm64) || darwin || freebsd || netbsd || openbsd || dragonfly

package mssql

import "syscall"

// peeks looks at the first byte that lies at a socket: how many there are, up to one.
func peeks(place uintptr) (int, error) {
	one := [1]byte{}
	count, _, why := syscall.Recvfrom(int(place), one[:], syscall.MSG_PEEK|syscall.MSG_DONTWAIT)
	return count, why
}
