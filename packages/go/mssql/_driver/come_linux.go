//go:build linux && (amd64 || arm64)

package mssql

import (
	"syscall"
	"unsafe"
)

// peeks looks at the first byte that lies at a socket: how many there are, up to one. It waits for nothing, so Go's scheduler needn't
// be told of it.
func peeks(place uintptr) (int, error) {
	one := [1]byte{}
	count, _, why := syscall.RawSyscall6(
		syscall.SYS_RECVFROM, place, uintptr(unsafe.Pointer(&one)), 1, syscall.MSG_PEEK|syscall.MSG_DONTWAIT, 0, 0)
	if why != 0 {
		return 0, why
	}
	return int(count), nil
}
