//go:build !(linux || darwin || freebsd || netbsd || openbsd || dragonfly)

package mssql

import "syscall"

// hasCome isn't known here: the next request finds it out.
func hasCome(syscall.RawConn, bool) bool { return false }
