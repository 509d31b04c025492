//go:build play

// Package play plays schedules of pooled sessions, over the C file mouktelf_play.c.
package play

/*
#cgo CFLAGS: -std=gnu11 -O2
#if !__has_include("mouktelf.h")
#error "the player's C file isn't in a clone: a release's packages/go has it"
#endif
#include "mouktelf.h"
*/
import "C"

import (
	"fmt"
	"unsafe"
)

// at is where some bytes lie; the library wants no null, also of none.
func at(bytes []byte) *C.uint8_t {
	if len(bytes) == 0 {
		bytes = make([]byte, 1)
	}
	return (*C.uint8_t)(unsafe.Pointer(&bytes[0]))
}

// Play plays a schedule: its report's text, or an error that says why it is not played.
func Play(schedule []byte) ([]byte, error) {
	out, count := make([]byte, 1<<20), C.size_t(0)
	status := C.tds_play(at(schedule), C.size_t(len(schedule)), at(out), C.size_t(len(out)), &count)
	if status == C.TDS_PLAY_NO_ROOM {
		out = make([]byte, count)
		status = C.tds_play(at(schedule), C.size_t(len(schedule)), at(out), C.size_t(len(out)), &count)
	}
	if status != C.TDS_PLAYED {
		return nil, fmt.Errorf("%s", out[:count])
	}
	return out[:count], nil
}
