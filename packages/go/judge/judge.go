// Package judge says what both ends of a recorded connection do wrong: a test suite's, or a proxy's, over the C file
// mouktelf_judge.c. What is found stands in docs/JUDGING.md.
package judge

/*
#cgo CFLAGS: -std=gnu11 -O2
#include "mouktelf.h"
*/
import "C"

import (
	"errors"
	"fmt"
	"unsafe"
)

// What a piece is: bytes of a direction; or, without bytes, that the connection is lent to somebody else, or closed.
type What uint8

const (
	ToServer = What(C.TDS_JUDGE_TO_SERVER)
	ToClient = What(C.TDS_JUDGE_TO_CLIENT)
	Borrowed = What(C.TDS_JUDGE_BORROWED)
	Shut     = What(C.TDS_JUDGE_CLOSED)
)

// Piece is a piece of a recorded connection, cut as you like, and its time in microseconds.
type Piece struct {
	Time  uint64
	What  What
	Bytes []byte
}

// Limits are what a judge goes by.
type Limits struct {
	Idle              uint64 // how long a transaction may be idle, in microseconds; 0: as long as it likes
	Columns           uint16 // the most columns of a result, 4,096 at most
	Encryption, Ranks bool   // what the login acknowledged: column encryption, and data classification of version 2
}

// Level is how bad a finding is.
type Level uint8

const (
	Breach = Level(C.TDS_JUDGE_BREACH) // MS-TDS forbids it
	Risk   = Level(C.TDS_JUDGE_RISK)   // it is lawful, and loses work or an answer
	Note   = Level(C.TDS_JUDGE_NOTE)
)

// Finding is a finding by its number, 1 to 45: the byte of its direction at which it is told, counted from 0, the time of its
// piece, and what goes with it, or 0.
type Finding struct {
	Number              uint8
	Level               Level
	Direction           What
	Offset, Time, Value uint64
}

// ErrMemory says that there is no memory for it.
var ErrMemory = errors.New("memory is wanted")

// Judge gives the findings of one connection, from its first piece to its last.
func Judge(limits Limits, pieces []Piece) ([]Finding, error) {
	// One more of each, so that none has an address too.
	given, bytes := make([]C.struct_tds_judge_piece, len(pieces)+1), []byte{}
	for place, it := range pieces {
		given[place] = C.struct_tds_judge_piece{time: C.uint64_t(it.Time), length: C.size_t(len(it.Bytes)), what: C.uint8_t(it.What)}
		bytes = append(bytes, it.Bytes...)
	}
	by := C.struct_tds_judge_limits{
		idle: C.uint64_t(limits.Idle), columns: C.uint16_t(limits.Columns), encryption: oneWhere(limits.Encryption), ranks: oneWhere(limits.Ranks),
	}
	length := len(bytes)
	bytes = append(bytes, 0)
	for room := 64; ; {
		found, count := make([]C.struct_tds_judge_finding, room), C.size_t(0)
		answer := C.tds_judge(&by, &given[0], C.size_t(len(pieces)), (*C.uint8_t)(unsafe.Pointer(&bytes[0])), C.size_t(length), &found[0], C.size_t(room), &count)
		switch answer {
		case C.TDS_JUDGED:
			return findings(found[:count]), nil
		case C.TDS_JUDGE_NO_ROOM:
			room = int(count)
		case C.TDS_JUDGE_MISFIT:
			return nil, fmt.Errorf("a result has at most 4096 columns, and not %d", limits.Columns)
		default:
			return nil, ErrMemory
		}
	}
}

func findings(found []C.struct_tds_judge_finding) (told []Finding) {
	for _, it := range found {
		told = append(told, Finding{
			Number: uint8(it.number), Level: Level(it.level), Direction: What(it.direction),
			Offset: uint64(it.offset), Time: uint64(it.time), Value: uint64(it.value),
		})
	}
	return told
}

func oneWhere(is bool) C.uint8_t {
	if is {
		return 1
	}
	return 0
}
