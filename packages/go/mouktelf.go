// Package mouktelf is the client's end of a connection that speaks the Tabular Data Stream, over the
// C file mouktelf.c. A Client has no lock: an Outgoing has.
package mouktelf

/*
#cgo CFLAGS: -std=gnu11 -O2
#include "mouktelf.h"
*/
import "C"

import (
	"sync"
	"unicode/utf16"
	"unsafe"
)

func done(answer C.uint8_t) error {
	if answer == C.TDS_OK {
		return nil
	}
	return Fault(answer)
}

// Answer is what Send, Cancel or Take did: TDS_MORE to TDS_ASKED of mouktelf.h.
type Answer uint8

const (
	More         = Answer(C.TDS_MORE)
	Last         = Answer(C.TDS_LAST)
	Finished     = Answer(C.TDS_FINISHED)
	Acknowledged = Answer(C.TDS_ACKNOWLEDGED)
	Nothing      = Answer(C.TDS_NOTHING)
	Already      = Answer(C.TDS_ALREADY)
	Unsent       = Answer(C.TDS_UNSENT)
	Asked        = Answer(C.TDS_ASKED)
)

// nothing is where no bytes lie: nobody reads or writes it.
var nothing [1]byte

// at is where some bytes lie; the library wants no null, also of none.
func at(bytes []byte) *C.uint8_t {
	if len(bytes) == 0 {
		bytes = nothing[:]
	}
	return (*C.uint8_t)(unsafe.Pointer(&bytes[0]))
}

// Client is the client's end of one connection to any server, with the message of the request that goes out.
type Client struct {
	raw     C.struct_tds_client
	message []byte
	kept    []byte // of a message that is put in parts, the room for what waits
	waiting C.size_t
	packet  []byte // the room for a packet that goes out
	walk    *Walk  // by which it hears

	taken, count C.size_t // what a call says
}

// New makes a client for packets of 512 to 32,767 bytes.
func New(size uint16) (*Client, error) {
	client := &Client{}
	return client, done(C.tds_client_new(C.uint16_t(size), &client.raw))
}

// Idle says whether no request is underway.
func (client *Client) Idle() bool { return client.raw.stage == C.TDS_IDLE }

// Descriptor is that of the open transaction, 0 for none.
func (client *Client) Descriptor() uint64 { return uint64(client.raw.descriptor) }

// MarkReset lets the next request ask for a full reset, or for one that keeps the transaction.
func (client *Client) MarkReset(keep bool) error {
	if keep {
		return done(C.tds_client_mark_reset(&client.raw, C.TDS_RESET_KEEP_TRANSACTION))
	}
	return done(C.tds_client_mark_reset(&client.raw, C.TDS_RESET_FULL))
}

type starts func(raw *C.struct_tds_client, message *C.uint8_t, room C.size_t, count *C.size_t) C.uint8_t

func (client *Client) start(start starts) error {
	message, count := make([]byte, C.TDS_MESSAGE_MOST), C.size_t(0)
	err := done(start(&client.raw, at(message), C.size_t(len(message)), &count))
	if err == nil {
		client.message = message[:count]
	}
	return err
}

// StartBatch takes a batch; Send sends it.
func (client *Client) StartBatch(text string) error {
	units := append(utf16.Encode([]rune(text)), 0)
	return client.start(func(raw *C.struct_tds_client, message *C.uint8_t, room C.size_t, count *C.size_t) C.uint8_t {
		return C.tds_client_start_batch(raw, (*C.uint16_t)(unsafe.Pointer(&units[0])), C.size_t(len(units)-1), message, room, count)
	})
}

// StartBegin takes the request to begin a transaction, at a level of 0 to 5.
func (client *Client) StartBegin(isolation uint8) error {
	return client.start(func(raw *C.struct_tds_client, message *C.uint8_t, room C.size_t, count *C.size_t) C.uint8_t {
		return C.tds_client_start_begin(raw, C.uint8_t(isolation), message, room, count)
	})
}

// NoNext says that no transaction is begun behind a commit or a rollback.
const NoNext = uint8(C.TDS_NO_NEXT)

// StartCommit takes the request to commit; next is the level of the transaction that is begun at once,
// or NoNext.
func (client *Client) StartCommit(next uint8) error {
	return client.start(func(raw *C.struct_tds_client, message *C.uint8_t, room C.size_t, count *C.size_t) C.uint8_t {
		return C.tds_client_start_commit(raw, C.uint8_t(next), message, room, count)
	})
}

// StartRollback takes the request to roll back; next is as that of StartCommit.
func (client *Client) StartRollback(next uint8) error {
	return client.start(func(raw *C.struct_tds_client, message *C.uint8_t, room C.size_t, count *C.size_t) C.uint8_t {
		return C.tds_client_start_rollback(raw, C.uint8_t(next), message, room, count)
	})
}

// Send appends the request's next packet: More or Last.
func (client *Client) Send(out *[]byte) (Answer, error) {
	packet := client.room()
	answer := C.tds_client_send(&client.raw, at(client.message), C.size_t(len(client.message)), at(packet), C.size_t(len(packet)), &client.count)
	return client.wrote(answer, out)
}

// room is room for a packet, of which nothing is written yet.
func (client *Client) room() []byte {
	client.count = 0
	if size := int(client.raw.size); len(client.packet) < size {
		client.packet = make([]byte, size)
	}
	return client.packet[:client.raw.size]
}

// Cancel cancels the request underway. After Asked, send what was appended.
func (client *Client) Cancel(out *[]byte) (Answer, error) {
	packet := client.room()
	answer := C.tds_client_cancel(&client.raw, at(packet), C.size_t(len(packet)), &client.count)
	return client.wrote(answer, out)
}

// wrote appends what a call wrote of a packet.
func (client *Client) wrote(answer C.uint8_t, out *[]byte) (Answer, error) {
	*out = append(*out, client.packet[:client.count]...)
	if answer >= 20 {
		return 0, Fault(answer)
	}
	return Answer(answer), nil
}

// Lost says that the connection is lost.
func (client *Client) Lost() { C.tds_client_lost(&client.raw) }

// cut is for the packets that a call finds.
type cut struct {
	packets [16]C.struct_tds_packet
	count   C.size_t
}

var cuts = sync.Pool{New: func() any { return &cut{} }}

// Packets cuts the packets off the front of bytes that come from a server, and gives the rest.
func Packets(bytes []byte, size uint16) (packets [][]byte, rest []byte, err error) {
	found := cuts.Get().(*cut)
	defer cuts.Put(found)
	for {
		answer := C.tds_packets_read(at(bytes), C.size_t(len(bytes)), C.uint16_t(size), C.TDS_TO_CLIENT, &found.packets[0],
			C.size_t(len(found.packets)), &found.count)
		for _, packet := range found.packets[:found.count] {
			packets, bytes = append(packets, bytes[:packet.length]), bytes[packet.length:]
		}
		switch answer {
		case C.TDS_OK:
		case C.TDS_WANTS_BYTES:
			return packets, bytes, nil
		default:
			return packets, bytes, Fault(answer)
		}
	}
}
