package mouktelf

/*
#include "mouktelf.h"
*/
import "C"

import "sync"

// Tells is what is told of a token: which fields of it count.
type Tells uint8

const (
	TellsNothing      = Tells(C.TDS_WIRE_TELLS_NOTHING)
	TellsDone         = Tells(C.TDS_WIRE_TELLS_DONE)          // Status, Command, Value: the count of rows
	TellsTransaction  = Tells(C.TDS_WIRE_TELLS_TRANSACTION)   // Change; Value and OldValue, descriptors
	TellsReset        = Tells(C.TDS_WIRE_TELLS_RESET)         // ENVCHANGE 18
	TellsPacketSize   = Tells(C.TDS_WIRE_TELLS_PACKET_SIZE)   // Size
	TellsValues       = Tells(C.TDS_WIRE_TELLS_VALUES)        // Change; Text the new value, Others the old one
	TellsOtherChange  = Tells(C.TDS_WIRE_TELLS_OTHER_CHANGE)  // Change
	TellsMessage      = Tells(C.TDS_WIRE_TELLS_MESSAGE)       // Number, State, Severity, Text; Others: names, line
	TellsReturnStatus = Tells(C.TDS_WIRE_TELLS_RETURN_STATUS) // Number
	TellsSessionState = Tells(C.TDS_WIRE_TELLS_SESSION_STATE) // Size: its number; Recoverable, Text: the states
	TellsUnclear      = Tells(C.TDS_WIRE_TELLS_UNCLEAR)       // its fields don't fit its length or its type
)

// Place is bytes of the message, counted from its first one. They may have come in pieces that are gone.
type Place struct{ Start, Length uint64 }

// Walked is a token that has ended. A field that its kind doesn't have is 0.
type Walked struct {
	Start, Length   uint64
	Value, OldValue uint64
	Text, Others    Place
	Number          int32
	Size            uint32
	Status, Command uint16
	Kind            uint8
	Tells           Tells
	Change          uint8
	State, Severity uint8
	Recoverable     bool
}

// Walk finds where each token of an answer ends, for every type of column of TDS 7.2 to 7.4 (MS-TDS 2.2.7). The bytes come in
// pieces of any size: the data of packets of type 04.
type Walk struct {
	value  C.struct_tds_wire
	memory C.struct_tds_wire_memory
}

// NewWalk makes a walk with room for so many columns, 4,096 at most. The others say that the FEATUREEXTACK of the login
// acknowledged column encryption, and data classification of version 2.
func NewWalk(most uint16, encryption, ranks bool) *Walk {
	walk := &Walk{}
	C.tds_wire_new(C.uint16_t(most), oneWhere(encryption), oneWhere(ranks), &walk.value, &walk.memory)
	return walk
}

func oneWhere(is bool) C.uint8_t {
	if is {
		return 1
	}
	return 0
}

// Next takes bytes up to the end of one token: how many, and the token, nil where none has ended.
func (walk *Walk) Next(bytes []byte) (int, *Walked, error) {
	var count C.size_t
	var token C.struct_tds_wire_token
	switch answer := C.tds_wire_next(&walk.value, &walk.memory, at(bytes), C.size_t(len(bytes)), &count, &token); answer {
	case C.TDS_WIRE_ENDED:
		it := walked(&token)
		return int(count), &it, nil
	case C.TDS_WIRE_MORE:
		return int(count), nil, nil
	default:
		return 0, nil, walk.fault(answer)
	}
}

// fault is that of this number: of a byte that this walk has refused, with its place.
func (walk *Walk) fault(number C.uint8_t) error {
	if number < C.TDS_WIRE_UNKNOWN_TOKEN || number > C.TDS_WIRE_MANY_COLUMNS {
		return Fault(number)
	}
	return Refused{Fault(number), uint64(walk.value.refused.at), uint8(walk.value.refused.byte)}
}

// Between says whether a message may end here.
func (walk *Walk) Between() bool { return C.tds_wire_is_between(&walk.value, &walk.memory) == 1 }

// Restart begins anew, before the first token of the next message.
func (walk *Walk) Restart() { C.tds_wire_restart(&walk.value, &walk.memory) }

func place(it C.struct_tds_wire_place) Place { return Place{uint64(it.start), uint64(it.length)} }

func walked(it *C.struct_tds_wire_token) Walked {
	return Walked{
		Start: uint64(it.start), Length: uint64(it.length), Value: uint64(it.value), OldValue: uint64(it.old_value),
		Text: place(it.text), Others: place(it.others), Number: int32(it.number), Size: uint32(it.size),
		Status: uint16(it.status), Command: uint16(it.command), Kind: uint8(it.kind), Tells: Tells(it.told),
		Change: uint8(it.change), State: uint8(it.state), Severity: uint8(it.severity), Recoverable: it.recoverable == 1,
	}
}

const atOnce = 256

// room is for the tokens of one call, and for what it says of them.
type room struct {
	tokens       [atOnce]C.struct_tds_wire_token
	taken, count C.size_t
	whose        C.struct_tds_whose
}

var rooms = sync.Pool{New: func() any { return &room{} }}

func hears(raw *C.struct_tds_client, walk *Walk, data []byte, ends bool, told *[]Walked) (Answer, error) {
	found := rooms.Get().(*room)
	defer rooms.Put(found)
	for {
		answer := C.tds_client_hear(raw, &walk.value, &walk.memory, at(data), C.size_t(len(data)), oneWhere(ends), &found.taken,
			&found.tokens[0], atOnce, &found.count)
		data = found.tells(data, told)
		if answer != C.TDS_TELL {
			return walk.answer(answer)
		}
	}
}

// tells appends what a call has told, where somebody wants it. It gives the data that are left.
func (found *room) tells(data []byte, told *[]Walked) []byte {
	if told != nil {
		for i := range found.tokens[:found.count] {
			*told = append(*told, walked(&found.tokens[i]))
		}
	}
	return data[found.taken:]
}

// answer is what the last of these calls says.
func (walk *Walk) answer(number C.uint8_t) (Answer, error) {
	switch {
	case number == C.TDS_OK:
		return More, nil
	case number >= 20:
		return 0, walk.fault(number)
	}
	return Answer(number), nil
}

// Walk is the walk that it hears by.
func (client *Client) Walk() *Walk {
	if client.walk == nil {
		client.walk = NewWalk(C.TDS_WIRE_MOST_COLUMNS, false, false)
	}
	return client.walk
}

// HearBy lets it hear by this walk, where the login acknowledged what NewWalk has to know.
func (client *Client) HearBy(walk *Walk) { client.walk = walk }

// Hear hears one packet of any server's answer, from its first byte to its last, and appends the tokens that end in it and that the
// caller who asked is told of, also before a fault: More, Finished or Acknowledged. Where they stand is counted from their message's
// first byte: keep its packets' data until it ends, if you read rows or texts. Behind a cancel nothing is told. With nil nothing is:
// for who reads rows by a reader of his own, and wants the client's state alone.
func (client *Client) Hear(packet []byte, told *[]Walked) (Answer, error) {
	if len(packet) < 8 {
		return 0, Fault(C.TDS_WANTS_BYTES)
	}
	return client.HearData(packet[8:], packet[1]&1 == 1, told)
}

// HearData is the same of a packet's data, behind its header, or of a piece of them; ends is bit 1 of the packet's status, with its
// last piece.
func (client *Client) HearData(data []byte, ends bool, told *[]Walked) (Answer, error) {
	return hears(&client.raw, client.Walk(), data, ends, told)
}

// Heard hears a token that a walk of your own has found, in place of Hear. It says whether the caller that asked is told of it.
func (client *Client) Heard(token *Walked) (bool, error) {
	switch token.Tells {
	case TellsDone:
		return client.HeardDone(token.Kind, token.Status)
	case TellsTransaction:
		if token.Change == 8 || token.Change == 11 {
			return client.HeardChange(token.Change, token.Value)
		}
		return client.HeardChange(token.Change, token.OldValue)
	case TellsReset:
		return client.HeardChange(18, 0)
	}
	return client.HeardOther()
}
