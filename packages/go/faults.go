package mouktelf

import "fmt"

// Fault is why a call was not done, or what the peer did wrong: a number of mouktelf.h, from 20 on.
type Fault uint8

// The one table of what each number says; the packages for other languages have the same (tests/versions compares them).
var words = map[Fault]string{
	20: "this is no client, or no walk",
	21: "the buffer is too short",
	22: "memory, or a number, is used up",
	23: "a size, a text, a level or a kind is out of range",
	24: "less than a packet is there",
	25: "bytes stand behind the packet",
	26: "this is no place in these data",
	31: "a request is underway",
	32: "no request is going out",
	33: "the client is broken",
	34: "there is no such lease, ticket or connection",
	35: "all connections are in use",
	36: "not as the connection stands now",
	41: "a packet of a type that no packet has",
	42: "a packet that goes the other way",
	43: "a packet's length is under that of its header",
	44: "a packet is longer than the login agreed on",
	45: "a packet's status is wrong",
	46: "a packet in a message's middle has no data",
	51: "a token that the batch language hasn't",
	52: "a token is cut off at its packet's end",
	53: "a token's length is wrong",
	54: "an ENVCHANGE that the batch language hasn't",
	55: "a DONE's status is wrong",
	56: "a row of the batch language, and no columns are known",
	57: "a column that the batch language hasn't",
	61: "an answer where nothing was asked",
	62: "an answer while the request goes out",
	63: "an acknowledgement that nobody asked for",
	64: "a transaction's end or begin that can't be",
	65: "a reset that nobody asked for",
	66: "no final DONE",
	67: "tokens behind the final DONE",
	68: "data that are no tokens of the batch language",
	69: "the connection is lost",
	71: "a token that no answer has",
	72: "a row, and no columns are known",
	73: "a type that no column has",
	74: "more columns than there is room for",
	75: "the answer ended inside a token",
	76: "the request asked for a reset, and its answer tells of none",
}

func (fault Fault) Error() string {
	word, is := words[fault]
	if !is {
		word = "see mouktelf.h"
	}
	return fmt.Sprintf("fault %d: %s", uint8(fault), word)
}

// IsPeer says whether the peer broke the protocol, or is gone: close the connection.
func (fault Fault) IsPeer() bool { return fault > 40 }

// Refused is a byte that no answer has: its fault (71 to 74), and its place in the message.
type Refused struct {
	Fault
	At   uint64
	Byte uint8
}

func (refused Refused) Error() string {
	return fmt.Sprintf("fault %d at %d, the byte %02x: %s", uint8(refused.Fault), refused.At, refused.Byte, words[refused.Fault])
}

// Unwrap is its fault: errors.Is(err, Fault(71)).
func (refused Refused) Unwrap() error { return refused.Fault }
