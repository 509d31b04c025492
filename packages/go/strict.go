package mouktelf

/*
#include "mouktelf.h"
*/
import "C"

import "unicode/utf16"

// StrictClient is a client that reads the batch language alone, of tdsserve and of tests, a packet and its tokens at a time; whatever
// else a SQL Server answers it refuses. What it takes, no walk sees: Take all packets of an answer, or Hear all of them.
type StrictClient struct{ Client }

// NewStrict makes one, as New.
func NewStrict(size uint16) (*StrictClient, error) {
	client := &StrictClient{}
	return client, done(C.tds_client_new(C.uint16_t(size), &client.raw))
}

// Take takes one packet of an answer, and gives the tokens that are told.
func (client *StrictClient) Take(packet []byte) (Answer, *Tokens, error) {
	reading, columns := client.raw.stage == C.TDS_READING, client.raw.columns
	answer := C.tds_client_take(&client.raw, at(packet), C.size_t(len(packet)))
	if answer >= 20 {
		return 0, nil, Fault(answer)
	}
	tokens := &Tokens{}
	if reading {
		tokens.data, tokens.cursor.columns = packet[8:], columns
	}
	return Answer(answer), tokens, nil
}

// Token is a token; which fields it has, mouktelf.h says. Values are those of a row.
type Token struct {
	Kind, State, Severity uint8
	Status                uint16
	Number                int32
	Value                 uint64
	Text                  string
	Values                []int32
}

// Tokens gives the tokens of a packet's data but the ENVCHANGEs, one behind the other. It reads up
// to 32 in one call: those from next to count were read and not given yet.
type Tokens struct {
	data        []byte
	cursor      C.struct_tds_cursor
	read        [32]C.struct_tds_token
	next, count C.size_t
	answer      C.uint8_t
}

// Next gives the next token, or none at the end. Behind a fault there is none.
func (tokens *Tokens) Next() (*Token, error) {
	for {
		for tokens.next < tokens.count {
			raw := &tokens.read[tokens.next]
			tokens.next++
			if raw.kind != C.TDS_ENVCHANGE {
				return token(raw, tokens.data[raw.start:]), nil
			}
		}
		switch answer := tokens.answer; answer {
		case C.TDS_OK:
			tokens.next = 0
			tokens.answer = C.tds_tokens_next(at(tokens.data), C.size_t(len(tokens.data)), &tokens.cursor, &tokens.read[0], C.size_t(len(tokens.read)), &tokens.count)
		case C.TDS_END:
			return nil, nil
		default:
			tokens.answer = C.TDS_END
			return nil, Fault(answer)
		}
	}
}

func token(raw *C.struct_tds_token, bytes []byte) *Token {
	it := &Token{Kind: uint8(raw.kind), State: uint8(raw.state), Severity: uint8(raw.severity), Status: uint16(raw.status), Number: int32(raw.number), Value: uint64(raw.value)}
	switch raw.kind {
	case C.TDS_INFO, C.TDS_ERROR:
		units := make([]uint16, int(bytes[9])|int(bytes[10])<<8)
		for i := range units {
			units[i] = uint16(bytes[11+2*i]) | uint16(bytes[12+2*i])<<8
		}
		it.Text = string(utf16.Decode(units))
	case C.TDS_ROW:
		for i := 1; i < 1+4*int(raw.value); i += 4 {
			it.Values = append(it.Values, int32(bytes[i])|int32(bytes[i+1])<<8|int32(bytes[i+2])<<16|int32(bytes[i+3])<<24)
		}
	}
	return it
}
