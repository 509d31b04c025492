package tds

import (
	"encoding/binary"
	"errors"
	"fmt"
)

// Encryption is the value of PRELOGIN's option ENCRYPTION (MS-TDS 2.2.6.5).
type Encryption byte

// What ENCRYPTION may say.
const (
	EncryptOff          Encryption = 0 // the login's first packet alone
	EncryptOn           Encryption = 1
	EncryptNotSupported Encryption = 2
	EncryptRequired     Encryption = 3

	// flags beside it: a client's certificate is offered, and such.
	encryptionFlags = 0xC0
)

func (e Encryption) String() string {
	switch e {
	case EncryptOff:
		return "OFF"
	case EncryptOn:
		return "ON"
	case EncryptNotSupported:
		return "NOT_SUP"
	case EncryptRequired:
		return "REQ"
	}
	return fmt.Sprintf("0x%02x", byte(e))
}

const (
	optionVersion    = 0x00
	optionEncryption = 0x01
	endOfOptions     = 0xFF

	optionSize = 5
	maxOptions = 32
)

type option struct {
	token byte
	data  []byte
}

// Options are the options of a PRELOGIN message or of its answer, in their order.
type Options struct{ all []option }

// ownVersion is VERSION where tdstls itself speaks: 11.0, as tdsserve says.
var ownVersion = []byte{11, 0, 0, 0, 0, 0}

// OwnOptions are those of a PRELOGIN that nobody sent, and of an answer that tdstls gives by itself:
// VERSION and ENCRYPTION.
func OwnOptions(e Encryption) Options {
	return Options{[]option{{optionVersion, ownVersion}, {optionEncryption, []byte{byte(e)}}}}
}

// ParseOptions reads a PRELOGIN's data (MS-TDS 2.2.6.5). A list without an end, an option that comes twice
// or reaches out of the message, and options that overlap are errors.
func ParseOptions(data []byte) (Options, error) {
	var options Options
	var seen [256]bool
	var taken [MaxMessage]bool
	if len(data) > MaxMessage {
		return Options{}, errTooLong
	}
	end, err := listEnd(data)
	if err != nil {
		return Options{}, err
	}
	for place := 0; place < end-1; place += optionSize {
		token := data[place]
		if seen[token] || len(options.all) == maxOptions {
			return Options{}, fmt.Errorf("PRELOGIN's option 0x%02x is one too many", token)
		}
		seen[token] = true
		from := int(binary.BigEndian.Uint16(data[place+1:]))
		count := int(binary.BigEndian.Uint16(data[place+3:]))
		if from+count > len(data) {
			return Options{}, fmt.Errorf("PRELOGIN's option 0x%02x reaches beyond its message", token)
		}
		for at := from; at < from+count; at++ {
			if at < end || taken[at] {
				return Options{}, fmt.Errorf("PRELOGIN's option 0x%02x overlaps another", token)
			}
			taken[at] = true
		}
		options.all = append(options.all, option{token, data[from : from+count]})
	}
	return options, nil
}

// listEnd is where the list of options ends, behind the byte that ends it.
func listEnd(data []byte) (int, error) {
	for place := 0; place < len(data); place += optionSize {
		if data[place] == endOfOptions {
			return place + 1, nil
		}
	}
	return 0, errors.New("PRELOGIN's options have no end")
}

// Encryption is what ENCRYPTION says, without the flags beside it. Who leaves the option out doesn't
// encrypt.
func (o Options) Encryption() Encryption {
	for _, each := range o.all {
		if each.token == optionEncryption && len(each.data) > 0 {
			return Encryption(each.data[0] &^ encryptionFlags)
		}
	}
	return EncryptNotSupported
}

// With are the same options in the same order, with this ENCRYPTION; it comes last where it wasn't there.
func (o Options) With(e Encryption) Options {
	said := option{optionEncryption, []byte{byte(e)}}
	all := make([]option, 0, len(o.all)+1)
	found := false
	for _, each := range o.all {
		if each.token == optionEncryption {
			each, found = said, true
		}
		all = append(all, each)
	}
	if !found {
		all = append(all, said)
	}
	return Options{all}
}

// Bytes are the data of a message with these options: the list, and then each one's data in turn.
func (o Options) Bytes() []byte {
	place := optionSize*len(o.all) + 1
	list := make([]byte, 0, place)
	var data []byte
	for _, each := range o.all {
		list = append(list, each.token)
		list = binary.BigEndian.AppendUint16(list, uint16(place))
		list = binary.BigEndian.AppendUint16(list, uint16(len(each.data)))
		data = append(data, each.data...)
		place += len(each.data)
	}
	return append(append(list, endOfOptions), data...)
}
