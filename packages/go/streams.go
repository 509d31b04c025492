package mouktelf

/*
#include "mouktelf.h"
*/
import "C"

// Which message a request is.
const (
	Batch       = uint8(C.TDS_MESSAGE_BATCH)
	Procedure   = uint8(C.TDS_MESSAGE_RPC)
	BulkLoad    = uint8(C.TDS_MESSAGE_BULK)
	Transaction = uint8(C.TDS_MESSAGE_TRANSACTION)
)

// StartMessage begins a message. Its body comes by Put, and Finish ends it.
func (client *Client) StartMessage(kind uint8) error {
	kept, size := client.kept, int(client.raw.size-8)
	if len(kept) != size {
		kept = make([]byte, size)
	}
	err := done(C.tds_client_start_message(&client.raw, C.uint8_t(kind), at(kept), C.size_t(len(kept)), &client.count))
	if err == nil {
		client.kept, client.waiting = kept, client.count
	}
	return err
}

// Put puts bytes of the message's body, and appends the packets that are full.
func (client *Client) Put(bytes []byte, out *[]byte) error {
	packet := client.room()
	for {
		answer := C.tds_client_put(&client.raw, at(client.kept), C.size_t(len(client.kept)), &client.waiting,
			at(bytes), C.size_t(len(bytes)), &client.taken, at(packet), C.size_t(len(packet)), &client.count)
		if answer != C.TDS_MORE {
			return done(answer)
		}
		*out = append(*out, packet[:client.count]...)
		bytes = bytes[client.taken:]
	}
}

// Finish ends the message, and appends its last packet.
func (client *Client) Finish(out *[]byte) error {
	packet := client.room()
	err := done(C.tds_client_finish(&client.raw, at(client.kept), client.waiting, at(packet), C.size_t(len(packet)), &client.count))
	if err == nil {
		*out = append(*out, packet[:client.count]...)
	}
	return err
}

func told(answer C.uint8_t) (bool, error) {
	if answer == C.TDS_TELL || answer == C.TDS_DROP {
		return answer == C.TDS_TELL, nil
	}
	return false, Fault(answer)
}

// HeardChange hears an ENVCHANGE of type 8 to 12, 17 or 18, and says whether the caller is told.
func (client *Client) HeardChange(change uint8, descriptor uint64) (bool, error) {
	return told(C.tds_client_heard_change(&client.raw, C.uint8_t(change), C.uint64_t(descriptor)))
}

// HeardDone hears a DONE (0xFD), DONEPROC (0xFE) or DONEINPROC (0xFF) with this status.
func (client *Client) HeardDone(kind uint8, status uint16) (bool, error) {
	return told(C.tds_client_heard_done(&client.raw, C.uint8_t(kind), C.uint16_t(status)))
}

// HeardOther hears any other token.
func (client *Client) HeardOther() (bool, error) {
	return told(C.tds_client_heard_other(&client.raw))
}

// MessageEnded hears that a message has ended.
func (client *Client) MessageEnded() (Answer, error) {
	answer := C.tds_client_message_ended(&client.raw)
	if answer >= 20 {
		return 0, Fault(answer)
	}
	return Answer(answer), nil
}
