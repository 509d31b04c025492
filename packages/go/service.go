package mouktelf

/*
#include "mouktelf.h"
*/
import "C"

import "unicode/utf16"

// What a table refuses, besides a client's own faults.
const (
	UsedUp   = Fault(C.TDS_SERVICE_USED_UP)    // all numbers of leases or connections were given
	NoSuch   = Fault(C.TDS_SERVICE_UNKNOWN)    // there is no such lease, ticket or connection
	AllInUse = Fault(C.TDS_SERVICE_ALL_IN_USE) // as many connections are there as may be, and none can be lent
	NotNow   = Fault(C.TDS_SERVICE_NOT_NOW)    // the connection isn't so that this can be done now
)

// Rest is where a connection is that nobody holds any more.
type Rest uint8

const (
	Free     = Rest(C.TDS_SERVICE_FREE)     // it may be lent again
	Draining = Rest(C.TDS_SERVICE_DRAINING) // it is free once its acknowledgement has come: Drained
	Closed   = Rest(C.TDS_SERVICE_CLOSED)   // it is in the table no longer: close its socket
)

// Lent is a lease, and the number of its connection. Where nobody had that before it is to be opened and logged in.
type Lent struct {
	Lease, Number uint64
	Had           bool
}

// Ended says of a lease or a ticket that has ended its connection's number, where that is, and what is to be sent on it.
type Ended struct {
	Number uint64
	Rest   Rest
	Sends  []byte
}

// Requested is a request that was asked: its connection's number, and its own there: 1, 2, ..
type Requested struct{ Number, Request uint64 }

// Whose says whose it is what came: the lease that holds the connection, 0 where none does, and its newest request. Nobody is
// told of a cancelled one.
type Whose struct {
	Lease, Request uint64
	Told           bool
}

// Service is a table of connections that callers share, in front of any server. It has no socket, and no lock: use it from one
// goroutine at a time.
type Service struct {
	value    C.struct_tds_service
	seats    []C.struct_tds_seat // one more than there may be: an address for none
	messages map[uint64]*Client  // by a connection's number: the message that goes out, or waits
	walks    map[uint64]*Walk    // by a connection's number
	isLent   bool                // a client is: no call of the table is done
}

// NewService makes a table of at most so many connections, whose packets have 512 to 32,767 bytes.
func NewService(most int, size uint16) (*Service, error) {
	if most < 0 {
		return nil, Fault(C.TDS_OUT_OF_RANGE)
	}
	if _, err := New(size); err != nil {
		return nil, err
	}
	service := &Service{seats: make([]C.struct_tds_seat, most+1), messages: map[uint64]*Client{}, walks: map[uint64]*Walk{}}
	service.value.size = C.uint16_t(size)
	return service, nil
}

func (service *Service) most() C.size_t { return C.size_t(len(service.seats) - 1) }

// Len is how many connections there are.
func (service *Service) Len() int { return int(service.value.count) }

func (service *Service) lends(call func(lent *C.struct_tds_lent) C.uint8_t) (Lent, error) {
	var lent C.struct_tds_lent
	if service.isLent {
		return Lent{}, NotNow
	}
	if err := done(call(&lent)); err != nil {
		return Lent{}, err
	}
	return Lent{uint64(lent.lease), uint64(lent.number), lent.had != 0}, nil
}

func (service *Service) ends(call func(number *C.uint64_t) C.uint8_t) (Ended, error) {
	var number C.uint64_t
	if service.isLent {
		return Ended{}, NotNow
	}
	rest := call(&number)
	if rest >= 20 {
		return Ended{}, Fault(rest)
	}
	delete(service.messages, uint64(number))
	if Rest(rest) == Closed {
		delete(service.walks, uint64(number))
	}
	return Ended{Number: uint64(number), Rest: Rest(rest)}, nil
}

// Lease lends a free connection that is idle, and marks it for a full reset; else a new one, which is to be opened and logged
// in. AllInUse: wait until one is free.
func (service *Service) Lease() (Lent, error) {
	return service.lends(func(lent *C.struct_tds_lent) C.uint8_t {
		return C.tds_service_lease(&service.value, &service.seats[0], service.most(), lent)
	})
}

// waits is what waits of a request of a lease's connection, and the size of its packets.
func (service *Service) waits(lease uint64) (*Client, int, error) {
	var index C.size_t
	if service.isLent {
		return nil, 0, NotNow
	}
	if err := done(C.tds_service_find(&service.value, &service.seats[0], service.most(), C.uint64_t(lease), &index)); err != nil {
		return nil, 0, err
	}
	seat := &service.seats[index]
	number := uint64(seat.number)
	if service.messages[number] == nil {
		service.messages[number] = &Client{}
	}
	return service.messages[number], int(seat.client.size), nil
}

// Ask begins a request of a lease: Batch, Procedure and so on. Its body comes by Put, and Finish ends it.
func (service *Service) Ask(lease uint64, kind uint8) (Requested, error) {
	waits, size, err := service.waits(lease)
	if err != nil {
		return Requested{}, err
	}
	var asked C.struct_tds_asked
	kept, count := make([]byte, size-8), C.size_t(0)
	answer := C.tds_service_ask(&service.value, &service.seats[0], service.most(), C.uint64_t(lease), C.uint8_t(kind), at(kept),
		C.size_t(len(kept)), &count, &asked)
	if err := done(answer); err != nil {
		return Requested{}, err
	}
	waits.kept, waits.waiting = kept, count
	return Requested{uint64(asked.number), uint64(asked.request)}, nil
}

// Put puts bytes of the request's body, and appends the packets that are full.
func (service *Service) Put(lease uint64, bytes []byte, out *[]byte) error {
	waits, size, err := service.waits(lease)
	if err != nil {
		return err
	}
	packet := make([]byte, size)
	for {
		var taken, count C.size_t
		answer := C.tds_service_put(&service.value, &service.seats[0], service.most(), C.uint64_t(lease), at(waits.kept),
			C.size_t(len(waits.kept)), &waits.waiting, at(bytes), C.size_t(len(bytes)), &taken, at(packet), C.size_t(len(packet)), &count)
		if answer != C.TDS_MORE {
			return done(answer)
		}
		*out = append(*out, packet[:count]...)
		bytes = bytes[taken:]
	}
}

// Finish ends the request, and appends its last packet.
func (service *Service) Finish(lease uint64, out *[]byte) error {
	waits, size, err := service.waits(lease)
	if err != nil {
		return err
	}
	packet, count := make([]byte, size), C.size_t(0)
	answer := C.tds_service_finish(&service.value, &service.seats[0], service.most(), C.uint64_t(lease), at(waits.kept), waits.waiting,
		at(packet), C.size_t(len(packet)), &count)
	if err := done(answer); err != nil {
		return err
	}
	*out = append(*out, packet[:count]...)
	return nil
}

// AskBatch asks a batch, whole: which request it is; its packets are appended.
func (service *Service) AskBatch(lease uint64, text string, out *[]byte) (Requested, error) {
	var body []byte
	for _, unit := range utf16.Encode([]rune(text)) {
		body = append(body, byte(unit), byte(unit>>8))
	}
	asked, err := service.Ask(lease, Batch)
	if err != nil {
		return asked, err
	}
	if err := service.Put(lease, body, out); err != nil {
		return asked, err
	}
	return asked, service.Finish(lease, out)
}

// Cancel cancels what is underway. After Asked, send what was appended; MessageEnded hears the acknowledgement.
func (service *Service) Cancel(lease uint64, out *[]byte) (Answer, error) {
	if service.isLent {
		return 0, NotNow
	}
	packets, count := make([]byte, 16), C.size_t(0)
	answer := C.tds_service_cancel(&service.value, &service.seats[0], service.most(), C.uint64_t(lease), at(packets),
		C.size_t(len(packets)), &count)
	if answer >= 20 {
		return 0, Fault(answer)
	}
	*out = append(*out, packets[:count]...)
	return Answer(answer), nil
}

// Hear hears one packet on the connection of this number, whoever holds it, as Client.Hear: the lease that holds it and its request,
// which are told what is appended, or with nil would be. A connection that drained is free behind Acknowledged.
func (service *Service) Hear(number uint64, packet []byte, told *[]Walked) (Answer, Whose, error) {
	_, err := service.seat(number)
	if err == nil && len(packet) < 8 {
		err = Fault(C.TDS_WANTS_BYTES)
	}
	if err != nil {
		return 0, Whose{}, err
	}
	found, walk, isTold := rooms.Get().(*room), service.walk(number), false
	defer rooms.Put(found)
	for data := packet[8:]; ; {
		answer := C.tds_service_hear(&service.value, &service.seats[0], service.most(), C.uint64_t(number), &walk.value, &walk.memory,
			at(data), C.size_t(len(data)), oneWhere(packet[1]&1 == 1), &found.taken, &found.tokens[0], atOnce, &found.count, &found.whose)
		data, isTold = found.tells(data, told), isTold || found.count > 0
		if answer != C.TDS_TELL {
			is, err := walk.answer(answer)
			return is, Whose{uint64(found.whose.lease), uint64(found.whose.request), isTold}, err
		}
	}
}

func (service *Service) seat(number uint64) (*C.struct_tds_seat, error) {
	var index C.size_t
	if service.isLent {
		return nil, NotNow
	}
	if err := done(C.tds_service_at(&service.value, &service.seats[0], service.most(), C.uint64_t(number), &index)); err != nil {
		return nil, err
	}
	return &service.seats[index], nil
}

func (service *Service) walk(number uint64) *Walk {
	if service.walks[number] == nil {
		service.walks[number] = NewWalk(C.TDS_WIRE_MOST_COLUMNS, false, false)
	}
	return service.walks[number]
}

// LoggedIn says that the connection of this number, which is new, is logged in, and the login agreed on packets of this size; walk is
// the one that it hears by, where the login acknowledged what NewWalk has to know, or nil. NotNow: something was asked on it.
func (service *Service) LoggedIn(number uint64, size uint16, walk *Walk) error {
	seat, err := service.seat(number)
	if err != nil {
		return err
	}
	if seat.asked != 0 || seat.client.stage != C.TDS_IDLE || seat.client.mark != C.TDS_RESET_NONE {
		return NotNow
	}
	client, err := New(size)
	if err != nil {
		return err
	}
	seat.client = client.raw
	if walk != nil {
		service.walks[number] = walk
	}
	return nil
}

// Came hears a token that a walk of your own has found on the connection of this number, in place of Hear: whose it is, and whether
// he is told.
func (service *Service) Came(number uint64, token *Walked) (Whose, error) {
	var whose C.struct_tds_whose
	if service.isLent {
		return Whose{}, NotNow
	}
	value := C.struct_tds_wire_token{
		kind: C.uint8_t(token.Kind), told: C.uint8_t(token.Tells), change: C.uint8_t(token.Change),
		status: C.uint16_t(token.Status), value: C.uint64_t(token.Value), old_value: C.uint64_t(token.OldValue),
	}
	answer := C.tds_service_came(&service.value, &service.seats[0], service.most(), C.uint64_t(number), &value, &whose)
	if answer >= 20 {
		return Whose{}, Fault(answer)
	}
	return Whose{uint64(whose.lease), uint64(whose.request), answer == C.TDS_TELL}, nil
}

// MessageEnded hears behind Came that a message has ended there, with the packet whose status has bit 1; isCut where the walk isn't between
// two tokens then. Finished: the request has its whole answer. Acknowledged: its cancel is acknowledged, and a connection that
// drained is free. More: the acknowledgement is still to come.
func (service *Service) MessageEnded(number uint64, isCut bool) (Answer, Whose, error) {
	var whose C.struct_tds_whose
	if service.isLent {
		return 0, Whose{}, NotNow
	}
	answer := C.tds_service_message_ended(&service.value, &service.seats[0], service.most(), C.uint64_t(number), oneWhere(isCut),
		&whose)
	if answer >= 20 {
		return 0, Whose{}, Fault(answer)
	}
	return Answer(answer), Whose{uint64(whose.lease), uint64(whose.request), answer == C.TDS_FINISHED}, nil
}

// With uses the client of a lease's connection, for what the calls by lease don't do: to log in, say. A request that is asked by
// it isn't counted in Whose.Request. Behind the call that client is broken, and in it no other call of the table is done.
func (service *Service) With(lease uint64, use func(client *Client) error) error {
	var index C.size_t
	answer := C.tds_service_find(&service.value, &service.seats[0], service.most(), C.uint64_t(lease), &index)
	return service.uses(answer, index, use)
}

// At uses the client of the connection of this number, as With, whoever holds it: for what comes on it.
func (service *Service) At(number uint64, use func(client *Client) error) error {
	var index C.size_t
	answer := C.tds_service_at(&service.value, &service.seats[0], service.most(), C.uint64_t(number), &index)
	return service.uses(answer, index, use)
}

func (service *Service) uses(answer C.uint8_t, index C.size_t, use func(client *Client) error) error {
	if service.isLent {
		return NotNow
	}
	if err := done(answer); err != nil {
		return err
	}
	seat, client := &service.seats[index], &Client{}
	if waits, is := service.messages[uint64(seat.number)]; is {
		*client = *waits
	}
	client.raw, client.walk, service.isLent = seat.client, service.walk(uint64(seat.number)), true
	defer func() {
		left := *client
		seat.client, service.messages[uint64(seat.number)], service.isLent = client.raw, &left, false
		service.walks[uint64(seat.number)] = client.walk
		client.Lost()
	}()
	return use(client)
}

// Holder is the number of the lease, or of the ticket, that holds the connection of this number; 0 where none does.
func (service *Service) Holder(number uint64) (uint64, error) {
	var index C.size_t
	if err := done(C.tds_service_at(&service.value, &service.seats[0], service.most(), C.uint64_t(number), &index)); err != nil {
		return 0, err
	}
	switch seat := &service.seats[index]; seat.place {
	case C.TDS_PLACE_LENT, C.TDS_PLACE_CLEANING, C.TDS_PLACE_KEPT:
		return uint64(seat.holder), nil
	}
	return 0, nil
}

// GiveBack ends a lease. What is underway is cancelled, and what is to be sent for that is in the answer.
func (service *Service) GiveBack(lease uint64) (Ended, error) {
	out, count := make([]byte, 16), C.size_t(0)
	ended, err := service.ends(func(number *C.uint64_t) C.uint8_t {
		return C.tds_service_give_back(&service.value, &service.seats[0], service.most(), C.uint64_t(lease), at(out), C.size_t(len(out)), &count, number)
	})
	ended.Sends = out[:count]
	return ended, err
}

// Drained is for a connection that drains, each time that its client has taken something: Free once the client is idle, else
// Draining. NotNow where it doesn't drain.
func (service *Service) Drained(number uint64) (Rest, error) {
	if service.isLent {
		return 0, NotNow
	}
	rest := C.tds_service_drained(&service.value, &service.seats[0], service.most(), C.uint64_t(number))
	if rest >= 20 {
		return 0, Fault(rest)
	}
	return Rest(rest), nil
}

// Lost says that the connection of this number is lost: it is in the table no longer, and its lease unknown.
func (service *Service) Lost(number uint64) error {
	if service.isLent {
		return NotNow
	}
	err := done(C.tds_service_lost(&service.value, &service.seats[0], service.most(), C.uint64_t(number)))
	if err == nil {
		delete(service.messages, number)
		delete(service.walks, number)
	}
	return err
}

// Keep keeps a connection that is idle in a transaction, and gives a ticket for it. The lease is spent.
func (service *Service) Keep(lease uint64) (uint64, error) {
	var ticket C.uint64_t
	if service.isLent {
		return 0, NotNow
	}
	err := done(C.tds_service_keep(&service.value, &service.seats[0], service.most(), C.uint64_t(lease), &ticket))
	return uint64(ticket), err
}

// Resume lends a connection that was kept, and marks it for a reset that keeps its transaction. The ticket is spent.
func (service *Service) Resume(ticket uint64) (Lent, error) {
	return service.lends(func(lent *C.struct_tds_lent) C.uint8_t {
		return C.tds_service_resume(&service.value, &service.seats[0], service.most(), C.uint64_t(ticket), lent)
	})
}

// Abandon gives a connection up that was kept. The ticket is spent.
func (service *Service) Abandon(ticket uint64) (Ended, error) {
	return service.ends(func(number *C.uint64_t) C.uint8_t {
		return C.tds_service_abandon(&service.value, &service.seats[0], service.most(), C.uint64_t(ticket), number)
	})
}

// Clean lends the connection of this number, if it is free and idle, to be cleaned: ask a batch that does nothing on it, which
// asks for a full reset, and call Cleaned once it is answered.
func (service *Service) Clean(number uint64) (Lent, error) {
	return service.lends(func(lent *C.struct_tds_lent) C.uint8_t {
		return C.tds_service_clean(&service.value, &service.seats[0], service.most(), C.uint64_t(number), lent)
	})
}

// Cleaned ends a lease of Clean: Free where the reset was done and no transaction is open, else Closed.
func (service *Service) Cleaned(lease uint64) (Ended, error) {
	return service.ends(func(number *C.uint64_t) C.uint8_t {
		return C.tds_service_cleaned(&service.value, &service.seats[0], service.most(), C.uint64_t(lease), number)
	})
}
