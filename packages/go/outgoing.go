package mouktelf

import (
	"io"
	"sync"
)

// Outgoing is what goes out on one connection: filled in calls under a lock, and written by one goroutine at a time, in the order
// of the calls. So a cancel never overtakes its request, and none waits behind a write that stalls: whoever writes then writes its
// bytes too.
type Outgoing struct {
	to             io.Writer
	lock           sync.Locker
	waiting, spare []byte
	writing        bool
	failed         error
}

// NewOutgoing makes one that writes there. Of a table the connections share one lock, since they share its calls; nil is a lock of
// its own.
func NewOutgoing(to io.Writer, lock sync.Locker) *Outgoing {
	if lock == nil {
		lock = &sync.Mutex{}
	}
	return &Outgoing{to: to, lock: lock}
}

// Do makes calls that nobody else makes meanwhile. What they append to out goes out behind what waits: it is written before Do
// ends, or by the goroutine that writes already. Where a write fails, whoever writes is told, and each later Do. The calls are
// short, and no Do of the same lock stands in them.
func (outgoing *Outgoing) Do(calls func(out *[]byte) error) error {
	writes, err := outgoing.fill(calls)
	if !writes {
		return err
	}
	if failed := outgoing.drain(); err == nil {
		return failed
	}
	return err
}

func (outgoing *Outgoing) fill(calls func(out *[]byte) error) (writes bool, err error) {
	outgoing.lock.Lock()
	defer func() {
		// Whoever writes is chosen before somebody else can append anything.
		writes = len(outgoing.waiting) > 0 && !outgoing.writing
		outgoing.writing = outgoing.writing || writes
		outgoing.lock.Unlock()
	}()
	if err = calls(&outgoing.waiting); err == nil {
		err = outgoing.failed
	}
	return false, err
}

func (outgoing *Outgoing) drain() error {
	for {
		data, err := outgoing.next()
		if len(data) == 0 {
			return err
		}
		if _, err := outgoing.to.Write(data); err != nil {
			outgoing.fail(err)
		}
	}
}

// next is what waits, or nothing, and then nobody writes.
func (outgoing *Outgoing) next() ([]byte, error) {
	outgoing.lock.Lock()
	defer outgoing.lock.Unlock()
	data := outgoing.waiting
	outgoing.waiting, outgoing.spare = outgoing.spare[:0], data
	if outgoing.failed != nil {
		data = nil
	}
	outgoing.writing = len(data) > 0
	return data, outgoing.failed
}

func (outgoing *Outgoing) fail(err error) {
	outgoing.lock.Lock()
	defer outgoing.lock.Unlock()
	outgoing.failed = err
}
