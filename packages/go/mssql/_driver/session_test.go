package mssql

import (
	"bytes"
	"context"
	"database/sql"
	"errors"
	"fmt"
	"math/rand"
	"reflect"
	"strings"
	"sync"
	"testing"
	"time"

	tds "mouktelf"
)

type asker interface {
	QueryContext(context.Context, string, ...interface{}) (*sql.Rows, error)
}

// values asks, and gives the numbers of all sets.
func values(ctx context.Context, from asker, text string) (all []int32, err error) {
	found, err := from.QueryContext(ctx, text)
	if err != nil {
		return nil, err
	}
	defer found.Close()
	for {
		for found.Next() {
			var it int32
			if err := found.Scan(&it); err != nil {
				return all, err
			}
			all = append(all, it)
		}
		if !found.NextResultSet() {
			return all, found.Err()
		}
	}
}

func within(t *testing.T, wait time.Duration) context.Context {
	ctx, stop := context.WithTimeout(context.Background(), wait)
	t.Cleanup(stop)
	return ctx
}

func isGiven(t *testing.T, db asker, text string, wanted ...int32) {
	t.Helper()
	if all, err := values(within(t, 5*time.Second), db, text); err != nil || !reflect.DeepEqual(all, wanted) {
		t.Errorf("%s: %v, %v", text, all, err)
	}
}

func wasAsked(t *testing.T, p *peer, wanted ...string) {
	t.Helper()
	if found := p.heard(); !reflect.DeepEqual(found, wanted) {
		t.Errorf("it was asked %q", found)
	}
}

// answersRows answers "rows A B .." with these numbers, and whatever else with no rows.
func answersRows(it *line, came request) {
	data := reset(came)
	var first int32
	if count, _ := fmt.Sscanf(came.text(), "rows %d", &first); count == 1 {
		it.sends(append(data, rows(0, first, first+1)...))
		return
	}
	it.sends(append(data, done(0, 0)...))
}

func TestAnswers(t *testing.T) {
	p, db := serve(t, 1, answersRows)
	isGiven(t, db, "rows 7", 7, 8)
	isGiven(t, db, "rows 9", 9, 10)
	// the reset is asked for by the next request, and nothing else goes out for it
	wasAsked(t, p, "rows 7", "rows 9, a reset")
}

func TestWhatIsToldInPieces(t *testing.T) {
	long := strings.Repeat("long ", 3000)
	_, db := serve(t, 1, func(it *line, came request) {
		// RETURNVALUE, which the driver doesn't read, ORDER, a row with nulls, one over packets, and an INFO
		data := append(reset(came), 0x81, 2, 0, 0, 0, 0, 0, 9, 0, 0x26, 4, 1, 'n', 0, 0, 0, 0, 0, 9, 0, 0xE7, 0xFF, 0xFF, 9, 4, 0xD0, 0, 0x34, 1, 't', 0)
		data = append(data, 0xA9, 2, 0, 1, 0, 0xD2, 2, 4, 5, 0, 0, 0, 0xD1, 0)
		text := str2ucs2(long)
		data = append(data, 0xFE, 0xFF, 0xFF, 0xFF, 0xFF, 0xFF, 0xFF, 0xFF, byte(len(text)), byte(len(text)>>8), 0, 0)
		data = append(append(data, text...), 0, 0, 0, 0)
		data = append(data, 0xAC, 0, 0, 0, 1, 0, 0, 0, 0, 0, 0, 0x26, 4, 4, 1, 0, 0, 0)
		data = append(append(data, 0xAB), failed("told")[1:]...)
		it.cuts(append(data, done(doneCount, 2)...), map[string]int{"a": 1, "b": 4088, "c": 7}[came.text()], true)
	})
	for _, text := range []string{"a", "b", "c"} {
		found, err := db.Query(text)
		if err != nil {
			t.Fatal(err)
		}
		var number sql.NullInt32
		var it sql.NullString
		if !found.Next() || found.Scan(&number, &it) != nil || number.Int32 != 5 || it.Valid {
			t.Error(text, number, it.Valid)
		}
		if !found.Next() || found.Scan(&number, &it) != nil || number.Valid || it.String != long {
			t.Error(text, number, len(it.String))
		}
		if found.Next() || found.Err() != nil || found.Close() != nil {
			t.Error(text, found.Err())
		}
	}
}

func TestCancelOfAnAnswer(t *testing.T) {
	p, db := serve(t, 1, func(it *line, came request) {
		switch {
		case came.kind == packAttention:
			// some of the rows are on their way still
			it.sends(rows(0, 3, 4))
			it.sends(acknowledged())
		case came.text() == "slow":
			it.cuts(rows(doneMore, 1, 2), 4088, false)
		default:
			answersRows(it, came)
		}
	})
	ctx, stop := context.WithCancel(context.Background())
	found, err := db.QueryContext(ctx, "slow")
	if err != nil || !found.Next() {
		t.Fatal(err)
	}
	stop()
	found.Close()
	isGiven(t, db, "rows 5", 5, 6)
	wasAsked(t, p, "slow", "attention", "rows 5, a reset")
	if _, err := values(within(t, 50*time.Millisecond), db, "slow"); !errors.Is(err, context.DeadlineExceeded) {
		t.Error(err)
	}
	isGiven(t, db, "rows 7", 7, 8)
	if p.opened != 1 {
		t.Error(p.opened, "connections")
	}
}

// A begin is cancelled, and has run: whoever asked was told that it failed, so it is rolled back before anything else is asked.
func TestBeginThatCrosses(t *testing.T) {
	var begins request
	p, db := serve(t, 1, func(it *line, came request) {
		switch {
		case came.kind == packTransMgrReq && came.body[0] == 8:
			it.sends(append(changed(10, came.descriptor), done(0, 0)...))
		case came.kind == packTransMgrReq, came.kind == packSQLBatch && came.text() == "begin":
			// it answers once the attention is there
			begins = came
		case came.kind == packAttention:
			it.sends(append(append(reset(begins), changed(8, 77)...), done(0, 0)...))
			it.sends(acknowledged())
		default:
			answersRows(it, came)
		}
	})
	if _, err := db.BeginTx(within(t, 50*time.Millisecond), nil); !errors.Is(err, context.DeadlineExceeded) {
		t.Error(err)
	}
	isGiven(t, db, "rows 1", 1, 2)
	wasAsked(t, p, "begin", "attention", "rollback in 77", "rows 1, a reset")
	if _, err := db.ExecContext(within(t, 50*time.Millisecond), "begin"); !errors.Is(err, context.DeadlineExceeded) {
		t.Error(err)
	}
	isGiven(t, db, "rows 1", 1, 2)
	wasAsked(t, p, "begin, a reset", "attention", "rollback in 77", "rows 1, a reset")
}

// A commit and a rollback are never cancelled: their answers say what was done. What a context ends is rolled back.
func TestEndsOfTransactions(t *testing.T) {
	p, db := serve(t, 1, func(it *line, came request) {
		if came.kind != packTransMgrReq {
			answersRows(it, came)
			return
		}
		change := map[byte][]byte{5: changed(8, 5), 7: changed(9, came.descriptor), 8: changed(10, came.descriptor)}[came.body[0]]
		if came.body[0] == 7 {
			time.Sleep(150 * time.Millisecond)
		}
		it.sends(append(append(reset(came), change...), done(0, 0)...))
	})
	ctx, stop := context.WithTimeout(context.Background(), 50*time.Millisecond)
	defer stop()
	transaction, err := db.BeginTx(ctx, nil)
	if err != nil {
		t.Fatal(err)
	}
	isGiven(t, transaction, "rows 1", 1, 2)
	if err := transaction.Commit(); err != nil {
		t.Error(err)
	}
	wasAsked(t, p, "begin", "rows 1 in 5", "commit in 5")
	ctx, stop = context.WithCancel(context.Background())
	if transaction, err = db.BeginTx(ctx, nil); err != nil {
		t.Fatal(err)
	}
	stop()
	isGiven(t, db, "rows 3", 3, 4)
	wasAsked(t, p, "begin, a reset", "rollback in 5", "rows 3, a reset")
}

// What a caller leaves open by a text is rolled back as its connection goes back.
func TestLeftOpen(t *testing.T) {
	p, db := serve(t, 1, func(it *line, came request) {
		switch {
		case came.kind == packTransMgrReq:
			it.sends(append(changed(10, came.descriptor), done(0, 0)...))
		case came.text() == "begin tran":
			it.sends(append(append(reset(came), changed(8, 9)...), done(0, 0)...))
		default:
			answersRows(it, came)
		}
	})
	if _, err := db.Exec("begin tran"); err != nil {
		t.Error(err)
	}
	wasAsked(t, p, "begin tran", "rollback in 9")
	isGiven(t, db, "rows 1", 1, 2)
	wasAsked(t, p, "rows 1, a reset")
}

func TestAskedWhileItAnswers(t *testing.T) {
	_, db := serve(t, 1, func(it *line, came request) {
		if came.kind == packTransMgrReq {
			change := map[byte][]byte{5: changed(8, 5), 8: changed(10, came.descriptor)}[came.body[0]]
			it.sends(append(change, done(0, 0)...))
			return
		}
		if came.text() == "many" {
			it.sends(rows(0, make([]int32, 2*ahead)...))
			return
		}
		answersRows(it, came)
	})
	transaction, err := db.Begin()
	if err != nil {
		t.Fatal(err)
	}
	found, err := transaction.Query("many")
	if err != nil || !found.Next() {
		t.Fatal(err)
	}
	if _, err := transaction.Query("rows 3"); !errors.Is(err, notIdle) {
		t.Error(err)
	}
	found.Close()
	isGiven(t, transaction, "rows 5", 5, 6)
	if err := transaction.Rollback(); err != nil {
		t.Error(err)
	}
}

// What a server may have done is never asked again.
func TestLostConnection(t *testing.T) {
	p, db := serve(t, 1, func(it *line, came request) {
		if came.text() == "dies" {
			it.Close()
			return
		}
		answersRows(it, came)
	})
	isGiven(t, db, "rows 1", 1, 2)
	if _, err := db.Exec("dies"); err == nil || !strings.Contains(err.Error(), "the connection is lost") {
		t.Error(err)
	}
	isGiven(t, db, "rows 3", 3, 4)
	wasAsked(t, p, "rows 1", "dies, a reset", "rows 3")
}

func TestClosedWhileIdle(t *testing.T) {
	p, db := serve(t, 1, func(it *line, came request) {
		answersRows(it, came)
		if came.line == 1 {
			it.Close()
		}
	})
	isGiven(t, db, "rows 1", 1, 2)
	time.Sleep(50 * time.Millisecond)
	isGiven(t, db, "rows 3", 3, 4)
	wasAsked(t, p, "rows 1", "rows 3")
}

func TestBreaches(t *testing.T) {
	for _, it := range []struct {
		says  []byte
		fault tds.Fault
	}{
		{acknowledged(), 63}, {rows(doneMore, 1), 66}, {[]byte{0x00}, 71}, {[]byte{0xD1, 0}, 72}, {rows(0, 1)[:16], 75},
		{[]byte{0x81, 1, 0, 0, 0, 0, 0, 9, 0, 1}, 73}, {append(changed(8, 3), changed(8, 4)...), 64},
	} {
		_, db := serve(t, 1, func(peer *line, came request) { peer.sends(it.says) })
		if _, err := db.Exec("a"); !errors.Is(err, it.fault) {
			t.Errorf("%v: %v", it.fault, err)
		}
	}
}

// A bulk load that nobody finishes is given up as its transaction is rolled back, and its connection lives on.
func TestHalfSentBulk(t *testing.T) {
	p, db := serve(t, 1, func(it *line, came request) {
		switch {
		case came.kind == packBulkLoadBCP:
			// ignored, since its last packet says so
		case came.kind == packAttention:
			it.sends(acknowledged())
		case came.kind == packTransMgrReq:
			change := map[byte][]byte{5: changed(8, 5), 8: changed(10, came.descriptor)}[came.body[0]]
			it.sends(append(change, done(0, 0)...))
		case strings.HasPrefix(came.text(), "select"):
			it.sends(rows(0))
		default:
			answersRows(it, came)
		}
	})
	transaction, err := db.Begin()
	if err != nil {
		t.Fatal(err)
	}
	statement, err := transaction.Prepare(CopyIn("t", MssqlBulkOptions{}, "n"))
	if err != nil {
		t.Fatal(err)
	}
	for i := 0; i < 2000; i++ {
		if _, err := statement.Exec(i); err != nil {
			t.Fatal(err)
		}
	}
	if err := transaction.Rollback(); err != nil {
		t.Error(err)
	}
	isGiven(t, db, "rows 1", 1, 2)
	wasAsked(t, p, "begin", "SET FMTONLY ON in 5", "select * from t SET FMTONLY OFF in 5", "INSERT BULK t ([n] int)  in 5",
		"bulk load, ignored", "attention", "rollback in 5", "rows 1, a reset")
}

// No acknowledgement comes within the limit: the connection is lost, and another one takes its place.
func TestNoAcknowledgement(t *testing.T) {
	p, db := serve(t, 1, func(it *line, came request) {
		if came.kind == packSQLBatch && came.text() != "slow" {
			answersRows(it, came)
		}
	})
	if _, err := values(within(t, 50*time.Millisecond), db, "slow"); err == nil {
		t.Error("it was answered")
	}
	isGiven(t, db, "rows 1", 1, 2)
	wasAsked(t, p, "slow", "attention", "rows 1")
}

// Goroutines share connections, and cancel now and then: each is told its own rows, or that it was cancelled.
func TestSharedAndCancelled(t *testing.T) {
	p, db := serve(t, 3, nil)
	p.says = func(it *line, came request) {
		if came.kind == packAttention {
			it.sends(acknowledged())
			return
		}
		var first int32
		fmt.Sscanf(came.text(), "rows %d", &first)
		data := append(reset(came), rows(0, first, first+1)...)
		if first%3 == 0 {
			it.cuts(data[:len(data)-13], 5, false)
			time.Sleep(time.Millisecond)
			it.sends(data[len(data)-13:])
			return
		}
		it.sends(data)
	}
	var wait sync.WaitGroup
	for place := 0; place < 16; place++ {
		wait.Add(1)
		go func(place int) {
			defer wait.Done()
			chance := rand.New(rand.NewSource(int64(place)))
			for turn := 0; turn < 60; turn++ {
				first := int32(1000*place + 2*turn)
				ctx, stop := context.WithCancel(context.Background())
				if chance.Intn(3) == 0 {
					time.AfterFunc(time.Duration(chance.Intn(1500))*time.Microsecond, stop)
				}
				all, err := values(ctx, db, fmt.Sprintf("rows %d", first))
				wrong := len(all) > 0 && all[0] != first || err == nil && !reflect.DeepEqual(all, []int32{first, first + 1})
				if wrong || err != nil && !errors.Is(err, context.Canceled) {
					t.Error(first, all, err)
				}
				stop()
			}
		}(place)
	}
	wait.Wait()
	if p.opened > 3 {
		t.Error(p.opened, "connections")
	}
}

func TestValuesAreReadAlike(t *testing.T) {
	// a value of each way of counting: fixed, by one byte, by two, in parts, with a pointer
	data := []byte{0x81, 5, 0}
	for _, it := range []string{"\x38", "\x6A\x09\x0A\x02", "\xA5\x10\x00", "\xA5\xFF\xFF", "\x22\x10\x00\x00\x00\x01\x01\x00t\x00"} {
		data = append(append(append(data, 0, 0, 0, 0, 9, 0), it...), 1, 'c', 0)
	}
	data = append(data, 0xD1, 7, 0, 0, 0, 5, 1, 0x9D, 0, 0, 0, 2, 0, 1, 2)
	data = append(data, 3, 0, 0, 0, 0, 0, 0, 0, 2, 0, 0, 0, 3, 4, 1, 0, 0, 0, 5, 0, 0, 0, 0)
	data = append(append(append(data, 16), bytes.Repeat([]byte{9}, 24)...), 1, 0, 0, 0, 6)
	_, db := serve(t, 1, func(it *line, came request) { it.sends(append(data, done(doneCount, 1)...)) })
	var number int32
	var decimal string
	var short, long, pointed []byte
	err := db.QueryRow("a").Scan(&number, &decimal, &short, &long, &pointed)
	if err != nil || number != 7 || decimal != "1.57" || string(short) != "\x01\x02" || string(long) != "\x03\x04\x05" || string(pointed) != "\x06" {
		t.Error(number, decimal, short, long, pointed, err)
	}
}
