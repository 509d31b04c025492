// Rows of ten types by database/sql, from a server that sends bytes that lie ready, over the driver as it comes or over the client:
// database PORT. Each line on standard input is a turn: `rows`, `one` (queries of one row), `cancels`, `leases` of 1,000 goroutines over
// 10 connections. It is answered by how many microseconds of a processor each of these took, and by the clock.
package main

import (
	"bufio"
	"context"
	"database/sql"
	"fmt"
	"os"
	"sync"
	"syscall"
	"time"

	_ "github.com/denisenkom/go-mssqldb"
)

const rows, queries, cancels, callers, leases = 20_000, 500, 100, 1_000, 5

func must(err error) {
	if err != nil {
		fmt.Fprintln(os.Stderr, err)
		os.Exit(1)
	}
}

func spent() time.Duration {
	var it syscall.Rusage
	must(syscall.Getrusage(syscall.RUSAGE_SELF, &it))
	return time.Duration(it.Utime.Nano() + it.Stime.Nano())
}

func drained(ctx context.Context, db *sql.DB, text string) int {
	found, err := db.QueryContext(ctx, text)
	must(err)
	defer found.Close()
	columns, err := found.Columns()
	must(err)
	values := make([]interface{}, len(columns))
	for i := range values {
		values[i] = new(interface{})
	}
	count := 0
	for ; found.Next(); count++ {
		must(found.Scan(values...))
	}
	must(found.Err())
	return count
}

// ask asks for so many rows, one query each.
func ask(db *sql.DB, text string, times, wanted int) {
	for i := 0; i < times; i++ {
		if count := drained(context.Background(), db, text); count != wanted {
			must(fmt.Errorf("%d rows", count))
		}
	}
}

// cancel asks for rows that never end, cancels behind the first, and asks for one row.
func cancel(db *sql.DB) {
	ctx, stop := context.WithCancel(context.Background())
	found, err := db.QueryContext(ctx, "endless")
	must(err)
	if !found.Next() {
		must(found.Err())
	}
	stop()
	found.Close()
	ask(db, "one", 1, 1)
}

func share(db *sql.DB) {
	db.SetMaxOpenConns(10)
	db.SetMaxIdleConns(10)
	var wait sync.WaitGroup
	for caller := 0; caller < callers; caller++ {
		wait.Add(1)
		go func() {
			defer wait.Done()
			ask(db, "one", leases, 1)
		}()
	}
	wait.Wait()
	db.SetMaxOpenConns(1)
}

func main() {
	db, err := sql.Open("sqlserver", "sqlserver://a:b@127.0.0.1:"+os.Args[1]+"?encrypt=disable&connection+timeout=30")
	must(err)
	db.SetMaxOpenConns(1)
	for lines := bufio.NewScanner(os.Stdin); lines.Scan(); {
		began, since, each := spent(), time.Now(), 0
		switch lines.Text() {
		case "rows":
			ask(db, "rows", 1, rows)
			each = rows
		case "one":
			ask(db, "one", queries, 1)
			each = queries
		case "cancels":
			for i := 0; i < cancels; i++ {
				cancel(db)
			}
			each = cancels
		case "leases":
			share(db)
			each = callers * leases
		}
		clock := time.Since(since)
		fmt.Println(float64((spent()-began).Nanoseconds())/1e3/float64(each), float64(clock.Nanoseconds())/1e3/float64(each))
	}
	must(db.Close())
}
