// Reads answers by go-mssqldb, all rows of each, and prints the nanoseconds of the processor that it took and the rows.
//
// usage: wire_mssqldb PORT ANSWER TIMES      asks a server of bench/wire_readers.py for that answer, so many times
package main

import (
	"database/sql"
	"fmt"
	"log"
	"os"
	"strconv"
	"syscall"

	_ "github.com/denisenkom/go-mssqldb"
)

// taken is the time of the processor that this process has had, in nanoseconds.
func taken() int64 {
	var use syscall.Rusage
	if err := syscall.Getrusage(syscall.RUSAGE_SELF, &use); err != nil {
		log.Fatal(err)
	}
	return use.Utime.Nano() + use.Stime.Nano()
}

// read asks for an answer and goes over its rows. No value is converted for the caller.
func read(link *sql.DB, answer string) (rows int64) {
	found, err := link.Query(answer)
	if err != nil {
		log.Fatal(err)
	}
	defer found.Close()
	for found.Next() {
		rows++
	}
	if err := found.Err(); err != nil {
		log.Fatal(err)
	}
	return rows
}

func main() {
	times, err := strconv.Atoi(os.Args[3])
	if err != nil {
		log.Fatal(err)
	}
	link, err := sql.Open("mssql", "server=127.0.0.1;port="+os.Args[1]+";user id=u;password=p;encrypt=disable")
	if err != nil {
		log.Fatal(err)
	}
	link.SetMaxOpenConns(1)
	rows := read(link, os.Args[2])
	start := taken()
	for i := 0; i < times; i++ {
		rows += read(link, os.Args[2])
	}
	fmt.Println(taken()-start, rows)
}
