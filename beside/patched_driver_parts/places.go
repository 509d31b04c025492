// go-mssqldb where a connection is handed on, is asked while it answers, or its server errs: places PORT.
package main

import (
	"context"
	"database/sql"
	"fmt"
	"os"
	"time"

	_ "github.com/denisenkom/go-mssqldb"
)

type asker interface {
	QueryContext(context.Context, string, ...interface{}) (*sql.Rows, error)
}

func answer(from asker, text string) (all []interface{}, err error) {
	ctx, stop := context.WithTimeout(context.Background(), 5*time.Second)
	defer stop()
	rows, err := from.QueryContext(ctx, text)
	if err != nil {
		return nil, err
	}
	defer rows.Close()
	for {
		for rows.Next() {
			var it interface{}
			rows.Scan(&it)
			all = append(all, it)
		}
		if !rows.NextResultSet() {
			return all, rows.Err()
		}
	}
}

func ask(from asker, text string) {
	all, err := answer(from, text)
	fmt.Println(" ", text, "->", all, err)
}

// Each caller of this pool is handed the same connection.
func place(name string, do func(db *sql.DB)) {
	fmt.Println(name)
	db, err := sql.Open("sqlserver", "sqlserver://a:b@127.0.0.1:"+os.Args[1]+"?encrypt=disable&connection+timeout=5")
	if err != nil {
		panic(err)
	}
	defer db.Close()
	db.SetMaxOpenConns(1)
	do(db)
}

func asks(texts ...string) func(db *sql.DB) {
	return func(db *sql.DB) {
		for _, text := range texts {
			ask(db, text)
		}
	}
}

func answering(db *sql.DB) {
	transaction, err := db.Begin()
	if err != nil {
		panic(err)
	}
	rows, err := transaction.Query("rows 1 40;rows 3 40;rows 5 2;rows 7 2;rows 9 2;rows 11 2")
	fmt.Println("  first", rows.Next(), err)
	// which of them come is another thing each time
	all, err := answer(transaction, "rows 50 1")
	if len(all) > 1 && all[len(all)-1] == int64(12) {
		fmt.Println("  rows 50 1 -> the rows of the query before")
	} else {
		fmt.Println("  rows 50 1 ->", all, err)
	}
	rows.Close()
	ask(transaction, "rows 60 1")
	fmt.Println("  rollback", transaction.Rollback())
}

// The caller lets go of a failed statement, as answer does at its end, when its answer may have ended.
func failing(db *sql.DB) {
	wrong := 0
	for i := int64(1000); i < 1500; i++ {
		answer(db, "foo")
		all, err := answer(db, fmt.Sprintf("rows %d 1", i))
		if err != nil || len(all) != 1 || all[0] != i {
			wrong++
		}
	}
	fmt.Println("  of 500 queries behind it wrong:", wrong)
}

func main() {
	place("a transaction is left open", asks("begin", "commit"))
	place("another database is left", asks("use other", "select db_name()"))
	place("it is asked while it answers", answering)
	place("a statement fails, and its context ends", failing)
	place("a statement fails, and its batch goes on", asks("fails and goes on", "rows 8 1", "rows 9 1"))
	place("an end that nobody asked for", asks("rows 41 1", "rows 8 1"))
	place("no final DONE", asks("rows 42 1", "rows 8 1"))
}
