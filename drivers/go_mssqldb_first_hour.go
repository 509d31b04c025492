// What go-mssqldb and its users send first: go_mssqldb_first_hour PORT PACED_PORT.
package main

import (
	"context"
	"database/sql"
	"fmt"
	"os"

	mssql "github.com/denisenkom/go-mssqldb"
)

func open(more string) *sql.DB {
	db, err := sql.Open("sqlserver", "sqlserver://a:b@127.0.0.1:"+os.Args[1]+"?connection+timeout=10"+more)
	if err != nil {
		panic(err)
	}
	db.SetMaxOpenConns(1)
	return db
}

func number(db *sql.DB, text string, parameters ...interface{}) {
	var n int
	err := db.QueryRow(text, parameters...).Scan(&n)
	fmt.Println(text, parameters, "->", n, err)
}

// What a first program does, on each way to connect.
func first(more string) {
	db := open(more)
	defer db.Close()
	fmt.Println("=", more)
	fmt.Println("ping", db.Ping())
	number(db, "rows 7 1")
	number(db, "rows 7 @p1", 1)
	_, err := db.Exec("set a 5")
	fmt.Println("exec", err)
	prepared, err := db.Prepare("rows 7 1")
	fmt.Println("prepare", err)
	if err != nil {
		return
	}
	var n int
	fmt.Println("prepared", prepared.QueryRow().Scan(&n), n)
}

func texts(db *sql.DB) {
	var version, database string
	err := db.QueryRow("select @@version, db_name()").Scan(&version, &database)
	fmt.Printf("version %.20s %s %v\n", version, database, err)
	var text string
	var whole int
	err = db.QueryRow("select @p1, @p2", "a text", 17).Scan(&text, &whole)
	fmt.Println("parameters", text, whole, err)
	number(db, "select nothing from nowhere")
	number(db, "select 2")
}

func levels(db *sql.DB) {
	transaction, err := db.BeginTx(context.Background(), &sql.TxOptions{Isolation: sql.LevelSerializable})
	fmt.Println("begin", err)
	var n int
	err = transaction.QueryRow("select @@trancount").Scan(&n)
	fmt.Println("open", n, err, transaction.Rollback())
	number(db, "select @@trancount")
}

func bulk(db *sql.DB) {
	transaction, _ := db.Begin()
	statement, err := transaction.Prepare(mssql.CopyIn("t", mssql.MssqlBulkOptions{}, "n"))
	if err != nil {
		fmt.Println("bulk", err)
		transaction.Rollback()
		return
	}
	_, err = statement.Exec(1)
	fmt.Println("bulk row", err)
	transaction.Rollback()
}

func main() {
	for _, more := range []string{"&encrypt=disable", "&encrypt=disable&database=master", ""} {
		first(more)
	}
	db := open("&encrypt=disable&database=other")
	texts(db)
	levels(db)
	bulk(db)
	number(db, "select 3")
	fmt.Println("encrypted", open("&encrypt=true").Ping())
}
