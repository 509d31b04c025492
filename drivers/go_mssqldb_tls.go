// go-mssqldb with encryption: go_mssqldb_tls PORT MORE, of which MORE is put behind its connection's words.
package main

import (
	"context"
	"database/sql"
	"fmt"
	"os"
	"strings"
	"time"

	_ "github.com/denisenkom/go-mssqldb"
)

func main() {
	db, err := sql.Open("sqlserver", "sqlserver://a:b@127.0.0.1:"+os.Args[1]+"?connection+timeout=20"+os.Args[2])
	if err != nil {
		fmt.Println("error", err)
		return
	}
	// db.Close isn't called: this version of the driver panics in it where TLS is on.
	db.SetMaxOpenConns(1)
	fmt.Println(rows(context.Background(), db, "rows 7 3"))
	ctx, stop := context.WithCancel(context.Background())
	defer stop()
	text := "rows 0 2"
	for place := 1; place < 40; place++ {
		text += fmt.Sprintf(";rows %d 2", 10*place)
	}
	if asked, err := db.QueryContext(ctx, text); err == nil {
		asked.Next()
		stop()
		asked.Close()
		fmt.Println("cancelled, then", rows(context.Background(), db, "rows 5 1"))
	}
}

// rows are what a batch gives, or the driver's error.
func rows(ctx context.Context, db *sql.DB, text string) string {
	ctx, stop := context.WithTimeout(ctx, 20*time.Second)
	defer stop()
	asked, err := db.QueryContext(ctx, text)
	if err != nil {
		return "error " + err.Error()
	}
	defer asked.Close()
	all := []string{"rows"}
	for asked.Next() {
		var n int
		if err := asked.Scan(&n); err != nil {
			return "error " + err.Error()
		}
		all = append(all, fmt.Sprint(n))
	}
	return strings.Join(all, " ")
}
