// go-mssqldb: go_mssqldb PORT PACED_PORT.
package main

import (
	"context"
	"database/sql"
	"fmt"
	"os"
	"sync"
	"time"

	_ "github.com/denisenkom/go-mssqldb"
)

type asker interface {
	QueryContext(context.Context, string, ...interface{}) (*sql.Rows, error)
}

func open(port string, more string) *sql.DB {
	db, err := sql.Open("sqlserver", "sqlserver://a:b@127.0.0.1:"+port+"?encrypt=disable&connection+timeout=10"+more)
	if err != nil {
		panic(err)
	}
	return db
}

func values(from asker, text string) ([]int, error) {
	ctx, stop := context.WithTimeout(context.Background(), 10*time.Second)
	defer stop()
	rows, err := from.QueryContext(ctx, text)
	if err != nil {
		return nil, err
	}
	defer rows.Close()
	var all []int
	for {
		for rows.Next() {
			var n int
			rows.Scan(&n)
			all = append(all, n)
		}
		if !rows.NextResultSet() {
			return all, rows.Err()
		}
	}
}

func ask(from asker, text string) {
	all, err := values(from, text)
	fmt.Println(text, "->", all, err)
}

func transactions(db *sql.DB) {
	for _, end := range []string{"commit", "rollback"} {
		tx, err := db.Begin()
		if err != nil {
			fmt.Println("begin", err)
			continue
		}
		ask(tx, "set x 4;rows 9 1")
		if end == "commit" {
			err = tx.Commit()
		} else {
			err = tx.Rollback()
		}
		fmt.Println(end, err)
	}
}

func cancelInTheMiddle(db *sql.DB) {
	started := time.Now()
	ctx, stop := context.WithCancel(context.Background())
	text := "rows 0 2"
	for place := 1; place < 40; place++ {
		text += fmt.Sprintf(";rows %d 2", 10*place)
	}
	rows, err := db.QueryContext(ctx, text)
	if err != nil {
		fmt.Println("asks", err)
		stop()
		return
	}
	fmt.Println("first", rows.Next())
	stop()
	rows.Close()
	ask(db, "rows 5 1")
	fmt.Println("cancelled at once:", time.Since(started) < 1500*time.Millisecond)
}

func many(db *sql.DB) {
	db.SetMaxOpenConns(64)
	db.SetMaxIdleConns(64)
	var wait sync.WaitGroup
	wrong := make(chan int, 12800)
	for place := 0; place < 64; place++ {
		wait.Add(1)
		go func(place int) {
			defer wait.Done()
			for turn := 0; turn < 200; turn++ {
				first := place*1000 + turn
				all, err := values(db, fmt.Sprintf("rows %d 3", first))
				if err != nil || len(all) != 3 || all[0] != first || all[1] != first+1 || all[2] != first+2 {
					wrong <- place
				}
			}
		}(place)
	}
	wait.Wait()
	fmt.Println("64 connections, 12800 requests, wrong", len(wrong))
}

func main() {
	db := open(os.Args[1], "")
	db.SetMaxOpenConns(1)
	for _, text := range []string{"rows 7 3", "rows 1 2;rows 5 1", "foo", "fail 70001", "commit"} {
		ask(db, text)
	}
	transactions(db)
	db.Close()
	sized := open(os.Args[1], "&packet+size=8000")
	ask(sized, "rows 1 3")
	sized.Close()
	encrypted, _ := sql.Open("sqlserver", "sqlserver://a:b@127.0.0.1:"+os.Args[1]+"?encrypt=true&connection+timeout=10")
	ask(encrypted, "rows 1 3")
	encrypted.Close()
	paced := open(os.Args[2], "")
	paced.SetMaxOpenConns(1)
	cancelInTheMiddle(paced)
	paced.Close()
	all := open(os.Args[1], "")
	many(all)
	all.Close()
}
