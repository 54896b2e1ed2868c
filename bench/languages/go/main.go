// The bench times texts of mysqlparams beside go-sql-driver's interpolateParams in one process, and prints
// rows of a table.
package main

import (
	"context"
	"database/sql"
	"database/sql/driver"
	"fmt"
	"math"
	"os"
	"strings"
	"syscall"

	"mysqlparams"
)

const (
	rounds   = 15
	calls    = 20_000
	rowCount = 100_000
)

// names are those of the query, with a value of each.
var names = []struct {
	name  string
	value any
}{
	{"id", int64(42)}, {"name", "it's a name"}, {"city", "Dublin"}, {"born", int64(1990)}, {"since",
		"2019-11-27"}, {"active", true},
	{"email", "someone@example.com"}, {"note", nil}, {"score", int64(-7)}, {"street",
		"O'Connell Street"}, {"country", "Ireland"}, {"limit", int64(100)},
}

// queries returns the query with names, and with marks.
func queries() (byName, byMark string) {
	byName, byMark = "SELECT * FROM users WHERE ", "SELECT * FROM users WHERE "
	for i, one := range names {
		if i > 0 {
			byName, byMark = byName+" AND ", byMark+" AND "
		}
		byName, byMark = byName+one.name+" = :"+one.name, byMark+one.name+" = ?"
	}
	return byName, byMark
}

// way is one of those that are timed: what it makes.
type way struct {
	name string
	make func() string
}

// must returns a text, or ends the program.
func must(text string, err error) string {
	if err != nil {
		fmt.Fprintln(os.Stderr, "bench/languages/go:", err)
		os.Exit(1)
	}
	return text
}

// processorTime returns the seconds of processor time that the process took, its collector's too.
func processorTime() float64 {
	var usage syscall.Rusage
	if err := syscall.Getrusage(syscall.RUSAGE_SELF, &usage); err != nil {
		must("", err)
	}
	return float64(usage.Utime.Nano()+usage.Stime.Nano()) / 1e9
}

// best returns the best time of each way, which take turns, of so many calls in each round.
func best(count int, ways []way) []float64 {
	found := make([]float64, len(ways))
	for i := range found {
		found[i] = math.Inf(1)
	}
	for round := 0; round < rounds; round++ {
		for i, way := range ways {
			begin := processorTime()
			for call := 0; call < count; call++ {
				way.make()
			}
			found[i] = math.Min(found[i], (processorTime()-begin)/float64(count))
		}
	}
	return found
}

// table prints the rows of ways: calls a second, and the time over that of the first, which is the driver's.
func table(what string, count int, ways []way) {
	for i, found := range best(count, ways) {
		name := ways[i].name
		if i == 0 {
			fmt.Printf("| Go | %s | %s | %.0f | 1 |\n", what, name, 1/found)
		} else {
			fmt.Printf("| Go | %s | %s | %.0f | %.2f |\n", what, name, 1/found, found/first)
		}
		if i == 0 {
			first = found
		}
	}
}

// first is the driver's time.
var first float64

// same ends the program unless a way makes the driver's text.
func same(ways ...way) {
	for _, way := range ways[1:] {
		if text := way.make(); text != ways[0].make() {
			must("", fmt.Errorf("%s: another text: %.200q", way.name, text))
		}
	}
}

// ofNames times one query of 12 values.
func ofNames(driversOwn func(string, []driver.Value) string) {
	byName, byMark := queries()
	var named, values []any
	var drivers []driver.Value
	for _, one := range names {
		named, values, drivers = append(named, sql.Named(one.name, one.value)), append(values,
			one.value), append(drivers, one.value)
	}
	made, err := mysqlparams.NewTemplate(mysqlparams.BackslashEscapes, byName)
	must("", err)
	ways := []way{
		{"interpolateParams", func() string { return driversOwn(byMark, drivers) }},
		{"Bind, by marks", func() string {
			return must(mysqlparams.Bind(mysqlparams.BackslashEscapes, byMark,
				values...))
		}},
		{"Bind, by names", func() string {
			return must(mysqlparams.Bind(mysqlparams.BackslashEscapes, byName,
				named...))
		}},
		{"Template.Bind, by names", func() string { return must(made.Bind(named...)) }},
	}
	same(ways...)
	anywhere := func() string { return must(mysqlparams.BindAnywhere(byName, named...)) }
	table("12 values", calls, append(ways, way{"BindAnywhere, by names", anywhere}))
}

// ofRows times 100,000 rows of two values: a text for each, and one text.
func ofRows(driversOwn func(string, []driver.Value) string) {
	var rows [][]any
	var drivers [][]driver.Value
	var all []driver.Value
	for i := 0; i < rowCount; i++ {
		number, text := int64(i), fmt.Sprint("it's the row ", i)
		rows, drivers = append(rows, []any{number, text}), append(drivers, []driver.Value{number, text})
		all = append(all, number, text)
	}
	const query = "INSERT INTO t VALUES (?, ?)"
	each := []way{
		{"interpolateParams", func() string {
			texts := make([]string, 0, len(drivers))
			for _, row := range drivers {
				texts = append(texts, driversOwn(query, row))
			}
			return strings.Join(texts[:2], "")
		}},
		{"BindRows", func() string {
			texts, err := mysqlparams.BindRows(mysqlparams.BackslashEscapes, query, rows)
			must("", err)
			return strings.Join(texts[:2], "")
		}},
	}
	same(each...)
	table("100,000 rows, a text each", 1, each)
	marks := "INSERT INTO t VALUES " + strings.TrimSuffix(strings.Repeat("(?, ?), ", rowCount), ", ")
	one := []way{
		{"interpolateParams", func() string { return driversOwn(marks, all) }},
		{"Bind, for `VALUES ?`", func() string {
			return must(mysqlparams.Bind(mysqlparams.BackslashEscapes, "INSERT INTO t VALUES ?", rows))
		}},
	}
	same(one...)
	table("100,000 rows, one text", 1, one)
}

// ofSending times the same query of 12 values sent over a pool, to a server that says OK.
func ofSending(db *sql.DB) {
	byName, byMark := queries()
	var named, values []any
	for _, one := range names {
		named, values = append(named, sql.Named(one.name, one.value)), append(values, one.value)
	}
	table("12 values, sent", calls, []way{
		{"db.ExecContext with interpolateParams", func() string { return sent(db.ExecContext(ctx, byMark, values...)) }},
		{"ExecContext, by marks", func() string { return sent(mysqlparams.ExecContext(ctx, db, byMark, values...)) }},
		{"ExecContext, by names", func() string { return sent(mysqlparams.ExecContext(ctx, db, byName, named...)) }},
	})
}

var ctx = context.Background()

// sent ends the program unless a text was sent.
func sent(_ sql.Result, err error) string { return must("", err) }

// ofSendingRows times the rows of two values sent over a pool: a text for each, and one text.
func ofSendingRows(db *sql.DB) {
	var rows [][]any
	var all []any
	for i := 0; i < rowCount; i++ {
		rows = append(rows, []any{int64(i), fmt.Sprint("it's the row ", i)})
		all = append(all, rows[i]...)
	}
	const query = "INSERT INTO t VALUES (?, ?)"
	table("100,000 rows, a text each, sent", 1, []way{
		{"db.ExecContext with interpolateParams", func() string {
			for _, row := range rows {
				sent(db.ExecContext(ctx, query, row...))
			}
			return ""
		}},
		{"ExecContext", func() string {
			for _, row := range rows {
				sent(mysqlparams.ExecContext(ctx, db, query, row...))
			}
			return ""
		}},
		{"BindRows, and db.ExecContext", func() string {
			texts, err := mysqlparams.BindRows(mysqlparams.BackslashEscapes, query, rows)
			must("", err)
			for _, text := range texts {
				sent(db.ExecContext(ctx, text))
			}
			return ""
		}},
	})
	marks := "INSERT INTO t VALUES " + strings.TrimSuffix(strings.Repeat("(?, ?), ", rowCount), ", ")
	table("100,000 rows, one text, sent", 1, []way{
		{"db.ExecContext with interpolateParams", func() string { return sent(db.ExecContext(ctx, marks, all...)) }},
		{"ExecContext, for `VALUES ?`", func() string {
			return sent(mysqlparams.ExecContext(ctx, db, "INSERT INTO t VALUES ?", rows))
		}},
	})
}

func main() {
	db := overNothing()
	own := ownOf(db)
	ofNames(own)
	ofSending(db)
	ofRows(own)
	ofSendingRows(db)
}
