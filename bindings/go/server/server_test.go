// Package server sends texts of mysqlparams by go-sql-driver to a server: SOCKET names its socket.
package server

import (
	"context"
	"database/sql"
	"database/sql/driver"
	"errors"
	"fmt"
	"math"
	"math/big"
	"math/rand"
	"os"
	"reflect"
	"strconv"
	"strings"
	"sync"
	"testing"
	"time"
	"unicode/utf8"

	"github.com/go-sql-driver/mysql"
	"mysqlparams"
)

const (
	withEscapes    = "'STRICT_TRANS_TABLES'"
	withoutEscapes = "'STRICT_TRANS_TABLES,NO_BACKSLASH_ESCAPES'"
)

// hostile are values that leave their literal if a mode or a character set is taken for another.
var hostile = []string{
	"x' OR '1'='1", `\' , CURRENT_USER() -- `, `\\' -- `, `\`, `'`, `"`, "`", "\x00\n\r\x1a\t", "%s %d %%", "? :a :id", "é€😀", "\xbf\x27 OR 1=1 -- ",
	"\xbf\x5c", "\x81\x27", "'; DROP TABLE t; -- ", "/*!50000 */", "$$", "{d'2024-01-01'}", " a ", "",
	strings.Repeat(`'\`, 5000),
}

// open returns a pool of connections with variables of the session.
func open(t *testing.T, params map[string]string, interpolate bool) *sql.DB {
	t.Helper()
	socket := os.Getenv("SOCKET")
	if socket == "" {
		t.Fatal("SOCKET names no socket")
	}
	config := mysql.NewConfig()
	config.User, config.Net, config.Addr, config.Params, config.InterpolateParams = "root", "unix", socket, params, interpolate
	config.Collation, config.MultiStatements = "utf8mb4_general_ci", true
	connector, err := mysql.NewConnector(config)
	check(t, err)
	db := sql.OpenDB(connector)
	t.Cleanup(func() { db.Close() })
	return db
}

func check(t *testing.T, err error) {
	t.Helper()
	if err != nil {
		t.Fatal(err)
	}
}

// codeOf returns the number of a refusal.
func codeOf(err error) mysqlparams.Code {
	var refused *mysqlparams.BindError
	if errors.As(err, &refused) {
		return refused.Code
	}
	return 0
}

// query is one of the calls that send.
type query func(ctx context.Context, query string, args ...any) (*sql.Rows, error)

// one returns the one value that a query gives.
func (send query) one(t *testing.T, text string, args ...any) any {
	t.Helper()
	rows, err := send(context.Background(), text, args...)
	check(t, err)
	defer rows.Close()
	var found any
	if !rows.Next() {
		t.Fatal("no row")
	}
	check(t, rows.Scan(&found))
	if rows.Next() {
		t.Error("more rows")
	}
	check(t, rows.Err())
	if bytes, ok := found.([]byte); ok {
		return string(bytes)
	}
	return found
}

// over returns a sending over something.
func over(to mysqlparams.Sender) query {
	return func(ctx context.Context, text string, args ...any) (*sql.Rows, error) {
		return mysqlparams.QueryContext(ctx, to, text, args...)
	}
}

// wrapped is a Sender that can't be asked.
type wrapped struct{ mysqlparams.Sender }

// session returns a connection that was asked.
func session(t *testing.T, db *sql.DB) *mysqlparams.Session {
	t.Helper()
	conn, err := db.Conn(context.Background())
	check(t, err)
	t.Cleanup(func() { conn.Close() })
	asked, err := mysqlparams.Ask(context.Background(), conn)
	check(t, err)
	return asked
}

// TestHostileValues has each value come back as it is, by each call, in both modes, with and without the
// driver's own parameters.
func TestHostileValues(t *testing.T) {
	for _, mode := range []string{withEscapes, withoutEscapes} {
		for _, interpolate := range []bool{false, true} {
			db := open(t, map[string]string{"sql_mode": mode}, interpolate)
			asked := session(t, db)
			if (asked.Mode() == mysqlparams.NoBackslashEscapes) != (mode == withoutEscapes) {
				t.Fatal(asked.Mode())
			}
			tx, err := db.Begin()
			check(t, err)
			for name, send := range map[string]query{"a pool": over(db), "a transaction": over(tx),
				"a session": asked.QueryContext} {
				for _, value := range hostile {
					for _, given := range []any{value, []byte(value), sql.NullString{String: value, Valid: true}} {
						for _, text := range []string{"SELECT :a", "SELECT /* ü */ :a"} {
							if found := send.one(t, text, sql.Named("a", given)); found != value {
								t.Errorf("%s: %s: %q as %T is %q", mode, name, value, given, found)
							}
						}
					}
				}
			}
			check(t, tx.Rollback())
		}
	}
}

// TestRandomValues has bytes of those that end, escape or hide a literal come back as they are, many in one query.
func TestRandomValues(t *testing.T) {
	const count = 50
	source := rand.New(rand.NewSource(1))
	pieces := strings.Split("\\ ' \" ` \x00 \n \x1a -- /* */ ; ? :a % _ $$ é € \xff \xbf' \xc3 a 0 0x _utf8mb4' ü", " ")
	query := "SELECT " + strings.TrimSuffix(strings.Repeat("HEX(?), ", count), ", ")
	for _, mode := range []string{withEscapes, withoutEscapes} {
		db := open(t, map[string]string{"sql_mode": mode}, true)
		asked := session(t, db)
		for turn := 0; turn < 60; turn++ {
			values, found := make([]any, count), make([]any, count)
			for i := range values {
				text := ""
				for length := source.Intn(12); length > 0; length-- {
					text += pieces[source.Intn(len(pieces))]
				}
				values[i], found[i] = text, new(string)
			}
			rows, err := mysqlparams.QueryContext(context.Background(), db, query, values...)
			if turn%2 == 1 {
				check(t, rows.Close())
				rows, err = asked.QueryContext(context.Background(), query, values...)
			}
			check(t, err)
			rows.Next()
			check(t, rows.Scan(found...))
			check(t, rows.Close())
			for i, value := range values {
				if wanted := fmt.Sprintf("%X", value); *found[i].(*string) != wanted {
					t.Errorf("%s: %q is %s", mode, value, *found[i].(*string))
				}
			}
		}
	}
}

// TestStored has values stored in a table, found by each other, and counted.
func TestStored(t *testing.T) {
	db := open(t, map[string]string{"sql_mode": withEscapes}, false)
	ctx := context.Background()
	exec := func(text string, args ...any) int64 {
		t.Helper()
		result, err := mysqlparams.ExecContext(ctx, db, text, args...)
		check(t, err)
		count, err := result.RowsAffected()
		check(t, err)
		return count
	}
	exec("CREATE DATABASE IF NOT EXISTS shop CHARACTER SET utf8mb4")
	exec("CREATE OR REPLACE TABLE shop.t (id BIGINT UNSIGNED, name VARCHAR(9000), data BLOB, price DECIMAL(30,2), " +
		"x DOUBLE, at DATETIME(6), span TIME(6), b BOOL)")
	const ofRow = "SELECT COUNT(*) FROM shop.t WHERE id = ? AND name = ? AND data = ? AND price = ? AND x = ? AND at = ? " +
		"AND span = ? AND b = ?"
	at := time.Date(2024, 2, 29, 23, 59, 59, 999999000, time.UTC)
	row := []any{uint64(math.MaxUint64), "it's é", []byte{0, 255, '\''},
		mysqlparams.Decimal("12345678901234567890.01"), 0.1, at, -90 * time.Minute, true}
	if exec("INSERT INTO shop.t VALUES (?, ?, ?, ?, ?, ?, ?, ?)", row...) != 1 {
		t.Error("no row")
	}
	if count := over(db).one(t, ofRow, row...); count != "1" {
		t.Errorf("%v rows", count)
	}
	if count := query(session(t, db).QueryContext).one(t, ofRow, row...); count != "1" {
		t.Error("in its mode")
	}
	rows := [][]any{{1, "a"}, {2, "b"}, {3, nil}}
	if exec("INSERT INTO ? (id, name) VALUES ?", mysqlparams.Identifier{"shop", "t"}, rows) != 3 {
		t.Error("not 3 rows")
	}
	const inOrder = "SELECT GROUP_CONCAT(name ORDER BY :column :order) FROM shop.t WHERE id IN (:ids)"
	column, order := sql.Named("column", mysqlparams.Identifier{"id"}), sql.Named("order", mysqlparams.Keyword("DESC"))
	if names := over(db).one(t, inOrder, column, order, sql.Named("ids", []int{1, 2, 3})); names != "b,a" {
		t.Error(names)
	}
	sum := new(big.Int).Exp(big.NewInt(10), big.NewInt(30), nil)
	if found := over(db).one(t, "SELECT ? + ? = ?", sum, 1, new(big.Int).Add(sum, big.NewInt(1))); found != "1" {
		t.Error(found)
	}
	texts, err := mysqlparams.BindRows(mysqlparams.BackslashEscapes,
		"INSERT INTO shop.t (id, name) VALUES (?, ?)", [][]any{{7, `\' -- `}, {8, "x"}})
	check(t, err)
	for _, text := range texts {
		_, err := db.ExecContext(ctx, text)
		check(t, err)
	}
	if found := over(db).one(t, "SELECT name FROM shop.t WHERE id = ?", 7); found != `\' -- ` {
		t.Error(found)
	}
}

// TestPlacesThatWantAPlainText has guarded literals where a server takes no steady ones.
func TestPlacesThatWantAPlainText(t *testing.T) {
	ctx, db := context.Background(), open(t, map[string]string{"sql_mode": withEscapes}, false)
	for _, c := range []struct{ query, value, wanted string }{
		{"SELECT GROUP_CONCAT(a ORDER BY a SEPARATOR ?) FROM (SELECT 1 a UNION SELECT 2) t", "', 'é", "1', 'é2"},
		{"SELECT DATE ?", "2019-11-27", "2019-11-27"},
		{"SHOW CHARACTER SET LIKE ?", "latin1", ""},
	} {
		for name, send := range map[string]query{"a pool": over(db), "a session": session(t, db).QueryContext} {
			if c.wanted != "" {
				if found := send.one(t, c.query, c.value); found != c.wanted {
					t.Errorf("%s: %s: %v", name, c.query, found)
				}
				continue
			}
			rows, err := send(ctx, c.query, c.value)
			check(t, err)
			if !rows.Next() || rows.Next() {
				t.Errorf("%s: %s: not one row", name, c.query)
			}
			check(t, rows.Close())
		}
		if _, err := (mysqlparams.Binder{Steady: true}).QueryContext(ctx, db, c.query, c.value); numberOf(err) != 1064 {
			t.Errorf("%s: %v", c.query, err)
		}
	}
}

// numberOf returns the number of a server's error.
func numberOf(err error) uint16 {
	var refused *mysql.MySQLError
	if errors.As(err, &refused) {
		return refused.Number
	}
	return 0
}

// TestOtherCollations has texts compared, over a connection whose collation isn't utf8mb4's own.
func TestOtherCollations(t *testing.T) {
	ctx := context.Background()
	db := open(t, map[string]string{"sql_mode": withEscapes, "collation_connection": "utf8mb4_unicode_ci"}, false)
	for _, c := range []struct {
		query, wanted string
		value         any
	}{
		{"SELECT DATE_FORMAT('2019-11-27', '%Y-%m') = ?", "1", "2019-11"},
		{"SELECT CONCAT('it', '''s') LIKE ?", "1", "%'s"},
		{"SELECT CASE DAYNAME('2019-11-27') WHEN ? THEN 'yes' END", "yes", "Wednesday"},
		{"SELECT CONCAT(DATE_FORMAT('2019-11-27', '%Y'), 'é') = ?", "1", "2019é"},
	} {
		for name, send := range map[string]query{"a pool": over(db), "a session": session(t, db).QueryContext} {
			if found := send.one(t, c.query, c.value); found != c.wanted {
				t.Errorf("%s: %s: %v", name, c.query, found)
			}
		}
	}
	steady := mysqlparams.Binder{Steady: true}
	if _, err := steady.QueryContext(ctx, db, "SELECT DATE_FORMAT('2019-11-27', '%Y-%m') = ?", "2019-11"); numberOf(err) != 1267 {
		t.Error(err)
	}
}

// TestModesThatWereNotTold has a session's connection set to another mode behind its back: each value stays a value, if perhaps
// with each backslash doubled.
func TestModesThatWereNotTold(t *testing.T) {
	ctx, db := context.Background(), open(t, nil, false)
	for told, other := range map[string]string{withEscapes: withoutEscapes, withoutEscapes: withEscapes} {
		conn, err := db.Conn(ctx)
		check(t, err)
		_, err = conn.ExecContext(ctx, "SET sql_mode = "+told)
		check(t, err)
		asked, err := mysqlparams.Ask(ctx, conn)
		check(t, err)
		_, err = conn.ExecContext(ctx, "SET sql_mode = "+other)
		check(t, err)
		for _, value := range hostile {
			doubled := value
			if utf8.ValidString(value) && told == withEscapes {
				doubled = strings.ReplaceAll(value, `\`, `\\`)
			}
			if found := query(asked.QueryContext).one(t, "SELECT ? /* no more */", value); found != doubled {
				t.Errorf("%s: %q is %q", told, value, found)
			}
		}
		check(t, conn.Close())
	}
}

// TestLists has a list of a request change nothing more than a value would, and lists in calls that take many arguments.
func TestLists(t *testing.T) {
	ctx, db := context.Background(), open(t, map[string]string{"sql_mode": withEscapes}, false)
	for _, text := range []string{
		"CREATE DATABASE IF NOT EXISTS lists", "CREATE OR REPLACE TABLE lists.t (id INT, doc JSON)",
		`INSERT INTO lists.t VALUES (1, '{"name": "a", "role": "user"}')`,
	} {
		_, err := db.ExecContext(ctx, text)
		check(t, err)
	}
	asked := session(t, db)
	const received = "SELECT VARIABLE_VALUE - ? FROM information_schema.SESSION_STATUS WHERE VARIABLE_NAME = 'QUESTIONS'"
	set := func(name any) error {
		_, err := asked.ExecContext(ctx, "UPDATE lists.t SET doc = JSON_SET(doc, '$.name', :name)", sql.Named("name", name))
		return err
	}
	check(t, set("b"))
	before, err := strconv.Atoi(query(asked.QueryContext).one(t, received, 0).(string))
	check(t, err)
	if err := set([]any{"x", "$.role", "admin"}); codeOf(err) != mysqlparams.CodeUnbracketed {
		t.Error(err)
	}
	if found := query(asked.QueryContext).one(t, received, before); found != "1" {
		t.Error(found, "texts were sent, this one too")
	}
	if found := over(db).one(t, "SELECT doc FROM lists.t"); found != `{"name": "b", "role": "user"}` {
		t.Error(found)
	}
	_, err = mysqlparams.ExecContext(ctx, db, "INSERT INTO lists.t VALUES ?", [][]any{{2, "{}"}, {3, "{}"}})
	check(t, err)
	in, ids := mysqlparams.In([]int{3, 1, 2}), []int{1, 2, 3}
	const inOrder = "SELECT GROUP_CONCAT(id ORDER BY FIELD(id, :in)) FROM lists.t WHERE id IN ( /* c */ :ids )"
	if found := over(db).one(t, inOrder, sql.Named("in", in), sql.Named("ids", ids)); found != "3,1,2" {
		t.Error(found)
	}
	if found := over(db).one(t, "SELECT COALESCE(?)", mysqlparams.In([]any{nil, 7})); found != "7" {
		t.Error(found)
	}
}

// TestFirstCall sends by the call of the repository's first page.
func TestFirstCall(t *testing.T) {
	ctx, db := context.Background(), open(t, nil, false)
	rows, err := mysqlparams.QueryContext(ctx, db, "SELECT ?", 42)
	check(t, err)
	defer rows.Close()
	var found int
	if !rows.Next() || rows.Scan(&found) != nil || found != 42 {
		t.Error(found, rows.Err())
	}
}

// TestOtherCharacterSets has a session refused, and each value right all the same.
func TestOtherCharacterSets(t *testing.T) {
	for _, charset := range []string{"gbk", "latin1", "sjis", "utf8mb3"} {
		db := open(t, map[string]string{"charset": charset, "sql_mode": withEscapes}, false)
		conn, err := db.Conn(context.Background())
		check(t, err)
		if _, err := mysqlparams.Ask(context.Background(), conn); codeOf(err) != mysqlparams.CodeSession {
			t.Errorf("%s: %v", charset, err)
		}
		_, err = mysqlparams.QueryContext(context.Background(), db, "SELECT 'ü', ?", 1)
		if codeOf(err) != mysqlparams.CodeSession {
			t.Errorf("%s: %v", charset, err)
		}
		for _, value := range hostile {
			wanted := strings.ToUpper(fmt.Sprintf("%x", value))
			for _, to := range []mysqlparams.Sender{conn, db, wrapped{db}} {
				if found := over(to).one(t, "SELECT HEX(?)", value); found != wanted {
					t.Errorf("%s: %q over a %T is %q", charset, value, to, found)
				}
			}
		}
		check(t, conn.Close())
	}
}

// TestReconnect has the pool connect anew, to another mode, after its connections are killed.
func TestReconnect(t *testing.T) {
	db, killer := open(t, map[string]string{"sql_mode": "@@global.sql_mode"}, false), open(t, nil, false)
	ctx := context.Background()
	setMode := func(mode string) {
		_, err := killer.ExecContext(ctx, "SET GLOBAL sql_mode = "+mode)
		check(t, err)
	}
	var kept string
	check(t, killer.QueryRow("SELECT @@global.sql_mode").Scan(&kept))
	defer setMode("'" + kept + "'")
	for _, mode := range []string{withEscapes, withoutEscapes, withEscapes} {
		setMode(mode)
		asked := session(t, db)
		id := query(asked.QueryContext).one(t, "SELECT CONNECTION_ID()")
		_, err := killer.ExecContext(ctx, fmt.Sprint("KILL ", id))
		check(t, err)
		time.Sleep(50 * time.Millisecond)
		// A session never turns to another connection.
		if _, err := asked.QueryContext(ctx, "SELECT ?", `\' -- `); !errors.Is(err, driver.ErrBadConn) &&
			!errors.Is(err, mysql.ErrInvalidConn) {
			t.Error(err)
		}
		for _, text := range []string{"SELECT ?", "SELECT ? -- ü"} {
			if found := over(db).one(t, text, `\' -- `); found != `\' -- ` {
				t.Errorf("%s: %v", mode, found)
			}
		}
		if again := session(t, db); (again.Mode() == mysqlparams.NoBackslashEscapes) != (mode == withoutEscapes) {
			t.Error(mode, again.Mode())
		}
	}
}

// TestPool has connections of two modes in one pool, and goroutines that take any of them.
func TestPool(t *testing.T) {
	db := open(t, map[string]string{"sql_mode": withEscapes}, false)
	db.SetMaxOpenConns(4)
	db.SetMaxIdleConns(4)
	ctx := context.Background()
	var conns []*sql.Conn
	for i := 0; i < 4; i++ {
		conn, err := db.Conn(ctx)
		check(t, err)
		if i%2 == 1 {
			_, err := conn.ExecContext(ctx, "SET sql_mode = "+withoutEscapes)
			check(t, err)
		}
		conns = append(conns, conn)
	}
	for _, conn := range conns {
		check(t, conn.Close())
	}
	var group sync.WaitGroup
	seen := map[any]bool{}
	var lock sync.Mutex
	for worker := 0; worker < 8; worker++ {
		group.Add(1)
		go func(worker int) {
			defer group.Done()
			for i := 0; i < 100; i++ {
				value := fmt.Sprint(hostile[i%len(hostile)], worker, i)
				text := []string{"SELECT CONCAT(@@sql_mode LIKE '%NO_BACK%', ?)",
					"SELECT CONCAT(@@sql_mode LIKE '%NO_BACK%', ?) /* ü */"}[i%2]
				found := over(db).one(t, text, value).(string)
				if found[1:] != value {
					t.Errorf("%q is %q", value, found)
				}
				lock.Lock()
				seen[found[:1]] = true
				lock.Unlock()
			}
		}(worker)
	}
	group.Wait()
	// A connection that was asked is given back once its rows are closed, by a goroutine.
	for waited := 0; waited < 500 && db.Stats().InUse > 0; waited++ {
		time.Sleep(10 * time.Millisecond)
	}
	if !reflect.DeepEqual(seen, map[any]bool{"0": true, "1": true}) || db.Stats().InUse != 0 {
		t.Error(seen, db.Stats().InUse)
	}
}
