package mysqlparams

import (
	"context"
	"database/sql"
	"database/sql/driver"
	"errors"
	"io"
	"reflect"
	"strings"
	"sync"
	"testing"
	"time"
)

// played is a driver, and a server whose connections all have this mode and these character sets. It keeps what it is sent.
type played struct {
	sqlMode, client, own string
	stale                int // questions that find their connection closed
	sync.Mutex
	asked, opened int
	texts         []string
}

func (p *played) Connect(context.Context) (driver.Conn, error) {
	p.Lock()
	defer p.Unlock()
	p.opened++
	return &playedConn{p}, nil
}

func (p *played) Driver() driver.Driver { return nil }

type playedConn struct{ *played }

func (c *playedConn) Prepare(string) (driver.Stmt, error) { panic("a text was prepared") }
func (c *playedConn) Close() error                        { return nil }
func (c *playedConn) Begin() (driver.Tx, error)           { return c, nil }
func (c *playedConn) Commit() error                       { return nil }
func (c *playedConn) Rollback() error                     { return nil }

var errServer = errors.New("the server refuses")

// take keeps a text, or refuses it. What it sets is the session's from then on.
func (c *playedConn) take(text string, args []driver.NamedValue) error {
	if len(args) > 0 {
		panic("a text was sent with arguments")
	}
	c.Lock()
	defer c.Unlock()
	c.texts = append(c.texts, text)
	if _, mode, ok := strings.Cut(text, "SET sql_mode = "); ok {
		c.sqlMode = mode
	}
	if _, charset, ok := strings.Cut(text, "SET NAMES "); ok {
		c.client, c.own = charset, charset
	}
	if strings.Contains(text, "REFUSED") {
		return errServer
	}
	return nil
}

func (c *playedConn) ExecContext(_ context.Context, text string, args []driver.NamedValue) (driver.Result, error) {
	return driver.RowsAffected(3), c.take(text, args)
}

func (c *playedConn) QueryContext(_ context.Context, text string, args []driver.NamedValue) (driver.Rows, error) {
	if !strings.Contains(text, "@@sql_mode") {
		return &playedRows{values: []driver.Value{"answer"}}, c.take(text, args)
	}
	c.Lock()
	defer c.Unlock()
	c.asked++
	if c.stale > 0 {
		c.stale--
		return nil, driver.ErrBadConn
	}
	return &playedRows{values: []driver.Value{[]byte(c.sqlMode), []byte(c.client), []byte(c.own)}}, nil
}

type playedRows struct{ values []driver.Value }

func (r *playedRows) Columns() []string { return make([]string, len(r.values)) }
func (r *playedRows) Close() error      { return nil }
func (r *playedRows) Next(to []driver.Value) error {
	if r.values == nil {
		return io.EOF
	}
	copy(to, r.values)
	r.values = nil
	return nil
}

const hostile = `\' , 7 -- `

// open returns a pool over a played session.
func open(t *testing.T, sqlMode, charset string) (*played, *sql.DB) {
	server := &played{sqlMode: sqlMode, client: charset, own: charset}
	db := sql.OpenDB(server)
	t.Cleanup(func() { db.Close() })
	return server, db
}

// connections returns a pool, a connection and a transaction.
func connections(t *testing.T, db *sql.DB) []Sender {
	conn, err := db.Conn(context.Background())
	must(nil, err)
	tx, err := db.Begin()
	must(nil, err)
	t.Cleanup(func() { tx.Rollback(); conn.Close() })
	return []Sender{db, conn, tx}
}

// send sends by both calls, and returns the error. Both give what the driver gives.
func send(t *testing.T, to Sender, query string, args ...any) error {
	t.Helper()
	return sendBy(t, Binder{}, to, query, args...)
}

// sendBy does so with options.
func sendBy(t *testing.T, by Binder, to Sender, query string, args ...any) error {
	t.Helper()
	rows, err := by.QueryContext(context.Background(), to, query, args...)
	if err == nil {
		var answer string
		if !rows.Next() || rows.Scan(&answer) != nil || answer != "answer" || rows.Close() != nil {
			t.Errorf("%q", answer)
		}
	}
	result, err2 := by.ExecContext(context.Background(), to, query, args...)
	if err2 == nil {
		if count, err := result.RowsAffected(); count != 3 || err != nil {
			t.Error(count, err)
		}
	}
	if (err == nil) != (err2 == nil) || err != nil && err.Error() != err2.Error() {
		t.Errorf("%v, and %v", err, err2)
	}
	return err
}

// noneInUse has all connections of a pool be given back: after rows are closed a goroutine does it.
func noneInUse(t *testing.T, db *sql.DB) {
	t.Helper()
	for waited := 0; waited < 500 && db.Stats().InUse > 0; waited++ {
		time.Sleep(10 * time.Millisecond)
	}
	if count := db.Stats().InUse; count > 0 {
		t.Error(count, "connections are in use")
	}
}

func TestSentWithoutAQuestion(t *testing.T) {
	server, db := open(t, "", "latin1")
	for _, to := range append(connections(t, db), resolver{db}) {
		server.texts = nil
		if err := send(t, to, "SELECT :a, :b", sql.Named("a", "' , 7 -- \n\x00"), sql.Named("b", "\xff\\'")); err != nil {
			t.Error(err)
		}
		const wanted = "SELECT ''' , 7 -- \n\x00', 0xFF5C27"
		if !reflect.DeepEqual(server.texts, []string{wanted, wanted}) {
			t.Errorf("%T: %q", to, server.texts)
		}
	}
	if server.asked > 0 {
		t.Error("the connection was asked")
	}
}

func TestSentAfterAQuestion(t *testing.T) {
	for sqlMode, wanted := range map[string]string{
		"STRICT_TRANS_TABLES": `SELECT ü, '\\\' , 7 -- '`, "STRICT_TRANS_TABLES,NO_BACKSLASH_ESCAPES": `SELECT ü, '\'' , 7 -- '`,
	} {
		server, db := open(t, sqlMode, "utf8mb4")
		for _, to := range connections(t, db) {
			server.texts, server.asked = nil, 0
			if err := send(t, to, "SELECT ü, ?", hostile); err != nil {
				t.Error(err)
			}
			if !reflect.DeepEqual(server.texts, []string{wanted, wanted}) || server.asked != 2 {
				t.Errorf("%T: %q, asked %d times", to, server.texts, server.asked)
			}
		}
	}
}

func TestConnectionsGivenBack(t *testing.T) {
	server, db := open(t, "", "utf8mb4")
	db.SetMaxOpenConns(1)
	for i := 0; i < 20; i++ {
		if err := send(t, db, "SELECT ü, ?", i); err != nil {
			t.Fatal(err)
		}
		if err := send(t, db, "SELECT ü, [?", i); err == nil {
			t.Fatal("no refusal")
		}
		if err := send(t, db, "SELECT ?", "é"); err != nil {
			t.Fatal(err)
		}
		if err := send(t, db, "SELECT 'REFUSED', ?", "é"); !errors.Is(err, errServer) {
			t.Fatal(err)
		}
	}
	if server.opened != 1 || len(server.texts) != 120 {
		t.Error(server.opened, len(server.texts))
	}
}

// TestConnectionsInUse has the connection of a pool that was asked be in use until its rows are closed.
func TestConnectionsInUse(t *testing.T) {
	server, db := open(t, "", "utf8mb4")
	db.SetMaxOpenConns(1)
	for _, query := range []string{"SELECT ?", "SELECT ü, ?"} {
		rows, err := QueryContext(context.Background(), db, query, "é")
		must(nil, err)
		ctx, cancel := context.WithTimeout(context.Background(), 10*time.Millisecond)
		if _, err := ExecContext(ctx, db, query, "é"); !errors.Is(err, context.DeadlineExceeded) || db.Stats().InUse != 1 {
			t.Errorf("%s: %v, %d in use", query, err, db.Stats().InUse)
		}
		cancel()
		must(nil, rows.Close())
		_, err = ExecContext(context.Background(), db, query, "é")
		must(nil, err)
	}
	if noneInUse(t, db); server.opened != 1 {
		t.Error(server.opened)
	}
}

func TestStaleConnections(t *testing.T) {
	server, db := open(t, "", "utf8mb4")
	for _, query := range []string{"SELECT ü, ?", "SELECT ?"} {
		server.stale = 2
		if err := send(t, db, query, "é"); err != nil {
			t.Error(err)
		}
		server.stale = 100
		if err := send(t, db, query, "é"); !errors.Is(err, driver.ErrBadConn) {
			t.Error(err)
		}
	}
	if noneInUse(t, db); len(server.texts) != 4 {
		t.Errorf("%q", server.texts)
	}
}

func TestRefusedSessions(t *testing.T) {
	for charset, wanted := range map[[2]string]string{
		{"latin1", "utf8mb4"}: "The connection's character_set_client is latin1, and has to be utf8mb4: connect with charset=utf8mb4",
		{"utf8mb4", "gbk"}:    "The connection's character_set_connection is gbk, and has to be utf8mb4: connect with charset=utf8mb4",
	} {
		server, db := open(t, "", "")
		server.client, server.own = charset[0], charset[1]
		for _, to := range connections(t, db) {
			var found *BindError
			if err := send(t, to, "SELECT ü, ?", 1); !errors.As(err, &found) || found.Code != CodeSession ||
				err.Error() != wanted {
				t.Error(err)
			}
		}
		if len(server.texts) > 0 {
			t.Errorf("%q was sent", server.texts)
		}
	}
	_, db := open(t, "", "utf8mb4")
	var found *BindError
	if _, err := Ask(context.Background(), db); !errors.As(err, &found) || found.Code != CodeSession {
		t.Error(err)
	}
}

func TestSessions(t *testing.T) {
	server, db := open(t, "ansi,no_backslash_escapes", "utf8mb4")
	for _, to := range connections(t, db)[1:] {
		server.texts, server.asked = nil, 0
		session, err := Ask(context.Background(), to)
		if err != nil || session.Mode() != NoBackslashEscapes {
			t.Fatal(err)
		}
		for i := 0; i < 3; i++ {
			rows, err := session.QueryContext(context.Background(), "SELECT ?", hostile)
			if err != nil {
				t.Fatal(err)
			}
			rows.Close()
			if _, err := session.ExecContext(context.Background(), "SELECT ?", "b"); err != nil {
				t.Fatal(err)
			}
		}
		if server.asked != 1 || len(server.texts) != 6 || server.texts[4] != "SELECT _utf8mb4 0x5C27202C2037202D2D20" ||
			server.texts[5] != "SELECT 'b'" {
			t.Errorf("%q, asked %d times", server.texts, server.asked)
		}
		var found *BindError
		if _, err := session.ExecContext(context.Background(), "SELECT [a, ?", 1); !errors.As(err, &found) ||
			found.Code != CodeUnportable || found.Construct != Bracket || found.Position != 7 ||
			err.Error() != "Not portable at byte 7 of the query: `[` may open an identifier: write the name in backquotes" {
			t.Error(err)
		}
		if _, err := session.QueryContext(context.Background(), "SELECT ?"); !errors.As(err, &found) ||
			found.Code != CodeMarkCount {
			t.Error(err)
		}
	}
}

func TestSentRefusals(t *testing.T) {
	server, db := open(t, "", "utf8mb4")
	var found *BindError
	for query, code := range map[string]Code{"SELECT ?": CodeMarkCount, "SELECT [a": CodeUnportable,
		"SELECT ü, [a": CodeUnportable, "ü ?": CodeMarkCount} {
		if err := send(t, db, query); !errors.As(err, &found) || found.Code != code {
			t.Errorf("%s: %v", query, err)
		}
	}
	if len(server.texts) > 0 {
		t.Errorf("%q was sent", server.texts)
	}
	ctx, cancel := context.WithCancel(context.Background())
	cancel()
	for query, args := range map[string][]any{"SELECT 1": nil, "ü": nil, "SELECT ?": {"é"}} {
		if _, err := QueryContext(ctx, db, query, args...); !errors.Is(err, context.Canceled) {
			t.Error(err)
		}
	}
}

// TestListsThatArentSent has a list of a request refused before a text is sent.
func TestListsThatArentSent(t *testing.T) {
	server, db := open(t, "", "utf8mb4")
	name := fromRequest(`["x", "$.role", "admin"]`)
	for _, query := range []string{"UPDATE t SET doc = JSON_SET(doc, '$.name', ?)", "UPDATE t SET doc = JSON_SET(doc, '$.näme', ?)"} {
		for _, to := range connections(t, db) {
			if err := send(t, to, query, name); !errors.Is(err, ErrUnbracketed) {
				t.Errorf("%T: %s: %v", to, query, err)
			}
		}
	}
	if len(server.texts) > 0 {
		t.Errorf("%q was sent", server.texts)
	}
	if err := send(t, db, "SELECT FIELD(id, ?) FROM t WHERE id IN ( ? )", In([]int{3, 1}), []int{1, 3}); err != nil {
		t.Error(err)
	}
	const wanted = "SELECT FIELD(id, 3, 1) FROM t WHERE id IN ( 1, 3 )"
	if !reflect.DeepEqual(server.texts, []string{wanted, wanted}) {
		t.Errorf("%q", server.texts)
	}
}

func TestModes(t *testing.T) {
	for sqlMode, wanted := range map[string]Mode{
		"": BackslashEscapes, "STRICT_ALL_TABLES,ANSI": BackslashEscapes, "NO_BACKSLASH_ESCAPES": NoBackslashEscapes,
		"ANSI_QUOTES, no_backslash_escapes ": NoBackslashEscapes, "XNO_BACKSLASH_ESCAPES": BackslashEscapes,
	} {
		if ModeOf(sqlMode) != wanted {
			t.Error(sqlMode)
		}
	}
	if BackslashEscapes.String() != "BackslashEscapes" || NoBackslashEscapes.String() != "NoBackslashEscapes" {
		t.Error("names")
	}
}
