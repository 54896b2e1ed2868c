package mysqlparams

import (
	"context"
	"database/sql"
	"database/sql/driver"
	"errors"
	"reflect"
	"testing"
)

// What wraps a pool or a connection, without a promise and with one.
type (
	wrappedPool struct{ *sql.DB }
	wrappedConn struct{ *sql.Conn }
	resolver    struct{ Sender }
	promised    struct{ Sender }
)

func (promised) OneConnection() {}

// TestSendersOfManyConnections has a query that depends on the connection refused, before anything is sent, where the
// question and the text could go over two connections.
func TestSendersOfManyConnections(t *testing.T) {
	server, db := open(t, "NO_BACKSLASH_ESCAPES", "utf8mb4")
	conn := connections(t, db)[1].(*sql.Conn)
	for _, to := range []Sender{wrappedPool{db}, wrappedConn{conn}, resolver{db}, resolver{conn}} {
		server.texts = nil
		var found *BindError
		if err := send(t, to, "SELECT ü, ?", hostile); !errors.As(err, &found) || found.Code != CodeSession {
			t.Errorf("%T: %v", to, err)
		}
		if _, err := Ask(context.Background(), to); !errors.As(err, &found) || found.Code != CodeSession {
			t.Errorf("%T: %v", to, err)
		}
		if len(server.texts) > 0 || server.asked > 0 {
			t.Errorf("%T: %q was sent, and %d times asked", to, server.texts, server.asked)
		}
		if err := send(t, to, "SELECT ?", 1); err != nil || len(server.texts) != 2 {
			t.Errorf("%T: %v, %q", to, err, server.texts)
		}
	}
	_, err := Ask(context.Background(), resolver{db})
	if err == nil || err.Error() != "A mysqlparams.resolver may send over many connections, and one has to be asked: "+
		"give a *sql.DB, a *sql.Conn, a *sql.Tx or a OneConnection" {
		t.Error(err)
	}
	if err := send(t, promised{conn}, "SELECT ü, ?", `\`); err != nil || server.asked != 2 {
		t.Error(err, server.asked)
	}
}

// askedOn returns a Session over a played connection.
func askedOn(t *testing.T, sqlMode string) (*played, *Session) {
	server, db := open(t, sqlMode, "utf8mb4")
	session, err := Ask(context.Background(), connections(t, db)[1])
	must(nil, err)
	return server, session
}

// TestSessionsThatChange has a Session write its texts for the mode that it has set itself.
func TestSessionsThatChange(t *testing.T) {
	ctx := context.Background()
	server, session := askedOn(t, "")
	for _, set := range []string{"SET sql_mode = NO_BACKSLASH_ESCAPES", "SELECT 1; SET sql_mode = "} {
		rows, err := session.QueryContext(ctx, set)
		must(nil, err)
		must(nil, rows.Close())
		var found *BindError
		if text, err := session.Bind("SELECT ?", hostile); !errors.As(err, &found) || found.Code != CodeSession {
			t.Errorf("%s: %q, %v", set, text, err)
		}
		_, err = session.ExecContext(ctx, "SELECT ?", hostile)
		must(nil, err)
		if text, err := session.Bind("SELECT ?", hostile); err != nil || text != server.texts[len(server.texts)-1] {
			t.Errorf("%s: %q, %v", set, text, err)
		}
	}
	if wanted := []string{"SET sql_mode = NO_BACKSLASH_ESCAPES", "SELECT _utf8mb4 0x5C27202C2037202D2D20",
		"SELECT 1; SET sql_mode = ", `SELECT '\\'' , 7 -- '`}; !reflect.DeepEqual(server.texts, wanted) || session.Mode() != BackslashEscapes {
		t.Errorf("%q, %v", server.texts, session.Mode())
	}
	_, err := session.ExecContext(ctx, "SET NAMES gbk")
	must(nil, err)
	for i := 0; i < 2; i++ {
		var found *BindError
		if _, err := session.ExecContext(ctx, "SELECT ?", hostile); !errors.As(err, &found) || found.Code != CodeSession {
			t.Error(err)
		}
	}
	if len(server.texts) != 5 {
		t.Errorf("%q", server.texts)
	}
}

// TestSessionsThatAskAgain has the connection asked again after each query but those that leave it as it is.
func TestSessionsThatAskAgain(t *testing.T) {
	for query, again := range map[string]bool{
		"SELECT 1": false, "\n\tselect 1\n": false, "INSERT INTO t VALUES (1)": false, "Update t SET a = 1": false,
		"DELETE FROM t": false, "REPLACE INTO t VALUES (1)": false, "SELECT 1 ; \n": false, "SELECT(1)": false,
		"SET @a = 1": true, "CALL p()": true, "SELECT 1; SELECT 2": true, "SELECT ';'": true, "; SELECT 1": true,
		"/* SELECT */ SET @a = 1": true, "-- SELECT\nSET @a = 1": true, "(SELECT 1)": true, "SELECTED": true, "": true,
		"WITH a AS (SELECT 1) SELECT * FROM a": true, "SHOW TABLES": true, "BEGIN": true,
	} {
		server, session := askedOn(t, "")
		for i := 0; i < 2; i++ {
			if _, err := session.ExecContext(context.Background(), query); err != nil {
				t.Errorf("%s: %v", query, err)
			}
		}
		if wanted := map[bool]int{false: 1, true: 2}[again]; server.asked != wanted {
			t.Errorf("%s: asked %d times", query, server.asked)
		}
	}
}

// sender is a driver.Valuer that sends by the Session that binds it.
type sender struct {
	session *Session
	query   string
}

func (s sender) Value() (driver.Value, error) {
	_, err := s.session.ExecContext(context.Background(), s.query)
	return hostile, err
}

// TestSessionsThatChangeWhileTheyBind has a text refused if a value's own method has changed the mode that it is for.
func TestSessionsThatChangeWhileTheyBind(t *testing.T) {
	ctx := context.Background()
	server, session := askedOn(t, "")
	var found *BindError
	_, err := session.ExecContext(ctx, "SELECT ?", sender{session, "SET sql_mode = NO_BACKSLASH_ESCAPES"})
	if !errors.As(err, &found) || found.Code != CodeSession || len(server.texts) != 1 {
		t.Errorf("%v, %q", err, server.texts)
	}
	_, err = session.ExecContext(ctx, "SELECT ?", sender{session, "SELECT 1"})
	if err != nil || len(server.texts) != 3 || server.texts[2] != "SELECT _utf8mb4 0x5C27202C2037202D2D20" {
		t.Errorf("%v, %q", err, server.texts)
	}
}
