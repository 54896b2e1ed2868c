package server

import (
	"context"
	"testing"

	"mysqlparams"
)

// TestSessionsThatChange has each value come back as it is from a session that was given another mode, in one text
// and behind another one.
func TestSessionsThatChange(t *testing.T) {
	for _, set := range []string{"SET sql_mode = ", "SELECT 1; SET sql_mode = "} {
		db := open(t, map[string]string{"sql_mode": withEscapes}, false)
		asked := session(t, db)
		for _, mode := range []string{withoutEscapes, withEscapes, withoutEscapes} {
			_, err := asked.ExecContext(context.Background(), set+mode)
			check(t, err)
			for _, value := range hostile {
				if found := query(asked.QueryContext).one(t, "SELECT ?", value); found != value {
					t.Errorf("%s%s: %q is %q", set, mode, value, found)
				}
			}
			if (asked.Mode() == mysqlparams.NoBackslashEscapes) != (mode == withoutEscapes) {
				t.Error(set, mode, asked.Mode())
			}
		}
		_, err := asked.ExecContext(context.Background(), "SET NAMES gbk")
		check(t, err)
		_, err = asked.QueryContext(context.Background(), "SELECT ?", hostile[0])
		if codeOf(err) != mysqlparams.CodeSession {
			t.Error(err)
		}
	}
}

// TestStatementsThatKeepTheMode has a function and a trigger set the mode and the character sets: a server gives them
// back what they had.
func TestStatementsThatKeepTheMode(t *testing.T) {
	ctx, db := context.Background(), open(t, map[string]string{"sql_mode": withEscapes}, false)
	const sets = "BEGIN SET sql_mode = " + withoutEscapes + "; SET NAMES gbk; "
	for _, text := range []string{
		"CREATE DATABASE IF NOT EXISTS kept", "CREATE OR REPLACE TABLE kept.t (a INT)",
		"CREATE OR REPLACE FUNCTION kept.f() RETURNS INT " + sets + "RETURN 1; END",
		"CREATE TRIGGER kept.i BEFORE INSERT ON kept.t FOR EACH ROW " + sets + "END",
		"CREATE TRIGGER kept.u BEFORE UPDATE ON kept.t FOR EACH ROW " + sets + "END",
		"CREATE TRIGGER kept.d BEFORE DELETE ON kept.t FOR EACH ROW " + sets + "END",
	} {
		_, err := db.ExecContext(ctx, text)
		check(t, err)
	}
	asked := session(t, db)
	const question = "SELECT CONCAT(@@sql_mode, @@character_set_client, @@character_set_connection)"
	before := query(asked.QueryContext).one(t, question)
	for _, text := range []string{"SELECT kept.f()", "INSERT INTO kept.t VALUES (1)", "UPDATE kept.t SET a = 2",
		"REPLACE INTO kept.t VALUES (3)", "DELETE FROM kept.t"} {
		_, err := asked.ExecContext(ctx, text)
		check(t, err)
		if after := query(asked.QueryContext).one(t, question); after != before {
			t.Errorf("%s: %s", text, after)
		}
	}
}
