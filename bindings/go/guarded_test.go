package mysqlparams

import (
	"context"
	"database/sql"
	"errors"
	"fmt"
	"reflect"
	"strings"
	"testing"
	"time"
)

// guarded is a value, its literal in a mode with backslash escapes, and the one in a mode without if that is another.
type guarded struct {
	value         any
	escaped, bare string
	asks          bool // whether the literal has a backslash or a byte from 128 on
}

// in returns the literal in a mode.
func (g guarded) in(mode Mode) string {
	if mode == NoBackslashEscapes && g.bare != "" {
		return g.bare
	}
	return g.escaped
}

var guardedLiterals = []guarded{
	{"it's", "'it''s'", "", false},
	{"", "''", "", false},
	{"\x00\n\r\x1a\"`", "'\x00\n\r\x1a\"`'", "", false},
	{"é", "'é'", "", true},
	{`\`, `'\\'`, "_utf8mb4 0x5C", true},
	{`\'`, `'\\'''`, "_utf8mb4 0x5C27", true},
	{`é\`, `'é' '\\'`, "_utf8mb4 0xC3A95C", true},
	{`é\'\\`, `'é' '\\''\\\\'`, "_utf8mb4 0xC3A95C275C5C", true},
	{"\xff\\'", "0xFF5C27", "", false},
	{[]byte{0xff, '\\', '\''}, "0xFF5C27", "", false},
	{[]byte(`a\`), `'a\\'`, "_utf8mb4 0x615C", true},
	{nil, "NULL", "", false},
	{-7, "-7", "", false},
	{0.5, "0.5e0", "", false},
	{time.Date(2024, 2, 29, 0, 0, 0, 0, time.UTC), "'2024-02-29'", "", false},
	{In([]any{"it's", 2}), "'it''s', 2", "", false},
	{In([]string{"it's", `\`}), `'it''s', '\\'`, "'it''s', _utf8mb4 0x5C", true},
	{In([][]any{{"é", nil}, {`\`, 1}}), `('é', NULL), ('\\', 1)`, "('é', NULL), (_utf8mb4 0x5C, 1)", true},
	{Identifier{"shop", "it's"}, "`shop`.`it's`", "", false},
	{Assignments{{Identifier{"a"}, `\'`}}, "`a` = '\\\\'''", "`a` = _utf8mb4 0x5C27", true},
}

var sqlModes = map[Mode]string{BackslashEscapes: "STRICT_TRANS_TABLES", NoBackslashEscapes: "STRICT_TRANS_TABLES,NO_BACKSLASH_ESCAPES"}

// TestGuardedLiterals has each value sent in each mode, and the connection asked only where the literal depends on it.
func TestGuardedLiterals(t *testing.T) {
	for mode, sqlMode := range sqlModes {
		server, db := open(t, sqlMode, "utf8mb4")
		for _, to := range connections(t, db) {
			for _, of := range guardedLiterals {
				for query, arg := range map[string]any{"SELECT ?": of.value, "SELECT :a": sql.Named("a", of.value)} {
					server.texts, server.asked = nil, 0
					if err := send(t, to, query, arg); err != nil {
						t.Error(err)
					}
					asked := map[bool]int{true: 2}[of.asks]
					wanted := "SELECT " + of.in(mode)
					if !reflect.DeepEqual(server.texts, []string{wanted, wanted}) || server.asked != asked {
						t.Errorf("%v, %T, %q: %q, asked %d times", mode, to, of.value, server.texts, server.asked)
					}
				}
			}
		}
	}
}

// TestGuardedLiteralsOfSessions has a Session bind the same literals, to new queries and to kept ones.
func TestGuardedLiteralsOfSessions(t *testing.T) {
	for mode := range sqlModes {
		session := &Session{mode: mode}
		for i := 0; i < 4; i++ {
			for at, of := range guardedLiterals {
				for query, arg := range map[string]any{"SELECT 7, ?": of.value, "SELECT 7, :a": sql.Named("a", of.value),
					fmt.Sprintf("SELECT :a, %d, %d", i, at): sql.Named("a", of.value)} {
					wanted := strings.NewReplacer("?", of.in(mode), ":a", of.in(mode)).Replace(query)
					if text, err := session.Bind(query, arg); err != nil || text != wanted {
						t.Errorf("%v, %s: %q, %v", mode, query, text, err)
					}
				}
			}
		}
		must(session.Bind("SELECT 7, :a", sql.Named("a", 1)))
		if kept := keptTemplate(mode, "SELECT 7, :a"); kept == nil || kept.anywhere == nil || kept.plain {
			t.Error(mode, "no table is kept")
		}
	}
}

// TestKeptQueriesOfSessions has a query bound again and again by values in the order of its names, in another one, by
// fragments, and by too few values or too many.
func TestKeptQueriesOfSessions(t *testing.T) {
	a, b, none := sql.Named("a", `it's\`), sql.Named("B", "é"), sql.Named("B", []int{})
	for mode, literal := range map[Mode]string{BackslashEscapes: `'it''s\\'`, NoBackslashEscapes: "_utf8mb4 0x697427735C"} {
		session := &Session{mode: mode}
		for i := 0; i < 4; i++ {
			for _, c := range []struct {
				args   []any
				wanted string
				code   Code
			}{
				{[]any{a, b}, "SELECT " + literal + ", '?:a' IN ('é')", 0}, {[]any{b, a}, "SELECT " + literal + ", '?:a' IN ('é')", 0},
				{[]any{a, sql.Named("B", []any{0.5, "x"})}, "SELECT " + literal + ", '?:a' IN (0.5e0, 'x')", 0},
				{[]any{a, b, sql.Named("c", 1)}, "SELECT " + literal + ", '?:a' IN ('é')", 0},
				{[]any{a}, "", CodeMissing}, {[]any{a, a}, "", CodeRepeatedName}, {[]any{a, 1}, "", CodeFormMixed},
				{[]any{1, 2}, "", CodePositionalForNamed}, {[]any{a, none}, "", CodeFault},
			} {
				text, err := session.Bind("SELECT :a, '?:a' IN (:B)", c.args...)
				var found *BindError
				if errors.As(err, &found); text != c.wanted || (found == nil) != (c.code == 0) || found != nil && found.Code != c.code {
					t.Errorf("%v, %v: %q, %v", mode, c.args, text, err)
				}
			}
		}
	}
}

// TestTablesOfSentQueries has a kept query bound by its table: by that of a longer query it is refused.
func TestTablesOfSentQueries(t *testing.T) {
	_, db := open(t, "", "utf8mb4")
	session := &Session{mode: BackslashEscapes}
	for i := 0; i < 2; i++ {
		must(session.Bind("SELECT 1, ?", 1))
		must(session.Bind("SELECT 'a longer query', ?", 1))
	}
	kept := keptTemplate(BackslashEscapes, "SELECT 1, ?")
	own := kept.anywhere
	defer func() { kept.anywhere = own }()
	kept.anywhere = keptTemplate(BackslashEscapes, "SELECT 'a longer query', ?").anywhere
	if text, err := session.Bind("SELECT 1, ?", 1); !errors.Is(err, ErrOtherTable) {
		t.Errorf("%q, %v", text, err)
	}
	if err := send(t, db, "SELECT 1, ?", 1); !errors.Is(err, ErrOtherTable) {
		t.Error(err)
	}
}

// TestPlainLiterals has queries and names that aren't ASCII without a backslash sent with plain literals in the mode that was
// asked, by each call and by a Session.
func TestPlainLiterals(t *testing.T) {
	name := Identifier{"é"}
	for mode, sqlMode := range sqlModes {
		literal := map[Mode]string{BackslashEscapes: `'it\'s\\'`, NoBackslashEscapes: `'it''s\'`}[mode]
		server, db := open(t, sqlMode, "utf8mb4")
		session, err := Ask(context.Background(), connections(t, db)[1])
		must(nil, err)
		for i := 0; i < 4; i++ {
			for _, c := range []struct {
				query, wanted string
				args          []any
			}{
				{"SELECT ? /* é */", "SELECT {} /* é */", []any{`it's\`}},
				{`SELECT :a, '\\'`, `SELECT {}, '\\'`, []any{sql.Named("a", `it's\`)}},
				{"SELECT :n = :a", "SELECT `é` = {}", []any{sql.Named("n", name), sql.Named("a", `it's\`)}},
				{"SELECT :n = :a", "SELECT `a\\b`.`c` = {}", []any{sql.Named("a", `it's\`), sql.Named("n", Identifier{`a\b`, "c"})}},
				{"SET ?", "SET `é` = {}", []any{Assignments{{name, `it's\`}}}},
				{"SELECT é, ?", "SELECT é, {}, 2", []any{In([]any{`it's\`, 2})}},
			} {
				server.texts, server.asked = nil, 0
				wanted := strings.Replace(c.wanted, "{}", literal, 1)
				text, err := session.Bind(c.query, c.args...)
				if err == nil {
					err = send(t, db, c.query, c.args...)
				}
				if err != nil || text != wanted || !reflect.DeepEqual(server.texts, []string{wanted, wanted}) || server.asked != 2 {
					t.Errorf("%v, %s: %q, %q, %v, asked %d times", mode, c.query, text, server.texts, err, server.asked)
				}
			}
		}
	}
}

// TestSteadyTextsAfterAll has a text that depends on the connection be that of BindAnywhere where that can't be asked, or isn't
// utf8mb4.
func TestSteadyTextsAfterAll(t *testing.T) {
	args := []any{sql.Named("b", "it's"), sql.Named("a", `é\`)}
	const wanted = "SELECT _utf8mb4 0xC3A95C, _utf8mb4'it''s'"
	check := func(server *played, to Sender, asked int) {
		t.Helper()
		for i := 0; i < 3; i++ {
			for _, args := range [][]any{args, {args[1], args[0]}} {
				server.texts, server.asked = nil, 0
				if err := send(t, to, "SELECT :a, :b", args...); err != nil {
					t.Error(err)
				}
				if !reflect.DeepEqual(server.texts, []string{wanted, wanted}) || server.asked != asked {
					t.Errorf("%T: %q, asked %d times", to, server.texts, server.asked)
				}
			}
		}
	}
	for _, charset := range [][2]string{{"gbk", "gbk"}, {"utf8mb4", "latin1"}, {"utf8mb3", "utf8mb4"}} {
		server, db := open(t, "NO_BACKSLASH_ESCAPES", "")
		server.client, server.own = charset[0], charset[1]
		for _, to := range connections(t, db) {
			check(server, to, 2)
		}
	}
	server, db := open(t, "NO_BACKSLASH_ESCAPES", "utf8mb4")
	conn := connections(t, db)[1].(*sql.Conn)
	for _, to := range []Sender{wrappedPool{db}, wrappedConn{conn}, resolver{db}, resolver{conn}} {
		check(server, to, 0)
	}
}

// TestSteady has the texts of BindAnywhere sent by a Binder that is Steady, without a question, and by its Session.
func TestSteady(t *testing.T) {
	ctx, steady := context.Background(), Binder{Steady: true}
	values := []any{"it's", `\`, "é", "\xff", 1}
	const wanted = "SELECT _utf8mb4'it''s', _utf8mb4 0x5C, _utf8mb4 0xC3A9, 0xFF, 1"
	for _, sqlMode := range sqlModes {
		server, db := open(t, sqlMode, "utf8mb4")
		for _, to := range append(connections(t, db), resolver{db}) {
			if err := sendBy(t, steady, to, "SELECT ?, ?, ?, ?, ?", values...); err != nil {
				t.Error(err)
			}
			if err := sendBy(t, steady, to, "SELECT ?", In(values)); err != nil {
				t.Error(err)
			}
		}
		if len(server.texts) != 16 || server.asked > 0 {
			t.Errorf("%q, asked %d times", server.texts, server.asked)
		}
		session, err := steady.Ask(ctx, connections(t, db)[2])
		must(nil, err)
		_, err = session.ExecContext(ctx, "SELECT ?", In(values))
		must(nil, err)
		for _, text := range append(server.texts, must(session.Bind("SELECT ?, ?, ?, ?, ?", values...)).(string)) {
			if text != wanted {
				t.Errorf("%q", text)
			}
		}
		for query, code := range map[string]Code{"SELECT ü, ?": CodeUnsteady, "SELECT [?": CodeUnportable} {
			var found *BindError
			if _, err := session.ExecContext(ctx, query, 1); !errors.As(err, &found) || found.Code != code {
				t.Errorf("%s: %v", query, err)
			}
		}
		if _, err := session.Bind("SELECT ?", Identifier{"ü"}); !errors.Is(err, ErrUnsteadyFragment) {
			t.Error(err)
		}
	}
}

// TestSteadyOtherQueries has a Binder that is Steady ask for what BindAnywhere doesn't take.
func TestSteadyOtherQueries(t *testing.T) {
	for mode, sqlMode := range sqlModes {
		literal := map[Mode]string{BackslashEscapes: `'\\\''`, NoBackslashEscapes: `'\'''`}[mode]
		server, db := open(t, sqlMode, "utf8mb4")
		for _, to := range connections(t, db) {
			server.texts, server.asked = nil, 0
			if err := sendBy(t, Binder{Steady: true}, to, "SELECT ü, ?", `\'`); err != nil {
				t.Error(err)
			}
			if err := sendBy(t, Binder{Steady: true}, to, "SELECT ?, ?", Identifier{"ü"}, `\'`); err != nil {
				t.Error(err)
			}
			first, second := "SELECT ü, "+literal, "SELECT `ü`, "+literal
			if !reflect.DeepEqual(server.texts, []string{first, first, second, second}) || server.asked != 4 {
				t.Errorf("%T: %q, asked %d times", to, server.texts, server.asked)
			}
		}
		if err := sendBy(t, Binder{Steady: true}, resolver{db}, "SELECT ü, ?", 1); !errors.Is(err, ErrSession) {
			t.Error(err)
		}
	}
}

// TestValuersThatAreSent has a method Value asked once in a call, however often its literal is written, and also if the
// query is refused by another value.
func TestValuersThatAreSent(t *testing.T) {
	ctx := context.Background()
	empty := []int{}
	for i := 0; i < 4; i++ {
		for _, charset := range []string{"utf8mb4", "latin1"} {
			_, db := open(t, "NO_BACKSLASH_ESCAPES", charset)
			session := &Session{conn: db, mode: NoBackslashEscapes}
			for query, b := range map[string]any{
				"SELECT :a, :b": `é\`, "SELECT 2, :a, :b": "it's", "SELECT ü, :a, :b": "é", "SELECT :a AS :b": Identifier{"é"},
				"SELECT :a IN (:b)": empty, "SELECT 'ü' = :a IN (:b)": empty, "SELECT [, :a, :b": "é",
			} {
				for name, by := range map[string]func(args ...any) error{
					"ExecContext": func(args ...any) error { _, err := ExecContext(ctx, db, query, args...); return err },
					"Steady": func(args ...any) error {
						_, err := Binder{Steady: true}.ExecContext(ctx, db, query, args...)
						return err
					},
					"a Session":    func(args ...any) error { _, err := session.ExecContext(ctx, query, args...); return err },
					"BindAnywhere": func(args ...any) error { _, err := BindAnywhere(query, args...); return err },
					"Bind":         func(args ...any) error { _, err := Bind(BackslashEscapes, query, args...); return err },
				} {
					var inOrder, other counted
					err := by(sql.Named("a", &inOrder), sql.Named("b", b))
					err2 := by(sql.Named("b", b), sql.Named("a", &other))
					if inOrder != 1 || other != 1 || fmt.Sprint(err) != fmt.Sprint(err2) {
						t.Errorf("%s, %s: asked %d and %d times: %v, %v", name, query, inOrder, other, err, err2)
					}
				}
			}
		}
	}
}

// TestSteadyBytes has each byte found that isn't ASCII, and the backslash, wherever it stands in a text.
func TestSteadyBytes(t *testing.T) {
	for length := 0; length < 20; length++ {
		text := []byte(strings.Repeat("\x7f", length))
		if !isSteady(string(text)) {
			t.Errorf("%q", text)
		}
		for at := range text {
			for b := 0; b < 256; b++ {
				text[at] = byte(b)
				if isSteady(string(text)) != (b < 128 && b != '\\') {
					t.Errorf("%q", text)
				}
			}
			text[at] = 0
		}
	}
}

// TestNamesGivenAfterAll has the form of values without their names be that with names once these are given.
func TestNamesGivenAfterAll(t *testing.T) {
	long := strings.Repeat("n", 300)
	names := []string{"a", long, "B"}
	args := []any{sql.Named("a", "it's"), sql.Named(long, [][]any{{1, "x"}}), sql.Named("B", upper{"x"})}
	var without, with writer
	if is, err := without.inOrder(names, args); !is || err != nil {
		t.Fatal(is, err)
	}
	must(nil, with.arguments(args))
	without.giveNames()
	if !reflect.DeepEqual(without.form, with.form) || without.left != nil || !without.fragments {
		t.Errorf("%q, and not %q", without.form, with.form)
	}
}
