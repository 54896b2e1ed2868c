package mysqlparams

import (
	"database/sql"
	"database/sql/driver"
	"errors"
	"fmt"
	"strings"
	"sync"
	"testing"
)

// TestKeptQueries has a query bound again and again by values in the order of its places, in another one, and
// by more values than names.
func TestKeptQueries(t *testing.T) {
	a, b, more := sql.Named("a", "it's"), sql.Named("B", In([]any{1, 0.5})), sql.Named("c", 3)
	valuer := sql.Named("B", upper{"x"})
	for query, each := range map[string][]struct {
		args   []any
		wanted string
	}{
		"SELECT :a, '?:a', :B": {
			{[]any{a, b}, `SELECT 'it\'s', '?:a', 1, 0.5e0`}, {[]any{b, a}, `SELECT 'it\'s', '?:a', 1, 0.5e0`},
			{[]any{a, b, more}, `SELECT 'it\'s', '?:a', 1, 0.5e0`}, {[]any{a, valuer}, `SELECT 'it\'s', '?:a', 'X'`},
		},
		"SELECT :a, :B, :a": {{[]any{a, b}, `SELECT 'it\'s', 1, 0.5e0, 'it\'s'`}, {[]any{b, a}, `SELECT 'it\'s', 1, 0.5e0, 'it\'s'`}},
		"SELECT ?, ?":       {{[]any{1, nil}, "SELECT 1, NULL"}, {[]any{[]byte{0xff}, Identifier{"x"}}, "SELECT 0xFF, `x`"}},
		"SELECT 1":          {{nil, "SELECT 1"}},
	} {
		for i := 0; i < 4; i++ {
			for _, c := range each {
				if text, err := Bind(BackslashEscapes, query, c.args...); err != nil || text != c.wanted {
					t.Errorf("%s: %q, %v", query, text, err)
				}
			}
		}
		if found := keptTemplate(BackslashEscapes, query); found == nil || found.Query() != query {
			t.Errorf("%s: not kept", query)
		}
	}
	names := keptTemplate(BackslashEscapes, "SELECT :a, '?:a', :B").names
	for _, c := range []struct {
		args []any
		is   bool
	}{{[]any{a, b}, true}, {[]any{b, a}, false}, {[]any{a}, false}, {[]any{a, 1}, false}} {
		var w writer
		if is, err := w.inOrder(names, c.args); is != c.is || err != nil {
			t.Error(c.args, is, err)
		}
	}
	if keptTemplate(BackslashEscapes, "SELECT :a, :B, :a").marked != nil {
		t.Error("a name that stands twice can't do without names")
	}
}

// counted is a driver.Valuer that counts how often it is asked.
type counted int

func (c *counted) Value() (driver.Value, error) {
	*c++
	return int64(*c), nil
}

// TestValuersOfKeptQueries has a method Value be asked once for each text, also of arguments in another order, without
// names and beside a value that is refused.
func TestValuersOfKeptQueries(t *testing.T) {
	refused := sql.Named("b", make(chan int))
	for i := 0; i < 4; i++ {
		for _, c := range []struct {
			rest   []any
			wanted string
		}{{[]any{sql.Named("b", 7), sql.Named("c", 8)}, "SELECT 1, 7, 8"}, {[]any{sql.Named("c", 8), sql.Named("b", 7)}, "SELECT 1, 7, 8"},
			{[]any{refused, sql.Named("c", 8)}, ""}, {[]any{sql.Named("b", 7), 8}, ""}, {[]any{sql.Named("c", 8), sql.Named("", 7)}, ""}} {
			var asked counted
			text, err := BindAnywhere("SELECT :a, :b, :c", append([]any{sql.Named("a", &asked)}, c.rest...)...)
			if text != c.wanted || (err == nil) != (c.wanted != "") || asked != 1 {
				t.Errorf("%v: %q, %v, asked %d times", c.rest, text, err, asked)
			}
		}
	}
	var found *BindError
	_, err := BindAnywhere("SELECT ?, ?", sql.Named("a", 1), sql.Named("", 2))
	if !errors.As(err, &found) || found.Name != "" || found.Place != 1 {
		t.Errorf("%#v", found)
	}
	_, err = BindRows(BackslashEscapes, "SELECT :a", [][]any{{sql.Named("a", 1)}, {sql.Named("", 2)}})
	if !errors.As(err, &found) || found.Name != "" || found.Row != 1 {
		t.Errorf("%#v", found)
	}
}

// TestKeptAnywhere has queries bound for any connection again and again: by values in the order of the places, in
// another one, by fragments, and by too few values or too many; and queries that BindAnywhere refuses.
func TestKeptAnywhere(t *testing.T) {
	a, b := sql.Named("a", "it's"), sql.Named("B", "é")
	for query, each := range map[string][]struct {
		args   []any
		wanted string
	}{
		"SELECT :a, '?:a', :B": {
			{[]any{a, b}, "SELECT _utf8mb4'it''s', '?:a', _utf8mb4 0xC3A9"},
			{[]any{b, a}, "SELECT _utf8mb4'it''s', '?:a', _utf8mb4 0xC3A9"},
			{[]any{a, sql.Named("B", 0.5)}, "SELECT _utf8mb4'it''s', '?:a', 0.5e0"},
			{[]any{b}, ""},
		},
		"SELECT ?": {{[]any{nil}, "SELECT NULL"}, {[]any{In([]int{1, 2})}, "SELECT 1, 2"}, {[]any{1, 2}, ""}},
		"SELECT 2": {{nil, "SELECT 2"}},
	} {
		for i := 0; i < 4; i++ {
			for _, c := range each {
				text, err := BindAnywhere(query, c.args...)
				if text != c.wanted || (err != nil) != (c.wanted == "") {
					t.Errorf("%s: %q, %v", query, text, err)
				}
			}
		}
		if found := keptTemplate(BackslashEscapes, query); found == nil || found.anywhere == nil {
			t.Errorf("%s: no table is kept", query)
		}
	}
	for i := 0; i < 4; i++ {
		var found *BindError
		if _, err := BindAnywhere("SELECT 'é', :a", a); !errors.As(err, &found) || found.Code != CodeUnsteady {
			t.Errorf("%v", err)
		}
		if _, err := BindAnywhere("SELECT /*+ SET_VAR(x=:a) */ 1", a); !errors.As(err, &found) || found.Code != CodeUnportable {
			t.Errorf("%v", err)
		}
	}
}

// TestModesOfKeptQueries has queries bound in both modes by turns, of which one has a place in one mode only.
func TestModesOfKeptQueries(t *testing.T) {
	value := sql.Named("a", `\`)
	for i := 0; i < 4; i++ {
		for _, c := range []struct {
			mode          Mode
			query, wanted string
			args          []any
		}{
			{BackslashEscapes, `SELECT '\' -- ', :a`, `SELECT '\' -- ', '\\'`, []any{value}},
			{NoBackslashEscapes, `SELECT '\' -- ', :a`, `SELECT '\' -- ', :a`, nil},
			{BackslashEscapes, `SELECT :a`, `SELECT '\\'`, []any{value}},
			{NoBackslashEscapes, `SELECT :a`, `SELECT '\'`, []any{value}},
		} {
			if text, err := Bind(c.mode, c.query, c.args...); err != nil || text != c.wanted {
				t.Errorf("%v %s: %q, %v", c.mode, c.query, text, err)
			}
		}
	}
}

// TestSessionsOfKeptQueries has queries refused that aren't portable, however often they were bound.
func TestSessionsOfKeptQueries(t *testing.T) {
	session := &Session{mode: BackslashEscapes}
	for i := 0; i < 4; i++ {
		if text, err := session.Bind("SELECT :p", sql.Named("p", "é")); err != nil || text != "SELECT 'é'" {
			t.Errorf("%q, %v", text, err)
		}
		var found *BindError
		text, err := session.Bind("SELECT 1 /*! :p */", sql.Named("p", 1))
		if !errors.As(err, &found) || found.Code != CodeUnportable || text != "" {
			t.Errorf("%q, %v", text, err)
		}
		if _, err := Bind(BackslashEscapes, "SELECT 1 /*! :p */", sql.Named("p", 1)); errors.As(err, &found) && found.Code == CodeUnportable {
			t.Error(err)
		}
	}
}

// TestKeptQueriesForAnyConnection has queries bound again and again to texts for any connection, and refused.
func TestKeptQueriesForAnyConnection(t *testing.T) {
	for i := 0; i < 4; i++ {
		text, err := BindAnywhere("SELECT ':a', :a, :B", sql.Named("a", "it's"), sql.Named("B", Identifier{"b"}))
		if err != nil || text != "SELECT ':a', _utf8mb4'it''s', `b`" {
			t.Errorf("%q, %v", text, err)
		}
		for query, code := range map[string]Code{
			"SELECT /*!1*/ :p": CodeUnportable, "SELECT 'é', :p": CodeUnsteady, `SELECT '\n', :p`: CodeUnsteady,
			"SELECT ':a', :p, :a": CodeMissing,
		} {
			var found *BindError
			text, err := BindAnywhere(query, sql.Named("p", 1))
			if !errors.As(err, &found) || found.Code != code || text != "" {
				t.Errorf("%s: %q, %v", query, text, err)
			}
			if query == "SELECT /*!1*/ :p" && i == 3 && keptTemplate(BackslashEscapes, query).marked == nil {
				t.Error("the query isn't kept")
			}
		}
	}
}

// TestManyKeptQueries has more queries than are kept, by many goroutines at once, and one that is too long.
func TestManyKeptQueries(t *testing.T) {
	var all sync.WaitGroup
	for worker := 0; worker < 4; worker++ {
		all.Add(1)
		go func() {
			defer all.Done()
			for i := 0; i < 3*mostKept; i++ {
				query := fmt.Sprintf("SELECT :a%d", i)
				for j := 0; j < 3; j++ {
					value := sql.Named(fmt.Sprint("a", i), j)
					text, err := Bind(BackslashEscapes, query, value)
					if err != nil || text != fmt.Sprint("SELECT ", j) {
						t.Errorf("%s: %q, %v", query, text, err)
					}
					text, err = BindAnywhere(query, value)
					if err != nil || text != fmt.Sprint("SELECT ", j) {
						t.Errorf("%s: %q, %v", query, text, err)
					}
				}
			}
		}()
	}
	all.Wait()
	if count := len(lastWithEscapes.kept); count == 0 || count > mostKept {
		t.Error(count, "queries are kept")
	}
	long := "SELECT ?" + strings.Repeat(" ", longestKept)
	for i := 0; i < 3; i++ {
		if text, err := Bind(BackslashEscapes, long, 1); err != nil || text != strings.Replace(long, "?", "1", 1) {
			t.Error(err)
		}
	}
	if _, seen := lastWithEscapes.kept[long]; seen {
		t.Error("a long query is kept")
	}
}
