package mysqlparams

import (
	"database/sql"
	"math"
	"regexp"
	"strings"
	"testing"
)

// inGo has Go's messages for those of cases: patterns, and what stands in their place.
var inGo = [][2]string{
	{"Named and positional params in one query", "The query has both `:name` and `?`: write one of them"},
	{"Missing named parameter (`)(\\w+` )for statement(.*)", "$1:${2}has no value$3"},
	{"Redefinition of named parameter (`)(.*)'", "$1:$2` is given twice"},
	{"Named params given where positional params are expected(?:: no .*)?", withoutName},
	{"Named params given where positional params are expected(: names are of .*)", withoutName + "$1"},
	{"Positional params given .*", `The query has names: give the values by name, as sql.Named("id", 42)`},
	{"Query has (\\d+) marks and (\\d+) values", "The query has $1 `?`, and $2 values are given"},
	{"Float at (place \\d+); .*", "The value for $1" + notWritten},
	{"Float at place \\d+: the value of (`:\\w+`); .*", "The value for $1" + notWritten},
	{"(Backslash or .*)bind_in_both_modes(.*)", "${1}BindInBothModes$2"},
	{"Parameter (\\d+) at byte .*: Named and positional .*", "Argument $1 differs from those before it: give all a name, or none"},
	{"Fragment at (place \\d+) has a name with (.*byte that is not ASCII)", "An Identifier for $1 has $2"},
	{"Fragment at place \\d+ has a name with (.*): the value of (`:\\w+`)", "An Identifier for $2 has $1"},
	{"(.* is one value here, .*, or) say by type 129 or 130 .*", "$1 give In(..)"},
	{"Fragment at (place \\d+) can't be written: it is empty", "The list for $1 is empty"},
	{"Fragment at place \\d+ can't be written: it is empty: the value of (`:\\w+`)", "The list for $1 is empty"},
	{"Fragment at (place \\d+) can't be written: row (\\d+) (.*)", "Row $2 for $1 $3"},
	{"Fragment at (place \\d+) can't be written: name (\\d+) (.*)", "Name $2 for $1 $3"},
	{"Fragment at (place \\d+) can't be written: it is none of the keywords .*", "The keyword for $1 is none of Keywords"},
}

const (
	withoutName = "The values have names, and the query has no `:name` outside of strings and comments"
	unbracketed = " is one value here, and was given a list: write it alone in brackets, as "
	notWritten  = " is a float that isn't written: give nil for NaN and infinities, else a text"
)

// touches has what Go says of the queries of cases whose place doesn't stand alone.
var touches = map[string]string{
	"1?":            "`?` at byte 1 touches `1`: put a space between",
	"?A":            "`?` at byte 0 touches `A`: put a space between",
	":abc, x:b":     "`:b` at byte 7 touches `x`: put a space between",
	`SELECT 'a\':b`: "`:b` at byte 11 touches `'`: put a space between",
	"lbl:LOOP":      "`:LOOP` at byte 3 touches `l`: put a space between",
	"SELECT :Größe": "`:Gr` at byte 7 touches `\\xc3`: names are of ASCII letters, digits and _, so `:Gr\\xc3\\xb6\\xc3\\x9fe` ends after `Gr`",
}

// wantedMessage returns the message of a case as Go has it, if the case has one.
func (c *sharedCase) wantedMessage() string {
	told := c.message
	if told == "" {
		told = c.messageInC
	}
	if strings.Contains(told, "does not stand alone") {
		return touches[c.query]
	}
	for _, one := range inGo {
		if pattern := regexp.MustCompile("^" + one[0] + "$"); pattern.MatchString(told) {
			return pattern.ReplaceAllString(told, one[1])
		}
	}
	return told
}

// TestMessages has what is wrong said in the words of Go's callers.
func TestMessages(t *testing.T) {
	for _, c := range []struct {
		query   string
		args    []any
		message string
	}{
		{"SELECT 1?", []any{1}, "`?` at byte 8 touches `1`: put a space between"},
		{"SELECT ?e", []any{1}, "`?` at byte 7 touches `e`: put a space between"},
		{"SELECT é?", []any{1}, "`?` at byte 9 touches `\\xa9`: put a space between"},
		{"SELECT (?é)", []any{1}, "`?` at byte 8 touches `\\xc3`: put a space between"},
		{"SELECT x::Text", []any{sql.Named("Text", 1)}, "`:Text` at byte 9 touches `:`: put a space between"},
		{"SELECT :a\"\"", []any{sql.Named("a", 1)}, "`:a` at byte 7 touches `\\x22`: put a space between"},
		{"SELECT b.:c", []any{sql.Named("c", 1)}, "`:c` at byte 9 touches `.`: " +
			"for a name with a point write one place, and give an Identifier of two names"},
		{"SELECT ?.b", []any{1}, "`?` at byte 7 touches `.`: " +
			"for a name with a point write one place, and give an Identifier of two names"},
		{"IN (:ids)", []any{sql.Named("ids", []int{})}, "The list for `:ids` is empty"},
		{"IN (:a, :b)", []any{sql.Named("b", In([]any{})), sql.Named("a", 1)}, "The list for `:b` is empty"},
		{"?, ?", []any{1, In([]string{})}, "The list for place 1 is empty"},
		{"VALUES ?", []any{[][]any{}}, "The list for place 0 is empty"},
		{"VALUES ?", []any{[][]any{{1}, {}}}, "Row 1 for place 0 is empty"},
		{"VALUES :r", []any{sql.Named("r", [][]any{{1}, {1, 2}})}, "Row 1 for `:r` is not as long as the first"},
		{"FROM ?", []any{Identifier{}}, "The list for place 0 is empty"},
		{"IN (?)", []any{[]Identifier{{"a"}, {}}}, "The list for place 0 is empty"},
		{"SET ?", []any{Assignments{}}, "The list for place 0 is empty"},
		{"SET ?", []any{Assignments{{nil, 1}}}, "The list for place 0 is empty"},
		{"FROM ?", []any{Identifier{"a", "b\x00"}}, "Name 1 for place 0 has a byte 0"},
		{"? < :a", nil, "The query has both `:name` and `?`: write one of them"},
		{"a < :a", []any{sql.Named("a", Decimal("1e5"))}, "The Decimal for `:a` is no exact number"},
		{"IN (?)", []any{[]any{1, Decimal("")}}, "The Decimal in item 1 for place 0 is no exact number"},
		{"VALUES ?", []any{[][]any{{1}, {Decimal("x")}}}, "The Decimal in item 0 of row 1 for place 0 is no exact number"},
		{"ORDER BY a :o", []any{sql.Named("o", Keyword("desc"))}, "The keyword for `:o` is none of Keywords"},
		{"? < ?", []any{1, math.NaN()}, "The value for place 1 is a float that isn't written: give nil for NaN and infinities, else a text"},
		{"? < ?", []any{1}, "The query has 2 `?`, and 1 values are given"},
		{"'?' < :a, :b", []any{sql.Named("a", 1)}, "`:b` has no value"},
		{":größe", []any{sql.Named("größe", 1)}, "`:gr` has no value: " +
			"names are of ASCII letters, digits and _, so `:gr\\xc3\\xb6\\xc3\\x9fe` ends after `gr`"},
		{"':a'", []any{sql.Named("a", 1)}, withoutName},
		{"a < :a", []any{1}, `The query has names: give the values by name, as sql.Named("id", 42)`},
		{"SET a = :a", []any{sql.Named("a", []int{1})}, "`:a`" + unbracketed + "`IN (:a)`, or give In(..)"},
		{"JSON_SET(a, '$.b', ?)", []any{[]any{1}}, "`?` at byte 19" + unbracketed + "`IN (?)`, or give In(..)"},
		{"VALUES ?, ?", []any{[][]any{{1}}, [][]any{{2}}}, "`?` at byte 10" + unbracketed + "`IN (?)`, or give In(..)"},
		{":a", []any{sql.Named("a", 1), sql.Named("a", 1)}, "`:a` is given twice"},
		{":a, ?", []any{sql.Named("a", 1), 2}, "Argument 1 differs from those before it: give all a name, or none"},
	} {
		if _, err := Bind(BackslashEscapes, c.query, c.args...); err == nil || err.Error() != c.message {
			t.Errorf("%s: %v", c.query, err)
		}
		_, err := BindRows(BackslashEscapes, c.query, [][]any{c.args})
		if err == nil || err.Error() != "row 0: "+c.message {
			t.Errorf("%s: %v", c.query, err)
		}
	}
	_, err := BindAnywhere("SELECT * FROM :t", sql.Named("t", Identifier{"é"}))
	if err == nil || err.Error() != "An Identifier for `:t` has a backslash or a byte that is not ASCII" {
		t.Error(err)
	}
}
