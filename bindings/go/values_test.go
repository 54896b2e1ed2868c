package mysqlparams

import (
	"database/sql"
	"database/sql/driver"
	"encoding/json"
	"errors"
	"fmt"
	"math"
	"math/big"
	"reflect"
	"strings"
	"testing"
	"time"
	"unsafe"
)

type (
	status   int8
	small    uint16
	color    uint8
	truth    bool
	label    string
	raw      []byte
	ratio    float64
	labels   []label
	columns  []Identifier
	shape    struct{ Side int }
	stringer struct{ text string }
	upper    struct{ text string }
	pointed  struct{ text string }
	ids      []int
	broken   struct{}
	endless  struct{}
	toWide   struct{}
)

func (s status) String() string                 { return "no number" }
func (s stringer) String() string               { return s.text }
func (u upper) Value() (driver.Value, error)    { return strings.ToUpper(u.text), nil }
func (p *pointed) Value() (driver.Value, error) { return p.text, nil }
func (i ids) Value() (driver.Value, error)      { return fmt.Sprint([]int(i)), nil }
func (b broken) Value() (driver.Value, error)   { return nil, errBroken }
func (e endless) Value() (driver.Value, error)  { return e, nil }
func (toWide) Value() (driver.Value, error)     { return uint64(math.MaxUint64), nil }

var errBroken = errors.New("secret")

func pointerTo[T any](value T) *T { return &value }

// bound returns the literal of one value, by Bind, in the brackets of IN, where a slice may stand.
func bound(t *testing.T, value any) string {
	t.Helper()
	text, err := Bind(BackslashEscapes, "IN (?)", value)
	if err != nil {
		t.Errorf("%T: %v", value, err)
	}
	named, err := Bind(BackslashEscapes, "IN (:a)", sql.Named("a", value))
	if err != nil || named != text {
		t.Errorf("%T by name: %q, %v", value, named, err)
	}
	return strings.TrimSuffix(strings.TrimPrefix(text, "IN ("), ")")
}

func bigOf(text string) *big.Int {
	made, _ := new(big.Int).SetString(text, 10)
	return made
}

func TestValues(t *testing.T) {
	summer := time.Date(2024, 7, 1, 14, 30, 0, 0, time.FixedZone("", 2*3600))
	nested := pointerTo(pointerTo(pointerTo(7)))
	for _, c := range []struct {
		value  any
		wanted string
	}{
		{nil, "NULL"},
		{true, "1"}, {false, "0"}, {truth(true), "1"},
		{int(math.MinInt64), "-9223372036854775808"}, {int8(-128), "-128"}, {int16(-32768), "-32768"},
		{int32(math.MinInt32), "-2147483648"}, {int64(math.MaxInt64), "9223372036854775807"},
		{uint(math.MaxUint64), "18446744073709551615"}, {uint8(255), "255"}, {uint16(65535), "65535"},
		{uint32(math.MaxUint32), "4294967295"}, {uint64(math.MaxUint64), "18446744073709551615"},
		{status(-1), "-1"}, {small(7), "7"}, {'a', "97"},
		{"it's", `'it\'s'`}, {"", "''"}, {label("é"), "'é'"}, {"a\x00", `'a\0'`},
		{[]byte("it's"), `'it\'s'`}, {[]byte{}, "''"}, {[]byte(nil), "NULL"}, {raw("x"), "'x'"}, {raw(nil), "NULL"},
		{[]color{1, 2}, "1, 2"}, {[][]color{{1}, {2}}, "(1), (2)"},
		{json.RawMessage(`{"a":1}`), `'{\"a\":1}'`}, {json.Number("1.50"), "'1.50'"},
		{"\xff\x00", "0xFF00"}, {[]byte{0xC3, 0x28}, "0xC328"},
		{1.5, "1.5e0"}, {float32(0.1), "0.10000000149011612e0"}, {ratio(-0.25), "-0.25e0"}, {math.MaxFloat64,
			"1.7976931348623157e308"},
		{summer, "'2024-07-01 14:30:00'"}, {summer.UTC(), "'2024-07-01 12:30:00'"}, {&summer,
			"'2024-07-01 14:30:00'"},
		{time.Time{}, "'0001-01-01'"}, {time.Date(2024, 2, 29, 0, 0, 0, 0, time.UTC), "'2024-02-29'"},
		{time.Date(2024, 2, 29, 1, 2, 3, 999999499, time.UTC), "'2024-02-29 01:02:03.999999'"},
		{time.Date(2024, 2, 28, 23, 59, 59, 999999500, time.UTC), "'2024-02-29'"},
		{time.Date(9999, 12, 31, 23, 59, 59, 999999000, time.UTC), "'9999-12-31 23:59:59.999999'"},
		{time.Duration(0), "'000:00:00'"}, {-time.Microsecond,
			"'-000:00:00.000001'"}, {26*time.Hour + 500*time.Nanosecond, "'026:00:00.000001'"},
		{time.Duration(math.MinInt64), "'-2562047:47:16.854776'"},
		{bigOf("-5"), "-5"}, {bigOf("18446744073709551615"), "18446744073709551615"}, {(*big.Int)(nil), "NULL"},
		{bigOf("-170141183460469231731687303715884105728"), "-170141183460469231731687303715884105728"},
		{bigOf("-" + strings.Repeat("9", 65)), "-" + strings.Repeat("9", 65)},
		{Decimal("-1.50"), "-1.50"}, {Decimal(strings.Repeat("9", 65)), strings.Repeat("9", 65)},
		{(*int)(nil), "NULL"}, {(*string)(nil), "NULL"}, {(*shape)(nil), "NULL"}, {nested, "7"}, {pointerTo("a"),
			"'a'"},
		{sql.NullString{String: "a", Valid: true}, "'a'"}, {sql.NullString{},
			"NULL"}, {sql.NullInt64{Int64: 5, Valid: true}, "5"},
		{sql.NullFloat64{Float64: 0.5, Valid: true}, "0.5e0"}, {sql.NullBool{Bool: true, Valid: true},
			"1"}, {&sql.NullInt32{}, "NULL"},
		{sql.NullTime{Time: summer, Valid: true}, "'2024-07-01 14:30:00'"}, {sql.RawBytes("x"), "'x'"},
		{upper{"a"}, "'A'"}, {&upper{"a"}, "'A'"}, {(*upper)(nil), "NULL"}, {&pointed{"a"}, "'a'"}, {ids{1, 2},
			"'[1 2]'"},
		{toWide{}, "18446744073709551615"},
		{[]int{1, -2}, "1, -2"}, {[]int64{3}, "3"}, {[]string{"a", "b"},
			"'a', 'b'"}, {[]any{1, "a", nil, 0.5, Decimal("0.10")}, "1, 'a', NULL, 0.5e0, 0.10"},
		{labels{"a", "b"}, "'a', 'b'"}, {[][]byte{[]byte("a"), {0xff}, nil}, "'a', 0xFF, NULL"}, {[]uint16{1, 2},
			"1, 2"},
		{[]*int{pointerTo(1), nil}, "1, NULL"}, {[]sql.NullString{{}, {String: "x", Valid: true}}, "NULL, 'x'"},
		{[]time.Duration{time.Second}, "'000:00:01'"}, {&[]int{1}, "1"}, {[]any{bigOf("99999999999999999999"),
			upper{"b"}}, "99999999999999999999, 'B'"},
		{[]ids{{1}, {2}}, "'[1]', '[2]'"},
		{[][]any{{1, "a"}, {2, nil}}, "(1, 'a'), (2, NULL)"}, {[][]int{{1, 2}, {3, 4}}, "(1, 2), (3, 4)"},
		{[]any{[]any{1, 2.5}, []int{3, 4}}, "(1, 2.5e0), (3, 4)"},
		{[]fmt.Stringer{status(1), nil}, "1, NULL"}, {[]driver.Valuer{ids{1}, ids{2}}, "'[1]', '[2]'"}, {[][][]byte{{[]byte("a")}}, "('a')"},
		{Identifier{"a`b"}, "`a``b`"}, {Identifier{"shop", "t.x"}, "`shop`.`t.x`"}, {Keyword("DESC"), "DESC"},
		{[]Identifier{{"a"}, {"t", "b`"}}, "`a`, `t`.`b```"}, {[]any{Identifier{"a"}, &Identifier{"b"}}, "`a`, `b`"},
		{[]*Identifier{{"a"}}, "`a`"}, {&columns{{"a"}}, "`a`"},
		{Assignments{{Identifier{"a"}, 1}, {Identifier{"t", "b"}, "it's"}, {Identifier{"a"}, nil}},
			"`a` = 1, `t`.`b` = 'it\\'s', `a` = NULL"},
		{[]Assignment{{Identifier{"a"}, Decimal("-1.50")}, {Identifier{"b"}, 0.5}}, "`a` = -1.50, `b` = 0.5e0"},
		{&Assignments{{Identifier{"a"}, &upper{"a"}}, {Identifier{"b"}, []byte{0xff}}, {Identifier{"c"}, summer}},
			"`a` = 'A', `b` = 0xFF, `c` = '2024-07-01 14:30:00'"},
	} {
		if text := bound(t, c.value); text != c.wanted {
			t.Errorf("%T %v: %s", c.value, c.value, text)
		}
	}
}

// refused returns the error for one value, which holds no part of it.
func refused(t *testing.T, value any) *BindError {
	t.Helper()
	var found *BindError
	if text, err := Bind(BackslashEscapes, "IN (?)", value); !errors.As(err, &found) {
		t.Fatalf("%T: %q, %v", value, text, err)
	}
	return found
}

// What messages say to give instead.
const (
	insteadOfMap  = "for SET give Assignments, which have an order, else json.Marshal's bytes of it"
	insteadOfItem = "lists and rows are of values, or a slice of Identifiers only, so write a place for each"
)

func TestRefusedValues(t *testing.T) {
	var endlessPointer any
	endlessPointer = &endlessPointer
	for _, c := range []struct {
		value any
		says  string
	}{
		{shape{1}, "is of type mysqlparams.shape, which has no literal: give its parts, or json.Marshal's bytes of it"},
		{&shape{1}, "is of type mysqlparams.shape, which has no literal: give its parts, or json.Marshal's bytes of it"},
		{map[string]int{"a": 1}, "is of type map[string]int, which has no literal: " + insteadOfMap},
		{Assignment{Identifier{"a"}, 1}, "is of type mysqlparams.Assignment, which has no literal: give Assignments{..} of it"},
		{stringer{"x"}, "is of type mysqlparams.stringer, which has no literal: give its parts, or json.Marshal's bytes of it"},
		{make(chan int), "is of type chan int, which has no literal"},
		{func() {}, "is of type func(), which has no literal"},
		{[2]int{1, 2}, "is of type [2]int, which has no literal: give a slice of it, as a[:]"},
		{1i, "is of type complex128, which has no literal"},
		{uintptr(1), "is of type uintptr, which has no literal"},
		{unsafe.Pointer(t), "is of type unsafe.Pointer, which has no literal"},
		{big.NewFloat(0.5), "is of type big.Float, which has no literal: give its parts, or json.Marshal's bytes of it"},
		{big.NewRat(1, 3), "is of type big.Rat, which has no literal: give its parts, or json.Marshal's bytes of it"},
		{*big.NewInt(1), "is of type big.Int, which has no literal: give its parts, or json.Marshal's bytes of it"},
		{sql.Out{}, "is of type sql.Out, which has no literal: give its parts, or json.Marshal's bytes of it"},
		{time.Date(10000, 1, 1, 0, 0, 0, 0, time.UTC),
			"is a time.Time of the year 10000, and a date has years from 0 to 9999"},
		{time.Date(9999, 12, 31, 23, 59, 59, 999999999, time.UTC),
			"is a time.Time of the year 10000, and a date has years from 0 to 9999"},
		{time.Date(-1, 1, 1, 0, 0, 0, 0, time.UTC),
			"is a time.Time of the year -1, and a date has years from 0 to 9999"},
		{Decimal(strings.Repeat("9", 66)), "is an exact number of 66 digits, and servers keep 65: round it"},
		{new(big.Int).Exp(big.NewInt(10), big.NewInt(65), nil),
			"is an exact number of 66 digits, and servers keep 65: round it"},
		// Their digits, which take long to find, aren't counted.
		{new(big.Int).Lsh(big.NewInt(1), 1<<25), "is an exact number of more than 65 digits, and servers keep 65: round it"},
		{new(big.Int).Lsh(big.NewInt(-1), 216), "is an exact number of more than 65 digits, and servers keep 65: round it"},
		{endless{}, "is a driver.Valuer or a pointer that leads to no value"},
		{endlessPointer, "is a driver.Valuer or a pointer that leads to no value"},
		{[]any{1, []any{2}}, "has rows and values: give a slice of values, or one of rows only"},
		{[]any{[]any{1}, nil}, "has rows and values: give a slice of values, or one of rows only"},
		{[][]any{{1, []int{2}}}, "has a slice in a row: rows are of values"},
		{[][][]int{{{1}}}, "has a slice in a row: rows are of values"},
		{[]any{Identifier{"a"}, 1}, "has an item that is an Identifier: " + insteadOfItem},
		{[]any{1, Identifier{"a"}}, "has an item that is an Identifier: " + insteadOfItem},
		{[]*Identifier{{"a"}, nil}, "has an item that is an Identifier: " + insteadOfItem},
		{[][]Identifier{{{"a"}}}, "has an item that is an Identifier: " + insteadOfItem},
		{[]KeywordOf{Keyword("ASC")}, "has an item that is a keyword: " + insteadOfItem},
		{[]any{Assignments{}}, "has an item that is Assignments: " + insteadOfItem},
		{[][]Assignment{{}}, "has an item that is Assignments: " + insteadOfItem},
		{[]any{map[string]int{}}, "is of type map[string]int, which has no literal: " + insteadOfMap},
		{Assignments{{Identifier{"a"}, 1}, {Identifier{"t", "b`\n"}, []int{1}}}, "sets `t`.`b`\\x0a` to a slice: a column takes one value"},
		{Assignments{{Identifier{"a"}, []any{}}}, "sets `a` to a slice: a column takes one value"},
		{Assignments{{Identifier{"a"}, &labels{"x"}}}, "sets `a` to a slice: a column takes one value"},
		{Assignments{{Identifier{"a"}, Identifier{"b"}}}, "sets `a` to an Identifier: a column takes one value"},
		{Assignments{{Identifier{"a"}, Keyword("DEFAULT")}}, "sets `a` to a keyword: a column takes one value"},
		{Assignments{{Identifier{"a"}, []Assignment{}}}, "sets `a` to Assignments: a column takes one value"},
		{Assignments{{Identifier{"a"}, map[string]any{}}}, "is of type map[string]interface {}, which has no literal: " + insteadOfMap},
	} {
		found := refused(t, c.value)
		if found.Code != CodeValue || found.Place != 0 || found.Row != -1 ||
			found.Error() != "the value for place 0 "+c.says {
			t.Errorf("%T: %s", c.value, found)
		}
		_, err := Bind(BackslashEscapes, ":a + :b", sql.Named("a", 1), sql.Named("b", c.value))
		if !errors.As(err, &found) || found.Name != "b" || found.Place != 1 ||
			err.Error() != "the value of `:b` "+c.says {
			t.Errorf("%T: %s", c.value, err)
		}
	}
}

// TestRefusedByTheArchive has what is written, and refused then.
func TestRefusedByTheArchive(t *testing.T) {
	for _, c := range []struct {
		value any
		code  Code
		fault Fault
		row   int
	}{
		{math.NaN(), CodeFloat, 0, 0}, {math.Inf(-1), CodeFloat, 0, 0}, {float32(math.Inf(1)), CodeFloat, 0, 0},
		{[]any{1, math.NaN()}, CodeFloat, 0, 0},
		{[]int{}, CodeFault, FaultEmpty, 0}, {[]int(nil), CodeFault, FaultEmpty, 0}, {[]any{}, CodeFault,
			FaultEmpty, 0},
		{[][]any{}, CodeFault, FaultEmpty, 0}, {[][]any{{}}, CodeFault, FaultEmptyRow, 0},
		{[][]any{{1, 2}, {3, 4}, {5}}, CodeFault, FaultRowLength, 2}, {Decimal("1e5"), CodeFault, FaultNumber, 0},
		{Decimal(""), CodeFault, FaultNumber, 0}, {Decimal("1; DROP"), CodeFault, FaultNumber, 0},
		{Identifier{}, CodeFault, FaultEmpty, 0}, {Identifier{""}, CodeFault, FaultEmptyName, 0},
		{Identifier{"a\x00"}, CodeFault, FaultZeroByte, 0}, {Identifier{strings.Repeat("a", 65)}, CodeFault,
			FaultLongName, 0},
		{Identifier{"a "}, CodeFault, FaultTrailingSpace, 0}, {Identifier{`a\`}, CodeFault, FaultBackslash, 0},
		{[]Identifier{}, CodeFault, FaultEmpty, 0}, {[]Identifier{{"a"}, {}}, CodeFault, FaultEmpty, 0},
		{[]Identifier{{"a"}, {"t", ""}}, CodeFault, FaultEmptyName, 0}, {Assignments{}, CodeFault, FaultEmpty, 0},
		{[]Assignment(nil), CodeFault, FaultEmpty, 0}, {Assignments{{nil, 1}}, CodeFault, FaultEmpty, 0},
		{Assignments{{Identifier{"a "}, 1}}, CodeFault, FaultTrailingSpace, 0},
		{Assignments{{Identifier{"a"}, math.NaN()}}, CodeFloat, 0, 0},
		{Assignments{{Identifier{"a"}, Decimal("x")}}, CodeFault, FaultNumber, 0},
		{Keyword("DROP"), CodeFault, FaultKeyword, 0}, {KeywordOf{}, CodeFault, FaultKeyword, 0},
	} {
		if found := refused(t, c.value); found.Code != c.code || found.Fault != c.fault || found.InRow != c.row {
			t.Errorf("%T %v: %+v", c.value, c.value, found)
		}
	}
}

func TestValuersThatFail(t *testing.T) {
	found := refused(t, broken{})
	if found.Code != CodeValue || !errors.Is(found, errBroken) || strings.Contains(found.Error(), "secret") {
		t.Error(found)
	}
	if refused(t, []any{1, broken{}}).Code != CodeValue || refused(t, []broken{{}}).Code != CodeValue {
		t.Error("a list of them")
	}
}

func TestArguments(t *testing.T) {
	for _, c := range []struct {
		query   string
		args    []any
		code    Code
		message string
	}{
		{":a", []any{sql.Named("", 1)}, CodeValue, "Parameter 0 has an empty name"},
		{":a, :b", []any{sql.Named("a", 1), 2}, CodeFormMixed,
			"Argument 1 differs from those before it: give all a name, or none"},
		{":a", []any{sql.Named("a", 1), sql.Named("a", 2)}, CodeRepeatedName, "`:a` is given twice"},
		{"?", nil, CodeMarkCount, "The query has 1 `?`, and 0 values are given"},
		{"1?", []any{1}, CodeNotAlone, "`?` at byte 1 touches `1`: put a space between"},
		{":größe", []any{sql.Named("gr", 1)}, CodeNotAlone,
			"`:gr` at byte 0 touches `\\xc3`: names are of ASCII letters, digits and _, so `:gr\\xc3\\xb6\\xc3\\x9fe` ends after `gr`"},
	} {
		var found *BindError
		_, err := Bind(BackslashEscapes, c.query, c.args...)
		if !errors.As(err, &found) || found.Code != c.code || err.Error() != c.message {
			t.Errorf("%s: %v", c.query, err)
		}
	}
	for query, args := range map[string][]any{"SELECT 1": nil, "SELECT 5, ':a'": {}} {
		if text, err := Bind(BackslashEscapes, query, args...); err != nil || text != query {
			t.Errorf("%s: %q, %v", query, text, err)
		}
	}
}

// TestOneValue has what BindInBothModes takes: one value a place.
func TestOneValue(t *testing.T) {
	text, err := BindInBothModes("bücher ?, ?", "é", bigOf("-7"))
	if err != nil || text != "bücher _utf8mb4 0xC3A9, -7" {
		t.Errorf("%q, %v", text, err)
	}
	for _, value := range []any{[]int{1}, Identifier{"a"}, []Identifier{{"a"}}, Assignments{}, Keyword("ASC"), Decimal("1"),
		bigOf("99999999999999999999"), 0.5} {
		var found *BindError
		_, err := BindInBothModes("ü :a", sql.Named("a", value))
		wanted := CodeValue
		if value == 0.5 {
			wanted = CodeFloat
		}
		if !errors.As(err, &found) || found.Code != wanted || found.Name != "a" {
			t.Errorf("%T: %v", value, err)
		}
	}
}

func TestLocation(t *testing.T) {
	moment := time.Date(2024, 7, 1, 14, 30, 0, 0, time.FixedZone("", 2*3600))
	utc := Binder{Location: time.UTC}
	template, err := NewTemplate(BackslashEscapes, "?")
	if err != nil {
		t.Fatal(err)
	}
	for name, bind := range map[string]func() (string, error){
		"Bind":            func() (string, error) { return utc.Bind(BackslashEscapes, "?", moment) },
		"BindAnywhere":    func() (string, error) { return utc.BindAnywhere("?", moment) },
		"BindInBothModes": func() (string, error) { return utc.BindInBothModes("?", &moment) },
		"BindTemplate":    func() (string, error) { return utc.BindTemplate(template, moment) },
		"an assignment": func() (string, error) {
			text, err := utc.Bind(BackslashEscapes, "?", Assignments{{Identifier{"a"}, moment}})
			return strings.TrimPrefix(text, "`a` = "), err
		},
		"a list": func() (string, error) { return utc.Bind(BackslashEscapes, "?", In([]time.Time{moment})) },
		"BindRows": func() (string, error) {
			texts, err := utc.BindRows(BackslashEscapes, "?", [][]any{{moment}})
			return strings.Join(texts, ""), err
		},
	} {
		if text, err := bind(); err != nil || text != "'2024-07-01 12:30:00'" {
			t.Errorf("%s: %s, %v", name, text, err)
		}
	}
}

func TestKeywords(t *testing.T) {
	for _, word := range Keywords() {
		if text := bound(t, KeywordOf{word}); text != word {
			t.Errorf("%s: %s", word, text)
		}
	}
	order, err := KeywordAmong("DESC", "ASC", "DESC")
	if err != nil || order.String() != "DESC" {
		t.Error(order, err)
	}
	// Of a request whose memory is used again, as some frameworks hand out texts.
	given := []byte("DESC")
	order, err = KeywordAmong(stringOf(given), "ASC", "DESC")
	copy(given, "ASC ")
	if err != nil || order.String() != "DESC" {
		t.Error(order, err)
	}
	var found *BindError
	if _, err := KeywordAmong("DESC, 1", "ASC", "DESC"); !errors.As(err, &found) || found.Code != CodeValue ||
		err.Error() != `the word is none of the keywords "ASC", "DESC"` {
		t.Error(err)
	}
	if _, err := KeywordAmong("ASC"); err == nil {
		t.Error("a keyword among none")
	}
}

func TestManyValues(t *testing.T) {
	list := make([]int, 100_000)
	args := make([]any, 100_000)
	for i := range list {
		list[i], args[i] = i, i
	}
	marks := strings.TrimSuffix(strings.Repeat("?, ", len(list)), ", ")
	of, err := Bind(BackslashEscapes, "?", In(list))
	each, err2 := Bind(BackslashEscapes, marks, args...)
	anywhere, err3 := BindAnywhere(marks, args...)
	wanted := strings.ReplaceAll(strings.Trim(fmt.Sprint(list), "[]"), " ", ", ")
	if err != nil || err2 != nil || err3 != nil || of != wanted || each != wanted || anywhere != wanted {
		t.Error(err, err2, err3)
	}
}

func TestRows(t *testing.T) {
	var rows [][]any
	var wanted []string
	for i := 0; i < 100_000; i++ {
		rows = append(rows, []any{i, fmt.Sprint("it's ", i)})
		wanted = append(wanted, fmt.Sprintf(`(%d, 'it\'s %d')`, i, i))
		if i%1000 == 0 {
			rows[i][0], wanted[i] = 0.5, strings.Replace(wanted[i], fmt.Sprint("(", i), "(0.5e0", 1)
		}
	}
	texts, err := BindRows(BackslashEscapes, "(?, ?)", rows)
	if err != nil || !reflect.DeepEqual(texts, wanted) {
		t.Error(err)
	}
	texts, err = BindRows(BackslashEscapes, "(?, ?)", nil)
	if err != nil || len(texts) != 0 {
		t.Error(texts, err)
	}
	for _, at := range []int{0, 1, 999, 1000, 50_000, 99_999} {
		for _, c := range []struct {
			row  []any
			code Code
		}{{[]any{1, shape{}}, CodeValue}, {[]any{1}, CodeMarkCount}, {[]any{1, math.NaN()},
			CodeFloat}, {[]any{0.5}, CodeMarkCount}} {
			kept := rows[at]
			rows[at] = c.row
			texts, err := BindRows(BackslashEscapes, "(?, ?)", rows)
			rows[at] = kept
			var found *BindError
			if !errors.As(err, &found) || found.Row != at || found.Code != c.code || len(texts) != at ||
				!reflect.DeepEqual(texts, wanted[:at]) || !strings.HasPrefix(err.Error(), fmt.Sprint("row ", at,
				": ")) {
				t.Errorf("%d: %d texts, %v", at, len(texts), err)
			}
		}
	}
}

// TestRowsInOrder has an earlier row told that is refused by the archive, before a later one that has no form.
func TestRowsInOrder(t *testing.T) {
	texts, err := BindRows(BackslashEscapes, "?", [][]any{{1}, {1, 2}, {shape{}}})
	var found *BindError
	if !errors.As(err, &found) || found.Row != 1 || found.Code != CodeMarkCount ||
		!reflect.DeepEqual(texts, []string{"1"}) {
		t.Error(texts, err)
	}
}

// TestTextsStay has texts that are kept while others are bound in the same memory.
func TestTextsStay(t *testing.T) {
	wanted := func(i int) string {
		return "'" + strings.Repeat(fmt.Sprint(i%10), i%7*20_000+i) + "'"
	}
	var texts []string
	for i := 0; i < 200; i++ {
		text, err := Bind(BackslashEscapes, "?", strings.Trim(wanted(i), "'"))
		if err != nil {
			t.Fatal(err)
		}
		texts = append(texts, text)
	}
	for i, text := range texts {
		if text != wanted(i) {
			t.Errorf("text %d changed", i)
		}
	}
}

// TestProcessor has each call refused on a processor that the archive isn't compiled for.
func TestProcessor(t *testing.T) {
	processorSuffices = false
	defer func() { processorSuffices = true }()
	for name, call := range map[string]func() error{
		"Bind":            func() error { _, err := Bind(BackslashEscapes, ""); return err },
		"BindAnywhere":    func() error { _, err := BindAnywhere(""); return err },
		"BindRows":        func() error { _, err := BindRows(BackslashEscapes, "", nil); return err },
		"Names":           func() error { _, err := Names(BackslashEscapes, ""); return err },
		"NewTemplate":     func() error { _, err := NewTemplate(BackslashEscapes, ""); return err },
		"FirstUnportable": func() error { _, err := FirstUnportable(BackslashEscapes, ""); return err },
	} {
		var found *BindError
		if err := call(); !errors.As(err, &found) || found.Code != CodeProcessor ||
			err.Error() != "the processor lacks a feature of x86-64-v2" {
			t.Errorf("%s: %v", name, err)
		}
	}
}
