package mysqlparams

import (
	"database/sql"
	"encoding/json"
	"errors"
	"testing"
)

// byEachCall binds by each call, again and again, so that the places of the query are kept.
func byEachCall(t *testing.T, query string, args []any, check func(text string, err error)) {
	t.Helper()
	template, err := NewTemplate(BackslashEscapes, query)
	must(nil, err)
	for i := 0; i < 4; i++ {
		check(Bind(BackslashEscapes, query, args...))
		check(Bind(NoBackslashEscapes, query, args...))
		check(BindAnywhere(query, args...))
		check(template.Bind(args...))
		texts, err := BindRows(BackslashEscapes, query, [][]any{args})
		check(append(texts, "")[0], err)
	}
}

// fromRequest returns what a request of JSON holds.
func fromRequest(text string) any {
	var found any
	must(nil, json.Unmarshal([]byte(text), &found))
	return found
}

// writtenLists are values for `:v`, and the texts of their queries.
type writtenLists []struct {
	query  string
	value  any
	wanted string
}

// check binds each by each call.
func (l writtenLists) check(t *testing.T) {
	t.Helper()
	for _, c := range l {
		byEachCall(t, c.query, []any{sql.Named("v", c.value)}, func(text string, err error) {
			if err != nil || text != c.wanted {
				t.Errorf("%s: %q, %v", c.query, text, err)
			}
		})
	}
}

// TestPlacesOfLists has slices written where they are alone in brackets.
func TestPlacesOfLists(t *testing.T) {
	list, rows := []int{1, 2}, [][]any{{1, 2}, {3, 4}}
	writtenLists{
		{"id IN (:v)", list, "id IN (1, 2)"}, {"id NOT IN (:v)", list, "id NOT IN (1, 2)"},
		{"id in( /* c */ :v\n) ", list, "id in( /* c */ 1, 2\n) "}, {"(a, b) IN (:v)", rows, "(a, b) IN ((1, 2), (3, 4))"},
		{"((:v))", list, "((1, 2))"}, {"(a, b) = (:v)", list, "(a, b) = (1, 2)"}, {"VALUES (:v)", list, "VALUES (1, 2)"},
		{"VALUES (1, 2), (:v)", list, "VALUES (1, 2), (1, 2)"}, {"VALUES ROW(:v)", list, "VALUES ROW(1, 2)"},
		{"VALUES :v", rows, "VALUES (1, 2), (3, 4)"}, {"t (a) VALUE :v", rows, "t (a) VALUE (1, 2), (3, 4)"},
		{"VALUES /* c */ :v", rows, "VALUES /* c */ (1, 2), (3, 4)"}, {"IN (:v)", fromRequest("[0.5, null]"), "IN (0.5e0, NULL)"},
		{"IN (:v)", &list, "IN (1, 2)"}, {"IN (:v)", []any{bigOf("7"), nil}, "IN (7, NULL)"},
	}.check(t)
}

// TestSlicesOfOthers has slices that are no lists of values written in any place.
func TestSlicesOfOthers(t *testing.T) {
	writtenLists{
		{"COALESCE(:v, 0)", []byte{0xff}, "COALESCE(0xFF, 0)"}, {"LIMIT :v", raw(nil), "LIMIT NULL"},
		{"ORDER BY :v", []Identifier{{"a"}, {"b"}}, "ORDER BY `a`, `b`"}, {"SELECT :v", Identifier{"t", "a"}, "SELECT `t`.`a`"},
		{"SET :v", Assignments{{Identifier{"a"}, 1}}, "SET `a` = 1"}, {"SET :v", []Assignment{{Identifier{"a"}, 1}}, "SET `a` = 1"},
	}.check(t)
}

// TestRefusedPlacesOfLists has slices refused where they would become arguments.
func TestRefusedPlacesOfLists(t *testing.T) {
	list, rows := fromRequest(`["x", "$.role", "admin"]`), fromRequest(`[["x", "$.role"], ["admin", 1]]`)
	for query, position := range map[string]int{
		"JSON_SET(doc, '$.name', :v)": 24, "COALESCE(:v, owner)": 9, "LIMIT :v": 6, "FIELD(id, :v)": 10, "CONCAT_WS(',', :v)": 15,
		"JSON_ARRAY(:v)": 11, "ROUND( /* ( */ :v )": 15, "id IN (0, :v)": 10, "id IN (:v, 0)": 7, "SET a = :v": 8, ":v": 0,
		"'IN (' :v ')'": 7, "f /* IN */ (:v)": 12, "(:v)": 1, "id = (:v)": 6, "CALL value(:v)": 11, "CALL value :v": 11,
		"id IN /*M! f */ (:v)": 17,
	} {
		for _, value := range []any{list, rows, []string{"a"}, []int{}, []int64{1}, [][]int{{1, 2}}, []Decimal{"1"}, &list} {
			byEachCall(t, query, []any{sql.Named("v", value)}, func(text string, err error) {
				var found *BindError
				if text != "" || !errors.As(err, &found) || !errors.Is(err, ErrUnbracketed) || found.Code != CodeUnbracketed ||
					found.Place != 0 || found.Position != position || found.Name != "v" {
					t.Errorf("%s: %T: %q, %+v", query, value, text, found)
				}
			})
		}
	}
	// One list after VALUES is no rows.
	byEachCall(t, "VALUES ?", []any{list}, func(text string, err error) {
		var found *BindError
		if !errors.As(err, &found) || found.Code != CodeUnbracketed || found.Position != 7 || found.Name != "" {
			t.Errorf("%q, %v", text, err)
		}
	})
}

// TestIn has lists and rows in any place.
func TestIn(t *testing.T) {
	writtenLists{
		{"FIELD(id, :v)", In([]int{3, 1}), "FIELD(id, 3, 1)"}, {"COALESCE(:v, 0)", In([]any{nil, 0.5}), "COALESCE(NULL, 0.5e0, 0)"},
		{"LIMIT :v", In([]int64{5, 10}), "LIMIT 5, 10"}, {"GREATEST(:v)", In([]*int{pointerTo(1), nil}), "GREATEST(1, NULL)"},
		{"id IN (0, :v)", In([]Decimal{"1.50"}), "id IN (0, 1.50)"}, {"id IN (:v)", In([]int{1, 2}), "id IN (1, 2)"},
		{"f(:v)", In([]any{[]any{1, 2}, []int{3, 4}}), "f((1, 2), (3, 4))"}, {"f(:v)", In([][]any{{1}, {2}}), "f((1), (2))"},
		{"VALUES :v", In([][]int{{1}, {2}}), "VALUES (1), (2)"}, {"f(:v)", pointerTo(In([]status{1, 2})), "f(1, 2)"},
		{"f(:v)", In([][]byte{{0xff}, nil}), "f(0xFF, NULL)"},
	}.check(t)
	for _, value := range []any{In([]int{}), In([]any(nil)), In([][]any{})} {
		if found := refused(t, value); found.Code != CodeFault || found.Fault != FaultEmpty {
			t.Error(found)
		}
	}
}

// TestRefusedIn has what In takes, and what isn't several values.
func TestRefusedIn(t *testing.T) {
	within := In([]int{1})
	for _, c := range []struct {
		value any
		says  string
	}{
		{In([]byte("secret")), "is In of a []uint8, which is no list of values"},
		{In(raw("secret")), "is In of a mysqlparams.raw, which is no list of values"},
		{In(Identifier{"a"}), "is In of a mysqlparams.Identifier, which is no list of values"},
		{In([]Identifier{{"a"}}), "is In of a []mysqlparams.Identifier, which is no list of values"},
		{In([]any{Identifier{"a"}}), "is In of a []interface {}, which is no list of values"},
		{In(Assignments{{Identifier{"a"}, 1}}), "is In of a mysqlparams.Assignments, which is no list of values"},
		{In(ids{1}), "is In of a mysqlparams.ids, which is no list of values"},
		{List{}, "is In of a <nil>, which is no list of values"},
		{In([]List{within}), "has an item that is an In: " + insteadOfItem},
		{[]any{1, within}, "has an item that is an In: " + insteadOfItem},
		{[]List{within}, "has an item that is an In: " + insteadOfItem},
		{[][]any{{1, &within}}, "has an item that is an In: " + insteadOfItem},
		{In([]any{1, []any{2}}), "has rows and values: give a slice of values, or one of rows only"},
		{In([][]any{{[]int{1}}}), "has a slice in a row: rows are of values"},
		{In([]any{map[string]int{}}), "is of type map[string]int, which has no literal: " + insteadOfMap},
		{Assignments{{Identifier{"a"}, within}}, "sets `a` to an In: a column takes one value"},
	} {
		if found := refused(t, c.value); found.Code != CodeValue || found.Error() != "the value for place 0 "+c.says {
			t.Errorf("%T: %s", c.value, found)
		}
	}
	_, err := BindInBothModes("(?)", within)
	if !errors.Is(err, ErrValue) || err.Error() != "the value for place 0 is an In, and a place takes one value here" {
		t.Error(err)
	}
}
