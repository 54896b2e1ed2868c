package mysqlparams

/*
#include "mysql_params_form.h"
*/
import "C"

// placesAt returns where places stand.
func placesAt(places []C.mysql_params_place) (*C.mysql_params_place, C.size_t) {
	if len(places) == 0 {
		return &noPlace, 0
	}
	return &places[0], C.size_t(len(places))
}

var noPlace C.mysql_params_place

// Template is a query whose names and marks are found once, to bind it many times: it gives what Bind gives.
//
// Its memory is Go's, so that there is nothing to close. Nothing changes it: goroutines may bind it at once.
type Template struct {
	query    string
	mode     Mode
	head     C.mysql_params_table_head
	places   []C.mysql_params_place
	names    []string       // those of the places, if each differs from the others
	marked   *Template      // of the query with `?` in their places; nil without them
	anywhere *anywhereTable // of a kept one, if BindAnywhere takes the query
	plain    bool           // of a kept one, whether a Session binds to it as Bind: it isn't steady, but is portable
}

// anywhereTable is the table of a query that BindAnywhere takes.
type anywhereTable struct {
	head   C.mysql_params_anywhere_head
	places []C.mysql_params_place
}

// NewTemplate finds the places of a query in a mode. A query that can't be bound is refused when it is bound.
// The error says that there is no memory.
func NewTemplate(mode Mode, query string) (*Template, error) {
	if err := ready(); err != nil {
		return nil, err
	}
	r := rooms.Get().(*room)
	defer r.giveBack()
	made := &Template{query: query, mode: mode}
	if err := made.find(r); err != nil {
		return nil, err
	}
	if made.head.names > 0 && made.head.marks == 0 && made.head.not_alone == 0 {
		return made, made.mark(r)
	}
	return made, nil
}

// find finds the places.
func (t *Template) find(r *room) error {
	at, length := bytesOf(t.query)
	number := C.int32_t(C.MYSQL_PARAMS_ROOM)
	for tries := 0; tries < 2 && number == C.MYSQL_PARAMS_ROOM; tries++ {
		if tries > 0 {
			t.places = make([]C.mysql_params_place, int(r.report.len))
		}
		places, placesLen := placesAt(t.places)
		number = C.mysql_params_table_wide(at, length, C.bool(t.mode), &t.head, places, placesLen, &r.report)
	}
	if number != C.MYSQL_PARAMS_DONE {
		return r.refusal(number, &question{mode: t.mode, query: t.query})
	}
	return nil
}

// mark finds the places of the query with `?` in those of its names, if each of these differs from the others.
// Values in their order are then bound without their names: the literals are the same, and what is between them.
func (t *Template) mark(r *room) error {
	found, err := Names(t.mode, t.query)
	if err != nil {
		return err
	}
	differ := make(map[string]bool, len(found.Names))
	for _, name := range found.Names {
		differ[name] = true
	}
	if len(differ) < len(found.Names) {
		return nil
	}
	marked := &Template{query: found.Query, mode: t.mode}
	if err := marked.find(r); err != nil {
		return err
	}
	t.names, t.marked = found.Names, marked
	return nil
}

// findAnywhere finds the table for BindAnywhere: of the query with `?` too, by which values in their order are
// bound. There is none if BindAnywhere refuses one of them, or without memory.
func (t *Template) findAnywhere() {
	r := rooms.Get().(*room)
	defer r.giveBack()
	t.anywhere = r.anywhereTableOf(t.query, len(t.places))
	if t.anywhere == nil || t.marked == nil {
		return
	}
	if t.marked.anywhere = r.anywhereTableOf(t.marked.query, len(t.places)); t.marked.anywhere == nil {
		t.anywhere = nil
	}
}

// anywhereTableOf returns the table of a query with so many places; nil if there is none.
func (r *room) anywhereTableOf(query string, count int) *anywhereTable {
	made := &anywhereTable{places: make([]C.mysql_params_place, count)}
	at, length := bytesOf(query)
	places, placesLen := placesAt(made.places)
	number := C.mysql_params_table_anywhere_wide(at, length, &made.head, places, placesLen, &r.report)
	if number != C.MYSQL_PARAMS_DONE {
		return nil
	}
	return made
}

// Query returns the query.
func (t *Template) Query() string { return t.query }

// Mode returns the mode for which the query is read and its values are written.
func (t *Template) Mode() Mode { return t.mode }

// question returns the question of a call by the template.
func (t *Template) question(call call) question {
	return question{call: call, mode: t.mode, query: t.query, table: t}
}

// Bind returns what the package's Bind returns for the query and the mode.
func (t *Template) Bind(args ...any) (string, error) {
	return Binder{}.BindTemplate(t, args...)
}

// BindRows returns what the package's BindRows returns for the query and the mode.
func (t *Template) BindRows(rows [][]any) ([]string, error) {
	return Binder{}.BindRows(t.mode, t.query, rows)
}
