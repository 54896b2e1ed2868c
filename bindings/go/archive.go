package mysqlparams

/*
#cgo CFLAGS: -std=c11 -O2 -fstack-protector-strong -U_FORTIFY_SOURCE -D_FORTIFY_SOURCE=2 -fstack-clash-protection
#cgo LDFLAGS: ${SRCDIR}/native/libmysql_params_c.a
#include "mysql_params_form.h"
*/
import "C"

import (
	"sync"
	"unsafe"
)

// question is what is asked of the archive beside the form.
type question struct {
	call  call
	mode  Mode
	query string
	table *Template // of callTemplate; of those with steady literals or guarded ones what is kept, if that has a table
}

// marked returns the question for values in the order of the places, without their names.
func (q *question) marked() question {
	marked := q.table.marked
	return question{call: q.call, mode: q.mode, query: marked.query, table: marked}
}

// call is a call of the archive.
type call int

const (
	callBind call = iota
	callAnywhere
	callBothModes
	callTemplate
	callGuarded       // with guarded literals, for a query and names that are ASCII without a backslash
	callForConnection // with what literals the archive's C decides, for a connection of the mode
)

// keptRoom is how long a text may be for its memory to be used again, and keptForm so of a form. Go's collector
// takes such memory back that isn't used for a while.
const (
	keptRoom = 1 << 16
	keptForm = 1 << 22
)

// room is what a call needs in memory. It is used again and again.
type room struct {
	writer writer
	text   []byte
	report C.mysql_params_report
	rows   C.mysql_params_rows
}

var rooms = sync.Pool{New: func() any { return &room{text: make([]byte, 1024)} }}

// giveBack has the room used again, without what may be long.
func (r *room) giveBack() {
	r.writer.end()
	if cap(r.text) > keptRoom {
		r.text = nil
	}
	rooms.Put(r)
}

// processorSuffices is whether the processor has what the archive is compiled for.
var processorSuffices = bool(C.mysql_params_processor_suffices())

// ready returns why the archive can't be called, if it can't.
func ready() error {
	if processorSuffices {
		return nil
	}
	return &BindError{Code: CodeProcessor, Row: -1, message: "the processor lacks a feature of x86-64-v2"}
}

// nothing is where pointers to no bytes lead, since the archive takes no null.
var nothing = new(C.uint8_t)

// bytesOf returns where the bytes of a text stand.
func bytesOf(text string) (*C.uint8_t, C.size_t) {
	if text == "" {
		return nothing, 0
	}
	return (*C.uint8_t)(*(*unsafe.Pointer)(unsafe.Pointer(&text))), C.size_t(len(text))
}

// roomOf returns where bytes stand.
func roomOf(bytes []byte) (*C.uint8_t, C.size_t) {
	if len(bytes) == 0 {
		return nothing, 0
	}
	return (*C.uint8_t)(unsafe.Pointer(&bytes[0])), C.size_t(len(bytes))
}

// ask asks the archive once, with the form of the room, for an answer in the room's text.
func (r *room) ask(q *question) C.int32_t {
	query, queryLen := bytesOf(q.query)
	form, formLen := roomOf(r.writer.form)
	text, textLen := roomOf(r.text)
	mode := C.bool(q.mode)
	switch {
	case q.call == callGuarded || q.call == callForConnection:
		return r.askGuarded(q)
	case q.call == callAnywhere && r.writer.fragments:
		return C.mysql_params_bind_fragments_anywhere_wide(query, queryLen, form, formLen, text, textLen, &r.report)
	case q.call == callAnywhere && q.table != nil:
		table := q.table.anywhere
		places, placesLen := placesAt(table.places)
		return C.mysql_params_bind_template_anywhere_wide(query, queryLen, &table.head, places, placesLen, form,
			formLen, text, textLen, &r.report)
	case q.call == callAnywhere:
		return C.mysql_params_bind_anywhere_wide(query, queryLen, form, formLen, text, textLen, &r.report)
	case q.call == callBothModes:
		return C.mysql_params_bind_in_both_modes_wide(query, queryLen, form, formLen, text, textLen, &r.report)
	case r.writer.fragments:
		return C.mysql_params_bind_fragments_wide(query, queryLen, form, formLen, mode, text, textLen, &r.report)
	case q.call == callTemplate:
		places, placesLen := placesAt(q.table.places)
		return C.mysql_params_bind_template_wide(query, queryLen, &q.table.head, places, placesLen, form,
			formLen, mode,
			text, textLen, &r.report)
	default:
		return C.mysql_params_bind_wide(query, queryLen, form, formLen, mode, text, textLen, &r.report)
	}
}

// askGuarded does so for a text that is sent.
func (r *room) askGuarded(q *question) C.int32_t {
	query, queryLen := bytesOf(q.query)
	form, formLen := roomOf(r.writer.form)
	text, textLen := roomOf(r.text)
	mode := C.bool(q.mode)
	if q.table != nil && !r.writer.fragments {
		table := q.table.anywhere
		places, placesLen := placesAt(table.places)
		return C.mysql_params_bind_template_guarded_wide(query, queryLen, &table.head, places, placesLen, form, formLen,
			mode, text, textLen, &r.report)
	}
	if q.call == callGuarded {
		number := C.mysql_params_bind_fragments_guarded_wide(query, queryLen, form, formLen, mode, text, textLen, &r.report)
		isMissing := number == C.MYSQL_PARAMS_MISSING || number == C.MYSQL_PARAMS_POSITIONAL_FOR_NAMED
		if r.writer.fragments || !isMissing {
			return number
		}
		// The call below tells it of values as every call does.
	}
	return C.mysql_params_bind_for_connection_wide(query, queryLen, form, formLen, C.bool(r.writer.fragments), mode, text,
		textLen, &r.report)
}

// have has room for a text of so many bytes at least.
func (r *room) have(wanted int) {
	if len(r.text) < wanted {
		r.text = make([]byte, wanted)
	}
}

// guess returns how long a text may get. A literal of bytes has at most twice their number, and a short value up
// to three times as many as its form; where that would be much memory to clear, the second is rare.
func (r *room) guess(q *question) int {
	length := len(r.writer.form)
	if length > keptRoom {
		return len(q.query) + 2*length
	}
	return len(q.query) + 3*length + 64
}

// bound returns the text for the arguments of the form, or the refusal. It can be called again: for another call, or
// another mode, with the same table.
func (r *room) bound(q *question) (string, error) {
	if r.writer.left != nil {
		marked := q.marked()
		if text, err := r.answer(&marked); err == nil {
			return text, nil
		}
		r.writer.giveNames() // The query with its names tells the refusal.
	}
	return r.answer(q)
}

// answer returns the text for the form of the room, or the refusal.
func (r *room) answer(q *question) (string, error) {
	r.have(r.guess(q))
	number := r.ask(q)
	if number == C.MYSQL_PARAMS_ROOM {
		r.have(int(r.report.len))
		number = r.ask(q)
	}
	if number != C.MYSQL_PARAMS_DONE {
		return "", r.refusal(number, q)
	}
	return r.take(int(r.report.len))
}

// take returns the first bytes of the room's text. A long one is taken without a copy.
func (r *room) take(count int) (string, error) {
	if count > len(r.text) {
		return "", wrongArchive("it says that it wrote more bytes than it had room for")
	}
	if count <= keptRoom || count < len(r.text)/2 {
		return string(r.text[:count]), nil
	}
	taken := r.text[:count]
	r.text = nil
	return *(*string)(unsafe.Pointer(&taken)), nil
}

// wrongArchive returns the error of an archive that isn't this one's.
func wrongArchive(why string) error {
	return &BindError{Code: CodeArchive, Row: -1, message: "not the archive of this package: " + why}
}

// Mode is whether a backslash in a string of a connection is a byte like any other.
type Mode bool

const (
	// BackslashEscapes is the mode of a connection whose sql_mode lacks NO_BACKSLASH_ESCAPES, as servers have
	// it unless told otherwise.
	BackslashEscapes Mode = false
	// NoBackslashEscapes is the mode of a connection whose sql_mode has NO_BACKSLASH_ESCAPES.
	NoBackslashEscapes Mode = true
)

// String returns the name of the constant.
func (m Mode) String() string {
	if m {
		return "NoBackslashEscapes"
	}
	return "BackslashEscapes"
}
