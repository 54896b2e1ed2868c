package mysqlparams

/*
#include "mysql_params_form.h"
*/
import "C"

import "strconv"

// Construct is a construct that servers, or a client, read in different ways.
type Construct int

// The constructs of mysql_params.h. Those from OpenerInComment to ZeroByte are found only for a client.
const (
	ExecutableComment   Construct = 1
	Hint                Construct = 2
	MariaDBComment      Construct = 3
	Dashes              Construct = 4
	EscapedQuote        Construct = 5
	Bracket             Construct = 6
	DollarQuote         Construct = 7
	DashesAfterExponent Construct = 8
	PlaceAfterExponent  Construct = 9
	OpenerInComment     Construct = 10
	JoiningComment      Construct = 11
	DashesBeforeComment Construct = 12
	ClientCommand       Construct = 13
	DashInFront         Construct = 14
	Delimiter           Construct = 15
	ClientWord          Construct = 16
	EscapedNewline      Construct = 17
	ZeroByte            Construct = 18
	EscapedBackquote    Construct = 19
	ReturnInComment     Construct = 20
)

// String returns what the construct is, and what to write instead, in one line.
func (c Construct) String() string {
	if line := c.message(); line != "" {
		return line
	}
	return "construct " + strconv.Itoa(int(c))
}

// Unportable is a construct of a query, and where it begins.
type Unportable struct {
	Construct Construct
	// Position is the byte of the query at which it begins. Of what is found within a string, a quoted
	// identifier or a comment it is the first byte of that, of a place after an exponent the digit or point
	// before the `e`.
	Position int

	query string
}

// FirstUnportable returns the first construct of a query that servers read in different ways; nil if there is
// none. Ask it of each query, once, before you bind to it by Bind.
func FirstUnportable(mode Mode, query string) (*Unportable, error) {
	return inServers.found(mode, query)
}

// FirstUnportableInClient returns the same for a query whose bound text goes through the client mysql or
// mariadb with --comments: it finds also what that reads or sends otherwise than a server. It judges the
// bytes that it is given. A bound text with an Identifier or a keyword, or with strings without backslash
// escapes, may hold a construct that its query doesn't have: ask it of that text too.
func FirstUnportableInClient(mode Mode, query string) (*Unportable, error) {
	return inClient.found(mode, query)
}

// firstUnportable is a call that finds a construct.
type firstUnportable func(query *C.uint8_t, length C.size_t, mode C.bool, report *C.mysql_params_report) C.int32_t

// found returns what a call finds in a query.
func (ask firstUnportable) found(mode Mode, query string) (*Unportable, error) {
	if err := ready(); err != nil {
		return nil, err
	}
	r := rooms.Get().(*room)
	defer r.giveBack()
	at, length := bytesOf(query)
	number := ask(at, length, C.bool(mode), &r.report)
	switch {
	case number == C.MYSQL_PARAMS_PORTABLE:
		return nil, nil
	case number < 0 || number > C.MYSQL_PARAMS_RETURN_IN_COMMENT:
		return nil, wrongArchive("unknown construct " + strconv.Itoa(int(number)))
	}
	return &Unportable{Construct: Construct(number), Position: int(r.report.position), query: query}, nil
}

var inServers firstUnportable = func(query *C.uint8_t, length C.size_t, mode C.bool,
	report *C.mysql_params_report) C.int32_t {
	return C.mysql_params_first_unportable_wide(query, length, mode, report)
}

var inClient firstUnportable = func(query *C.uint8_t, length C.size_t, mode C.bool,
	report *C.mysql_params_report) C.int32_t {
	return C.mysql_params_first_unportable_in_client_wide(query, length, mode, report)
}

// message returns what to write instead of a construct.
func (c Construct) message() string {
	line := C.mysql_params_construct_message(C.int32_t(c))
	if line == nil {
		return ""
	}
	return C.GoString(line)
}
