package mysqlparams

import (
	"strconv"
	"strings"
)

// tellMore has the error tell the name that stands in its place, and say in Go's words what the archive's C says in
// those of C.
func (e *BindError) tellMore(q *question) {
	switch e.Code {
	case CodeFloat, CodeFault, CodeUnsteadyFragment:
		if found, err := Names(q.mode, q.query); err == nil && e.Place < len(found.Names) {
			e.Name = found.Names[e.Place]
		}
	}
	switch e.Code {
	case CodeRepeatedName:
		e.message = "`:" + shown(e.Name) + "` is given twice"
	case CodeFormMixed:
		e.message = "Argument " + strconv.Itoa(e.Place) + " differs from those before it: give all a name, or none"
	case CodeNotAlone:
		if place := e.place(q.query); place != "" {
			e.message = e.touching(q.query, place)
		}
	case CodeUnbracketed:
		if place := e.place(q.query); place != "" {
			e.Name = strings.Clone(place[1:])
			e.message = e.unbracketed(place)
		}
	case CodeFloat:
		e.message = "The value for " + e.of() + " is a float that isn't written: give nil for NaN and infinities, else a text"
	case CodeUnsteadyFragment:
		e.message = "An Identifier for " + e.of() + " has a backslash or a byte that is not ASCII"
	case CodeFault:
		subject, wrong := e.faulty()
		e.message = subject + " for " + e.of() + wrong
	default:
		e.tellOfQuery()
	}
}

// tellOfQuery does so for what is wrong with the whole query, or with the arguments for it.
func (e *BindError) tellOfQuery() {
	switch e.Code {
	case CodeMixed:
		e.message = "The query has both `:name` and `?`: write one of them"
	case CodeMissing:
		e.message = "`:" + e.Name + "` has no value" + e.alphabet()
	case CodeNamedForPositional:
		e.message = "The values have names, and the query has no `:name` outside of strings and comments" + e.alphabet()
	case CodePositionalForNamed:
		e.message = "The query has names: give the values by name, as sql.Named(\"id\", 42)"
	case CodeMarkCount:
		e.message = "The query has " + strconv.Itoa(e.Marks) + " `?`, and " + strconv.Itoa(e.Values) + " values are given"
	case CodeUnsteady:
		e.message = strings.Replace(e.message, "bind_in_both_modes", "BindInBothModes", 1)
	}
}

// alphabet returns what the archive's C says of what names are of, if it does.
func (e *BindError) alphabet() string {
	if at := strings.Index(e.message, ": names are of "); e.Word != "" && at >= 0 {
		return e.message[at:]
	}
	return ""
}

// of returns what messages call the place: "`:ids`", or by its number.
func (e *BindError) of() string {
	if e.Name == "" {
		return "place " + strconv.Itoa(e.Place)
	}
	return "`:" + e.Name + "`"
}

// place returns what stands in the query at the position, `?` or a name with its colon; nothing outside of the query.
func (e *BindError) place(query string) string {
	if e.Position < 0 || e.Position >= len(query) {
		return ""
	}
	place, end := query[e.Position:], 1
	for place[0] == ':' && end < len(place) && isOfNames(place[end]) {
		end++
	}
	return place[:end]
}

// unbracketed returns what is wrong with a place for CodeUnbracketed.
func (e *BindError) unbracketed(place string) string {
	told := "`" + place + "`"
	if e.Name == "" {
		told += " at byte " + strconv.Itoa(e.Position)
	}
	return told + " is one value here, and was given a list: write it alone in brackets, as `IN (" + place + ")`, or give In(..)"
}

// faulty returns what is wrong for CodeFault, and before it of what.
func (e *BindError) faulty() (subject, wrong string) {
	item, row := strconv.Itoa(e.Item), strconv.Itoa(e.InRow)
	switch e.Fault {
	case FaultEmpty:
		return "The list", " is empty"
	case FaultEmptyRow:
		return "Row " + row, " is empty"
	case FaultRowLength:
		return "Row " + row, " is not as long as the first"
	case FaultNumber:
		subject = "The Decimal"
		if e.Item > 0 || e.InRow > 0 {
			subject += " in item " + item
		}
		if e.InRow > 0 {
			subject += " of row " + row
		}
		return subject, " is no exact number"
	case FaultEmptyName:
		return "Name " + item, " is empty"
	case FaultZeroByte:
		return "Name " + item, " has a byte 0"
	case FaultLongName:
		return "Name " + item, " has more than 64 characters"
	case FaultTrailingSpace:
		return "Name " + item, " ends in a space"
	case FaultKeyword:
		return "The keyword", " is none of Keywords"
	case FaultBackslash:
		return "Name " + item, " has a backslash before a backquote or at its end"
	}
	return "Fault " + strconv.Itoa(int(e.Fault)), " is unknown"
}

// beforePlaces has the bytes that may stand directly before a place.
const beforePlaces = " \t\n\v\f\r(,=<>+-*/%&|^~"

// touching returns what a place of a query touches for CodeNotAlone: the byte before it, or else the one after it.
func (e *BindError) touching(query, place string) string {
	before, after := query[:e.Position], query[e.Position+len(place):]
	neighbour := after
	if before != "" && !strings.Contains(beforePlaces, before[len(before)-1:]) {
		neighbour = before[len(before)-1:]
	} else if after != "" {
		neighbour = after[:1]
	}
	touches := "`" + place + "` at byte " + strconv.Itoa(e.Position) + " touches `" + shown(neighbour) + "`"
	switch {
	case e.Word != "":
		return touches + e.alphabet()
	case strings.HasSuffix(before, ".") || strings.HasPrefix(after, "."):
		return touches + ": for a name with a point write one place, and give an Identifier of two names"
	}
	return touches + ": put a space between"
}
