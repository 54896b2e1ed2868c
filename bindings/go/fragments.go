package mysqlparams

import (
	"database/sql/driver"
	"encoding/binary"
	"fmt"
	"reflect"
	"strconv"
	"strings"
)

// Decimal is an exact number by its digits, as "-1.50". It is written bare, so that a server compares and
// computes it exactly.
type Decimal string

// Identifier is the name of a table or a column, and before it that of what it is in: Identifier{"shop",
// "t"}. It is written in backquotes, each of which in a name is doubled. A point in a name is a part of it.
//
// A slice of them is written with commas in between, as the columns of an INSERT or a SELECT.
type Identifier []string

// Assignment is a column and what it is set to: a value, or an exact number, as an item of a list.
type Assignment struct {
	Column Identifier
	Value  any
}

// Assignments are columns and what they are set to, in their order, for `SET ?`. None are refused with
// FaultEmpty. A map isn't one, since it has no order.
type Assignments []Assignment

// List is a list of values, or rows, that the program says to be several arguments. In makes one.
type List struct{ items any }

// In returns a slice as a List, which each place takes, as that of `FIELD(id, ?)`. Rows are a slice of slices. What
// isn't of values, such as a []byte, is refused when it is bound.
//
// The place of a bare slice has to be alone in brackets, as in `IN (?)`. So a request with a list, where the program
// expects one value, doesn't add arguments to a call, as to `JSON_SET(a, '$.b', ?)`. A List does: look first at what
// comes from outside.
func In[S ~[]T, T any](items S) List { return List{items} }

// KeywordOf is a keyword of the program. Keyword and KeywordAmong make one.
type KeywordOf struct{ word string }

// constant is a text of the program: outside of this package only a constant without a type is one by itself.
type constant string

// Keyword returns a keyword, one of Keywords. Its text is a constant of the program, as in Keyword("DESC"): a
// variable doesn't compile. Another word is refused with FaultKeyword when it is bound.
func Keyword(word constant) KeywordOf { return KeywordOf{string(word)} }

// KeywordAmong returns the keyword that a text says, if it is among those of the program:
// KeywordAmong(order, "ASC", "DESC"). Else the error has CodeValue.
func KeywordAmong(word string, among ...constant) (KeywordOf, error) {
	choice := ""
	for _, one := range among {
		if string(one) == word {
			return KeywordOf{string(one)}, nil
		}
		choice += ", " + strconv.Quote(string(one))
	}
	if choice == "" {
		choice = ", none"
	}
	return KeywordOf{}, &BindError{Code: CodeValue, Row: -1,
		message: "the word is none of the keywords " + choice[2:]}
}

// String returns the word.
func (k KeywordOf) String() string { return k.word }

// Keywords returns the keywords that the archive writes. No other word gets into a query.
func Keywords() []string {
	return []string{
		"ASC", "DESC", "ALL", "DISTINCT", "AND", "OR", "XOR", "NOT", "NULL", "IS NULL", "IS NOT NULL", "DEFAULT", "TRUE",
		"FALSE", "LIKE", "NOT LIKE", "MICROSECOND", "SECOND", "MINUTE", "HOUR", "DAY", "WEEK", "MONTH", "QUARTER", "YEAR",
		"LEFT", "RIGHT", "INNER", "CROSS", "UNION", "UNION ALL", "FOR UPDATE", "LOCK IN SHARE MODE",
	}
}

// isPlace returns why what is no value can't stand where it does, if it can't.
func (w *writer) isPlace(kind string, at level) error {
	if w.single {
		return w.refuseValue("is " + kind + ", and a place takes one value here")
	}
	switch at {
	case itemLevel:
		return w.refuseValue("has an item that is " + kind +
			": lists and rows are of values, or a slice of Identifiers only, so write a place for each")
	case assignedLevel:
		return w.refuseAssigned(kind)
	}
	return nil
}

// refuseAssigned returns the error for what a column is set to and is more than one value.
func (w *writer) refuseAssigned(kind string) error {
	column := make([]string, 0, len(w.column))
	for _, name := range w.column {
		column = append(column, "`"+shown(name)+"`")
	}
	return w.refuseValue("sets " + strings.Join(column, ".") + " to " + kind + ": a column takes one value")
}

// identifier writes an Identifier.
func (w *writer) identifier(names Identifier, at level) error {
	if err := w.isPlace("an Identifier", at); err != nil {
		return err
	}
	w.fragments = true
	if len(names) == 1 {
		w.form = append(w.form, typeIdentifier, 0)
	} else {
		w.form = append(w.form, typeQualified, 0)
		w.count(len(names))
	}
	w.names(names)
	return nil
}

// names writes the names of an identifier, without their count.
func (w *writer) names(names Identifier) {
	for _, name := range names {
		w.string(name)
	}
}

// identifiers writes Identifiers that stand in one place.
func (w *writer) identifiers(of []Identifier) {
	w.form = append(w.form, typeIdentifiers, 0)
	w.count(len(of))
	for _, names := range of {
		w.count(len(names))
		w.names(names)
	}
}

// identifiersOf returns the elements of a slice, and whether these are Identifiers only. Without elements the
// slice's type decides.
func identifiersOf(slice any) ([]Identifier, bool) {
	elements := reflect.ValueOf(slice)
	if elements.Len() == 0 {
		return nil, elements.Type().Elem() == identifierType
	}
	var found []Identifier
	for i := 0; i < elements.Len(); i++ {
		switch element := elements.Index(i).Interface().(type) {
		case Identifier:
			found = append(found, element)
		case *Identifier:
			if element == nil {
				return nil, false
			}
			found = append(found, *element)
		default:
			return nil, false
		}
	}
	return found, true
}

// assignments writes Assignments.
func (w *writer) assignments(assigned Assignments, at level) error {
	if err := w.isPlace("Assignments", at); err != nil {
		return err
	}
	w.fragments = true
	w.form = append(w.form, typeAssignments, 0)
	w.count(len(assigned))
	for _, one := range assigned {
		w.count(len(one.Column))
		w.names(one.Column)
		w.column = one.Column
		if err := w.value(one.Value, assignedLevel); err != nil {
			return err
		}
	}
	return nil
}

// keyword writes a keyword.
func (w *writer) keyword(keyword KeywordOf, at level) error {
	if err := w.isPlace("a keyword", at); err != nil {
		return err
	}
	w.fragments = true
	w.form = append(w.form, typeKeyword, 0)
	w.string(keyword.word)
	return nil
}

// count writes how many come.
func (w *writer) count(number int) {
	w.form = binary.LittleEndian.AppendUint32(w.form, uint32(number))
}

// list writes a slice that is no []byte, as what a place takes that is alone in brackets.
func (w *writer) list(slice any, at level) error {
	if w.single {
		return w.refuseValue("is a slice, and a place takes one value here: write a place for each of its values")
	}
	switch at {
	case itemLevel:
		return w.refuseValue("has a slice in a row: rows are of values")
	case assignedLevel:
		return w.refuseAssigned("a slice")
	}
	return w.several(slice, implicit)
}

// in writes a List, as what each place takes.
func (w *writer) in(list List, at level) error {
	if err := w.isPlace("an In", at); err != nil {
		return err
	}
	if !isRow(list.items) {
		return w.refuseIn(list)
	}
	if _, ok := identifiersOf(list.items); ok {
		return w.refuseIn(list)
	}
	return w.several(list.items, explicit)
}

// refuseIn returns the error for a List of what is no values.
func (w *writer) refuseIn(list List) error {
	return w.refuseValue(fmt.Sprintf("is In of a %T, which is no list of values", list.items))
}

// listTypes are the types of a list and of rows in the form.
type listTypes struct{ list, rows byte }

var (
	implicit = listTypes{typeImplicitList, typeImplicitRows}
	explicit = listTypes{typeList, typeRows}
)

// several writes a slice: a list of values, or rows if its elements are slices; Identifiers by their own type.
func (w *writer) several(slice any, types listTypes) error {
	w.fragments = true
	if rows, ok := slice.([][]any); ok {
		w.beginRows(types, len(rows))
		begin := len(w.form)
		for i, row := range rows {
			if err := w.anyItems(row); err != nil {
				return err
			}
			if i == 0 {
				w.haveMore((len(w.form) - begin) * len(rows))
			}
		}
		return nil
	}
	rows, err := w.areRows(slice)
	if err != nil {
		return err
	}
	if rows {
		return w.rows(reflect.ValueOf(slice), types)
	}
	if identifiers, ok := identifiersOf(slice); ok {
		w.identifiers(identifiers)
		return nil
	}
	w.form = append(w.form, types.list, 0)
	return w.items(slice)
}

// haveMore has memory for so many bytes, and a quarter more, so that a form isn't copied as it grows. It is a guess,
// so that it has no more than what is kept.
func (w *writer) haveMore(count int) {
	wanted := len(w.form) + count + count/4
	if wanted > keptForm {
		wanted = keptForm
	}
	if wanted > cap(w.form) {
		w.form = append(make([]byte, 0, wanted), w.form...)
	}
}

// beginRows begins so many rows.
func (w *writer) beginRows(types listTypes, count int) {
	w.form = append(w.form, types.rows, 0)
	w.count(count)
}

// rows writes rows.
func (w *writer) rows(rows reflect.Value, types listTypes) error {
	w.beginRows(types, rows.Len())
	for i := 0; i < rows.Len(); i++ {
		if err := w.items(rows.Index(i).Interface()); err != nil {
			return err
		}
	}
	return nil
}

// anyItems writes the count of items, and these.
func (w *writer) anyItems(items []any) error {
	w.count(len(items))
	for _, item := range items {
		if err := w.value(item, itemLevel); err != nil {
			return err
		}
	}
	return nil
}

// items writes the count of a slice's items, and these.
func (w *writer) items(slice any) error {
	switch items := slice.(type) {
	case []any:
		return w.anyItems(items)
	case []int:
		w.count(len(items))
		for _, item := range items {
			w.int(int64(item))
		}
	case []int64:
		w.count(len(items))
		for _, item := range items {
			w.int(item)
		}
	case []string:
		w.count(len(items))
		for _, item := range items {
			w.text(item)
		}
	default:
		elements := reflect.ValueOf(slice)
		w.count(elements.Len())
		for i := 0; i < elements.Len(); i++ {
			if err := w.value(elements.Index(i).Interface(), itemLevel); err != nil {
				return err
			}
		}
	}
	return nil
}

// areRows returns whether the elements of a slice are rows. Rows and values in one slice are refused.
func (w *writer) areRows(slice any) (bool, error) {
	values, ok := slice.([]any)
	if !ok {
		kind := reflect.TypeOf(slice).Elem()
		if kind.Kind() != reflect.Interface {
			return isRowType(kind), nil
		}
		of := reflect.ValueOf(slice)
		for i := 0; i < of.Len(); i++ {
			values = append(values, of.Index(i).Interface())
		}
	}
	rows := 0
	for _, value := range values {
		if isRow(value) {
			rows++
		}
	}
	if rows > 0 && rows < len(values) {
		return false, w.refuseValue("has rows and values: give a slice of values, or one of rows only")
	}
	return rows > 0, nil
}

// isRow returns whether a value is a row.
func isRow(value any) bool {
	switch value.(type) {
	case nil, int, int64, string, []byte, bool, float64:
		return false
	case []any:
		return true
	default:
		return isRowType(reflect.TypeOf(value))
	}
}

var (
	valuerType     = reflect.TypeOf((*driver.Valuer)(nil)).Elem()
	byteType       = reflect.TypeOf(byte(0))
	identifierType = reflect.TypeOf(Identifier(nil))
	assignmentType = reflect.TypeOf(Assignment{})
)

// isRowType returns whether values of a type are rows: slices, except those of bytes or Assignments,
// Identifiers and what has a method Value.
func isRowType(kind reflect.Type) bool {
	return kind.Kind() == reflect.Slice && kind.Elem() != byteType && kind.Elem() != assignmentType &&
		kind != identifierType && !kind.Implements(valuerType)
}
