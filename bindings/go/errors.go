package mysqlparams

import (
	"strconv"
	"strings"
)

// Code is the number of a refusal. From 1 on it is that of mysql_params.h. Those below 0 are this package's own.
type Code int32

const (
	CodeOutOfMemory        Code = 1  // the archive's malloc gave no memory
	CodeFormEnd            Code = 3  // the form ends within a parameter
	CodeFormLengthLead     Code = 4  // a length in the form begins with a wrong byte
	CodeFormType           Code = 5  // a parameter of the form has a type without a binary form
	CodeFormMixed          Code = 6  // arguments with and without a name
	CodeRepeatedName       Code = 7  // a name is given twice
	CodeMixed              Code = 8  // the query has names and marks
	CodeMissing            Code = 9  // a name of the query has no value
	CodeNamedForPositional Code = 10 // arguments with names, and the query has no names
	CodePositionalForNamed Code = 11 // arguments without names, and the query has names
	CodeMarkCount          Code = 12 // not as many values as marks
	CodeNotAlone           Code = 13 // a place could run into its neighbour, as in `1?`
	CodeFloat              Code = 14 // NaN or an infinity; by BindInBothModes each float
	CodeUnsteady           Code = 15 // by BindAnywhere: a backslash or a byte from 128 on in the query
	CodeUnportable         Code = 16 // servers read the query in different ways
	CodeFault              Code = 17 // a list, rows, an exact number, a name, an assignment or a keyword that can't be written
	CodeBackslash          Code = 18 // by BindInBothModes: a backslash in a string of the query
	CodeUnsteadyFragment   Code = 19 // by BindAnywhere: an Identifier that isn't ASCII without a backslash
	CodeOtherTable         Code = 20 // the archive's own: it comes from no function of this package
	CodeUnbracketed        Code = 21 // a slice without In, whose place isn't alone in brackets, as in `IN (?)`
	CodeValue              Code = -1 // a Go value that can't be bound, or a name that is empty
	CodeSession            Code = -2 // the connection isn't one that a bound text is for
	CodeProcessor          Code = -3 // the processor lacks a feature of x86-64-v2
	CodeArchive            Code = -4 // the archive isn't the one of this package
)

// The causes of refusals, for errors.Is: each is the BindErrors with the Code of its name.
var (
	ErrOutOfMemory        error = &cause{CodeOutOfMemory, "out of memory"}
	ErrFormEnd            error = &cause{CodeFormEnd, "the form ends within a parameter"}
	ErrFormLengthLead     error = &cause{CodeFormLengthLead, "a length in the form begins with a wrong byte"}
	ErrFormType           error = &cause{CodeFormType, "a type without a binary form"}
	ErrFormMixed          error = &cause{CodeFormMixed, "arguments with and without a name"}
	ErrRepeatedName       error = &cause{CodeRepeatedName, "a name is given twice"}
	ErrMixed              error = &cause{CodeMixed, "a query with names and marks"}
	ErrMissing            error = &cause{CodeMissing, "a name has no value"}
	ErrNamedForPositional error = &cause{CodeNamedForPositional, "arguments with names for a query without"}
	ErrPositionalForNamed error = &cause{CodePositionalForNamed, "arguments without names for a query with names"}
	ErrMarkCount          error = &cause{CodeMarkCount, "not as many values as marks"}
	ErrNotAlone           error = &cause{CodeNotAlone, "a place touches its neighbour"}
	ErrFloat              error = &cause{CodeFloat, "a float that can't be written"}
	ErrUnsteady           error = &cause{CodeUnsteady, "a query that isn't ASCII without a backslash"}
	ErrUnportable         error = &cause{CodeUnportable, "a query that servers read in different ways"}
	ErrFault              error = &cause{CodeFault, "a list, rows, a number, a name or a keyword that can't be written"}
	ErrBackslash          error = &cause{CodeBackslash, "a backslash in a string of the query"}
	ErrUnsteadyFragment   error = &cause{CodeUnsteadyFragment, "a name that isn't ASCII without a backslash"}
	ErrOtherTable         error = &cause{CodeOtherTable, "the table of another query"}
	ErrUnbracketed        error = &cause{CodeUnbracketed, "a list for a place that isn't alone in brackets"}
	ErrValue              error = &cause{CodeValue, "a value that can't be bound"}
	ErrSession            error = &cause{CodeSession, "a connection that a bound text isn't for"}
	ErrProcessor          error = &cause{CodeProcessor, "the processor lacks a feature of x86-64-v2"}
	ErrArchive            error = &cause{CodeArchive, "the archive of another package"}
)

// cause is a Code as an error.
type cause struct {
	code Code
	says string
}

func (c *cause) Error() string { return "mysqlparams: " + c.says }

// Fault is what is wrong with a list, rows, an exact number, Identifiers, Assignments or a keyword.
type Fault int

const (
	FaultEmpty         Fault = 1  // a list without items, no rows, an Identifier without names, or no Assignments
	FaultEmptyRow      Fault = 2  // a row without items
	FaultRowLength     Fault = 3  // a row that is not as long as the first
	FaultNumber        Fault = 4  // a text that is no exact number
	FaultEmptyName     Fault = 5  // a name without characters
	FaultZeroByte      Fault = 6  // a name with a byte 0
	FaultLongName      Fault = 7  // a name of more than 64 characters
	FaultTrailingSpace Fault = 8  // a name that ends in a space
	FaultKeyword       Fault = 9  // a word that is none of Keywords
	FaultBackslash     Fault = 10 // a name with a backslash before a backquote or at its end
)

// BindError is each refusal of this package: errors.As finds it, and errors.Is its cause, such as ErrMissing.
// Numbers of places, arguments, rows and bytes begin at 0.
type BindError struct {
	// Code says which refusal it is.
	Code Code
	// Place is the number of the place in the query for CodeMissing, CodeNotAlone, CodeFloat, CodeFault,
	// CodeUnsteadyFragment and CodeUnbracketed. For those of the form from CodeFormEnd to CodeRepeatedName, and for
	// CodeValue, it is the number of the argument.
	Place int
	// Position is the byte of the query at which the name of CodeMissing begins, after its colon; the place
	// of CodeNotAlone and CodeUnbracketed; the construct of CodeUnportable; and the byte of CodeUnsteady and
	// CodeBackslash. For those of the form it is a byte of the form.
	Position int
	// Name is the name that is missing or given twice; the name of the place of CodeFloat, CodeFault,
	// CodeUnsteadyFragment and CodeUnbracketed, if it has one; and of the argument of CodeValue.
	Name string
	// Word is the word of the query, without its colon, in which a letter that no name has stands, as in
	// `:größe`, if that may be why CodeMissing, CodeNotAlone or CodeNamedForPositional came.
	Word string
	// Marks and Values are the marks of the query and the arguments of CodeMarkCount.
	Marks, Values int
	// Construct is that of CodeUnportable.
	Construct Construct
	// Fault, InRow and Item say what is wrong for CodeFault, in which row, and in which item, or name. Names are
	// counted through all Identifiers or columns of a place.
	Fault       Fault
	InRow, Item int
	// Byte is the byte of CodeFormLengthLead and CodeFormType.
	Byte byte
	// Row is the number of the row that is refused by BindRows. Else it is -1.
	Row int

	message string
	cause   error
}

// Error returns what is wrong in one line, without a value.
func (e *BindError) Error() string {
	if e.Row >= 0 {
		return "row " + strconv.Itoa(e.Row) + ": " + e.message
	}
	return e.message
}

// Unwrap returns the error of a driver.Valuer, if it was one.
func (e *BindError) Unwrap() error { return e.cause }

// Is returns whether a target is the cause of this refusal, such as ErrMissing.
func (e *BindError) Is(target error) bool {
	of, ok := target.(*cause)
	return ok && of.code == e.Code
}

// nameAt returns a copy of so many bytes of a source, if they stand in it. A form's memory is used again.
func nameAt(source string, begin, length int) string {
	if begin < 0 || length < 0 || begin > len(source) || length > len(source)-begin {
		return ""
	}
	return strings.Clone(source[begin : begin+length])
}

// shown returns a text as messages show it: other bytes than printable ASCII, `"` and `\` as `\x` and two digits.
func shown(text string) string {
	var made strings.Builder
	for i := 0; i < len(text); i++ {
		b := text[i]
		if b < 32 || b > 126 || b == '"' || b == '\\' {
			made.WriteString(`\x` + string("0123456789abcdef"[b>>4]) + string("0123456789abcdef"[b&15]))
		} else {
			made.WriteByte(b)
		}
	}
	return made.String()
}
