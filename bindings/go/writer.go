package mysqlparams

import (
	"database/sql"
	"encoding/binary"
	"math"
	"math/big"
	"strconv"
	"time"
	"unsafe"
)

// Numbers of column types in the protocol, and of the types that the calls for fragments take.
const (
	typeFloat, typeDouble, typeNull, typeLongLong      = 4, 5, 6, 8
	typeTime, typeDatetime, typeString                 = 11, 12, 253
	typeNumber, typeList, typeRows                     = 128, 129, 130
	typeIdentifier, typeQualified, typeKeyword    byte = 131, 132, 133
	typeIdentifiers, typeAssignments              byte = 134, 135
	typeImplicitList, typeImplicitRows            byte = 136, 137
	flagUnsigned                                  byte = 128
)

// writer writes arguments as the flat form of mysql_params.h.
type writer struct {
	form      []byte
	fragments bool           // whether the form has what only the calls for fragments take
	single    bool           // whether a place takes only one value
	location  *time.Location // whose clock a time.Time is written by; nil for its own
	name      string         // the name of the argument that is written
	number    int            // its number
	column    Identifier     // the column of the assignment that is written
	left      []string       // the names that the form lacks, of values in their order; nil if it lacks none
	starts    []int          // where the values begin whose names it lacks
}

// begin has the writer write a form anew.
func (w *writer) begin(location *time.Location, single bool) {
	w.form, w.fragments, w.single, w.location = w.form[:0], false, single, location
	w.left, w.starts = nil, w.starts[:0]
}

// end drops what the writer shouldn't keep.
func (w *writer) end() {
	w.name, w.location, w.column, w.left = "", nil, nil, nil
	if cap(w.form) > keptForm {
		w.form, w.starts = nil, nil
	}
}

// arguments writes all arguments of a call.
func (w *writer) arguments(args []any) error {
	for i, arg := range args {
		name := ""
		if named, ok := arg.(sql.NamedArg); ok {
			if named.Name == "" {
				w.number, w.name = i, ""
				return w.refuse("Parameter " + strconv.Itoa(i) + " has an empty name")
			}
			name, arg = named.Name, named.Value
		}
		w.string(name)
		if w.plain(arg) {
			continue
		}
		w.number, w.name = i, name
		if err := w.value(arg, placeLevel); err != nil {
			return err
		}
	}
	return nil
}

// inOrder writes all arguments of a call without their names, if these are the names in their order. It returns
// whether they are, and the error of the first value that is refused.
func (w *writer) inOrder(names []string, args []any) (bool, error) {
	if len(args) != len(names) {
		return false, nil
	}
	for i, arg := range args {
		named, ok := arg.(sql.NamedArg)
		if !ok || named.Name != names[i] {
			return false, nil
		}
		w.starts = append(w.starts, len(w.form))
		w.form = append(w.form, 0)
		if w.plain(named.Value) {
			continue
		}
		// A method Value is asked once: so no argument may have another name.
		if !haveNames(args[i+1:], names[i+1:]) {
			return false, nil
		}
		w.number, w.name = i, named.Name
		if err := w.value(named.Value, placeLevel); err != nil {
			return true, err
		}
	}
	w.left = names
	return true, nil
}

// giveNames has each value of the form stand behind its name, as if it had been written so.
func (w *writer) giveNames() {
	without := append([]byte(nil), w.form...)
	w.form = w.form[:0]
	for i, name := range w.left {
		end := len(without)
		if i+1 < len(w.starts) {
			end = w.starts[i+1]
		}
		w.string(name)
		w.form = append(w.form, without[w.starts[i]+1:end]...)
	}
	w.left = nil
}

// haveNames returns whether arguments, as many as the names, have these.
func haveNames(args []any, names []string) bool {
	for i, arg := range args {
		if named, ok := arg.(sql.NamedArg); !ok || named.Name != names[i] {
			return false
		}
	}
	return true
}

// refuse returns the error for the argument that is written.
func (w *writer) refuse(message string) error {
	return &BindError{Code: CodeValue, Place: w.number, Name: w.name, Row: -1, message: message}
}

// which returns what messages call the value of the argument.
func (w *writer) which() string {
	if w.name == "" {
		return "the value for place " + strconv.Itoa(w.number)
	}
	return "the value of `:" + shown(w.name) + "`"
}

// refuseValue returns the error for a value of the argument: "the value of `:a` is a chan int, .."
func (w *writer) refuseValue(is string) error {
	return w.refuse(w.which() + " " + is)
}

// string writes a length-encoded string.
func (w *writer) string(text string) {
	if len(text) < 251 {
		w.form = append(append(w.form, byte(len(text))), text...)
		return
	}
	w.length(len(text))
	w.form = append(w.form, text...)
}

// length writes a length as the protocol has it.
func (w *writer) length(count int) {
	switch {
	case count < 251:
		w.form = append(w.form, byte(count))
	case count < 1<<16:
		w.form = append(w.form, 0xFC, byte(count), byte(count>>8))
	case count < 1<<24:
		w.form = append(w.form, 0xFD, byte(count), byte(count>>8), byte(count>>16))
	default:
		w.form = binary.LittleEndian.AppendUint64(append(w.form, 0xFE), uint64(count))
	}
}

// null writes NULL.
func (w *writer) null() {
	w.form = append(w.form, typeNull, 0)
}

// int writes a signed whole number.
func (w *writer) int(number int64) {
	w.whole64(uint64(number), 0)
}

// uint writes an unsigned whole number.
func (w *writer) uint(number uint64) {
	w.whole64(number, flagUnsigned)
}

// whole64 writes the bits of a whole number, by one append, which is what most of a form's time goes into.
func (w *writer) whole64(n uint64, flags byte) {
	w.form = append(w.form, typeLongLong, flags, byte(n), byte(n>>8), byte(n>>16), byte(n>>24), byte(n>>32),
		byte(n>>40),
		byte(n>>48), byte(n>>56))
}

// bool writes 1 or 0.
func (w *writer) bool(truth bool) {
	if truth {
		w.int(1)
	} else {
		w.int(0)
	}
}

// text writes a text.
func (w *writer) text(text string) {
	if len(text) < 251 {
		w.form = append(append(w.form, typeString, 0, byte(len(text))), text...)
		return
	}
	w.form = append(w.form, typeString, 0)
	w.string(text)
}

// bytes writes bytes; NULL for nil.
func (w *writer) bytes(bytes []byte) {
	if bytes == nil {
		w.null()
		return
	}
	w.text(*(*string)(unsafe.Pointer(&bytes))) // It is read at once.
}

// finite has a finite number be bound by the calls for fragments. Another is refused by each call.
func (w *writer) finite(number float64) {
	if !math.IsNaN(number) && !math.IsInf(number, 0) {
		w.fragments = true
	}
}

// double writes a float64.
func (w *writer) double(number float64) {
	w.finite(number)
	w.form = binary.LittleEndian.AppendUint64(append(w.form, typeDouble, 0), math.Float64bits(number))
}

// float writes a float32.
func (w *writer) float(number float32) {
	w.finite(float64(number))
	w.form = binary.LittleEndian.AppendUint32(append(w.form, typeFloat, 0), math.Float32bits(number))
}

// time writes a date with its time of day, to the nearest microsecond.
func (w *writer) time(moment time.Time) error {
	if w.location != nil {
		moment = moment.In(w.location)
	}
	if moment.Nanosecond()%1000 != 0 {
		moment = moment.Round(time.Microsecond)
	}
	year, month, day := moment.Date()
	hour, minute, second := moment.Clock()
	if year < 0 || year > 9999 {
		return w.refuseValue("is a time.Time of the year " + strconv.Itoa(year) + ", and a date has years from 0 to 9999")
	}
	w.form = append(w.form, typeDatetime, 0, 11, byte(year), byte(year>>8), byte(month), byte(day), byte(hour),
		byte(minute),
		byte(second))
	w.form = binary.LittleEndian.AppendUint32(w.form, uint32(moment.Nanosecond()/1000))
	return nil
}

// duration writes a span of time, to the nearest microsecond.
func (w *writer) duration(span time.Duration) {
	size, sign := uint64(span), byte(0)
	if span < 0 {
		size, sign = -size, 1
	}
	size = (size + 500) / 1000
	const second, minute, hour, day = 1e6, 60e6, 3600e6, 86400e6
	w.form = append(w.form, typeTime, 0, 12, sign)
	w.form = binary.LittleEndian.AppendUint32(w.form, uint32(size/day))
	w.form = append(w.form, byte(size%day/hour), byte(size%hour/minute), byte(size%minute/second))
	w.form = binary.LittleEndian.AppendUint32(w.form, uint32(size%second))
}

// whole writes a whole number of any size.
func (w *writer) whole(number *big.Int) error {
	switch {
	case number == nil:
		w.null()
	case number.IsInt64():
		w.int(number.Int64())
	case number.IsUint64():
		w.uint(number.Uint64())
	case number.BitLen() > mostBits:
		return w.refuseDigits("more than " + strconv.Itoa(mostDigits))
	default:
		return w.decimal(number.String())
	}
	return nil
}

// mostDigits is how many digits of an exact number servers keep, and mostBits how many bits a number of so many has.
// The digits of one with many more would take long to find.
const (
	mostDigits = 65
	mostBits   = 216
)

// refuseDigits returns the error for an exact number of so many digits.
func (w *writer) refuseDigits(count string) error {
	return w.refuseValue("is an exact number of " + count + " digits, and servers keep " + strconv.Itoa(mostDigits) +
		": round it")
}

// decimal writes an exact number.
func (w *writer) decimal(text string) error {
	if w.single {
		return w.refuseValue("is an exact number, and a place takes one value here: give its digits as a string, and CAST(" +
			w.mark() + " AS DECIMAL(65,30)): a text in arithmetic is a double")
	}
	digits := 0
	for i := 0; i < len(text); i++ {
		if '0' <= text[i] && text[i] <= '9' {
			digits++
		}
	}
	if digits > mostDigits {
		return w.refuseDigits(strconv.Itoa(digits))
	}
	w.fragments = true
	w.form = append(w.form, typeNumber, 0)
	w.string(text)
	return nil
}

// mark returns the argument's place as a query has it.
func (w *writer) mark() string {
	if w.name == "" {
		return "?"
	}
	return ":" + shown(w.name)
}
