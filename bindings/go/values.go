package mysqlparams

import (
	"database/sql/driver"
	"math/big"
	"reflect"
	"time"
)

// level is where a value stands: in a place, in a list or a row, or behind the column of an assignment.
type level int

const (
	placeLevel level = iota
	itemLevel
	assignedLevel
)

// longestChain is how many pointers and driver.Valuers may lead to a value.
const longestChain = 16

// value writes a value, without its name.
func (w *writer) value(value any, at level) error {
	return w.valueOf(value, at, longestChain)
}

// plain writes a value of those types that are never refused, and returns whether it is of one.
func (w *writer) plain(value any) bool {
	switch v := value.(type) {
	case nil:
		w.null()
	case int:
		w.int(int64(v))
	case int64:
		w.int(v)
	case string:
		w.text(v)
	case []byte:
		w.bytes(v)
	case bool:
		w.bool(v)
	case float64:
		w.double(v)
	default:
		return false
	}
	return true
}

// valueOf writes a value to which so many steps may lead. It has the types that most values are of.
func (w *writer) valueOf(value any, at level, steps int) error {
	if w.plain(value) {
		return nil
	}
	switch v := value.(type) {
	case time.Time:
		return w.time(v)
	case []any, []int, []int64, []string, [][]any:
		return w.list(v, at)
	}
	return w.otherValue(value, at, steps)
}

// otherValue writes a value of another type: those that have a meaning here, then what has a method Value,
// then by kind.
func (w *writer) otherValue(value any, at level, steps int) error {
	switch v := value.(type) {
	case time.Duration:
		w.duration(v)
	case *big.Int:
		return w.whole(v)
	case Decimal:
		return w.decimal(string(v))
	case Identifier:
		return w.identifier(v, at)
	case Assignments:
		return w.assignments(v, at)
	case KeywordOf:
		return w.keyword(v, at)
	case List:
		return w.in(v, at)
	case driver.Valuer:
		return w.valuer(v, at, steps)
	default:
		return w.byKind(reflect.ValueOf(value), at, steps)
	}
	return nil
}

// valuer writes what a driver.Valuer returns; NULL for a nil pointer whose type has the method of what it
// points to.
func (w *writer) valuer(valuer driver.Valuer, at level, steps int) error {
	if steps == 0 {
		return w.refuseValue("is a driver.Valuer or a pointer that leads to no value")
	}
	pointer := reflect.ValueOf(valuer)
	if pointer.Kind() == reflect.Pointer && pointer.IsNil() &&
		pointer.Type().Elem().Implements(reflect.TypeOf((*driver.Valuer)(nil)).Elem()) {
		w.null()
		return nil
	}
	made, err := valuer.Value()
	if err != nil {
		return &BindError{Code: CodeValue, Place: w.number, Name: w.name, Row: -1, cause: err,
			message: w.which() + ": its method Value returned an error"}
	}
	return w.valueOf(made, at, steps-1)
}

// byKind writes a value of a type by the kind of the type.
func (w *writer) byKind(value reflect.Value, at level, steps int) error {
	switch value.Kind() {
	case reflect.Bool:
		w.bool(value.Bool())
	case reflect.Int, reflect.Int8, reflect.Int16, reflect.Int32, reflect.Int64:
		w.int(value.Int())
	case reflect.Uint, reflect.Uint8, reflect.Uint16, reflect.Uint32, reflect.Uint64:
		w.uint(value.Uint())
	case reflect.Float32:
		w.float(float32(value.Float()))
	case reflect.Float64:
		w.double(value.Float())
	case reflect.String:
		w.text(value.String())
	case reflect.Pointer:
		return w.pointer(value, at, steps)
	case reflect.Slice:
		switch value.Type().Elem() {
		case byteType:
			w.bytes(value.Bytes())
			return nil
		case assignmentType:
			return w.assignments(value.Convert(reflect.TypeOf(Assignments(nil))).Interface().(Assignments), at)
		}
		return w.list(value.Interface(), at)
	default:
		return w.refuseKind(value)
	}
	return nil
}

// pointer writes what a pointer points to, or NULL.
func (w *writer) pointer(value reflect.Value, at level, steps int) error {
	if value.IsNil() {
		w.null()
		return nil
	}
	if steps == 0 {
		return w.refuseValue("is a driver.Valuer or a pointer that leads to no value")
	}
	return w.valueOf(value.Elem().Interface(), at, steps-1)
}

// refuseKind returns the error for a value that has no literal, by the name of its type.
func (w *writer) refuseKind(value reflect.Value) error {
	is := "is of type " + value.Type().String() + ", which has no literal"
	switch value.Kind() {
	case reflect.Map:
		is += ": for SET give Assignments, which have an order, else json.Marshal's bytes of it"
	case reflect.Struct:
		if value.Type() == assignmentType {
			return w.refuseValue(is + ": give Assignments{..} of it")
		}
		is += ": give its parts, or json.Marshal's bytes of it"
	case reflect.Array:
		is += ": give a slice of it, as a[:]"
	}
	return w.refuseValue(is)
}
