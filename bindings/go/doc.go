// Package mysqlparams puts values into SQL queries for MySQL and MariaDB as literals.
//
//	rows, err := mysqlparams.QueryContext(ctx, db, "SELECT * FROM t WHERE name = :name", sql.Named("name", "it's"))
//
// QueryContext and ExecContext send guarded text: its literals have the connection's collation, and no mode moves the
// end of one. The connection is asked only if the text depends on it. BindAnywhere returns a text for any connection,
// which Binder.Steady has sent. Bind returns one for a connection that you asked.
//
// Arguments are sql.NamedArg for the names of a query, or values in order for its marks. A name is a colon, a
// letter or `_`, and all letters, digits and `_` that follow, as `:userId`. Letters are those of ASCII, and names
// are told apart by case. Each colon before a letter or `_` begins a name, except in strings, quoted identifiers
// and comments. So `x:LOOP` is refused, and `x: LOOP` is sent as it is.
//
// A value is one of these; pointers to them are followed, and a nil pointer is NULL:
//
//   - nil, bool, which is 1 or 0, and whole numbers of each size;
//   - float32 and float64, as the DOUBLE of this value; NaN and infinities are refused;
//   - string and []byte, as a string, or in hexadecimal if the bytes aren't UTF-8; a nil []byte is NULL;
//   - time.Time, as its own clock shows it, or that of Binder.Location, to the nearest microsecond, in the years
//     0 to 9999;
//   - time.Duration, as a TIME;
//   - *big.Int and Decimal, as exact numbers;
//   - types whose kind is one of these, as `type Status int`;
//   - a driver.Valuer, as the sql.Null types, by what its Value returns;
//   - a slice, as a list for a place that is alone in brackets, as in `IN (?)`; a slice of slices, as rows for such a
//     place, or for `VALUES ?`; an empty one is refused;
//   - what In returns of a slice, for any place, as in `FIELD(id, ?)`;
//   - Identifier, and a slice of them, as the columns of an INSERT;
//   - Assignments, for `SET ?`;
//   - what Keyword and KeywordAmong return.
//
// A struct, a map, an array, a channel and a func are refused by name. No method String is called.
//
// The archive libmysql_params_c.a answers each call. What it answers is stated in the repository's
// docs/RULES.md and proved for every input. This package, which hands values in and answers out, is tested
// and not proved. It calls the archive by cgo; a bind is one such call. All but BindInBothModes and BindRows keep the
// places of the last queries from their second time on. All functions and types are safe for
// goroutines.
package mysqlparams

// Version is the version of the package, and of the archive.
const Version = "0.1.0"
