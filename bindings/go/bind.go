package mysqlparams

import "time"

// Binder binds with options. The functions of the package are those of the zero Binder.
type Binder struct {
	// Location is whose clock each time.Time is written by, as time.UTC where the session's @@time_zone is
	// '+00:00'. If it is nil, each is written as its own clock shows it.
	Location *time.Location
	// Steady is whether QueryContext and ExecContext send the text of BindAnywhere, if that takes the query and its
	// Identifiers, and whether a Session sends no other text. Its literals have the collation of utf8mb4 in place of
	// the connection's. QueryContext and ExecContext ask nothing for it.
	Steady bool
}

// BindAnywhere returns the query with literals that depend on no connection: no sql_mode and no character set
// moves the end of one, on MySQL or MariaDB. Nothing has to be asked before it is sent.
//
// The query has to be ASCII without a backslash, also in its comments, and portable. Texts are written so:
//
//	SELECT _utf8mb4'it''s', _utf8mb4 0xC3A9
func BindAnywhere(query string, args ...any) (string, error) {
	return Binder{}.BindAnywhere(query, args...)
}

// Bind returns the query with the literals of the values in its places, for a connection of the mode over
// utf8mb4: the text to send. Ask FirstUnportable of the query before. If the mode is not the connection's, a
// value can leave its literal: Ask asks for it.
func Bind(mode Mode, query string, args ...any) (string, error) {
	return Binder{}.Bind(mode, query, args...)
}

// BindInBothModes returns the text of BindAnywhere for a query that may have bytes from 128 on: no sql_mode
// moves the end of a literal. The connection's character set has to be that of the query, utf8mb4 for UTF-8. No
// string of the query may hold a backslash. Each place takes one value, which is no float and no exact
// number.
func BindInBothModes(query string, args ...any) (string, error) {
	return Binder{}.BindInBothModes(query, args...)
}

// BindAnywhere is the package's BindAnywhere with the options.
func (b Binder) BindAnywhere(query string, args ...any) (string, error) {
	q := steadyQuestion(callAnywhere, query)
	return b.bind(&q, args)
}

// steadyQuestion returns the question of a call that takes what BindAnywhere takes, by what is kept of the query, if
// that has a table for it.
func steadyQuestion(call call, query string) question {
	if kept := keptTemplate(BackslashEscapes, query); kept != nil && kept.anywhere != nil {
		return kept.question(call)
	}
	return question{call: call, query: query}
}

// Bind is the package's Bind with the options.
func (b Binder) Bind(mode Mode, query string, args ...any) (string, error) {
	if kept := keptTemplate(mode, query); kept != nil {
		return b.BindTemplate(kept, args...)
	}
	return b.bind(&question{call: callBind, mode: mode, query: query}, args)
}

// BindInBothModes is the package's BindInBothModes with the options.
func (b Binder) BindInBothModes(query string, args ...any) (string, error) {
	return b.bind(&question{call: callBothModes, query: query}, args)
}

// BindTemplate is Template.Bind with the options.
func (b Binder) BindTemplate(template *Template, args ...any) (string, error) {
	q := template.question(callTemplate)
	return b.bind(&q, args)
}

// bind writes the arguments, and asks.
func (b Binder) bind(q *question, args []any) (string, error) {
	r, err := b.written(q, args)
	if err != nil {
		return "", err
	}
	defer r.giveBack()
	return r.bound(q)
}

// written returns a room with the arguments as a form: each is read once, however often that is bound.
func (b Binder) written(q *question, args []any) (*room, error) {
	if err := ready(); err != nil {
		return nil, err
	}
	r := rooms.Get().(*room)
	if err := r.write(q, args, b.Location); err != nil {
		r.giveBack()
		return nil, err
	}
	return r, nil
}

// write writes the arguments: without their names if the question has a table for values in the order of the places.
func (r *room) write(q *question, args []any, location *time.Location) error {
	if q.table != nil && q.table.marked != nil {
		r.writer.begin(location, false)
		if is, err := r.writer.inOrder(q.table.names, args); is || err != nil {
			return err
		}
	}
	r.writer.begin(location, q.call == callBothModes)
	return r.writer.arguments(args)
}
