package mysqlparams

import (
	"context"
	"database/sql"
	"database/sql/driver"
	"errors"
	"fmt"
	"strings"
	"sync"
)

// Sender is what sends a text, such as a *sql.DB, a *sql.Conn or a *sql.Tx.
type Sender interface {
	QueryContext(ctx context.Context, query string, args ...any) (*sql.Rows, error)
	ExecContext(ctx context.Context, query string, args ...any) (sql.Result, error)
}

// OneConnection is a Sender of another package that promises, by its method, what a *sql.Conn and a *sql.Tx keep:
// each text goes over the same connection, which is never made anew.
type OneConnection interface {
	Sender
	OneConnection()
}

// QueryContext binds a query, and sends the text without arguments, so that the driver sends it as it is.
//
// Literals are guarded: no sql_mode, and no character set but swe7, moves the end of one. They have the connection's
// collation, and are written so:
//
//	SELECT 'it''s', 'é'
//
// A text that is ASCII without a backslash is sent at once. For another one the connection that sends it is asked
// first, as by Ask, of a *sql.DB one that is taken: its mode decides how a backslash of a value is written. If it isn't
// utf8mb4, or the Sender is none that Ask takes, the text is that of BindAnywhere.
//
// If the query or an Identifier has a backslash or a byte from 128 on, the connection is asked too, and the literals
// are plain, as those of Bind. Then one that isn't utf8mb4, or that can't be asked, is refused with CodeSession.
func QueryContext(ctx context.Context, to Sender, query string, args ...any) (*sql.Rows, error) {
	return Binder{}.QueryContext(ctx, to, query, args...)
}

// ExecContext binds a query, and sends the text, as QueryContext.
func ExecContext(ctx context.Context, to Sender, query string, args ...any) (sql.Result, error) {
	return Binder{}.ExecContext(ctx, to, query, args...)
}

// QueryContext is the package's QueryContext with the options.
func (b Binder) QueryContext(ctx context.Context, to Sender, query string, args ...any) (*sql.Rows, error) {
	bound, err := b.toSend(ctx, to, query, args)
	if err != nil {
		return nil, err
	}
	rows, err := bound.over.QueryContext(ctx, bound.text)
	if bound.taken != nil && err != nil {
		bound.taken.Close()
	} else if bound.taken != nil {
		go bound.taken.Close() // It waits until the rows are closed.
	}
	return rows, err
}

// ExecContext is the package's ExecContext with the options.
func (b Binder) ExecContext(ctx context.Context, to Sender, query string, args ...any) (sql.Result, error) {
	bound, err := b.toSend(ctx, to, query, args)
	if err != nil {
		return nil, err
	}
	if bound.taken != nil {
		defer bound.taken.Close()
	}
	return bound.over.ExecContext(ctx, bound.text)
}

// sending is a text, and what it is sent over.
type sending struct {
	text  string
	over  Sender
	taken *sql.Conn // of a pool, to be given back; nil if none was taken
}

// toSend binds a query for what its text is sent over, which is asked if the text depends on it.
func (b Binder) toSend(ctx context.Context, to Sender, query string, args []any) (sending, error) {
	call := callGuarded
	if b.Steady {
		call = callAnywhere
	}
	q := steadyQuestion(call, query)
	r, err := b.written(&q, args)
	if err != nil {
		return sending{}, err
	}
	defer r.giveBack()
	text, err := r.bound(&q)
	if err != nil && !isUnsteady(err) {
		return sending{}, err
	}
	if err == nil && isSteady(text) { // As each text of BindAnywhere.
		return sending{text: text, over: to}, nil
	}
	bound, refused := b.toSendAsked(ctx, to, r, &q, text)
	if err != nil || !errors.Is(refused, ErrSession) {
		return bound, refused
	}
	q.call = callAnywhere
	text, err = r.bound(&q)
	return sending{text: text, over: to}, err
}

// toSendAsked binds what is written for one connection, which is asked. The text is that for a mode with backslash
// escapes, if it was found.
func (b Binder) toSendAsked(ctx context.Context, to Sender, r *room, q *question, text string) (sending, error) {
	session, taken, err := b.askOne(ctx, to)
	if err != nil {
		return sending{}, err
	}
	if text == "" || session.mode != BackslashEscapes {
		q.call, q.mode = callForConnection, session.mode
		text, err = r.bound(q)
	}
	if err != nil && taken != nil {
		taken.Close()
	}
	return sending{text: text, over: session.conn, taken: taken}, err
}

// isUnsteady returns whether a query is refused only since it or a name isn't ASCII without a backslash.
func isUnsteady(err error) bool {
	var refused *BindError
	return errors.As(err, &refused) && (refused.Code == CodeUnsteady || refused.Code == CodeUnsteadyFragment)
}

// isSteady returns whether a text is ASCII without a backslash, which each mode and each character set but swe7 reads
// the same.
func isSteady(text string) bool {
	if strings.IndexByte(text, '\\') >= 0 {
		return false
	}
	for ; len(text) >= 8; text = text[8:] { // The compiler makes one load of these.
		if (uint64(text[0])|uint64(text[1])<<8|uint64(text[2])<<16|uint64(text[3])<<24|uint64(text[4])<<32|
			uint64(text[5])<<40|uint64(text[6])<<48|uint64(text[7])<<56)&0x8080808080808080 != 0 {
			return false
		}
	}
	for i := 0; i < len(text); i++ {
		if text[i] >= 0x80 {
			return false
		}
	}
	return true
}

// askOne asks a connection, of a pool one that the caller gives back.
func (b Binder) askOne(ctx context.Context, to Sender) (*Session, *sql.Conn, error) {
	db, ok := to.(*sql.DB)
	if !ok {
		session, err := b.Ask(ctx, to)
		return session, nil, err
	}
	for tries := 0; ; tries++ {
		conn, err := db.Conn(ctx)
		if err != nil {
			return nil, nil, err
		}
		session, err := b.Ask(ctx, conn)
		if err == nil {
			return session, conn, nil
		}
		conn.Close()
		if !errors.Is(err, driver.ErrBadConn) || tries == 2 {
			return nil, nil, err
		}
	}
}

// Session is a connection that was asked for its mode and its character sets. Its texts have guarded literals in that
// mode, as those of QueryContext, or plain ones if the query or an Identifier has a backslash or a byte from 128 on. A
// Session of a Binder that is Steady sends those of BindAnywhere, and refuses what that refuses.
//
// After it has sent a query that isn't one SELECT, INSERT, UPDATE, DELETE or REPLACE, it asks again before its next
// text. It doesn't see what others send over the connection: after a SET of sql_mode or a character set by another
// call, call Ask again.
type Session struct {
	conn   Sender
	binder Binder

	lock    sync.Mutex
	mode    Mode
	changes int // queries sent that may have changed the mode or a character set
	asked   int // so many of them were sent when the connection was asked
}

// Ask asks a connection for its sql_mode and its character sets: a *sql.Conn, a *sql.Tx or a OneConnection. It
// refuses character sets that aren't utf8mb4, and any other Sender, whose connections may differ, with CodeSession.
func Ask(ctx context.Context, conn Sender) (*Session, error) {
	return Binder{}.Ask(ctx, conn)
}

// Ask is the package's Ask with the options, for what the Session sends.
func (b Binder) Ask(ctx context.Context, conn Sender) (*Session, error) {
	switch conn.(type) {
	case *sql.Conn, *sql.Tx, OneConnection:
	case *sql.DB:
		return nil, sessionError("A pool has many connections: ask one of them, as db.Conn(ctx) gives it")
	default:
		return nil, sessionError(fmt.Sprintf("A %T may send over many connections, and one has to be asked: "+
			"give a *sql.DB, a *sql.Conn, a *sql.Tx or a OneConnection", conn))
	}
	session := &Session{conn: conn, binder: b}
	if err := session.ask(ctx); err != nil {
		return nil, err
	}
	return session, nil
}

const questionOfSession = "SELECT @@sql_mode, @@character_set_client, @@character_set_connection"

// ask asks the connection.
func (s *Session) ask(ctx context.Context) error {
	rows, err := s.conn.QueryContext(ctx, questionOfSession)
	if err != nil {
		return err
	}
	defer rows.Close()
	var sqlMode, client, own string
	if rows.Next() {
		err = rows.Scan(&sqlMode, &client, &own)
	}
	if err == nil {
		err = rows.Err()
	}
	if err != nil {
		return err
	}
	for _, is := range [][2]string{{"character_set_client", client}, {"character_set_connection", own}} {
		if is[1] != "utf8mb4" {
			return sessionError("The connection's " + is[0] + " is " + shown(is[1]) +
				", and has to be utf8mb4: connect with charset=utf8mb4")
		}
	}
	s.mode, s.asked = ModeOf(sqlMode), s.changes
	return nil
}

// sessionError returns the refusal of a connection.
func sessionError(message string) error {
	return &BindError{Code: CodeSession, Row: -1, message: message}
}

// ModeOf returns the mode of a connection that answers SELECT @@sql_mode so.
func ModeOf(sqlMode string) Mode {
	for _, word := range strings.Split(sqlMode, ",") {
		if strings.EqualFold(strings.TrimSpace(word), "NO_BACKSLASH_ESCAPES") {
			return NoBackslashEscapes
		}
	}
	return BackslashEscapes
}

// Mode returns the mode of the connection, as it answered last.
func (s *Session) Mode() Mode {
	s.lock.Lock()
	defer s.lock.Unlock()
	return s.mode
}

// Bind returns the text that the Session would send. It refuses a query that isn't portable with CodeUnportable, and if
// the connection has to be asked again, each query with CodeSession.
func (s *Session) Bind(query string, args ...any) (string, error) {
	s.lock.Lock()
	mode, isKnown := s.mode, s.asked == s.changes
	s.lock.Unlock()
	if !isKnown {
		return "", sessionError("The Session has sent what may change its mode: send by it, or call Ask again")
	}
	return s.binder.bindForConnection(mode, query, args)
}

// bindForConnection returns the text to send over a connection of the mode.
func (b Binder) bindForConnection(mode Mode, query string, args []any) (string, error) {
	if b.Steady {
		return b.BindAnywhere(query, args...)
	}
	q := question{call: callForConnection, mode: mode, query: query}
	if kept := keptTemplate(mode, query); kept != nil && kept.plain {
		q = kept.question(callTemplate)
	} else if kept != nil && kept.anywhere != nil {
		q = kept.question(callForConnection)
	}
	return b.bind(&q, args)
}

// QueryContext binds a query as Bind, and sends the text over the connection without arguments.
func (s *Session) QueryContext(ctx context.Context, query string, args ...any) (rows *sql.Rows, err error) {
	err = s.send(ctx, query, args, func(text string) (sent error) {
		rows, sent = s.conn.QueryContext(ctx, text)
		return sent
	})
	return rows, err
}

// ExecContext binds a query, and sends the text, as QueryContext.
func (s *Session) ExecContext(ctx context.Context, query string, args ...any) (result sql.Result, err error) {
	err = s.send(ctx, query, args, func(text string) (sent error) {
		result, sent = s.conn.ExecContext(ctx, text)
		return sent
	})
	return result, err
}

// send binds a query in the mode of the connection, and has a call send the text while that mode still holds.
func (s *Session) send(ctx context.Context, query string, args []any, by func(text string) error) error {
	mode, changes, err := s.known(ctx)
	if err != nil {
		return err
	}
	// Without the lock: a driver.Valuer may send by this Session.
	text, err := s.binder.bindForConnection(mode, query, args)
	if err != nil {
		return err
	}
	s.lock.Lock()
	defer s.lock.Unlock()
	if s.changes != changes {
		return sessionError("While the query was bound, the Session sent what may change its mode: call again")
	}
	if !keepsMode(query) {
		s.changes++
	}
	return by(text)
}

// known returns the mode of the connection, which is asked again if need be, and how many queries may have changed it
// before.
func (s *Session) known(ctx context.Context) (Mode, int, error) {
	s.lock.Lock()
	defer s.lock.Unlock()
	if s.asked != s.changes {
		if err := s.ask(ctx); err != nil {
			return false, 0, err
		}
	}
	return s.mode, s.changes, nil
}

// keepsMode returns whether a query is surely one statement that leaves sql_mode and character sets as they are. A
// semicolon may begin another statement, except at the end.
func keepsMode(query string) bool {
	const space = " \t\r\n"
	query = strings.TrimRight(strings.TrimLeft(query, space), space+";")
	end := 0
	for end < len(query) && isOfNames(query[end]) {
		end++
	}
	switch strings.ToUpper(query[:end]) {
	case "SELECT", "INSERT", "UPDATE", "DELETE", "REPLACE":
		return !strings.Contains(query, ";")
	}
	return false
}
