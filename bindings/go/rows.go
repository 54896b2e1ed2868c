package mysqlparams

/*
#include "mysql_params_form.h"
*/
import "C"

import "unsafe"

// mostForms is how long the forms of rows get before they are bound: few enough to stay in a processor's
// cache with their texts.
const mostForms = 1 << 15

// stringOf returns bytes as a text, which is read before they change.
func stringOf(bytes []byte) string {
	return *(*string)(unsafe.Pointer(&bytes))
}

// BindRows returns the text of each row: what Bind returns for the query and the row's arguments. The query
// is parsed once for many rows. Each place takes what Bind takes; a row with a float or another fragment is
// bound by itself.
//
// The first row that is refused ends the call. The error is a BindError with its number in Row, and the texts
// are those of the rows before it. Texts share memory with their neighbours.
func BindRows(mode Mode, query string, rows [][]any) ([]string, error) {
	return Binder{}.BindRows(mode, query, rows)
}

// BindRows is the package's BindRows with the options.
func (b Binder) BindRows(mode Mode, query string, rows [][]any) ([]string, error) {
	if err := ready(); err != nil {
		return nil, err
	}
	r := rooms.Get().(*room)
	defer r.giveBack()
	r.writer.begin(b.Location, false)
	batch := &batch{room: r, question: question{call: callBind, mode: mode, query: query}}
	batch.texts = make([]string, 0, len(rows))
	for number, row := range rows {
		if err := batch.add(number, row); err != nil {
			return batch.texts, err
		}
	}
	if err := batch.flush(); err != nil {
		return batch.texts, err
	}
	return batch.texts, nil
}

// batch is the rows whose forms wait in the room, each as a length-encoded string.
type batch struct {
	room     *room
	question question
	texts    []string
	waiting  int // rows that wait
}

// longestHead is how long the length before a form may be.
const longestHead = 9

// add has a row wait, and binds those that wait if they are many.
func (b *batch) add(number int, row []any) error {
	w := &b.room.writer
	begin := len(w.form)
	w.fragments = false
	w.form = append(w.form, 0)
	err := w.arguments(row)
	if err == nil && !w.fragments {
		w.enclose(begin)
		b.waiting++
		if len(w.form) < mostForms {
			return nil
		}
		return b.flush()
	}
	alone := append([]byte(nil), w.form[begin+1:]...)
	fragments := w.fragments
	w.form = w.form[:begin]
	w.fragments = false
	if earlier := b.flush(); earlier != nil {
		return earlier
	}
	if err != nil {
		return inRow(err, number)
	}
	w.form, w.fragments = append(w.form, alone...), fragments
	text, err := b.room.answer(&b.question)
	w.form = w.form[:0]
	if err != nil {
		return inRow(err, number)
	}
	b.texts = append(b.texts, text)
	return nil
}

// inRow has an error tell its row.
func inRow(err error, number int) error {
	if found, ok := err.(*BindError); ok {
		found.Row = number
	}
	return err
}

// enclose puts the length of a form before it, which begins behind a byte that is left for that.
func (w *writer) enclose(begin int) {
	length := len(w.form) - begin - 1
	if length < 251 {
		w.form[begin] = byte(length)
		return
	}
	head := writer{form: make([]byte, 0, longestHead)}
	head.length(length)
	more := len(head.form) - 1
	w.form = append(w.form, head.form[:more]...)
	copy(w.form[begin+1+more:], w.form[begin+1:begin+1+length])
	copy(w.form[begin:], head.form)
}

// flush binds the rows that wait.
func (b *batch) flush() error {
	w := &b.room.writer
	forms := w.form
	w.fragments = false
	for b.waiting > 0 {
		number, read, err := b.bindSome(forms)
		if err != nil {
			return err
		}
		forms = forms[read:]
		switch {
		case number == C.MYSQL_PARAMS_DONE:
			b.waiting = 0
		case number == C.MYSQL_PARAMS_ROOM:
			b.room.have(int(b.room.report.len))
		default:
			return b.refused(number, forms)
		}
	}
	w.form = w.form[:0]
	return nil
}

// refused returns the error for the row whose form stands first.
func (b *batch) refused(number C.int32_t, forms []byte) error {
	form, _, err := nextString(stringOf(forms))
	if err != nil {
		return err
	}
	return inRow(b.room.refusalOf(number, &b.question, form), len(b.texts))
}

// bindSome has the archive bind rows, and takes the texts of those that it has bound. It returns the number,
// and how many bytes of the forms were read.
func (b *batch) bindSome(forms []byte) (C.int32_t, int, error) {
	r := b.room
	r.have(2*len(forms) + b.waiting*(len(b.question.query)+longestHead))
	query, queryLen := bytesOf(b.question.query)
	at, length := roomOf(forms)
	text, textLen := roomOf(r.text)
	number := C.mysql_params_bind_rows_wide(query, queryLen, at, length, C.bool(b.question.mode), text, textLen,
		&r.rows,
		&r.report)
	written, read, count := int(r.rows.written), int(r.rows.read), int(r.rows.count)
	if written > len(r.text) || read > len(forms) || count > b.waiting {
		return 0, 0, wrongArchive("it says that it wrote more bytes than it had room for")
	}
	b.waiting -= count
	texts := string(r.text[:written])
	for texts != "" {
		var one string
		var err error
		if one, texts, err = nextString(texts); err != nil {
			return 0, 0, err
		}
		b.texts = append(b.texts, one)
	}
	return number, read, nil
}
