package mysqlparams

import (
	"database/sql"
	"errors"
	"strings"
	"sync"
	"testing"
)

// bindOthers binds long values, in many goroutines at once, in the memory of the calls before.
func bindOthers(t *testing.T) *sync.WaitGroup {
	var all sync.WaitGroup
	for worker := 0; worker < 8; worker++ {
		all.Add(1)
		go func() {
			defer all.Done()
			for i := 0; i < 200; i++ {
				if _, err := Bind(BackslashEscapes, "SELECT ?", strings.Repeat("secret", 50)); err != nil {
					t.Error(err)
				}
			}
		}()
	}
	return &all
}

// TestRefusalsStay has what a refusal tells be its own, while others bind in the memory that the refused call had.
func TestRefusalsStay(t *testing.T) {
	name := strings.Repeat("n", 200)
	twice := []any{sql.Named(name, 1), sql.Named(name, 2)}
	template, err := NewTemplate(BackslashEscapes, "SELECT :"+name)
	must(nil, err)
	rows := func(rows ...[]any) func() error {
		return func() error { _, err := BindRows(BackslashEscapes, "SELECT :"+name, rows); return err }
	}
	for of, call := range map[string]func() error{
		"Bind":            func() error { _, err := Bind(BackslashEscapes, "SELECT :"+name, twice...); return err },
		"BindAnywhere":    func() error { _, err := BindAnywhere("SELECT :"+name, twice...); return err },
		"BindInBothModes": func() error { _, err := BindInBothModes("SELECT :"+name, twice...); return err },
		"a template":      func() error { _, err := template.Bind(twice...); return err },
		"rows":            rows(twice[:1], twice),
		"a row by itself": rows(append(twice, sql.Named("list", []any{1}))),
	} {
		err := call()
		others := bindOthers(t)
		for i := 0; i < 200; i++ {
			var found *BindError
			if !errors.As(err, &found) || found.Code != CodeRepeatedName || found.Name != name ||
				!strings.HasSuffix(err.Error(), "`:"+name+"` is given twice") {
				t.Fatalf("%s: %v, of %q", of, err, found.Name)
			}
		}
		others.Wait()
		var found *BindError
		if errors.As(err, &found); found.Name != name {
			t.Errorf("%s: %q", of, found.Name)
		}
	}
}

// TestCauses has each Code found by its own error, and by no other.
func TestCauses(t *testing.T) {
	causes := map[Code]error{
		1: ErrOutOfMemory, 3: ErrFormEnd, 4: ErrFormLengthLead, 5: ErrFormType, 6: ErrFormMixed, 7: ErrRepeatedName, 8: ErrMixed,
		9: ErrMissing, 10: ErrNamedForPositional, 11: ErrPositionalForNamed, 12: ErrMarkCount, 13: ErrNotAlone, 14: ErrFloat,
		15: ErrUnsteady, 16: ErrUnportable, 17: ErrFault, 18: ErrBackslash, 19: ErrUnsteadyFragment, 20: ErrOtherTable,
		21: ErrUnbracketed,
		-1: ErrValue, -2: ErrSession, -3: ErrProcessor, -4: ErrArchive,
	}
	for code, cause := range causes {
		for other, wrong := range causes {
			if is := errors.Is(&BindError{Code: code}, wrong); is != (code == other) {
				t.Errorf("%d is %v: %v", code, wrong, is)
			}
		}
		if !strings.HasPrefix(cause.Error(), "mysqlparams: ") {
			t.Error(cause)
		}
	}
	_, err := BindRows(BackslashEscapes, "SELECT :a", [][]any{{sql.Named("a", 1)}, {sql.Named("b", 1)}})
	if !errors.Is(err, ErrMissing) || errors.Is(err, ErrFault) {
		t.Error(err)
	}
	if err := refused(t, broken{}); !errors.Is(err, ErrValue) || !errors.Is(err, errBroken) {
		t.Error(err)
	}
}
