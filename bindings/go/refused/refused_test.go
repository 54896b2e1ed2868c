package mysqlparams

import (
	"context"
	"database/sql"
	"errors"
	"fmt"
	"runtime"
	"strings"
	"testing"
)

// TestRefusedMemory has each allocation of each call refused, one after another, until the call has what it
// needs. No block is kept.
func TestRefusedMemory(t *testing.T) {
	runtime.LockOSThread()
	defer runtime.UnlockOSThread()
	var names, marks []string
	var named, values []any
	for i := 0; i < 100; i++ {
		names, marks = append(names, fmt.Sprint(":N", i)), append(marks, "?")
		named, values = append(named, sql.Named(fmt.Sprint("N", i), i)), append(values, "it's")
	}
	byName, byMark := strings.Join(names, ", "), strings.Join(marks, ", ")
	template, err := NewTemplate(BackslashEscapes, byName)
	must(nil, err)
	session := &Session{mode: NoBackslashEscapes}
	for name, call := range map[string]func() (string, error){
		"Bind":            func() (string, error) { return Bind(BackslashEscapes, byName, named...) },
		"Bind by marks":   func() (string, error) { return Bind(BackslashEscapes, byMark, values...) },
		"BindAnywhere":    func() (string, error) { return BindAnywhere(byName, named...) },
		"BindInBothModes": func() (string, error) { return BindInBothModes(byName, named...) },
		"a template":      func() (string, error) { return template.Bind(named...) },
		"a Session":       func() (string, error) { return session.Bind(byName, named...) },
		"guarded fragments": func() (string, error) {
			return session.Bind("? ?", In(values), Identifier{"a", "b"})
		},
		"plain fragments": func() (string, error) {
			return session.Bind("? ?", In(values), Identifier{"ü", "b"})
		},
		"fragments": func() (string, error) {
			return Bind(BackslashEscapes, "? ?", In(values),
				Identifier{"a", "b"})
		},
		"bare slices": func() (string, error) {
			return Bind(BackslashEscapes, "a IN (:N0) AND b IN (:N1) AND c = :N2", append(named[2:], sql.Named("N0", values),
				sql.Named("N1", values))...)
		},
		"BindRows": func() (string, error) {
			texts, err := BindRows(BackslashEscapes, byMark, [][]any{values, values})
			return strings.Join(texts, ";"), err
		},
		"Names": func() (string, error) {
			found, err := Names(BackslashEscapes, byName)
			return fmt.Sprint(found.Query, found.Names), err
		},
		"NewTemplate": func() (string, error) {
			_, err := NewTemplate(BackslashEscapes, byName)
			return "made", err
		},
	} {
		wanted, err := call()
		if err != nil {
			t.Fatal(name, err)
		}
		refused, text, before := 0, "", blocks()
		for {
			refuseAfter(refused)
			text, err = call()
			refuseAfter(-1)
			if err == nil {
				break
			}
			var found *BindError
			if !errors.As(err, &found) || found.Code != CodeOutOfMemory ||
				!strings.HasSuffix(err.Error(), "out of memory") {
				t.Fatal(name, err)
			}
			if refused++; refused > 100_000 {
				t.Fatal(name, "never has memory")
			}
		}
		if blocks() != before {
			t.Errorf("%s: %d blocks aren't given back", name, blocks()-before)
		}
		if refused == 0 || text != wanted {
			t.Error(name, refused, text)
		}
	}
}

// TestFirstUnportableWithoutMemory finds a construct although all memory is refused.
func TestFirstUnportableWithoutMemory(t *testing.T) {
	runtime.LockOSThread()
	defer runtime.UnlockOSThread()
	refuseAfter(0)
	found, err := FirstUnportable(BackslashEscapes, ":A [")
	refuseAfter(-1)
	if err != nil || found == nil || found.Position != 3 {
		t.Error(found, err)
	}
}

// TestRefusedMemoryOfNames has the name of a place left out if there is no memory to find it.
func TestRefusedMemoryOfNames(t *testing.T) {
	found := &BindError{Code: CodeFault, Fault: FaultEmptyRow}
	runtime.LockOSThread()
	defer runtime.UnlockOSThread()
	refuseAfter(0)
	found.tellMore(&question{query: strings.Repeat(":a ", 1000)})
	refuseAfter(-1)
	if found.Name != "" || found.message != "Row 0 for place 0 is empty" {
		t.Error(found)
	}
}

// TestOtherArchive has answers refused that the archive never gives.
func TestOtherArchive(t *testing.T) {
	runtime.LockOSThread()
	defer runtime.UnlockOSThread()
	template, err := NewTemplate(BackslashEscapes, ":a")
	must(nil, err)
	session := &Session{mode: NoBackslashEscapes}
	calls := map[string]func() error{
		"a kept query":    func() error { _, err := session.Bind("SELECT :a, 'kept'", sql.Named("a", 1)); return err },
		"ExecContext":     func() error { _, err := ExecContext(context.Background(), nil, "?", Identifier{"a"}); return err },
		"a template":      func() error { _, err := template.Bind(sql.Named("a", 1)); return err },
		"Bind":            func() error { _, err := Bind(BackslashEscapes, "?", 1); return err },
		"Names":           func() error { _, err := Names(BackslashEscapes, ":a"); return err },
		"BindRows":        func() error { _, err := BindRows(BackslashEscapes, "?", [][]any{{1}}); return err },
		"FirstUnportable": func() error { _, err := FirstUnportable(BackslashEscapes, "?"); return err },
	}
	for i := 0; i < 2; i++ {
		must(nil, calls["a kept query"]())
	}
	for _, told := range [][2]int{{-7, 0}, {22, 0}, {1000, 1 << 40}} {
		for name, call := range calls {
			if told[0] == 1000 && name == "FirstUnportable" {
				continue // It has no length.
			}
			tell(told[0], told[1])
			err := call()
			tell(0, 0)
			var found *BindError
			if !errors.As(err, &found) || found.Code != CodeArchive ||
				!strings.Contains(err.Error(), "not the archive of this package: ") {
				t.Errorf("%s: %v: %v", name, told, err)
			}
		}
	}
	tell(1000, 3)
	_, err = Names(BackslashEscapes, ":a")
	tell(0, 0)
	if err == nil {
		t.Error("an answer that is no row of strings")
	}
}
