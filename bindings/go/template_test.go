package mysqlparams

import (
	"database/sql"
	"errors"
	"fmt"
	"runtime"
	"strings"
	"sync"
	"testing"
)

func TestTemplates(t *testing.T) {
	query := `SELECT '\', :a, '\'`
	for mode, wanted := range map[Mode]string{BackslashEscapes: query, NoBackslashEscapes: `SELECT '\', 5, '\'`} {
		template, err := NewTemplate(mode, query)
		if err != nil || template.Query() != query || template.Mode() != mode {
			t.Fatal(template, err)
		}
		args := []any{sql.Named("a", 5)}
		if mode == BackslashEscapes {
			args = nil
		}
		text, err := template.Bind(args...)
		if err != nil || text != wanted {
			t.Errorf("%v: %q, %v", mode, text, err)
		}
	}
	empty, err := NewTemplate(BackslashEscapes, "")
	if err != nil {
		t.Fatal(err)
	}
	if text, err := empty.Bind(); err != nil || text != "" {
		t.Errorf("%q, %v", text, err)
	}
}

// TestGoroutines binds templates, and all else, in many goroutines at once.
func TestGoroutines(t *testing.T) {
	marks, err := NewTemplate(BackslashEscapes, "SELECT ?, ?")
	if err != nil {
		t.Fatal(err)
	}
	names, err := NewTemplate(BackslashEscapes, "SELECT :a, :b")
	if err != nil {
		t.Fatal(err)
	}
	var group sync.WaitGroup
	for worker := 0; worker < 8; worker++ {
		group.Add(1)
		go func(worker int) {
			defer group.Done()
			for i := 0; i < 500; i++ {
				value := strings.Repeat("x", i*worker%5000)
				wanted := fmt.Sprintf("SELECT %d, '%s'", i, value)
				named := []any{sql.Named("b", value), sql.Named("a", i)}
				for _, bind := range []func() (string, error){
					func() (string, error) { return marks.Bind(i, value) },
					func() (string, error) { return names.Bind(named...) },
					func() (string, error) { return Bind(BackslashEscapes, "SELECT :a, :b", named...) },
				} {
					if text, err := bind(); err != nil || text != wanted {
						t.Errorf("%q, %v", text, err)
					}
				}
				var found *BindError
				if _, err := marks.Bind(i); !errors.As(err, &found) || found.Code != CodeMarkCount {
					t.Error(err)
				}
				if texts, err := marks.BindRows([][]any{{i, value}, {i, value}}); err != nil || texts[1] != wanted {
					t.Errorf("%q, %v", texts, err)
				}
				if i%100 == 0 {
					runtime.GC()
				}
			}
		}(worker)
	}
	group.Wait()
}
