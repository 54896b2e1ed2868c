package mysqlparams

import (
	"strings"
	"sync"
)

// Queries of more bytes are not kept, nor more than so many in a mode.
const (
	longestKept = 4096
	mostKept    = 256
)

// lastQueries has the last queries of a mode, and their templates: nil for one that was seen once.
type lastQueries struct {
	lock sync.RWMutex
	kept map[string]*Template
}

var lastWithEscapes, lastWithoutEscapes = lastQueries{kept: map[string]*Template{}}, lastQueries{kept: map[string]*Template{}}

// keptTemplate returns the template of a query that was seen before; nil if it is new, or long, or if there is
// no memory for a template.
func keptTemplate(mode Mode, query string) *Template {
	if len(query) > longestKept {
		return nil
	}
	last := &lastWithEscapes
	if mode == NoBackslashEscapes {
		last = &lastWithoutEscapes
	}
	last.lock.RLock()
	found, seen := last.kept[query]
	last.lock.RUnlock()
	if found != nil {
		return found
	}
	own := strings.Clone(query) // A query may be a part of a long text.
	if seen {
		found = templateToKeep(mode, own)
	}
	last.lock.Lock()
	defer last.lock.Unlock()
	if len(last.kept) >= mostKept {
		last.kept = map[string]*Template{}
	}
	last.kept[own] = found
	return found
}

// templateToKeep returns the template of a query, with what else is found of it; nil without memory.
func templateToKeep(mode Mode, query string) *Template {
	made, err := NewTemplate(mode, query)
	if err != nil {
		return nil
	}
	if isSteady(query) {
		made.findAnywhere()
		return made
	}
	found, err := FirstUnportable(mode, query)
	made.plain = found == nil && err == nil
	return made
}
