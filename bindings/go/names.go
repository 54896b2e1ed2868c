package mysqlparams

/*
#include "mysql_params_form.h"
*/
import "C"

// NamesOf is what Names returns.
type NamesOf struct {
	Query string   // the query with `?` in the place of each name
	Names []string // the names without their colons, in order, with repeats
}

// Names returns the names of a query that is read in a mode. A query without names comes back as it is. A
// query with names and marks is refused.
func Names(mode Mode, query string) (NamesOf, error) {
	if err := ready(); err != nil {
		return NamesOf{}, err
	}
	r := rooms.Get().(*room)
	defer r.giveBack()
	r.have(len(query) + len(query)/2 + 64)
	at, length := bytesOf(query)
	number := C.int32_t(C.MYSQL_PARAMS_ROOM)
	for tries := 0; tries < 2 && number == C.MYSQL_PARAMS_ROOM; tries++ {
		if tries > 0 {
			r.have(int(r.report.len))
		}
		text, textLen := roomOf(r.text)
		number = C.mysql_params_names_wide(at, length, C.bool(mode), text, textLen, &r.report)
	}
	if number != C.MYSQL_PARAMS_DONE {
		return NamesOf{}, r.refusal(number, &question{mode: mode, query: query})
	}
	answer, err := r.take(int(r.report.len))
	if err != nil {
		return NamesOf{}, err
	}
	var found NamesOf
	if found.Query, answer, err = nextString(answer); err != nil {
		return NamesOf{}, err
	}
	for answer != "" {
		var name string
		if name, answer, err = nextString(answer); err != nil {
			return NamesOf{}, err
		}
		found.Names = append(found.Names, name)
	}
	return found, nil
}

// nextString takes a length-encoded string off an answer.
func nextString(answer string) (found, rest string, err error) {
	if answer != "" {
		lead, count, length := answer[0], 0, uint64(answer[0])
		switch lead {
		case 0xFC:
			count = 2
		case 0xFD:
			count = 3
		case 0xFE:
			count = 8
		}
		if lead != 0xFB && lead != 0xFF && len(answer) > count {
			if count > 0 {
				length = 0
			}
			for i := count; i > 0; i-- {
				length = length<<8 | uint64(answer[i])
			}
			answer = answer[1+count:]
			if length <= uint64(len(answer)) {
				return answer[:length], answer[length:], nil
			}
		}
	}
	return "", "", wrongArchive("its answer is no row of strings")
}
