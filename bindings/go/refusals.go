package mysqlparams

/*
#include "mysql_params_form.h"
*/
import "C"

import (
	"strconv"
	"unsafe"
)

// message returns what the archive's C says of a number and the room's report. Source is what names stand in.
func (r *room) message(number C.int32_t, source string) string {
	at, length := bytesOf(source)
	line := make([]byte, 512)
	for {
		whole := int(C.mysql_params_message_wide(number, &r.report, at, length,
			(*C.char)(unsafe.Pointer(&line[0])), C.size_t(len(line))))
		if whole < len(line) {
			return string(line[:whole])
		}
		line = make([]byte, whole+1)
	}
}

// refusal returns the error for a number other than done.
func (r *room) refusal(number C.int32_t, q *question) error {
	return r.refusalOf(number, q, stringOf(r.writer.form))
}

// refusalOf returns the same, with the form that is refused.
func (r *room) refusalOf(number C.int32_t, q *question, form string) error {
	report := &r.report
	found := &BindError{Code: Code(number), Place: int(report.place), Position: int(report.position), Row: -1}
	source := q.query
	switch found.Code {
	case CodeRepeatedName:
		source = form
		found.Name = nameAt(source, int(report.position), int(report.len))
	case CodeMissing:
		found.Name = nameAt(source, int(report.position), int(report.len))
		found.Word = wordAt(source, found.Position)
	case CodeNamedForPositional:
		found.Word = wordWithoutName(source)
	case CodeNotAlone:
		found.Word = wordOfPlace(source, found.Position)
	case CodeMarkCount:
		found.Marks, found.Values = int(report.marks), int(report.values)
	case CodeFormLengthLead, CodeFormType:
		found.Byte = byte(report.byte)
	case CodeUnportable:
		found.Construct = Construct(report.byte)
	case CodeFault:
		found.Fault, found.Item = Fault(report.byte), int(report.values)
		found.InRow, found.Position = found.Position, 0
	}
	found.message = r.message(number, source)
	if number == C.MYSQL_PARAMS_ROOM || number < 0 || found.Code > CodeUnbracketed {
		return wrongArchive("unknown answer " + strconv.Itoa(int(number)))
	}
	found.tellMore(q)
	return found
}
