package mysqlparams

import (
	"database/sql"
	"encoding/hex"
	"errors"
	"fmt"
	"math"
	"os"
	"path/filepath"
	"reflect"
	"regexp"
	"strconv"
	"strings"
	"testing"
	"time"
)

// codes are the numbers of refusals by their names in cases.
var codes = map[string]Code{
	"FORM_END": 3, "FORM_LENGTH_LEAD": 4, "FORM_TYPE": 5, "FORM_MIXED": 6, "FORM_REPEATED": 7, "MIXED": 8, "MISSING": 9,
	"NAMED_FOR_POSITIONAL": 10, "POSITIONAL_FOR_NAMED": 11, "MARK_COUNT": 12, "NOT_ALONE": 13, "FLOAT": 14, "UNSTEADY": 15,
	"UNPORTABLE": 16, "FAULT": 17, "BACKSLASH": 18, "UNSTEADY_FRAGMENT": 19,
	"UNBRACKETED": 21,
}

// constructs are the names of constructs in cases, in the order of their numbers from 1 on.
var constructs = strings.Fields(`EXECUTABLE_COMMENT HINT MARIADB_COMMENT DASHES ESCAPED_QUOTE BRACKET DOLLAR_QUOTE
	DASHES_AFTER_EXPONENT PLACE_AFTER_EXPONENT OPENER_IN_COMMENT JOINING_COMMENT DASHES_BEFORE_COMMENT CLIENT_COMMAND
	DASH_IN_FRONT DELIMITER CLIENT_WORD ESCAPED_NEWLINE ZERO_BYTE ESCAPED_BACKQUOTE RETURN_IN_COMMENT`)

// sharedCase is a case of bindings/cases, whose README.md says what its lines are.
type sharedCase struct {
	lines              []string
	query              string
	params             []any
	rows               [][]any
	form               []byte
	mode               Mode
	texts, names       []string
	renamed            string
	refusal, construct string
	portable           bool
	fields             map[string]string
	message            string
	messageInC         string
}

var pairs = regexp.MustCompile(`\{([0-9A-F]+)\}`)

// textOf returns the bytes of a text: pairs of hexadecimal digits within { }, or as they stand.
func textOf(text string) string {
	return pairs.ReplaceAllStringFunc(text, func(found string) string {
		bytes, err := hex.DecodeString(found[1 : len(found)-1])
		if err != nil {
			panic(err)
		}
		return string(bytes)
	})
}

// number returns a number of a case.
func number(text string) int {
	found, err := strconv.Atoi(text)
	if err != nil {
		panic(err)
	}
	return found
}

func numbers(text string) []int {
	var found []int
	for _, word := range strings.Fields(text) {
		found = append(found, number(word))
	}
	return found
}

// valueOfCase returns the value of a parameter as Go has it.
func valueOfCase(text string) any {
	kind, rest, _ := strings.Cut(text, ":")
	switch kind {
	case "null":
		return nil
	case "i":
		found, err := strconv.ParseInt(rest, 10, 64)
		return must(found, err)
	case "u":
		found, err := strconv.ParseUint(rest, 10, 64)
		return must(found, err)
	case "s":
		return textOf(rest)
	case "float":
		found, err := strconv.ParseFloat(rest, 32)
		return float32(must(found, err).(float64))
	case "double":
		found, err := strconv.ParseFloat(rest, 64)
		return must(found, err)
	case "date":
		f := numbers(rest)
		return time.Date(f[0], time.Month(f[1]), f[2], f[3], f[4], f[5], f[6]*1000, time.UTC)
	case "time":
		f := numbers(rest[2:])
		size := time.Duration(f[0])*24*time.Hour + time.Duration(f[1])*time.Hour + time.Duration(f[2])*time.Minute +
			time.Duration(f[3])*time.Second + time.Duration(f[4])*time.Microsecond
		if rest[0] == '-' {
			return -size
		}
		return size
	}
	return fragmentOfCase(kind, rest)
}

func must(value any, err error) any {
	if err != nil {
		panic(err)
	}
	return value
}

// fragmentOfCase returns what isn't one value.
func fragmentOfCase(kind, rest string) any {
	switch kind {
	case "d":
		return Decimal(rest)
	case "list":
		return In(itemsOfCase(rest))
	case "rows":
		return In(rowsOfCase(rest))
	case "implicit_list":
		return itemsOfCase(rest)
	case "implicit_rows":
		return rowsOfCase(rest)
	case "identifier", "qualified":
		return namesOfCase(rest)
	case "identifiers":
		columns := []Identifier{}
		for _, column := range partsOfCase(rest) {
			columns = append(columns, namesOfCase(column))
		}
		return columns
	case "assignments":
		assigned := Assignments{}
		for _, one := range partsOfCase(rest) {
			column, value, _ := strings.Cut(one, "=")
			assigned = append(assigned, Assignment{Column: namesOfCase(column), Value: valueOfCase(value)})
		}
		return assigned
	case "keyword":
		return KeywordOf{rest}
	}
	panic(kind)
}

// itemsOfCase returns the items of a list or a row.
func itemsOfCase(text string) []any {
	items := []any{}
	for _, item := range strings.Split(text, "|") {
		if text != "" {
			items = append(items, valueOfCase(item))
		}
	}
	return items
}

// rowsOfCase returns rows.
func rowsOfCase(text string) []any {
	rows := []any{}
	for _, row := range strings.Split(text, "||") {
		rows = append(rows, itemsOfCase(row))
	}
	return rows
}

// namesOfCase returns the names of an identifier.
func namesOfCase(text string) Identifier {
	var names Identifier
	for _, name := range strings.Split(text, "|") {
		names = append(names, textOf(name))
	}
	return names
}

// partsOfCase returns the identifiers or assignments of a text, which are none if it is empty.
func partsOfCase(text string) []string {
	if text == "" {
		return nil
	}
	return strings.Split(text, "||")
}

// read reads a line of a case.
func (c *sharedCase) read(line string) {
	word, rest, _ := strings.Cut(line, " ")
	switch word {
	case "query":
		c.query = textOf(rest)
	case "row":
		c.rows, c.params = append(c.rows, nil), nil
	case "param":
		name, text, _ := strings.Cut(rest, "=")
		value := valueOfCase(text)
		if name != "" {
			value = sql.Named(name, value)
		}
		c.params = append(c.params, value)
		if len(c.rows) > 0 {
			c.rows[len(c.rows)-1] = c.params
		}
	case "no_backslash_escape":
		c.mode = NoBackslashEscapes
	case "form":
		bytes, err := hex.DecodeString(strings.ReplaceAll(rest, " ", ""))
		must(nil, err)
		c.form = append(c.form, bytes...)
	case "text":
		c.texts = append(c.texts, textOf(rest))
	case "renamed":
		c.renamed = textOf(rest)
	case "name":
		c.names = append(c.names, rest)
	case "refused", "unportable":
		words := strings.Split(rest, " ")
		if word == "refused" {
			c.refusal = words[0]
		} else {
			c.construct = words[0]
		}
		for _, field := range words[1:] {
			name, value, _ := strings.Cut(field, "=")
			c.fields[name] = value
		}
	case "portable":
		c.portable = true
	case "message":
		c.message = rest
	case "message_in_c":
		c.messageInC = rest
	default:
		panic(word + " is no word of a case")
	}
}

// casesOf returns the cases of a file, and those of the file of its name in `wide`, if there is one.
func casesOf(t *testing.T, file string) []*sharedCase {
	folder := os.Getenv("CASES")
	if folder == "" {
		folder = "../cases"
	}
	var found []*sharedCase
	for _, path := range []string{filepath.Join(folder, file), filepath.Join(folder, "wide", file)} {
		bytes, err := os.ReadFile(path)
		if err != nil && strings.Contains(path, "wide") {
			continue
		}
		must(nil, err)
		for _, part := range strings.Split(string(bytes), "\n\n") {
			one := &sharedCase{fields: map[string]string{}}
			for _, line := range strings.Split(part, "\n") {
				if line != "" && line[0] != '#' {
					one.lines = append(one.lines, line)
					one.read(line)
				}
			}
			if len(one.lines) > 0 {
				found = append(found, one)
			}
		}
	}
	if len(found) < 5 {
		t.Fatalf("%s has %d cases", file, len(found))
	}
	return found
}

// field returns a number that a case has among its fields, or 0.
func (c *sharedCase) field(name string) int {
	if text, ok := c.fields[name]; ok {
		return number(text)
	}
	return 0
}

// wanted returns the error that a case wants, without its message.
func (c *sharedCase) wanted() BindError {
	found := BindError{Code: codes[c.refusal], Place: c.field("place"), Position: c.field("position"), Row: -1}
	found.Word, found.Name = textOf(c.fields["word"]), textOf(c.fields["name"]+c.fields["of"])
	switch found.Code {
	case CodeMarkCount:
		found.Marks, found.Values = c.field("marks"), c.field("values")
	case CodeUnportable:
		found.Construct = Construct(c.field("byte"))
	case CodeFault:
		found.Fault, found.InRow, found.Item, found.Position = Fault(c.field("byte")), c.field("position"), c.field("values"), 0
	case CodeFormLengthLead, CodeFormType:
		found.Byte = byte(c.field("byte"))
	}
	return found
}

// expect compares what a call gave with what a case wants.
func (c *sharedCase) expect(t *testing.T, text string, err error) {
	t.Helper()
	if c.refusal == "" {
		if err != nil || text != c.texts[0] {
			t.Errorf("%q: %q, %v", c.lines, text, err)
		}
		return
	}
	c.expectRefusal(t, text, err, -1)
}

func (c *sharedCase) expectRefusal(t *testing.T, text string, err error, row int) {
	t.Helper()
	var found *BindError
	if text != "" || !errors.As(err, &found) {
		t.Errorf("%q: %q, %v", c.lines, text, err)
		return
	}
	wanted := c.wanted()
	wanted.Row, wanted.message = row, found.message
	if !reflect.DeepEqual(*found, wanted) {
		t.Errorf("%q: %+v, and not %+v", c.lines, *found, wanted)
	}
	if message := c.wantedMessage(); message != "" && found.message != message {
		t.Errorf("%q: %s", c.lines, found.message)
	}
	if row < 0 && err.Error() != found.message || row >= 0 && err.Error() != fmt.Sprintf("row %d: %s", row,
		found.message) {
		t.Errorf("%q: %s", c.lines, err)
	}
}

// bindForm binds a flat form as it stands.
func bindForm(q question, form []byte) (string, error) {
	r := rooms.Get().(*room)
	defer r.giveBack()
	r.writer.begin(nil, false)
	r.writer.form = append(r.writer.form, form...)
	return r.answer(&q)
}

// asBytes returns arguments with bytes in the place of texts.
func asBytes(args []any) []any {
	made := append([]any(nil), args...)
	for i, arg := range made {
		switch value := arg.(type) {
		case string:
			made[i] = []byte(value)
		case sql.NamedArg:
			if text, ok := value.Value.(string); ok {
				made[i] = sql.Named(value.Name, []byte(text))
			}
		}
	}
	return made
}

func TestCasesOfBinding(t *testing.T) {
	for _, file := range []string{"bind.txt", "fragments.txt"} {
		for _, c := range casesOf(t, file) {
			template, err := NewTemplate(c.mode, c.query)
			if err != nil {
				t.Fatal(err)
			}
			// From the third time on the places are kept.
			for _, args := range [][]any{c.params, asBytes(c.params), c.params, asBytes(c.params)} {
				text, err := Bind(c.mode, c.query, args...)
				c.expect(t, text, err)
				text, err = template.Bind(args...)
				c.expect(t, text, err)
				texts, err := BindRows(c.mode, c.query, [][]any{args})
				if err != nil {
					c.expectRefusal(t, strings.Join(texts, ""), err, 0)
				} else {
					c.expect(t, texts[0], nil)
				}
			}
		}
	}
}

func TestCasesOfForms(t *testing.T) {
	for _, c := range casesOf(t, "forms.txt") {
		text, err := bindForm(question{call: callBind, mode: c.mode, query: c.query}, c.form)
		c.expect(t, text, err)
		template, err := NewTemplate(c.mode, c.query)
		if err != nil {
			t.Fatal(err)
		}
		text, err = bindForm(question{call: callTemplate, mode: c.mode, query: c.query, table: template}, c.form)
		c.expect(t, text, err)
	}
}

func TestCasesOfTextsForAnyConnection(t *testing.T) {
	for _, file := range []string{"anywhere.txt", "fragments_anywhere.txt"} {
		for _, c := range casesOf(t, file) {
			if c.form != nil {
				text, err := bindForm(question{call: callAnywhere, query: c.query}, c.form)
				c.expect(t, text, err)
				continue
			}
			for i := 0; i < 4; i++ {
				text, err := BindAnywhere(c.query, c.params...)
				c.expect(t, text, err)
			}
		}
	}
}

func TestCasesOfBothModes(t *testing.T) {
	for _, c := range casesOf(t, "both_modes.txt") {
		text, err := BindInBothModes(c.query, c.params...)
		if c.form != nil {
			text, err = bindForm(question{call: callBothModes, query: c.query}, c.form)
		}
		c.expect(t, text, err)
	}
}

func TestCasesOfRows(t *testing.T) {
	for _, c := range casesOf(t, "rows.txt") {
		template, err := NewTemplate(c.mode, c.query)
		if err != nil {
			t.Fatal(err)
		}
		for _, bind := range []func() ([]string, error){
			func() ([]string, error) { return BindRows(c.mode, c.query, c.rows) },
			func() ([]string, error) { return template.BindRows(c.rows) },
		} {
			texts, err := bind()
			if len(texts) != len(c.texts) || len(texts) > 0 && !reflect.DeepEqual(texts, c.texts) {
				t.Errorf("%q: %q, %v", c.lines, texts, err)
			}
			if c.refusal == "" && err != nil {
				t.Errorf("%q: %v", c.lines, err)
			} else if c.refusal != "" {
				c.expectRefusal(t, "", err, len(c.texts))
			}
		}
	}
}

func TestCasesOfNames(t *testing.T) {
	for _, c := range casesOf(t, "names.txt") {
		found, err := Names(c.mode, c.query)
		if c.refusal != "" {
			c.expectRefusal(t, found.Query, err, -1)
		} else if err != nil || found.Query != c.renamed ||
			strings.Join(found.Names, " ") != strings.Join(c.names, " ") {
			t.Errorf("%q: %v, %v", c.lines, found, err)
		}
	}
}

func TestCasesOfConstructs(t *testing.T) {
	for file, ask := range map[string]func(Mode, string) (*Unportable, error){
		"portable.txt": FirstUnportable, "in_client.txt": FirstUnportableInClient,
	} {
		for _, c := range casesOf(t, file) {
			found, err := ask(c.mode, c.query)
			if err != nil || c.portable != (found == nil) {
				t.Errorf("%q: %v, %v", c.lines, found, err)
			} else if found != nil && (constructs[found.Construct-1] != c.construct ||
				found.Position != c.field("position") ||
				c.message != "" && found.Construct.String() != c.message) {
				t.Errorf("%q: %v", c.lines, found)
			}
		}
	}
}

// TestLongValues binds texts of the lengths at which a form writes a length in more bytes.
func TestLongValues(t *testing.T) {
	for _, length := range []int{0, 250, 251, 1<<16 - 1, 1 << 16, 1<<24 - 1, 1 << 24} {
		value := strings.Repeat("a", length)
		text, err := Bind(BackslashEscapes, "SELECT ?", value)
		if err != nil || text != "SELECT '"+value+"'" {
			t.Errorf("%d: %v", length, err)
		}
		texts, err := BindRows(BackslashEscapes, "?", [][]any{{1}, {value}, {math.Pi}, {value}})
		if err != nil || !reflect.DeepEqual(texts, []string{"1", "'" + value + "'", "3.141592653589793e0",
			"'" + value + "'"}) {
			t.Errorf("%d: %d texts, %v", length, len(texts), err)
		}
	}
}
