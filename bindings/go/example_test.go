package mysqlparams_test

import (
	"context"
	"database/sql"
	"errors"
	"fmt"
	"mysqlparams"
)

// The text of the query in the repository's README, with the hostile name.
func Example() {
	text, err := mysqlparams.Bind(mysqlparams.BackslashEscapes, "SELECT * FROM t WHERE id = :id AND name = :name",
		sql.Named("id", 42), sql.Named("name", "x' OR '1'='1"))
	if err != nil {
		panic(err)
	}
	fmt.Println(text)
	// Output: SELECT * FROM t WHERE id = 42 AND name = 'x\' OR \'1\'=\'1'
}

func ExampleBindAnywhere() {
	fmt.Println(mysqlparams.BindAnywhere("SELECT ?, ?", "it's", "é"))
	// Output: SELECT _utf8mb4'it''s', _utf8mb4 0xC3A9 <nil>
}

// printer is a Sender that prints what is sent.
type printer struct{}

func (printer) QueryContext(_ context.Context, text string, _ ...any) (*sql.Rows, error) {
	fmt.Println(text)
	return nil, nil
}

func (printer) ExecContext(_ context.Context, text string, _ ...any) (sql.Result, error) {
	fmt.Println(text)
	return nil, nil
}

// What is sent by default, with the collation of the connection, and with the option Steady.
func ExampleExecContext() {
	ctx := context.Background()
	const query = "DELETE FROM t WHERE DATE_FORMAT(day, '%Y-%m') = ? AND name = ?"
	if _, err := mysqlparams.ExecContext(ctx, printer{}, query, "2019-11", "it's"); err != nil {
		panic(err)
	}
	steady := mysqlparams.Binder{Steady: true}
	if _, err := steady.ExecContext(ctx, printer{}, query, "2019-11", "it's"); err != nil {
		panic(err)
	}
	// Output:
	// DELETE FROM t WHERE DATE_FORMAT(day, '%Y-%m') = '2019-11' AND name = 'it''s'
	// DELETE FROM t WHERE DATE_FORMAT(day, '%Y-%m') = _utf8mb4'2019-11' AND name = _utf8mb4'it''s'
}

// The table of a tenant, rows, an exact number and a float.
func ExampleDecimal() {
	rows := [][]any{{1, "a", mysqlparams.Decimal("9.99"), 0.5}, {2, "b", mysqlparams.Decimal("0.10"), nil}}
	fmt.Println(mysqlparams.BindAnywhere("INSERT INTO ? VALUES ?", mysqlparams.Identifier{"shop", "item"}, rows))
	// Output: INSERT INTO `shop`.`item` VALUES (1, _utf8mb4'a', 9.99, 0.5e0), (2, _utf8mb4'b', 0.10, NULL) <nil>
}

// A list for a place alone in brackets, and one that In says to be several arguments.
func ExampleIn() {
	ids := []int{3, 1, 2}
	fmt.Println(mysqlparams.BindAnywhere("SELECT * FROM t WHERE id IN (?) ORDER BY FIELD(id, ?)", ids, mysqlparams.In(ids)))

	_, err := mysqlparams.BindAnywhere("UPDATE t SET doc = JSON_SET(doc, '$.name', ?)", []any{"x", "$.role", "admin"})
	fmt.Println(err)
	// Output:
	// SELECT * FROM t WHERE id IN (3, 1, 2) ORDER BY FIELD(id, 3, 1, 2) <nil>
	// `?` at byte 43 is one value here, and was given a list: write it alone in brackets, as `IN (?)`, or give In(..)
}

// A column that a user chose among yours, the columns of an INSERT, and a keyword of the program.
func ExampleIdentifier() {
	order, err := mysqlparams.KeywordAmong("DESC", "ASC", "DESC")
	if err != nil {
		panic(err)
	}
	fmt.Println(mysqlparams.BindAnywhere("SELECT * FROM t ORDER BY ? ?", mysqlparams.Identifier{"price"}, order))
	fmt.Println(mysqlparams.BindAnywhere("INSERT INTO t (?) VALUES (1, 2)", []mysqlparams.Identifier{{"id"}, {"price"}}))
	// Output:
	// SELECT * FROM t ORDER BY `price` DESC <nil>
	// INSERT INTO t (`id`, `price`) VALUES (1, 2) <nil>
}

// Columns, and what they are set to.
func ExampleAssignments() {
	changed := mysqlparams.Assignments{
		{Column: mysqlparams.Identifier{"price"}, Value: 7},
		{Column: mysqlparams.Identifier{"item", "name"}, Value: nil},
	}
	fmt.Println(mysqlparams.BindAnywhere("UPDATE item SET ? WHERE id = ?", changed, 42))
	// Output: UPDATE item SET `price` = 7, `item`.`name` = NULL WHERE id = 42 <nil>
}

// Refusals: of a query, of an empty list, and of a value without a literal.
func ExampleBindError() {
	_, err := mysqlparams.BindAnywhere("SELECT :größe", 7)
	var refused *mysqlparams.BindError
	if errors.As(err, &refused) {
		fmt.Println(errors.Is(err, mysqlparams.ErrUnsteady), refused.Position)
	}
	fmt.Println(err)

	_, err = mysqlparams.BindAnywhere("SELECT * FROM t WHERE id IN (?)", []int{})
	fmt.Println(err)

	_, err = mysqlparams.BindAnywhere("SELECT * FROM t WHERE id = ?", map[string]any{"$ne": 1})
	fmt.Println(err)
	// Output:
	// true 10
	// Backslash or byte that is not ASCII at byte 10 of the query: over utf8mb4 BindInBothModes takes it, except a backslash in a string
	// The list for place 0 is empty
	// the value for place 0 is of type map[string]interface {}, which has no literal: for SET give Assignments, which have an order, else json.Marshal's bytes of it
}
