<?php

/** Tests of what stands in a place beside one value: exact numbers, lists, rows, identifiers, assignments and keywords. */

namespace MysqlParams\Tests;

use MysqlParams\{Assignments, BindException, Decimal, Fault, Identifier, In, Keyword, Template};

use function MysqlParams\{bind, bind_anywhere, bind_in_both_modes, bind_rows};

require __DIR__ . '/harness.php';

enum Color: string
{
    case Red = "it's red";
}

class Told
{
    public function __toString(): string
    {
        return 'told';
    }
}

test('exact numbers', function () {
    literal('9.99', new Decimal('9.99'));
    literal('-12', new Decimal(-12));
    literal('18446744073709551616', new Decimal('18446744073709551616'));
    literal('1, 0.10', new In([1, new Decimal('0.10')]));
    same('IN (1, 0.10)', bind('IN (?)', [[1, new Decimal('0.10')]]));
    same(['9.99', '9.99'], [(string) new Decimal('9.99'), (new Decimal('9.99'))->digits]);
    foreach (['', '1e3', '1.2.3', ' 1', '+1', '0x10', "1\0", str_repeat('9', 66), '1; DROP TABLE t'] as $digits) {
        $message = 'The Decimal for `:a` is no exact number: at most one `-`, then at most 65 digits, with at most one point between';
        $refusal = refused(BindException::class, $message, fn () => bind('SELECT :a', ['a' => new Decimal($digits)]));
        same(['fault' => Fault::Number, 'item' => 0, 'name' => 'a', 'place' => 0, 'row' => 0], fields($refusal));
    }
});

test('whole numbers of 64 bits are values everywhere', function () {
    $whole = fn ($digits) => [new Decimal($digits)];
    foreach (['18446744073709551615', '9223372036854775808', '0', '7', '-9223372036854775808', '-1'] as $digits) {
        same("SELECT $digits", bind_in_both_modes('SELECT ?', $whole($digits)));
        same(["SELECT $digits"], bind_rows('SELECT ?', [$whole($digits)]));
    }
    $message = 'is of type MysqlParams\Decimal, and this call takes values alone: give its digits as a text, within CAST(.. AS DECIMAL(20,2))';
    foreach (['18446744073709551616', '-9223372036854775809', '1.5', '', '-', '01', '-01', '1a', '99999999999999999999'] as $digits) {
        refused(\TypeError::class, "the value for place 0 $message", fn () => bind_in_both_modes('SELECT ?', $whole($digits)));
        refused(\TypeError::class, "row 0: the value for place 0 $message", fn () => bind_rows('SELECT ?', [$whole($digits)]));
    }
    same('SELECT 0', bind_in_both_modes('SELECT ?', [new Decimal('-0')]));
});

test('lists and rows', function () {
    literal("1, 'a', NULL, 0.5e0, 1", new In([1, 'a', null, 0.5, true]));
    same("IN (1, 'a', NULL, 0.5e0, 1)", bind('IN (?)', [[1, 'a', null, 0.5, true]]));
    same("VALUES (1, 'a'), (2, NULL)", bind('VALUES ?', [[[1, 'a'], [2, null]]]));
    same("VALUES (1, _utf8mb4'a')", bind_anywhere('VALUES :rows', ['rows' => [[1, 'a']]]));
    $shared = [1, 2];
    same('(1, 2), (1, 2)', bind('?', [new In([$shared, &$shared])]));
    same('VALUES (1, 2), (1, 2)', bind('VALUES ?', [[$shared, &$shared]]));
    $refs = [1, 2];
    foreach ($refs as &$item) {
        $held = &$item;
    }
    literal('1, 2', new In($refs));
    same('IN (1, 2)', bind('IN (?)', [$refs]));
});

test('an array stands alone in brackets', function () {
    $ids = [3, 'x'];
    $rows = [[1, 'a'], [2, null]];
    foreach ([
        ['WHERE id IN (:a)', $ids, "WHERE id IN (3, 'x')"],
        ['WHERE id NOT IN ( /* c */ :a )', $ids, "WHERE id NOT IN ( /* c */ 3, 'x' )"],
        ["WHERE (a, b) IN (\n:a -- c\n)", $rows, "WHERE (a, b) IN (\n(1, 'a'), (2, NULL) -- c\n)"],
        ['WHERE (a, b) = (:a)', $ids, "WHERE (a, b) = (3, 'x')"],
        ['INSERT INTO t VALUES (1, 2), (:a)', $ids, "INSERT INTO t VALUES (1, 2), (3, 'x')"],
        ['INSERT INTO t VALUES :a', $rows, "INSERT INTO t VALUES (1, 'a'), (2, NULL)"],
        ['INSERT INTO t (a, b) value :a', $rows, "INSERT INTO t (a, b) value (1, 'a'), (2, NULL)"],
    ] as [$query, $value, $wanted]) {
        same($wanted, bind($query, ['a' => $value]));
        same($wanted, (new Template($query))->bind(['a' => $value]));
        same($wanted, bind(str_replace(':a', '?', $query), [$value]));
        same($wanted, bind($query, ['a' => new In($value)]));
        same(str_replace(["'x'", "'a'"], ["_utf8mb4'x'", "_utf8mb4'a'"], $wanted), bind_anywhere($query, ['a' => $value]));
    }
});

test('an array that stands elsewhere is refused, and an In is not', function () {
    $message = '`:a` is one value here, and was given a list: write it alone in brackets, as `IN (:a)`, or give new In([..])';
    $role = [['x', '$.role', 'admin'], "'x', '$.role', 'admin'"];
    $numbers = [[1, 2], '1, 2'];
    $rows = [[[1, 2], [3, 4]], '(1, 2), (3, 4)'];
    foreach ([
        ["UPDATE t SET doc = JSON_SET(doc, '$.name', :a)", ...$role], ['SELECT COALESCE(:a, owner)', ...$numbers], ['SELECT 1 LIMIT :a', ...$numbers],
        ['SELECT FIELD(id, :a)', ...$numbers], ["SELECT CONCAT_WS(',', :a)", ...$role], ['SELECT JSON_ARRAY(:a)', ...$role],
        ['SELECT ROUND( :a )', ...$numbers], ['SELECT 1 IN (0, :a)', ...$numbers], ['UPDATE t SET a = :a', [1], '1'], ['VALUES :a', ...$numbers],
        ['SELECT :a', ...$rows], ['SELECT (1, 2) IN ((0, 0), :a)', ...$rows], ['VALUES (1, 2), :a', ...$rows],
    ] as [$query, $value, $literals]) {
        $position = strpos($query, ':a');
        $template = new Template($query);
        // Also of a query that is kept.
        for ($time = 0; $time < 5; $time++) {
            bind($query, ['a' => 1]);
            bind_anywhere($query, ['a' => 1]);
            foreach ([bind(...), bind_anywhere(...), fn ($query, $values) => bind($query, $values, true), fn ($query, $values) => $template->bind($values)] as $call) {
                $refusal = refused(BindException::class, $message, fn () => $call($query, ['a' => $value]));
                same(BindException::UNBRACKETED, $refusal->getCode());
                same(['name' => 'a', 'place' => 0, 'position' => $position], fields($refusal));
            }
        }
        $marked = str_replace(':a', '?', $query);
        $refusal = refused(BindException::class, str_replace(['`:a`', ':a'], ["`?` at byte $position", '?'], $message), fn () => bind($marked, [$value]));
        same(['place' => 0, 'position' => $position], fields($refusal));
        $wanted = str_replace(':a', $literals, $query);
        same([$wanted, $wanted, $wanted], [bind($query, ['a' => new In($value)]), bind($marked, [new In($value)]), $template->bind(['a' => new In($value)])]);
    }
    same('SELECT `a`, `b`', bind('SELECT :a', ['a' => [new Identifier('a'), new Identifier('b')]]));
});

test('which refusal of an array comes first', function () {
    foreach ([
        ['SELECT ?, 1?', [[1], 2], BindException::NOT_ALONE, ['place' => 1, 'position' => 11]],
        ['SELECT ?', [[1], 2], BindException::MARK_COUNT, ['marks' => 1, 'values' => 2]],
        ['SELECT ?, ?', [NAN, [1]], BindException::UNBRACKETED, ['place' => 1, 'position' => 10]],
        ['SELECT ?, ?', [new Decimal('x'), []], BindException::UNBRACKETED, ['place' => 1, 'position' => 10]],
        ['SELECT 1 IN (?), ?, ?', [[1], [2], [3]], BindException::UNBRACKETED, ['place' => 1, 'position' => 17]],
    ] as [$query, $values, $code, $fields]) {
        $refusal = thrown(fn () => bind($query, $values));
        same([$code, $fields], [$refusal->getCode(), fields($refusal)], $query);
    }
});

test('what an In is made of, and where it stands', function () {
    same([1, [2]], (new In([1, [2]]))->items);
    foreach ([['a' => 1], [1 => 'a'], ['a' => 1, 5 => 2]] as $keys) {
        refused(\TypeError::class, 'MysqlParams\In::__construct(): Argument #1 ($items) must be a list: give array_values(..) of it', fn () => new In($keys));
    }
    foreach ([5, 'ab', null, new \ArrayObject([1])] as $items) {
        holds(thrown(fn () => new In($items)) instanceof \TypeError);
    }
    holds(thrown(fn () => new In()) instanceof \ArgumentCountError);
    $in = new In([1]);
    $item = 'has an item that is of type MysqlParams\In: lists and rows are of values, or a list of Identifiers alone, so write a place for each';
    $mixed = 'has rows and values: give a list of values, or one of rows alone';
    foreach ([[[$in], $item], [[1, $in], $item], [[[$in]], $item], [new In([$in]), $item], [new In([[1, $in]]), $item], [[[1], $in], $mixed], [new In([$in, [1]]), $mixed]] as [$value, $why]) {
        refused(\TypeError::class, "the value of `:a` $why", fn () => bind('SELECT 1 IN (:a)', ['a' => $value]));
        refused(\TypeError::class, "the value for place 0 $why", fn () => bind_anywhere('SELECT 1 IN (?)', [$value]));
    }
});

test('lists and rows that cannot be written', function () {
    foreach ([
        [[], Fault::Empty, 0, 'The list for % is empty'],
        [[[]], Fault::EmptyRow, 0, 'Row 0 for % is empty'],
        [[[1, 2], [3]], Fault::RowLength, 1, 'Row 1 for % is not as long as the first'],
    ] as [$value, $fault, $row, $message]) {
        foreach ([['SELECT :a', new In($value)], ['SELECT 1 IN (:a)', new In($value)], ['SELECT 1 IN (:a)', $value]] as [$query, $given]) {
            $refusal = refused(BindException::class, str_replace('%', '`:a`', $message), fn () => bind($query, ['a' => $given]));
            same(BindException::FAULT, $refusal->getCode());
            same(['fault' => $fault, 'item' => 0, 'name' => 'a', 'place' => 0, 'row' => $row], fields($refusal));
            $marked = str_replace(':a', '?', $query);
            refused(BindException::class, str_replace('%', 'place 0', $message), fn () => bind_anywhere($marked, [$given]));
        }
    }
    $table = [
        [['a' => 1], 'is an array with keys, which is no list: for SET give new Assignments(..) of it, else give array_values(..) of it'],
        [[1 => 'a'], 'is an array with keys, which is no list: give array_values(..) of it'],
        [['a' => 1, 5 => 2], 'is an array with keys, which is no list: give array_values(..) of it'],
        [[1, [2]], 'has rows and values: give a list of values, or one of rows alone'],
        [[[1], 2], 'has rows and values: give a list of values, or one of rows alone'],
        [[['a' => 1]], 'has keys in row 0, and a row is a list: give array_values(..) of it'],
        [[[1], [5 => 1]], 'has keys in row 1, and a row is a list: give array_values(..) of it'],
        [[[1, [2]]], 'has an array in a row: rows are of values'],
    ];
    $why = fn ($kind) => "has an item that is of type MysqlParams\\$kind: lists and rows are of values, or a list of Identifiers alone, so write a place for each";
    foreach ([[new Identifier('t'), 1], [1, new Identifier('t')], [new Identifier('t'), null], [[new Identifier('t')]]] as $mixed) {
        $table[] = [$mixed, $why('Identifier')];
    }
    $table[] = [[new Keyword('ASC', ['ASC'])], $why('Keyword')];
    $table[] = [[new Identifier('t'), new Keyword('ASC', ['ASC'])], $why('Identifier')];
    $table[] = [[new Assignments(['b' => 1])], $why('Assignments')];
    $table[] = [[[new Assignments(['b' => 1])]], $why('Assignments')];
    refused(\TypeError::class, "the value of `:a` {$why('Identifier')}", fn () => bind('SELECT :a', ['a' => new In([new Identifier('t')])]));
    foreach ($table as [$value, $why]) {
        refused(\TypeError::class, "the value of `:a` $why", fn () => bind('SELECT :a', ['a' => $value]));
        refused(\TypeError::class, "the value for place 1 $why", fn () => bind('SELECT ?, ?', [1, $value]));
        if (array_is_list($value)) {
            refused(\TypeError::class, "the value of `:a` $why", fn () => bind('SELECT :a', ['a' => new In($value)]));
        }
    }
    $cycle = [1];
    $cycle[] = &$cycle;
    refused(\TypeError::class, 'the value for place 0 has rows and values: give a list of values, or one of rows alone', fn () => bind('?', [$cycle]));
    refused(\TypeError::class, 'the value for place 0 has rows and values: give a list of values, or one of rows alone', fn () => bind('?', [new In($cycle)]));
    $cycle = null;
});

test('identifiers', function () {
    literal('`t`', new Identifier('t'));
    literal('`shop`.`a``b`', new Identifier('shop', 'a`b'));
    same(['shop', 't'], (new Identifier('shop', 't'))->parts);
    foreach (['' => Fault::EmptyName, "a\0b" => Fault::ZeroByte, 'a ' => Fault::TrailingSpace, 'a\\' => Fault::Backslash] as $name => $fault) {
        same($fault, thrown(fn () => bind('SELECT ?', [new Identifier($name)]))->fault);
        $second = thrown(fn () => bind('SELECT ?', [new Identifier('t', $name)]));
        same([$fault, 1], [$second->fault, $second->item]);
    }
    same(Fault::LongName, thrown(fn () => bind('SELECT ?', [new Identifier(str_repeat('x', 65))]))->fault);
    refused(\ArgumentCountError::class, 'MysqlParams\Identifier::__construct() expects at least 1 argument, 0 given', fn () => new Identifier());
    refused(\TypeError::class, 'MysqlParams\Identifier::__construct(): Argument #2 must be of type string, int given', fn () => new Identifier('a', 5));
});

test('lists of identifiers', function () {
    [$a, $b] = [new Identifier('a'), new Identifier('t', 'b`')];
    $shared = $a;
    foreach ([[[$a], '`a`'], [[$a, $b], '`a`, `t`.`b```'], [[$a, $a, $a], '`a`, `a`, `a`'], [[&$shared, $b], '`a`, `t`.`b```']] as [$value, $wanted]) {
        literal($wanted, $value);
        same("SELECT $wanted, 1", bind_anywhere('SELECT ?, ?', [$value, 1]));
        same("SELECT $wanted", (new Template('SELECT :a'))->bind(['a' => $value]));
    }
    same('INSERT INTO t (`a`, `b`) VALUES (1, NULL)', bind('INSERT INTO t (?) VALUES ?', [[$a, new Identifier('b')], [[1, null]]]));
    $refusal = thrown(fn () => bind('SELECT ?', [[$b, new Identifier("b\0")]]));
    same([Fault::ZeroByte, 2], [$refusal->fault, $refusal->item]);
    $many = array_map(fn ($number) => new Identifier('t', "c$number"), range(1, 5000));
    literal(implode(', ', array_map(fn ($number) => "`t`.`c$number`", range(1, 5000))), $many);
});

test('assignments', function () {
    $column = new Identifier('t', 'b');
    $shared = 'x';
    $pair = ['a', &$shared];
    foreach ([
        [['a' => 1], '`a` = 1'],
        [['a`' => "it's", ':b' => null, "\u{e9}" => true], "`a``` = 'it\\'s', `:b` = NULL, `\u{e9}` = 1"],
        [[['a', 0.5], [$column, new Decimal('1.50')]], '`a` = 0.5e0, `t`.`b` = 1.50'],
        [[['2019', 1], ['a, b', new \DateTime('2019-11-27')]], "`2019` = 1, `a, b` = '2019-11-27'"],
        [['a' => Color::Red, 'b' => new Decimal('18446744073709551616')], "`a` = 'it\\'s red', `b` = 18446744073709551616"],
        [['a' => &$shared, 'b' => new \DateInterval('PT90M')], "`a` = 'x', `b` = '001:30:00'"],
        [[&$pair, &$pair], "`a` = 'x', `a` = 'x'"],
    ] as [$assigned, $wanted]) {
        $value = new Assignments($assigned);
        literal($wanted, $value);
        same("UPDATE t SET $wanted WHERE 1", (new Template('UPDATE t SET ? WHERE ?'))->bind([$value, 1]));
        same("SET $wanted, $wanted", bind('SET :a, :a', ['a' => $value]));
    }
    same("SET `a` = _utf8mb4'it''s', `b` = _utf8mb4 0xC3A9", bind_anywhere('SET ?', [new Assignments(['a' => "it's", 'b' => 'é'])]));
    $made = new Assignments(['a' => 1]);
    same([['a'], 1], [$made->pairs[0][0]->parts, $made->pairs[0][1]]);
    same($column, (new Assignments([[$column, 1]]))->pairs[0][0]);
    // What is changed later isn't seen.
    $held = new Assignments(['a' => &$shared]);
    $shared = 'y';
    literal("`a` = 'x'", $held);
    $many = array_combine(array_map(fn ($number) => "c$number", range(1, 5000)), range(1, 5000));
    literal(implode(', ', array_map(fn ($number) => "`c$number` = $number", range(1, 5000))), new Assignments($many));
});

test('assignments that cannot be written', function () {
    $values = [[[1], 'array'], [[], 'array'], [['b' => 1], 'array'], [[[1, 2]], 'array'], [new Identifier('t'), Identifier::class],
        [new Keyword('NULL', ['NULL']), Keyword::class], [new Assignments(['b' => 1]), Assignments::class], [new In([1]), In::class]];
    foreach ($values as [$value, $kind]) {
        foreach ([["a\u{e9}", '`a\xc3\xa9`'], [new Identifier('t', ':b'), '`t`.`:b`']] as [$column, $shown]) {
            $message = "the value of `:set` sets $shown to a value of type $kind: a column takes one value";
            refused(\TypeError::class, $message, fn () => bind('SET :set', ['set' => new Assignments([['x', 1], [$column, $value]])]));
        }
    }
    foreach ([new \stdClass(), new Told()] as $value) {
        $fault = thrown(fn () => bind('SET ?', [new Assignments(['a' => $value])]));
        holds($fault instanceof \TypeError && str_starts_with($fault->getMessage(), 'the value for place 0 is of type ' . get_class($value)));
    }
    refused(BindException::class, "The value for place 0 is a float that isn't written: give null for NaN and infinities, else a text", fn () => bind('SET ?', [new Assignments(['a' => NAN])]));
    $empty = refused(BindException::class, 'The list for `:set` is empty', fn () => bind('SET :set', ['set' => new Assignments([])]));
    same(['fault' => Fault::Empty, 'item' => 0, 'name' => 'set', 'place' => 0, 'row' => 0], fields($empty));
    $refusal = thrown(fn () => bind('SET ?', [new Assignments([[new Identifier('t', 'a'), 1], ["b\0", 2]])]));
    same([Fault::ZeroByte, 2], [$refusal->fault, $refusal->item]);
    same(Fault::EmptyName, thrown(fn () => bind('SET ?', [new Assignments(['' => 1])]))->fault);
    same(Fault::Number, thrown(fn () => bind('SET ?', [new Assignments(['a' => new Decimal('x')])]))->fault);
    $steady = thrown(fn () => bind_anywhere('SET ?', [new Assignments(["\u{e9}" => 1])]));
    same(BindException::UNSTEADY_FRAGMENT, $steady->getCode());
    same(BindException::UNSTEADY_FRAGMENT, thrown(fn () => bind_anywhere('?', [[new Identifier('a'), new Identifier("\u{e9}")]]))->getCode());
});

test('what assignments are not made of', function () {
    $message = 'MysqlParams\Assignments::__construct(): Argument #1 ($assigned) must be an array whose keys are columns, or a list of pairs of a column, which is a string or an Identifier, and a value';
    $keyword = new Keyword('ASC', ['ASC']);
    $given = [[5], ['ab'], [['a']], [['a', 1, 2]], [[]], [['a' => 1]], [['x' => 'a', 'y' => 1]], [[1 => 'a', 2 => 1]], [5 => 1], ['a' => 1, 5 => 2],
        ['2019' => 1, 'a' => 2], [['a', 1], 5], [[5, 1]], [[null, 1]], [[['a'], 1]], [[$keyword, 1]], [[new Told(), 1]], [new Identifier('a')]];
    foreach ($given as $assigned) {
        refused(\TypeError::class, $message, fn () => new Assignments($assigned));
    }
    foreach ([5, 'ab', null, new \ArrayObject(['a' => 1])] as $assigned) {
        holds(thrown(fn () => new Assignments($assigned)) instanceof \TypeError);
    }
    holds(thrown(fn () => new Assignments()) instanceof \ArgumentCountError);
});

test('keywords', function () {
    literal('DESC', new Keyword('DESC', ['ASC', 'DESC']));
    literal('IS NOT NULL', new Keyword('IS NOT NULL', among: ['IS NULL', 'IS NOT NULL']));
    same('DESC', (new Keyword('DESC', ['DESC']))->word);
    foreach ([['x', ['ASC', 'DESC'], 'ASC, DESC'], ['desc', ['DESC'], 'DESC'], ['1', [1], 'of none'], ['a', [], 'of none']] as [$word, $among, $told]) {
        $message = 'MysqlParams\Keyword::__construct(): Argument #1 ($word) must be one of the keywords ' . $told . ', and it has ' . strlen($word) . ' bytes of another text';
        refused(\ValueError::class, $message, fn () => new Keyword($word, $among));
    }
    $message = 'The value for place 0 is none of the keywords that the class Keyword lists: for another word choose among queries';
    refused(BindException::class, $message, fn () => bind('SELECT ?', [new Keyword('BETWEEN', ['BETWEEN'])]));
    same(Fault::Keyword, thrown(fn () => bind('SELECT ?', [new Keyword("DESC\0", ["DESC\0"])]))->fault);
});

test('objects that reflection made', function () {
    $make = function (string $kind, string $property, array $value) {
        $made = (new \ReflectionClass($kind))->newInstanceWithoutConstructor();
        (new \ReflectionProperty($kind, $property))->setValue($made, $value);
        return $made;
    };
    $shared = 1;
    foreach ([[], [5], ['a', null], [[]]] as $parts) {
        $made = $make(Identifier::class, 'parts', $parts);
        foreach ([$made, [$made], new Assignments([[$made, 1]])] as $value) {
            refused(\Error::class, 'MysqlParams\Identifier was not constructed', fn () => bind('SELECT ?', [$value]));
        }
    }
    foreach ([['a' => 1], [1 => 'a']] as $items) {
        $made = $make(In::class, 'items', $items);
        refused(\Error::class, 'MysqlParams\In was not constructed', fn () => bind('SELECT ?', [$made]));
    }
    foreach ([[5], [[]], [['a', 1]], [[new Identifier('a')]], [[new Identifier('a'), &$shared]], [[new \stdClass(), 1]]] as $pairs) {
        $made = $make(Assignments::class, 'pairs', $pairs);
        refused(\Error::class, 'MysqlParams\Assignments was not constructed', fn () => bind('SELECT ?', [$made]));
    }
});

finish();
