<?php

/** Tests of the types that are bound, and of what is refused by name. */

namespace MysqlParams\Tests;

use MysqlParams\{Assignments, BindException, Construct, Decimal, Identifier, In, Keyword, Names, Template, Unportable};

use function MysqlParams\{bind, bind_anywhere, bind_form, bind_in_both_modes, bind_rows, first_unportable, first_unportable_in_client, names};

require __DIR__ . '/harness.php';

enum Color: string
{
    case Red = "it's red";
}

enum Size: int
{
    case Large = 3;
}

enum Pure
{
    case Only;
}

class Told
{
    public function __toString(): string
    {
        return 'told';
    }
}

class OwnDate extends \DateTimeImmutable
{
}

class EmptyDate extends \DateTime
{
    public function __construct()
    {
    }
}

class EmptyInterval extends \DateInterval
{
    public function __construct()
    {
    }
}

/** Returns an interval with these properties. */
function interval(string $text, array $properties = []): \DateInterval
{
    $interval = new \DateInterval($text);
    foreach ($properties as $name => $value) {
        $interval->$name = $value;
    }
    return $interval;
}

test('null, truth and whole numbers', function () {
    foreach ([['NULL', null], ['1', true], ['0', false], ['0', 0], ['-5', -5]] as [$wanted, $value]) {
        literal($wanted, $value);
    }
    literal('9223372036854775807', PHP_INT_MAX);
    literal('-9223372036854775808', PHP_INT_MIN);
});

test('strings', function () {
    literal("'it\\'s'", "it's");
    literal("''", '');
    literal("'\u{1F600}'", "\u{1F600}");
    literal('0xFF00', "\xFF\0");
    same("SELECT _utf8mb4'it''s', _utf8mb4 0xC3A9, 0xFF", bind_anywhere('SELECT ?, ?, ?', ["it's", 'é', "\xFF"]));
    same("SELECT 'a\\'", bind('SELECT ?', ['a\\'], true));
});

test('strings of each length of a length', function () {
    foreach ([250, 251, 65535, 65536, 16777215, 16777216] as $length) {
        $text = str_repeat('x', $length);
        same("SELECT '$text'", bind('SELECT ?', [$text]));
        same(["SELECT '$text'"], bind_rows('SELECT ?', [[$text]]));
    }
});

test('floats', function () {
    foreach ([['0.1e0', 0.1], ['1.5e0', 1.5], ['-0.0e0', -0.0], ['1e300', 1e300], ['5e-324', 5e-324]] as [$wanted, $value]) {
        literal($wanted, $value);
    }
    same('SELECT 0.25e0', bind_anywhere('SELECT ?', [0.25]));
    foreach ([NAN, INF, -INF] as $number) {
        $refusal = refused(BindException::class, "The value of `:b` is a float that isn't written: give null for NaN and infinities, else a text", fn () => bind('SELECT :a, :b', ['a' => 1, 'b' => $number]));
        same([BindException::FLOAT, ['name' => 'b', 'place' => 1]], [$refusal->getCode(), fields($refusal)]);
        refused(BindException::class, "The value for place 0 is a float that isn't written: give null for NaN and infinities, else a text", fn () => bind('SELECT ?', [new In([1, $number])]));
        refused(BindException::class, "The value for place 0 is a float that isn't written: give null for NaN and infinities, else a text", fn () => bind_anywhere('SELECT ?', [$number]));
    }
    // Without a place for it there is no refusal.
    same('SELECT 1', bind('SELECT :b', ['a' => NAN, 'b' => 1]));
});

test('dates and their times of day', function () {
    literal("'2019-11-27'", new \DateTime('2019-11-27'));
    literal("'2019-11-27 12:30:00'", new \DateTimeImmutable('2019-11-27 12:30'));
    literal("'2019-11-27 12:30:00.000001'", new \DateTimeImmutable('2019-11-27 12:30:00.000001'));
    literal("'0001-01-01'", new \DateTimeImmutable('0001-01-01'));
    literal("'9999-12-31 23:59:59.999999'", new \DateTimeImmutable('9999-12-31 23:59:59.999999'));
    literal("'2019-11-27 12:30:00'", new OwnDate('2019-11-27 12:30'));
});

test('a date is as its own clock shows it', function () {
    $moment = new \DateTimeImmutable('2019-11-27 23:30:00', new \DateTimeZone('UTC'));
    literal("'2019-11-27 23:30:00'", $moment);
    literal("'2019-11-28 05:00:00'", $moment->setTimezone(new \DateTimeZone('+05:30')));
    literal("'2019-11-28 08:30:00'", $moment->setTimezone(new \DateTimeZone('Asia/Tokyo')));
    literal("'2019-12-31 23:30:00'", $moment->modify('last day of next month'));
    literal("'1970-01-01'", new \DateTime('@0'));
    literal("'2019-11-28 00:30:00'", (clone $moment)->add(new \DateInterval('PT1H')));
});

test('dates of no year that a server has are refused', function () {
    $of_year = fn ($year) => "the value of `:a` is a date of the year $year, and years are 1 to 9999";
    foreach ([['0000-00-00', -1], ['0000-05-05', 0], ['-0044-03-15', -44]] as [$text, $year]) {
        refused(\ValueError::class, $of_year($year), fn () => bind('SELECT :a', ['a' => new \DateTime($text)]));
    }
    refused(\ValueError::class, $of_year(10000), fn () => bind('SELECT :a', ['a' => new \DateTime('9999-12-31 +1 day')]));
    $empty = 'The MysqlParams\Tests\EmptyDate object has not been correctly initialized by its constructor';
    refused(\Error::class, $empty, fn () => bind('SELECT :a', ['a' => new EmptyDate()]));
});

test('spans of time', function () {
    literal("'036:05:07.000008'", interval('P1DT12H5M7S', ['f' => 0.000008]));
    literal("'-036:05:07'", interval('P1DT12H5M7S', ['invert' => 1]));
    literal("'001:30:00'", interval('PT90M'));
    literal("'100:00:00'", interval('PT100H'));
    literal("'000:00:00'", interval('PT0S', ['invert' => 1]));
    literal("'-005:00:00'", interval('PT0S', ['h' => -5]));
    literal("'005:00:00'", interval('PT0S', ['h' => -5, 'invert' => 1]));
    literal("'000:59:30'", interval('PT1H', ['s' => -30]));
    literal("'-000:00:00.500000'", interval('PT0S', ['f' => -0.5]));
    literal("'048:00:00'", \DateInterval::createFromDateString('2 days'));
});

test('spans between two dates have their days', function () {
    $between = fn ($from, $to) => (new \DateTimeImmutable($from))->diff(new \DateTimeImmutable($to));
    literal("'1632:00:00'", $between('2019-11-01', '2020-01-08'));
    literal("'-1632:00:00'", $between('2020-01-08', '2019-11-01'));
    literal("'8784:30:00'", $between('2020-01-01', '2021-01-01 00:30'));
});

test('spans of no known length are refused', function () {
    $message = 'the value of `:a` is a DateInterval with years, months or weekdays, whose length isn\'t known: give days';
    foreach (['P1Y', 'P1M'] as $text) {
        refused(\ValueError::class, $message, fn () => bind('SELECT :a', ['a' => new \DateInterval($text)]));
    }
    foreach (['next weekday', 'last day of next month', 'next monday'] as $text) {
        refused(\ValueError::class, $message, fn () => bind('SELECT :a', ['a' => \DateInterval::createFromDateString($text)]));
    }
    $long = 'the value for place 0 is a DateInterval of more than 999999999 days';
    refused(\ValueError::class, $long, fn () => bind('SELECT ?', [interval('P1D', ['d' => PHP_INT_MAX])]));
    refused(\ValueError::class, $long, fn () => bind('SELECT ?', [interval('P1D', ['d' => 1000000000])]));
    same("SELECT '23999999976:00:00'", bind('SELECT ?', [interval('P1D', ['d' => 999999999])]));
    $empty = 'The MysqlParams\Tests\EmptyInterval object has not been correctly initialized by its constructor';
    refused(\Error::class, $empty, fn () => bind('SELECT ?', [new EmptyInterval()]));
});

test('enums by their value', function () {
    literal("'it\\'s red'", Color::Red);
    literal('3', Size::Large);
    literal("'it\\'s red', 3", new In([Color::Red, Size::Large]));
    same("IN ('it\\'s red', 3)", bind('IN (?)', [[Color::Red, Size::Large]]));
    same(["SELECT 3"], bind_rows('SELECT ?', [[Size::Large]]));
    $message = 'the value of `:a` is a case of the enum MysqlParams\Tests\Pure, which has no value: give one a value';
    refused(\TypeError::class, $message, fn () => bind('SELECT :a', ['a' => Pure::Only]));
});

test('other types are refused by name', function () {
    $table = [
        [new \stdClass(), 'is of type stdClass, which has no literal'],
        [new Told(), 'is of type MysqlParams\Tests\Told, which has no literal: give (string) of it'],
        [fn () => 1, 'is of type Closure, which has no literal'],
        [new \ArrayObject([1]), 'is of type ArrayObject, which has no literal'],
        [new \DateTimeZone('UTC'), 'is of type DateTimeZone, which has no literal'],
        [new Template('SELECT 1'), 'is of type MysqlParams\Template, which has no literal'],
        [STDIN, 'is a resource, which has no literal'],
    ];
    foreach ($table as [$value, $why]) {
        refused(\TypeError::class, "the value of `:a` $why", fn () => bind_anywhere('SELECT :a', ['a' => $value]));
        refused(\TypeError::class, "the value for place 2 $why", fn () => bind('SELECT ?, ?, ?', [1, 2, $value]));
        refused(\TypeError::class, "the value for place 0 $why", fn () => bind('SELECT ?', [[1, $value]]));
        refused(\TypeError::class, "row 1: the value for place 0 $why", fn () => bind_rows('SELECT ?', [[1], [$value]]));
    }
});

test('calls that take values alone', function () {
    $array = 'is an array, which has no literal: write a place for each of its values';
    refused(\TypeError::class, "the value for place 0 $array", fn () => bind_in_both_modes('SELECT ?', [[1, 2]]));
    $name = 'is of type MysqlParams\Identifier, and this call takes values alone';
    refused(\TypeError::class, "the value of `:t` $name", fn () => bind_in_both_modes('SELECT :t', ['t' => new Identifier('t')]));
    refused(\TypeError::class, "row 0: the value of `:t` $name", fn () => bind_rows('SELECT :t', [['t' => new Identifier('t')]]));
    $assignments = 'is of type MysqlParams\Assignments, and this call takes values alone';
    refused(\TypeError::class, "the value for place 0 $assignments", fn () => bind_in_both_modes('SET ?', [new Assignments(['a' => 1])]));
    refused(\TypeError::class, "row 0: the value for place 0 $assignments", fn () => bind_rows('SET ?', [[new Assignments(['a' => 1])]]));
    refused(\TypeError::class, "the value for place 0 $array", fn () => bind_in_both_modes('SELECT ?', [[new Identifier('t')]]));
    $in = 'is of type MysqlParams\In, and this call takes values alone';
    refused(\TypeError::class, "the value of `:a` $in", fn () => bind_in_both_modes('SELECT 1 IN (:a)', ['a' => new In([1])]));
    refused(\TypeError::class, "row 0: the value for place 0 $in", fn () => bind_rows('SELECT 1 IN (?)', [[new In([1])]]));
    refused(\TypeError::class, "the value for place 0 $array", fn () => bind_in_both_modes('SELECT ?', [['a' => 1]]));
    refused(BindException::class, "The value for place 0 is a float that isn't written: give null for NaN and infinities, else a text", fn () => bind_in_both_modes('SELECT ?', [0.5]));
});

test('parameters by name', function () {
    same('SELECT 2, 1, 2', bind('SELECT :userId, :b, :userId', ['b' => 1, 'userId' => 2, 'other' => 3]));
    same('SELECT 1', bind('SELECT :a', [':a' => 1]));
    $twice = refused(BindException::class, "Redefinition of named parameter `a'", fn () => bind('SELECT :a', ['a' => 1, ':a' => 2]));
    same(['name' => 'a', 'place' => 1, 'position' => 13], fields($twice));
    foreach ([['' => 1], [':' => 1]] as $params) {
        refused(\ValueError::class, 'Parameter 0 has an empty name', fn () => bind('SELECT :a', $params));
    }
    $message = 'parameters are a list or have names, and these have other keys: give array_values(..) of them';
    foreach ([[1 => 'a', 2 => 'b'], ['a' => 1, 5 => 2], [5 => 2, 'a' => 1]] as $params) {
        refused(\TypeError::class, $message, fn () => bind('SELECT ?, ?', $params));
    }
    refused(\TypeError::class, "row 1: $message", fn () => bind_rows('SELECT ?', [[1], [1 => 1]]));
    // A name that isn't ASCII, or has a zero byte, is told so that the message is one line of ASCII.
    refused(\TypeError::class, 'the value of `:a\xc3\xa9\x00\x22b` is of type stdClass, which has no literal', fn () => bind('SELECT 1', ["a\u{e9}\0\"b" => new \stdClass()]));
    refused(BindException::class, 'Missing named parameter `a` for statement', fn () => bind('SELECT :a', ["a\0" => 1]));
});

test('no parameters', function () {
    foreach ([bind('SELECT 1'), bind('SELECT 1', []), bind_anywhere('SELECT 1'), bind_in_both_modes('SELECT 1'), (new Template('SELECT 1'))->bind()] as $text) {
        same('SELECT 1', $text);
    }
    same([], bind_rows('SELECT ?', []));
});

test('the mode is true or false', function () {
    foreach ([1, 0, null, '', 'STRICT_TRANS_TABLES', []] as $mode) {
        $type = ['integer' => 'int', 'NULL' => 'null'][gettype($mode)] ?? gettype($mode);
        $message = "must be true or false, $type given: whether sql_mode has NO_BACKSLASH_ESCAPES";
        $argument = fn ($number, $call) => refused(\TypeError::class, "MysqlParams\\$call(): Argument #$number (\$noBackslashEscape) $message", match ($call) {
            'bind' => fn () => bind('SELECT 1', [], $mode),
            'bind_rows' => fn () => bind_rows('SELECT 1', [], $mode),
            'names' => fn () => names('SELECT 1', $mode),
            'first_unportable' => fn () => first_unportable('SELECT 1', $mode),
        });
        $argument(3, 'bind');
        $argument(3, 'bind_rows');
        $argument(2, 'names');
        $argument(2, 'first_unportable');
        refused(\TypeError::class, "MysqlParams\\Template::__construct(): Argument #2 (\$noBackslashEscape) $message", fn () => new Template('SELECT 1', $mode));
    }
});

test('a hundred thousand values', function () {
    $numbers = range(1, 100000);
    same('SELECT ' . implode(', ', $numbers), bind('SELECT ?', [new In($numbers)]));
    same('IN (' . implode(', ', $numbers) . ')', bind('IN (?)', [$numbers]));
    $marks = 'SELECT ' . implode(', ', array_fill(0, 100000, '?'));
    same('SELECT ' . implode(', ', $numbers), bind($marks, $numbers));
    same('SELECT ' . implode(', ', $numbers), bind_anywhere($marks, $numbers));
    $names = array_map(fn ($number) => "n$number", $numbers);
    same('SELECT ' . implode(', ', $numbers), bind('SELECT :' . implode(', :', $names), array_combine($names, $numbers)));
    $rows = array_map(fn ($number) => [$number, "it's $number"], $numbers);
    $wanted = 'VALUES ' . implode(', ', array_map(fn ($number) => "($number, 'it\\'s $number')", $numbers));
    same($wanted, bind('VALUES ?', [$rows]));
    same(array_map(fn ($number) => "VALUES ($number, 'it\\'s $number')", $numbers), bind_rows('VALUES (?, ?)', $rows));
});

test('the mode has one name everywhere', function () {
    same("SELECT '\\'", bind('SELECT ?', ['\\'], noBackslashEscape: true));
    same(["SELECT '\\'"], bind_rows('SELECT ?', [['\\']], noBackslashEscape: true));
    same("SELECT '\\'", (new Template('SELECT ?', noBackslashEscape: true))->bind(['\\']));
    same("SELECT '\\', NULL", bind_form("SELECT '\\', ?", "\0\x06\0", noBackslashEscape: true));
    same(['a'], names("SELECT '\\', :a", noBackslashEscape: true)->names);
    same(Construct::Bracket, first_unportable("SELECT 'a\\', [1], '", noBackslashEscape: true)->construct);
    same(Construct::Bracket, first_unportable_in_client("SELECT 'a\\', [1], '", noBackslashEscape: true)->construct);
});

test('a message says what a place touches', function () {
    foreach ([
        ['SELECT 1?', '`?` at byte 8 touches `1`: put a space between'],
        ['SELECT ?a', '`?` at byte 7 touches `a`: put a space between'],
        ["SELECT 'x'?", "`?` at byte 10 touches `'`: put a space between"],
        ['SELECT "x"?', '`?` at byte 10 touches `\x22`: put a space between'],
        ["SELECT \u{e9}?", '`?` at byte 9 touches `\xa9`: put a space between'],
        ['SELECT t.?', '`?` at byte 9 touches `.`: for a name with a point write one place, and give an Identifier of two names'],
        ['SELECT ?.a', '`?` at byte 7 touches `.`: for a name with a point write one place, and give an Identifier of two names'],
        ['SELECT ??', '`?` at byte 7 touches `?`: put a space between'],
    ] as [$query, $message]) {
        $refusal = refused(BindException::class, $message, fn () => bind($query, $query === 'SELECT ??' ? [1, 2] : [1]));
        same(BindException::NOT_ALONE, $refusal->getCode());
    }
    refused(BindException::class, '`:ab` at byte 8 touches `:`: put a space between', fn () => bind('SELECT ::ab', ['ab' => 1]));
    refused(BindException::class, '`:ab` at byte 7 touches `:`: put a space between', fn () => bind('SELECT :ab:c', ['ab' => 1, 'c' => 2]));
});

test('messages name the place, and what to do', function () {
    refused(BindException::class, 'The list for `:ids` is empty', fn () => bind('WHERE id IN (:ids)', ['ids' => []]));
    refused(BindException::class, 'The list for place 1 is empty', fn () => bind('WHERE a = ? AND id IN (?)', [1, []]));
    refused(BindException::class, 'The values have names, and the query has no `:name` outside of strings and comments', fn () => bind("LIKE '%:l%'", ['l' => 1]));
    refused(BindException::class, 'The query has 0 of `?` outside of strings and comments, and 1 values are given', fn () => bind("LIKE '%?%'", [1]));
    refused(BindException::class, "The query has names: give the values by name, as ['id' => 42]", fn () => bind('SELECT :a', [1]));
    refused(BindException::class, 'Item 1 of row 2 for `:rows` is no exact number: at most one `-`, then at most 65 digits, with at most one point between', fn () => bind('VALUES :rows', ['rows' => [[1, 2], [3, 4], [5, new Decimal('x')]]]));
    refused(BindException::class, 'The value of `:c` has a name with a backslash or a letter outside ASCII: bind takes it', fn () => bind_anywhere('SELECT :c', ['c' => new Identifier("\u{e9}")]));
});

test('texts that are much longer than their form', function () {
    $value = str_repeat("\xFF", 1000);
    $query = 'SELECT ' . implode(', ', array_fill(0, 200, ':a'));
    same('SELECT ' . implode(', ', array_fill(0, 200, '0x' . str_repeat('FF', 1000))), bind($query, ['a' => $value]));
    $rows = bind_rows($query, array_fill(0, 3, ['a' => $value]));
    same(array_fill(0, 3, 'SELECT ' . implode(', ', array_fill(0, 200, '0x' . str_repeat('FF', 1000)))), $rows);
});

test('rows with floats among them', function () {
    $texts = bind_rows('SELECT ?', [[1], [0.5], ['a'], [1.5], [2]]);
    same(['SELECT 1', 'SELECT 0.5e0', "SELECT 'a'", 'SELECT 1.5e0', 'SELECT 2'], $texts);
    $refusal = refused(BindException::class, "row 2: The value for place 0 is a float that isn't written: give null for NaN and infinities, else a text", fn () => bind_rows('SELECT ?', [[1], [0.5], [NAN]]));
    same(['place' => 0, 'row' => 2, 'texts' => ['SELECT 1', 'SELECT 0.5e0']], fields($refusal));
});

test('the first row that is refused is told', function () {
    // A row that waits is refused before the type of a later one, and before what the iterator throws.
    $refusal = refused(BindException::class, 'row 1: The query has 1 of `?` outside of strings and comments, and 2 values are given', fn () => bind_rows('SELECT ?', [[1], [1, 2], [STDIN]]));
    same(['SELECT 1'], $refusal->texts());
    $given = function () {
        yield [1];
        yield [1, 2];
        throw new \DomainException('mine');
    };
    refused(BindException::class, 'row 1: The query has 1 of `?` outside of strings and comments, and 2 values are given', fn () => bind_rows('SELECT ?', $given()));
    $given = function () {
        yield [1];
        throw new \DomainException('mine');
    };
    refused(\DomainException::class, 'mine', fn () => bind_rows('SELECT ?', $given()));
    refused(\TypeError::class, 'row 1: a row is an array of its parameters, and not int', fn () => bind_rows('SELECT ?', [[1], 5]));
    $many = array_fill(0, 5000, ['some value']);
    $many[4321] = [1, 2];
    $refusal = thrown(fn () => bind_rows('SELECT ?', $many));
    same([4321, 4321], [$refusal->row, count($refusal->texts())]);
});

test('rows of an iterator that calls the extension itself', function () {
    $given = function () {
        for ($i = 0; $i < 1000; $i++) {
            yield [bind('SELECT ?', [str_repeat('x', $i)]), implode(bind_rows('?', [[$i]]))];
        }
    };
    $texts = bind_rows('VALUES (?, ?)', $given());
    same(1000, count($texts));
    same("VALUES ('SELECT \\'xx\\'', '2')", $texts[2]);
});

test('queries that come again', function () {
    $long = 'SELECT :a' . str_repeat(' ', 5000);
    for ($time = 0; $time < 6; $time++) {
        same("SELECT _utf8mb4'it''s', ':a', 1", bind_anywhere("SELECT :A, ':a', :a", ['a' => 1, 'A' => "it's"]));
        same("SELECT 'it\\'s', ':a', 1", bind("SELECT :A, ':a', :a", ['A' => "it's", 'a' => 1]));
        same("SELECT 'it''s', '\\', 1", bind("SELECT :a, '\\', :b", ['a' => "it's", 'b' => 1], true));
        same('SELECT 0.5e0, (1, 2)', bind_anywhere('SELECT ?, (?)', [0.5, [1, 2]]));
        same('SELECT 1' . str_repeat(' ', 5000), bind_anywhere($long, ['a' => 1]));
        same("SELECT '\u{e9}', 1", bind("SELECT '\u{e9}', ?", [1]));
        foreach ([
            [BindException::UNPORTABLE, 'SELECT /*! :a */', ['a' => 1]], [BindException::UNSTEADY, "SELECT '\u{e9}', :a", ['a' => 1]],
            [BindException::MISSING, "SELECT ':a', :a, :b", ['a' => 1]], [BindException::MARK_COUNT, 'SELECT ?, ?', [1]],
        ] as [$code, $query, $values]) {
            same($code, thrown(fn () => bind_anywhere($query, $values))->getCode(), $query);
        }
    }
    for ($number = 0; $number < 3000; $number++) {
        $name = 'a' . intdiv($number, 4) % 500;
        same("SELECT $number", bind_anywhere("SELECT :$name", [$name => $number]));
    }
});

test('templates', function () {
    $template = new Template('SELECT :a, :b');
    same(['SELECT :a, :b', false], [$template->query, $template->noBackslashEscape]);
    same("SELECT 1, 'it\\'s'", $template->bind(['a' => 1, 'b' => "it's"]));
    same('SELECT 0.5e0, 1, 2', $template->bind(['a' => 0.5, 'b' => new In([1, 2])]));
    same(['SELECT 1, 2', 'SELECT 3, 4'], $template->bindRows([['a' => 1, 'b' => 2], ['a' => 3, 'b' => 4]]));
    same("SELECT '\\'", (new Template('SELECT ?', true))->bind(['\\']));
    $refusal = refused(BindException::class, 'Missing named parameter `b` for statement', fn () => $template->bind(['a' => 1]));
    same(['name' => 'b', 'place' => 1, 'position' => 12], fields($refusal));
    refused(\Error::class, 'Cannot modify readonly property MysqlParams\Template::$query', fn () => $template->query = 'x');
    refused(\Error::class, 'Cannot modify readonly property MysqlParams\Template::$query', fn () => $template->__construct('SELECT ?'));
    refused(\Error::class, 'Trying to clone an uncloneable object of class MysqlParams\Template', fn () => clone $template);
    same("SELECT 1, 'it\\'s'", $template->bind(['a' => 1, 'b' => "it's"]));
});

test('objects that nobody constructed', function () {
    holds(thrown(fn () => (new \ReflectionClass(Template::class))->newInstanceWithoutConstructor()) instanceof \ReflectionException);
    foreach ([Decimal::class, In::class, Identifier::class, Assignments::class, Keyword::class] as $kind) {
        $made = (new \ReflectionClass($kind))->newInstanceWithoutConstructor();
        refused(\Error::class, "$kind was not constructed", fn () => bind('SELECT ?', [$made]));
        refused(\Error::class, "$kind was not constructed", fn () => bind('SELECT ?', [[$made]]));
    }
    same('', (string) (new \ReflectionClass(Decimal::class))->newInstanceWithoutConstructor());
    foreach ([Template::class, Decimal::class, In::class, Identifier::class, Assignments::class, Keyword::class] as $kind) {
        holds(thrown(fn () => unserialize('O:' . strlen($kind) . ":\"$kind\":0:{}")) instanceof \Exception, $kind);
        holds(thrown(fn () => serialize(match ($kind) {
            Template::class => new Template(''),
            Decimal::class => new Decimal('1'),
            In::class => new In([1]),
            Identifier::class => new Identifier('a'),
            Assignments::class => new Assignments(['a' => 1]),
            Keyword::class => new Keyword('ASC', ['ASC']),
        })) instanceof \Exception, $kind);
    }
    foreach ([Names::class, Unportable::class] as $kind) {
        holds(thrown(fn () => new $kind()) instanceof \Error, $kind);
    }
    foreach (['digits' => new Decimal('1'), 'items' => new In([1]), 'parts' => new Identifier('a'), 'pairs' => new Assignments(['a' => 1]), 'word' => new Keyword('ASC', ['ASC'])] as $property => $object) {
        $kind = get_class($object);
        refused(\Error::class, "Cannot modify readonly property $kind::\$$property", fn () => $object->$property = ['x']);
        refused(\Error::class, "Cannot create dynamic property $kind::\$more", fn () => $object->more = 1);
    }
});

test('refusals', function () {
    $refusal = thrown(fn () => bind('SELECT :a\u{e9}', ['b' => 1]));
    holds($refusal instanceof \RuntimeException);
    $refusal = thrown(fn () => bind("SELECT :a\u{e9}", ['b' => 1]));
    same([9, "a\u{e9}", 'a', 0, 8], [$refusal->getCode(), $refusal->word, $refusal->name, $refusal->place, $refusal->position]);
    holds(str_ends_with($refusal->getMessage(), 'so `:a\xc3\xa9` ends after `a`'));
    same([__FILE__, __LINE__ - 3], [$refusal->getFile(), $refusal->getLine()]);
    $own = new BindException('mine', 5);
    same(['mine', 5, []], [$own->getMessage(), $own->getCode(), fields($own)]);
    $long = thrown(fn () => bind('SELECT :' . str_repeat('x', 1000), ['b' => 1]));
    same('Missing named parameter `' . str_repeat('x', 1000) . '` for statement', $long->getMessage());
});

test('no message and no trace shows a value', function () {
    $secret = 'hunter2';
    $calls = [
        fn () => bind('SELECT :a', ['b' => $secret]),
        fn () => bind_anywhere('SELECT :a', ['b' => $secret]),
        fn () => bind_in_both_modes('SELECT :a', ['b' => $secret]),
        fn () => bind_rows('SELECT :a', [['b' => $secret]]),
        fn () => \MysqlParams\bind_form('SELECT :a', "\0\xFD\0\x07$secret"),
        fn () => (new Template('SELECT :a'))->bind(['b' => $secret]),
        fn () => (new Template('SELECT :a'))->bindRows([['b' => $secret]]),
        fn () => (new Template('SELECT :a'))->bindForm("\0\xFD\0\x07$secret"),
        fn () => \MysqlParams\query(new \stdClass(), 'SELECT :a', ['a' => $secret]),
        fn () => \MysqlParams\execute(new \stdClass(), 'SELECT :a', ['a' => $secret]),
        fn () => bind('SELECT ?', [[$secret, new \stdClass()]]),
        fn () => bind('SELECT ?', [new Assignments(['a' => $secret, 'b' => [$secret]])]),
        fn () => new Assignments(['a' => $secret, 5 => $secret]),
        fn () => new Assignments([['a', $secret], [$secret]]),
        fn () => bind('SELECT ?', [[$secret, $secret]]),
        fn () => bind('SELECT ?', [new In([$secret, [$secret]])]),
        fn () => new In(['a' => $secret]),
    ];
    ini_set('zend.exception_ignore_args', '0');
    foreach ($calls as $number => $call) {
        $fault = thrown($call);
        holds(!str_contains($fault->getMessage(), $secret), "message of $number");
        holds(!str_contains(print_r($fault->getTrace()[0], true), $secret), "trace of $number");
    }
});

finish();
