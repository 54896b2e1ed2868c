<?php

/**
 * Calls what the extension has again and again: PHP's memory must not grow. TIMES (1000) says how often; under valgrind, with
 * PHP's memory of malloc, nothing may be left or be read wrongly.
 */

namespace MysqlParams\Tests;

use MysqlParams\{Assignments, BindException, Decimal, Identifier, In, Keyword, Template};

use function MysqlParams\{bind, bind_anywhere, bind_form, bind_in_both_modes, bind_rows, first_unportable, first_unportable_in_client, names};

require __DIR__ . '/connections.php';

enum Color: string
{
    case Red = 'red';
}

/** Calls, of which each may throw. */
function calls(): array
{
    $long = str_repeat("it's \u{e9} ", 20000);
    $rows = array_map(fn ($number) => [$number, "it's $number", null, 0.5], range(1, 300));
    $moment = new \DateTimeImmutable('2019-11-27 12:30:00.5');
    $span = new \DateInterval('PT90M');
    $template = new Template('SELECT :a, :b');
    return [
        'values' => fn () => bind('SELECT ?, ?, ?, ?, ?, ?, ?, ?', [null, true, 5, "it's", 0.5, $moment, $span, Color::Red]),
        'anywhere' => fn () => bind_anywhere('SELECT :a, :b', ['a' => "\u{e9}", ':b' => new In([1, 'x', new Decimal('1.5')])]),
        'array in brackets' => fn () => bind('WHERE a IN (:a)', ['a' => [$long, 'x']]),
        'both modes' => fn () => bind_in_both_modes("SELECT '\u{e9}', ?", ["\u{e9}"]),
        'long text' => fn () => bind('SELECT ?, ?', [$long, $long]),
        'rows of a place' => fn () => bind('INSERT INTO ? VALUES ?', [new Identifier('shop', 't'), $rows]),
        'keyword' => fn () => bind('ORDER BY ? ?', [new Identifier('a'), new Keyword('DESC', ['ASC', 'DESC'])]),
        'identifiers' => fn () => bind('INSERT INTO t (?)', [[new Identifier('a'), new Identifier('t', 'b')]]),
        'assignments' => fn () => bind('SET ?', [new Assignments(['a' => 1, "b\u{e9}" => $long])]),
        'pairs' => fn () => bind_anywhere('SET ?', [new Assignments([['a', "it's"], [new Identifier('t', 'b'), new Decimal('1.5')]])]),
        'form' => fn () => bind_form('SELECT ?', "\0\x06\0"),
        'rows' => fn () => bind_rows('VALUES (?, ?, ?, ?)', $rows),
        'rows of a generator' => fn () => bind_rows('VALUES (?)', (fn () => yield from array_fill(0, 300, ['x']))()),
        'template' => fn () => $template->bind(['a' => 1, 'b' => $long]),
        'rows of a template' => fn () => $template->bindRows([['a' => 1, 'b' => 2], ['a' => 0.5, 'b' => 2]]),
        'new template' => fn () => new Template('SELECT :a, ?'),
        'names' => fn () => names('SELECT :a, :userId'),
        'constructs' => fn () => [first_unportable('SELECT /*! :A */'), first_unportable('SELECT 1'), first_unportable_in_client("use x")],
        'guarded text' => fn () => sent(played(''), 'SELECT ?, ?', [$long, "\u{e9}\\"]),
        'guarded text without escapes' => fn () => sent(played('NO_BACKSLASH_ESCAPES'), 'SELECT :a', ['a' => "it's\\"]),
        'guarded list' => fn () => sent(played(''), 'SELECT ? IN (?)', [0.5, [$long, '\\']]),
        'plain text that is sent' => fn () => sent(played(''), 'SELECT ?, ?', [new Identifier("\u{e9}"), $long]),
        'steady text that is sent' => fn () => sent(played(''), 'SELECT ?', [$long], steady: true),
        'text that is too long' => fn () => sent(new Played(), 'SELECT ?', [$long]),
        'unportable text' => fn () => sent(played(''), 'SELECT /*! ? */', [$long]),
        'unsteady text' => fn () => sent(played(''), 'SELECT ?', [new Identifier("\u{e9}")], steady: true),
        'missing' => fn () => bind("SELECT :a\u{e9}", ['b' => 1]),
        'mixed' => fn () => names('SELECT :a, ?'),
        'repeated' => fn () => bind('SELECT :a', ['a' => 1, ':a' => $long]),
        'float' => fn () => bind('SELECT :a, :b', ['a' => NAN, 'b' => $long]),
        'fault' => fn () => bind('SELECT :a', ['a' => new In([[1, 2], [3]])]),
        'array elsewhere' => fn () => bind('SELECT :a', ['a' => [$long, 2]]),
        'array of a mark elsewhere' => fn () => bind_anywhere('SELECT ?', [[$long, 2]]),
        'unportable' => fn () => bind_anywhere('SELECT /*! :a */', ['a' => 1]),
        'unsteady' => fn () => bind_anywhere('SELECT ?', [new Identifier("\u{e9}")]),
        'object' => fn () => bind('SELECT :a, :b', ['b' => $long, 'a' => new \stdClass()]),
        'nested' => fn () => bind('SELECT ?', [[$long, [1]]]),
        'keys' => fn () => bind('SELECT ?', [1 => $long]),
        'empty name' => fn () => bind('SELECT ?', ['b' => $long, '' => 1]),
        'year' => fn () => bind('SELECT ?', [$long, new \DateTime('0000-00-00')]),
        'month' => fn () => bind('SELECT ?', [$long, new \DateInterval('P1M')]),
        'mode' => fn () => bind('SELECT 1', [], 'x'),
        'refused row' => fn () => bind_rows('SELECT ?', [[1], [1, 2], [3]]),
        'refused type of a row' => fn () => bind_rows('SELECT ?', [[1], [$long, new \stdClass()]]),
        'refused row before a type' => fn () => bind_rows('SELECT ?', [[1], [1, 2], [new \stdClass()]]),
        'refused float of a row' => fn () => bind_rows('SELECT ?', [[$long], [0.5], [INF]]),
        'exception of an iterator' => fn () => bind_rows('SELECT ?', (function () {
            yield ['x'];
            throw new \DomainException('mine');
        })()),
        'refused row before an exception' => fn () => bind_rows('SELECT ?', (function () {
            yield [1, 2];
            throw new \DomainException('mine');
        })()),
        'refused identifier' => fn () => new Identifier('a', 5),
        'refused items' => fn () => new In(['a' => $long]),
        'In within an In' => fn () => bind('SELECT ?', [new In([$long, new In([1])])]),
        'second constructor of an In' => fn () => (new In([$long]))->__construct([1]),
        'refused keyword' => fn () => new Keyword('x', ['ASC']),
        'refused item beside identifiers' => fn () => bind('SELECT ?', [[new Identifier('a'), $long]]),
        'refused assignment' => fn () => bind('SET ?', [new Assignments(['a' => $long, "b\u{e9}" => [1]])]),
        'refused column' => fn () => bind('SET ?', [new Assignments([[new Identifier('t', "b\0"), $long]])]),
        'no assignments' => fn () => bind('SET ?', [new Assignments([])]),
        'array with keys' => fn () => bind('SET ?', [['a' => $long]]),
        'refused keys of assignments' => fn () => new Assignments(['a' => $long, 5 => 1]),
        'refused pairs of assignments' => fn () => new Assignments([['a', $long], [new Identifier('b'), 1], [5, 1]]),
        'second constructor of assignments' => fn () => (new Assignments(['a' => $long]))->__construct(['b' => 1]),
        'second constructor' => fn () => $template->__construct('SELECT 1'),
    ];
}

/** Calls so often, and returns how much PHP's memory grew. */
function growth(callable $call, int $times): int
{
    $before = memory_get_usage();
    for ($i = 0; $i < $times; $i++) {
        try {
            $call();
        } catch (BindException | \DomainException | \TypeError | \ValueError | \Error) {
        }
    }
    gc_collect_cycles();
    return memory_get_usage() - $before;
}

$times = (int) (getenv('TIMES') ?: 1000);
foreach (calls() as $name => $call) {
    test("memory of $name", function () use ($call, $times) {
        growth($call, 10);
        $grown = growth($call, $times);
        holds($grown < 1024, "it grew by $grown bytes");
    });
}

finish();
