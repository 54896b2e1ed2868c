<?php

/**
 * Tests of bind_rows over code of a user: what its refusals show, an iterator that ends the program, and iterators that are hostile.
 */

namespace MysqlParams\Tests;

use MysqlParams\{BindException, In, Template};

use function MysqlParams\{bind, bind_rows};

require __DIR__ . '/harness.php';

/** Returns the refusal of a row whose earlier rows have a value that nobody is to see. */
function refusal_of_rows(): BindException
{
    return thrown(fn () => bind_rows('SELECT ?', [['secret'], ['secret'], [1, 2]]));
}

test('nothing shows the texts of the rows before a refusal', function () {
    $refusal = refusal_of_rows();
    ini_set('zend.exception_ignore_args', '1');
    $plain = refusal_of_rows();
    ini_set('zend.exception_ignore_args', '0');
    ob_start();
    var_dump($refusal, (array) $refusal, get_object_vars($refusal));
    $shown = ob_get_clean();
    foreach ([$shown, print_r($refusal, true), var_export($refusal, true), json_encode($refusal), serialize($plain), (string) $refusal] as $number => $text) {
        holds(!str_contains($text, 'secret'), "$number: $text");
    }
    same(["SELECT 'secret'", "SELECT 'secret'"], $refusal->texts());
    same(null, unserialize(serialize($plain))->texts());
});

test('texts are of one refusal', function () {
    for ($i = 0; $i < 20; $i++) {
        $refusal = refusal_of_rows();
        same(2, count($refusal->texts()));
        unset($refusal);
        same(null, thrown(fn () => bind('SELECT ?'))->texts());
        same(null, (new BindException('mine'))->texts());
        same([], thrown(fn () => bind_rows('SELECT ?', [[1, 2]]))->texts());
    }
    $texts = refusal_of_rows()->texts();
    $texts[] = 'mine';
    same(3, count($texts));
});

test('an iterator that ends the program', function () {
    foreach (["yield [1]; exit('left');", "yield [1, 2]; exit('left');", "yield [1, 2]; yield from (function () { exit('left'); yield; })();"] as $body) {
        $code = "try { MysqlParams\\bind_rows('SELECT ?', (function () { $body })()); } catch (Throwable) { echo 'caught'; } finally { echo 'finally'; } echo 'went on';";
        same(['left', 0], in_process($code), $body);
    }
    $code = "MysqlParams\\bind_rows('SELECT ?', (function () { yield [1, 2]; exit(7); })());";
    same(['', 7], in_process($code));
});

test('a fiber that ends within an iterator', function () {
    foreach ([[1], [1, 2]] as $row) {
        $said = [];
        $fiber = new \Fiber(function () use (&$said, $row) {
            try {
                bind_rows('SELECT ?', (function () use (&$said, $row) {
                    try {
                        yield $row;
                        \Fiber::suspend();
                        yield [2];
                    } finally {
                        $said[] = 'left';
                    }
                })());
            } catch (\Throwable $fault) {
                $said[] = get_class($fault);
            }
            $said[] = 'went on';
        });
        $fiber->start();
        unset($fiber);
        gc_collect_cycles();
        same(['left'], $said);
    }
});

/** An iterator whose each step calls what it was given. */
final class Stepping implements \Iterator
{
    private int $at = 0;

    public function __construct(private int $count, private \Closure $step, private array $row = ["it's"])
    {
    }

    public function current(): mixed
    {
        return ($this->step)('current', $this->at) ?? $this->row;
    }

    public function key(): mixed
    {
        return ($this->step)('key', $this->at);
    }

    public function next(): void
    {
        $this->at++;
        ($this->step)('next', $this->at);
    }

    public function rewind(): void
    {
        ($this->step)('rewind', $this->at);
    }

    public function valid(): bool
    {
        ($this->step)('valid', $this->at);
        return $this->at < $this->count;
    }
}

/** Calls the extension in the ways that use what it keeps between calls. */
function bind_all(int $number): void
{
    bind('SELECT ?', [str_repeat('x', 100 * $number)]);
    bind('SELECT ?', [new In([1, 2, 3])]);
    thrown(fn () => bind_rows('SELECT ?', [[str_repeat('y', 70000)], [1, 2]]));
    bind_rows('SELECT ?, ?', array_fill(0, 50, [$number, "it's"]));
}

test('an iterator that binds at each of its steps', function () {
    $texts = bind_rows('SELECT ?', new Stepping(200, function ($step, $at) {
        bind_all($at);
    }));
    same(array_fill(0, 200, "SELECT 'it\\'s'"), $texts);
});

test('an iterator that changes what it has given', function () {
    $rows = [];
    $texts = bind_rows('SELECT ?', new Stepping(100, function ($step, $at) use (&$rows) {
        if ($step !== 'current') {
            foreach ($rows as &$row) {
                $row = array_fill(0, 1000, new \stdClass());
            }
            return null;
        }
        $rows[$at] = [str_repeat('x', $at + 1)];
        return $rows[$at];
    }));
    same(array_map(fn ($at) => "SELECT '" . str_repeat('x', $at + 1) . "'", range(0, 99)), $texts);
});

test('rows that refer to each other', function () {
    $rows = [[1], [2]];
    foreach ($rows as &$row) {
        $row[0] = &$rows[0][0];
    }
    unset($row);
    same(['SELECT 1', 'SELECT 1'], bind_rows('SELECT ?', $rows));
    $rows[1] = &$rows;
    refused(\TypeError::class, 'row 1: the value for place 0 is an array, which has no literal: write a place for each of its values', fn () => bind_rows('SELECT ?', $rows));
});

test('an iterator that constructs the template again, or lets go of it', function () {
    $template = new Template('SELECT :a');
    $texts = $template->bindRows(new Stepping(50, function () use (&$template) {
        if ($template !== null) {
            thrown(fn () => $template->__construct('SELECT :b, :c'));
        }
        $template = null;
        gc_collect_cycles();
    }, ['a' => "it's"]));
    same(array_fill(0, 50, "SELECT 'it\\'s'"), $texts);
});

test('an iterator that throws at any of its steps', function () {
    foreach (['rewind', 'valid', 'current', 'next'] as $thrown) {
        foreach ([0, 3] as $when) {
            $steps = new Stepping(5, function ($step, $at) use ($thrown, $when) {
                bind_all($at);
                if ($step === $thrown && $at >= $when) {
                    throw new \DomainException($step);
                }
            });
            if ($thrown === 'rewind' && $when > 0) {
                same(5, count(bind_rows('SELECT ?', $steps)));
            } else {
                refused(\DomainException::class, $thrown, fn () => bind_rows('SELECT ?', $steps));
            }
        }
    }
});

test('an iterator that is suspended in a fiber while others bind', function () {
    $make = fn (int $of) => new \Fiber(fn () => bind_rows('SELECT ?, ?', (function () use ($of) {
        for ($i = 0; $i < 100; $i++) {
            yield [$of, str_repeat('x', $i)];
            \Fiber::suspend();
        }
    })()));
    $fibers = array_map($make, range(0, 9));
    foreach ($fibers as $fiber) {
        $fiber->start();
    }
    for ($i = 0; $i < 100; $i++) {
        foreach ($fibers as $fiber) {
            $fiber->resume();
        }
    }
    foreach ($fibers as $of => $fiber) {
        same(array_map(fn ($i) => "SELECT $of, '" . str_repeat('x', $i) . "'", range(0, 99)), $fiber->getReturn());
    }
    $fibers = array_map($make, range(0, 9));
    foreach ($fibers as $fiber) {
        $fiber->start();
        $fiber->resume();
    }
    unset($fiber, $fibers);
    gc_collect_cycles();
    same(['SELECT 1'], bind_rows('SELECT ?', [[1]]));
});

test('an iterator without end is stopped by an exception of a row', function () {
    $given = function () {
        for ($i = 0;; $i++) {
            yield [$i, ...($i === 20000 ? [1] : [])];
        }
    };
    $refusal = thrown(fn () => bind_rows('SELECT ?', $given()));
    same([20000, 20000], [$refusal->row, count($refusal->texts())]);
});

finish();
