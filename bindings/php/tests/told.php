<?php

/**
 * Tests over an archive that answers what a query tells it: told_archive.c of Python's tests. A query is up to five numbers: what the
 * call returns, and the report's len, place, position and byte; of rows the later ones are the bytes read and written.
 */

namespace MysqlParams\Tests;

use MysqlParams\Template;

use function MysqlParams\{bind, bind_anywhere, bind_in_both_modes, bind_rows, first_unportable, names};

require __DIR__ . '/connections.php';

test('memory that is refused is an error of PHP', function () {
    $calls = ["MysqlParams\\bind('1')", "MysqlParams\\bind_anywhere('1', [1])", "MysqlParams\\bind_in_both_modes('1')", "MysqlParams\\names('1')",
        "MysqlParams\\bind_rows('1', [[1]])", "new MysqlParams\\Template('1')", "MysqlParams\\bind('1', [[1, 2]])"];
    foreach ($calls as $call) {
        [$said, $status] = in_process("try { $call; } catch (Throwable) { echo 'caught'; } echo 'went on';");
        same(['PHP Fatal error:  Out of memory (mysql_params) in Command line code on line 1', 255], [str_replace('Fatal error: O', 'PHP Fatal error:  O', $said), $status], $call);
    }
});

test('numbers that no archive returns', function () {
    foreach ([99, -5, 20, 22] as $number) {
        $send = fn (string $query) => sent(new Played(), $query, []);
        $send_steady = fn (string $query) => sent(new Played(), $query, [], steady: true);
        foreach ([bind(...), bind_anywhere(...), bind_in_both_modes(...), names(...), $send, $send_steady] as $call) {
            refused(\Error::class, "Unknown answer $number of the archive", fn () => $call((string) $number));
        }
    }
});

test('lengths that no archive tells', function () {
    refused(\Error::class, 'the archive says that it wrote 70000 bytes, and had room for 65536', fn () => bind('0 70000'));
    $form = str_repeat('x', 70000);
    $message = 'the archive says that it wrote 999999 bytes, and had room for ';
    holds(str_starts_with(thrown(fn () => bind('0 999999', [$form]))->getMessage(), $message));
    refused(\Error::class, 'the answer of the archive is no row of strings', fn () => names('0 0'));
});

test('rooms that are asked for', function () {
    foreach ([0, 1, 65536, 65537, 300000] as $length) {
        same(str_repeat('x', $length), bind("2 $length"));
        same(str_repeat('x', $length), bind("2 $length", [str_repeat('y', 70000)]));
        same(str_repeat('x', $length), (new Template("2 $length"))->bind());
        same(str_repeat('x', $length), sent(played(''), "2 $length", []));
        same(str_repeat('x', $length), sent(played(''), "2 $length", [], steady: true));
    }
});

test('rows that no archive answers', function () {
    holds(str_starts_with(thrown(fn () => bind_rows('0 0 0 99999', [[1]]))->getMessage(), 'the archive says that it wrote 99999 bytes'));
    holds(str_starts_with(thrown(fn () => bind_rows('0 0 99999', [[1]]))->getMessage(), 'the archive says that it wrote 0 bytes'));
    refused(\Error::class, 'the answer of the archive is no row of strings', fn () => bind_rows('0 0 0 5 255', [[1]]));
    refused(\Error::class, 'the archive says that it read more than the forms of the rows', fn () => bind_rows('9 0 12', [[1]]));
});

test('a construct without a number', function () {
    holds(thrown(fn () => first_unportable('77')) instanceof \ValueError);
});

finish();
