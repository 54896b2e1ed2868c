<?php

/**
 * What the tests of the extension share. A test prints `test NAME ... ok` or `test NAME ... FAILED`; the status is 1 if one
 * failed, or if there was none.
 */

namespace MysqlParams\Tests;

const CASES = __DIR__ . '/../../cases';

/** The tests that ran, and those that failed. */
final class Tests
{
    public static int $ran = 0;
    public static int $failed = 0;
}

/** Runs a test. */
function test(string $name, callable $body): void
{
    Tests::$ran++;
    try {
        $body();
        echo "test $name ... ok\n";
    } catch (\Throwable $fault) {
        Tests::$failed++;
        echo 'fault: ', get_class($fault), ': ', $fault->getMessage(), "\n", $fault->getTraceAsString(), "\n";
        echo "test $name ... FAILED\n";
    }
}

/** Throws unless both are the same, of one type. */
function same(mixed $wanted, mixed $found, string $of = ''): void
{
    if ($wanted !== $found) {
        throw new \Exception("$of: wanted " . var_export($wanted, true) . ', found ' . var_export($found, true));
    }
}

/** Throws unless it is true. */
function holds(bool $truth, string $of = ''): void
{
    same(true, $truth, $of);
}

/** Throws unless a value is bound as this literal. */
function literal(string $wanted, mixed $value): void
{
    same("SELECT $wanted", \MysqlParams\bind('SELECT :a', ['a' => $value]), get_debug_type($value));
    same("SELECT $wanted", \MysqlParams\bind('SELECT ?', [$value]), get_debug_type($value));
}

/** Returns what a call throws. */
function thrown(callable $call): \Throwable
{
    try {
        $returned = $call();
    } catch (\Throwable $fault) {
        return $fault;
    }
    throw new \Exception('nothing was thrown, and it returned ' . var_export($returned, true));
}

/** Throws unless a call throws just this. */
function refused(string $kind, string $message, callable $call): \Throwable
{
    $fault = thrown($call);
    same($kind, get_class($fault), $fault->getMessage());
    same($message, $fault->getMessage());
    return $fault;
}

/** Returns the fields of a refusal that aren't null, and its texts, in the order of their names. */
function fields(\MysqlParams\BindException $refusal): array
{
    $fields = [];
    foreach (['byte', 'construct', 'fault', 'item', 'marks', 'name', 'place', 'position', 'row', 'values', 'word'] as $field) {
        if ($refusal->$field !== null) {
            $fields[$field] = $refusal->$field;
        }
    }
    if ($refusal->texts() !== null) {
        $fields['texts'] = $refusal->texts();
    }
    ksort($fields);
    return $fields;
}

/** Returns what PHP writes that runs code over the extension, in a process of its own, and its status. */
function in_process(string $code): array
{
    $words = [PHP_BINARY, '-n', '-d', 'display_errors=1', '-d', 'log_errors=0', '-d', 'html_errors=0'];
    array_push($words, '-d', 'extension=' . getenv('MODULE'), '-r', $code);
    exec(implode(' ', array_map(escapeshellarg(...), $words)) . ' 2>&1', $lines, $status);
    return [trim(implode("\n", $lines)), $status];
}

/** Ends the program of tests. */
function finish(): never
{
    exit(Tests::$ran > 0 && Tests::$failed === 0 ? 0 : 1);
}
