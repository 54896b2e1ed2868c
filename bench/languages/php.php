<?php

/**
 * Times what makes texts of PHP's extension beside PDO::quote by hand, and prints the rows of a table: bench/languages/php/run has
 * built the extension, started a server, since PDO quotes by a connection, and runs this.
 *
 * A number is the time over that of the hand's way: with 0.5, half the time. Each way has its turn nine times in one run, on the
 * same values, and its best counts, of processor time. The texts of both have to be equal.
 */

use function MysqlParams\{bind, bind_anywhere, bind_rows};

const ROUNDS = 9;
const CALLS = 20000;
const ROWS = 100000;

const NAMES = ['id', 'name', 'city', 'street', 'born', 'since', 'userId', 'email', 'phone', 'state', 'score', 'note'];
const VALUES = [
    'id' => 42, 'name' => "it's a name", 'city' => 'Dublin', 'street' => '7 Eccles Street', 'born' => 1990, 'since' => '2019-11-27',
    'userId' => 1234567, 'email' => 'someone@example.org', 'phone' => '+353 1 555 0100', 'state' => 'active', 'score' => 17,
    'note' => "a \"note\" with a \\ and\na second line",
];

/** Returns the seconds of processor time that a call takes. */
function seconds(callable $call): float
{
    $before = getrusage();
    $call();
    $after = getrusage();
    return ($after['ru_utime.tv_sec'] - $before['ru_utime.tv_sec']) + ($after['ru_utime.tv_usec'] - $before['ru_utime.tv_usec']) / 1e6
        + ($after['ru_stime.tv_sec'] - $before['ru_stime.tv_sec']) + ($after['ru_stime.tv_usec'] - $before['ru_stime.tv_usec']) / 1e6;
}

/** Returns the best time of each of the ways, which take turns. */
function times(array $ways): array
{
    $best = array_fill_keys(array_keys($ways), INF);
    for ($round = 0; $round < ROUNDS; $round++) {
        foreach ($ways as $name => $way) {
            $best[$name] = min($best[$name], seconds($way));
        }
    }
    return $best;
}

/** Ends the run unless all are the same. */
function agree(mixed ...$texts): void
{
    if (count(array_unique($texts, SORT_REGULAR)) !== 1) {
        exit('the texts differ: ' . substr(var_export($texts, true), 0, 2000) . "\n");
    }
}

/** The query of twelve names. */
function query_of_names(): string
{
    return 'SELECT * FROM users WHERE ' . implode(' AND ', array_map(fn ($name) => "$name = :$name", NAMES));
}

/** The text of it by hand, which writes what it knows to be a number as it is. */
function by_hand(PDO $pdo, array $v): string
{
    return 'SELECT * FROM users WHERE id = ' . (int) $v['id'] . ' AND name = ' . $pdo->quote($v['name'])
        . ' AND city = ' . $pdo->quote($v['city']) . ' AND street = ' . $pdo->quote($v['street'])
        . ' AND born = ' . (int) $v['born'] . ' AND since = ' . $pdo->quote($v['since'])
        . ' AND userId = ' . (int) $v['userId'] . ' AND email = ' . $pdo->quote($v['email'])
        . ' AND phone = ' . $pdo->quote($v['phone']) . ' AND state = ' . $pdo->quote($v['state'])
        . ' AND score = ' . (int) $v['score'] . ' AND note = ' . $pdo->quote($v['note']);
}

/** The same by places that are replaced, as `:name`. */
function by_replacing(PDO $pdo, string $query, array $values): string
{
    $literals = [];
    foreach ($values as $name => $value) {
        $literals[":$name"] = is_int($value) ? (string) $value : $pdo->quote($value);
    }
    return strtr($query, $literals);
}

/** Has a call be made so many times. */
function repeated(callable $call): callable
{
    return function () use ($call) {
        for ($i = 0; $i < CALLS; $i++) {
            $call();
        }
    };
}

/** The rows in one text, by hand. */
function rows_by_hand(PDO $pdo, array $rows): string
{
    $parts = [];
    foreach ($rows as [$id, $name]) {
        $parts[] = '(' . (int) $id . ', ' . $pdo->quote($name) . ')';
    }
    return 'INSERT INTO t VALUES ' . implode(', ', $parts);
}

/** A text for each row, by hand. */
function each_by_hand(PDO $pdo, array $rows): array
{
    $texts = [];
    foreach ($rows as [$id, $name]) {
        $texts[] = 'INSERT INTO t VALUES (' . (int) $id . ', ' . $pdo->quote($name) . ')';
    }
    return $texts;
}

/** Prints a row of the table. */
function row(string $name, array $best, string $one, array $ways, int $calls): void
{
    $cells = array_map(fn ($way) => sprintf('%.2f', $best[$way] / $best[$one]), $ways);
    printf("| %s | %s | %s |\n", $name, number_format($calls / $best[$ways[0]]), implode(', ', $cells));
}

$pdo = new PDO('mysql:unix_socket=' . getenv('SOCKET') . ';charset=utf8mb4', 'root', '');
$query = query_of_names();
$template = new MysqlParams\Template($query);
agree(by_hand($pdo, VALUES), by_replacing($pdo, $query, VALUES), bind($query, VALUES), $template->bind(VALUES));
$names = times([
    'hand' => repeated(fn () => by_hand($pdo, VALUES)),
    'strtr' => repeated(fn () => by_replacing($pdo, $query, VALUES)),
    'bind' => repeated(fn () => bind($query, VALUES)),
    'bind_anywhere' => repeated(fn () => bind_anywhere($query, VALUES)),
    'Template' => repeated(fn () => $template->bind(VALUES)),
]);
$rows = array_map(fn ($number) => [$number, "it's name $number"], range(1, ROWS));
agree(rows_by_hand($pdo, $rows), bind('INSERT INTO t VALUES ?', [$rows]));
agree(each_by_hand($pdo, $rows), bind_rows('INSERT INTO t VALUES (?, ?)', $rows));
$many = times([
    'hand' => fn () => rows_by_hand($pdo, $rows),
    'each' => fn () => each_by_hand($pdo, $rows),
    'bind' => fn () => bind('INSERT INTO t VALUES ?', [$rows]),
    'bind_anywhere' => fn () => bind_anywhere('INSERT INTO t VALUES ?', [$rows]),
    'bind_rows' => fn () => bind_rows('INSERT INTO t VALUES (?, ?)', $rows),
]);
printf("Taken on %s, PHP %s.\n\n", date('Y-m-d'), PHP_VERSION);
echo "| From PHP: time over `PDO::quote` by hand | Calls or rows a second of the first | Ratios |\n|---|---:|---:|\n";
row('12 names, written out: `bind`, `bind_anywhere`, `Template::bind`', $names, 'hand', ['bind', 'bind_anywhere', 'Template'], CALLS);
row('12 names, by `strtr`: the same', $names, 'strtr', ['bind', 'bind_anywhere', 'Template'], CALLS);
row('100,000 rows in one text: `bind`, `bind_anywhere`', $many, 'hand', ['bind', 'bind_anywhere'], ROWS);
row('100,000 rows, a text each: `bind_rows`', $many, 'each', ['bind_rows'], ROWS);
