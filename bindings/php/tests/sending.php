<?php

/**
 * Tests of texts sent by PDO and mysqli: over connections that are played, and, if SOCKET names the socket of a MariaDB, over real
 * ones.
 */

namespace MysqlParams\Tests;

use MysqlParams\{Assignments, BindException, Construct, Decimal, Identifier, In, Keyword};

use function MysqlParams\{ask_again, bind, bind_anywhere, execute, query};

require __DIR__ . '/connections.php';

const HOSTILE = [
    "x' OR '1'='1", "\\' , 7 -- ", '\\', "\\\\'", '?', ':x', "it's ? and :x", "'?", "\"?\":x", '`?`', "-- ?", "/* ? */", "# :x",
    "\0", "\0?", "a\nb\r\x1a", "\u{e9}\u{1F600}", "\xFF?", "\xE9':x", "\xBF'", '%s %', "'; DROP TABLE t; -- ", '', 'a;b', '{}', '$1',
];

/** Modes of a played connection: with backslash escapes, and without. */
const ESCAPES = 'STRICT_TRANS_TABLES';
const BARE = 'STRICT_TRANS_TABLES,NO_BACKSLASH_ESCAPES';

/** Values with their guarded literals with backslash escapes, and without if these are others. */
function guarded(): array
{
    return [
        ["it's", "'it''s'"],
        ['', "''"],
        ["\u{e9}", "'\u{e9}'"],
        ["\0\n\r\x1a\"`", "'\0\n\r\x1a\"`'"],
        ['\\', "'\\\\'", '_utf8mb4 0x5C'],
        ["\\'", "'\\\\'''", '_utf8mb4 0x5C27'],
        ["a\n\\", "'a\n\\\\'", '_utf8mb4 0x610A5C'],
        ["\u{e9}\\", "'\u{e9}' '\\\\'", '_utf8mb4 0xC3A95C'],
        ["\u{e9}\\'\\\\", "'\u{e9}' '\\\\''\\\\\\\\'", '_utf8mb4 0xC3A95C275C5C'],
        ["\u{8aa0}' OR 1=1 -- ", "'\u{8aa0}'' OR 1=1 -- '"],
        ["\xFF\\'", '0xFF5C27'],
        [null, 'NULL'],
        [-7, '-7'],
        [true, '1'],
        [0.5, '0.5e0'],
        [new Decimal('-1.50'), '-1.50'],
        [new \DateTimeImmutable('2019-11-27'), "'2019-11-27'"],
        [new \DateInterval('PT90M'), "'001:30:00'"],
        [new In(["it's", '\\']), "'it''s', '\\\\'", "'it''s', _utf8mb4 0x5C"],
        [new Assignments(['a' => "\\'"]), "`a` = '\\\\'''", '`a` = _utf8mb4 0x5C27'],
        [new Identifier('a`', "it's"), "`a```.`it's`"],
    ];
}

test('the text is guarded, in each mode', function () {
    foreach (guarded() as $number => $case) {
        [$value, $escaped, $bare] = $case + [2 => null];
        foreach ([ESCAPES => $escaped, BARE => $bare ?? $escaped] as $mode => $literal) {
            $connection = played($mode);
            // The third of these queries differs each time, so that none is kept of it.
            same("SELECT $literal", sent($connection, 'SELECT :a', ['a' => $value]), "$mode $number");
            same("SELECT $literal", sent($connection, 'SELECT ?', [$value]), "$mode $number");
            same("SELECT $literal, $number, '$mode'", sent($connection, "SELECT :a, $number, '$mode'", ['a' => $value]), "$mode $number");
            execute($connection, 'UPDATE t SET a = ?, b = ?', ["it's", $value]);
            same("UPDATE t SET a = 'it''s', b = $literal", end($connection->sent), "$mode $number");
        }
    }
    same("SELECT 1 IN ('it''s', 2)", sent(new Played(), 'SELECT 1 IN (:a)', ['a' => ["it's", 2]]));
    same("VALUES ('it''s', 1), (NULL, 0.5e0)", sent(new Played(), 'VALUES ?', [[["it's", 1], [null, 0.5]]]));
});

/** A connection that binds other queries before it answers, of each so often that it takes the place of one that was kept. */
class Busy extends Played
{
    public function query(string $query, ?int $fetchMode = null, mixed ...$fetchModeArgs): \PDOStatement|false
    {
        for ($i = 0; $i < 3000 && str_contains($query, '@@sql_mode'); $i++) {
            bind('SELECT ? AS a' . md5((string) intdiv($i, 3)), [1]);
        }
        return parent::query($query);
    }
}

test('a query that was kept, and is no more once the connection was asked', function () {
    foreach ([false, true] as $steady) {
        $literal = $steady ? "_utf8mb4'it''s'" : "'it''s'";
        for ($i = 0; $i < 4; $i++) {
            same("SELECT $literal, $literal", sent(new Played(), 'SELECT ?, ?', ["it's", "it's"], steady: $steady));
        }
        same("SELECT $literal, $literal", sent(new Busy(), 'SELECT ?, ?', ["it's", "it's"], steady: $steady));
    }
});

test('guarded texts of long queries, and of long values', function () {
    $columns = str_repeat('a, ', 2000);
    foreach ([ESCAPES => "'\\\\'", BARE => '_utf8mb4 0x5C'] as $mode => $literal) {
        $connection = played($mode);
        for ($i = 0; $i < 5; $i++) {
            same("SELECT $columns'it''s', $literal", sent($connection, "SELECT $columns:a, :b", ['a' => "it's", 'b' => '\\']));
            foreach ([8000, 50000] as $times) {
                holds("SELECT '" . str_repeat("it''s", $times) . "', 1" === sent($connection, 'SELECT ?, 1', [str_repeat("it's", $times)]));
            }
        }
    }
    // Such a literal has more than twice the bytes of its value, for which room is made at first.
    foreach ([10000, 40000] as $times) {
        $given = ['a' => str_repeat("\u{e9}\\", $times)];
        holds("SELECT '" . str_repeat("\u{e9}' '\\\\", $times) . "'" === sent(played(ESCAPES), 'SELECT :a', $given));
        holds('SELECT _utf8mb4 0x' . str_repeat('C3A95C', $times) === sent(played(BARE), 'SELECT :a', $given));
    }
});

test('of a query or a name that is not ASCII without a backslash the text is plain', function () {
    $name = new Identifier("\u{e9}");
    $long = str_repeat('a, ', 2000);
    foreach ([
        ["SELECT :a /* \u{e9} */", [], "SELECT {} /* \u{e9} */"],
        ["SELECT :a, '\\\\'", [], "SELECT {}, '\\\\'"],
        ['SELECT :n = :a', ['n' => $name], "SELECT `\u{e9}` = {}"],
        ['SELECT :n = :a', ['n' => new Identifier('a\b', 'c')], 'SELECT `a\b`.`c` = {}'],
        ['SELECT :a IN (:n)', ['n' => [$name, new Identifier('b')]], "SELECT {} IN (`\u{e9}`, `b`)"],
        ['SET :n, b = :a', ['n' => new Assignments([[$name, 'x']])], "SET `\u{e9}` = 'x', b = {}"],
        ["SELECT $long:a, :n", ['n' => $name], "SELECT $long{}, `\u{e9}`"],
        ["SELECT $long:a, \u{e9}", [], "SELECT $long{}, \u{e9}"],
    ] as [$query, $params, $wanted]) {
        foreach ([ESCAPES => "'it\\'s\\\\\u{e9}'", BARE => "'it''s\\\u{e9}'"] as $mode => $literal) {
            $connection = played($mode);
            for ($i = 0; $i < 5; $i++) {
                $sent = sent($connection, $query, ['a' => "it's\\\u{e9}"] + $params);
                same(str_replace('{}', $literal, $wanted), $sent, substr($query, 0, 20) . $mode);
            }
        }
    }
    foreach ([ESCAPES => "it\\'s", BARE => "it''s"] as $mode => $written) {
        $sent = sent(played($mode), 'SELECT :n, :a', ['n' => $name, 'a' => str_repeat("it's", 32000)]);
        holds("SELECT `\u{e9}`, '" . str_repeat($written, 32000) . "'" === $sent);
    }
});

test('a steady text is that of bind_anywhere, in each mode', function () {
    $values = ["it's", '\\', "\u{e9}", "\xFF", "\n", null, 1, new \DateTimeImmutable('2019-11-27')];
    $steady = "SELECT _utf8mb4'it''s', _utf8mb4 0x5C, _utf8mb4 0xC3A9, 0xFF, _utf8mb4 0x0A, NULL, 1, '2019-11-27'";
    foreach ([ESCAPES, BARE] as $mode) {
        $connection = played($mode);
        for ($i = 0; $i < 5; $i++) {
            same($steady, sent($connection, 'SELECT ?, ?, ?, ?, ?, ?, ?, ?', $values, steady: true));
            same("$steady, `n`", sent($connection, 'SELECT ?, ?', [new In($values), new Identifier('n')], steady: true));
            execute($connection, 'DO ?', ["it's"], steady: true);
            same("DO _utf8mb4'it''s'", end($connection->sent));
            same("DO 'it''s'", sent($connection, 'DO ?', ["it's"], steady: false));
        }
    }
});

test('what a steady text is refused for', function () {
    foreach ([
        [BindException::UNSTEADY, "SELECT '\u{e9}', :a", ['a' => 1]],
        [BindException::UNSTEADY, "SELECT '\\\\', :a", ['a' => 1]],
        [BindException::UNSTEADY, "SELECT '\u{e9}', /*! :a */ 1", ['a' => 1]],
        [BindException::UNPORTABLE, 'SELECT /*! :a */ 1', ['a' => 1]],
        [BindException::UNSTEADY_FRAGMENT, 'SELECT :n', ['n' => new Identifier("\u{e9}")]],
        [BindException::UNBRACKETED, 'SELECT :n', ['n' => [1, 2]]],
        [BindException::MISSING, 'SELECT :n', []],
        [BindException::FLOAT, 'SELECT :n', ['n' => NAN]],
    ] as [$code, $query, $params]) {
        foreach ([ESCAPES, BARE] as $mode) {
            $connection = played($mode);
            $own = thrown(fn () => bind_anywhere($query, $params));
            same($code, $own->getCode(), $query);
            for ($i = 0; $i < 4; $i++) {
                foreach ([query(...), execute(...)] as $send) {
                    $refusal = refused(BindException::class, $own->getMessage(), fn () => $send($connection, $query, $params, steady: true));
                    same([$code, fields($own)], [$refusal->getCode(), fields($refusal)], $query);
                }
            }
            same([], $connection->sent);
        }
    }
    // The connection is asked all the same.
    $connection = new Played();
    same(BindException::PACKET, thrown(fn () => sent($connection, 'SELECT ?', [str_repeat('x', 988)], steady: true))->getCode());
    $connection->session[1] = 'gbk';
    same(BindException::SESSION, thrown(fn () => sent($connection, steady: true))->getCode());
    same([2, []], [$connection->asked, $connection->sent]);
});

test('steady is a bool', function () {
    $connection = new Played();
    foreach (['query' => query(...), 'execute' => execute(...)] as $name => $send) {
        foreach (['array' => [], 'stdClass' => new \stdClass()] as $type => $given) {
            $message = "MysqlParams\\$name(): Argument #5 (\$steady) must be of type bool, $type given";
            refused(\TypeError::class, $message, fn () => $send($connection, 'SELECT 1', steady: $given));
        }
    }
    same([0, []], [$connection->asked, $connection->sent]);
});

test('a refusal names the place as the mode of the connection reads the query', function () {
    $given = ['a' => 1, 'b' => NAN];
    $refusal = thrown(fn () => sent(played(BARE), "SELECT '\\', :a, :b", $given));
    same([BindException::FLOAT, ['name' => 'b', 'place' => 1]], [$refusal->getCode(), fields($refusal)]);
    $refusal = thrown(fn () => sent(played(ESCAPES), "SELECT '\\', :a, ', :b", $given));
    same([BindException::FLOAT, ['name' => 'b', 'place' => 0]], [$refusal->getCode(), fields($refusal)]);
});

test('a query that is not portable is refused', function () {
    foreach (["SELECT /*! :a */ 1" => 7, "SELECT '\u{e9}', /*! :a */ 1" => 13] as $query => $position) {
        foreach ([ESCAPES, BARE] as $mode) {
            $connection = played($mode);
            for ($i = 0; $i < 4; $i++) {
                foreach ([['a' => 1], ['b' => 0.5], []] as $params) {
                    $refusal = thrown(fn () => sent($connection, $query, $params));
                    same([BindException::class, BindException::UNPORTABLE], [get_class($refusal), $refusal->getCode()]);
                    same(['construct' => Construct::ExecutableComment, 'position' => $position], fields($refusal));
                    holds(str_starts_with($refusal->getMessage(), "Not portable at byte $position of the query: `/*!` is executed"));
                }
            }
            same([], $connection->sent);
        }
    }
    $connection = new Played();
    // Which query is depends on the mode.
    $query = "SELECT 'a\\', [1], '";
    same($query, sent($connection, $query, []));
    $connection->session[0] = 'NO_BACKSLASH_ESCAPES';
    same(Construct::Bracket, thrown(fn () => sent($connection, $query, []))->construct);
});

test('a text that is too long is refused', function () {
    $connection = new Played();
    same(996, strlen(sent($connection, 'SELECT ?', [str_repeat('x', 987)])));
    $message = "The text has 997 bytes, and the connection's max_allowed_packet lets 996 through";
    $refusal = refused(BindException::class, $message, fn () => sent($connection, 'SELECT ?', [str_repeat('x', 988)]));
    same([BindException::PACKET, [], 1], [$refusal->getCode(), fields($refusal), count($connection->sent)]);
});

test('parameters are refused before the connection is asked', function () {
    $connection = new Played();
    refused(\TypeError::class, 'the value of `:a` is of type stdClass, which has no literal', fn () => sent($connection, params: ['a' => new \stdClass()]));
    same(0, $connection->asked);
    refused(BindException::class, 'Missing named parameter `a` for statement', fn () => sent($connection, params: ['b' => 1]));
    same([1, []], [$connection->asked, $connection->sent]);
});

/** What the JSON of a request may hold, where the program expects a name. */
const ROLE = ['x', '$.role', 'admin'];

/** Throws unless an array for a place of a query is refused by both calls. */
function refuses_array(\PDO|\mysqli $connection, string $query, array $value): void
{
    $message = '`:a` is one value here, and was given a list: write it alone in brackets, as `IN (:a)`, or give new In([..])';
    foreach ([query(...), execute(...)] as $send) {
        same(BindException::UNBRACKETED, refused(BindException::class, $message, fn () => $send($connection, $query, ['a' => $value]))->getCode());
    }
}

test('an array where one value is meant is refused, and no text is sent', function () {
    $connection = new Played();
    foreach ([["UPDATE t SET doc = JSON_SET(doc, '$.name', :a)", ROLE], ['SELECT 1 LIMIT :a', [0, 1000]], ['SELECT COALESCE(:a, owner)', [1]], ['DELETE FROM t WHERE id = :a', [[1, 2]]]] as [$query, $value]) {
        refuses_array($connection, $query, $value);
    }
    same([], $connection->sent);
});

test('prepared statements are emulated meanwhile', function () {
    foreach ([true, false] as $emulates) {
        $connection = new Played();
        $connection->attributes[\PDO::ATTR_EMULATE_PREPARES] = $emulates;
        same("SELECT '? :x'", sent($connection, params: ['a' => '? :x']));
        same($emulates, $connection->attributes[\PDO::ATTR_EMULATE_PREPARES]);
        $connection->fault = new \DomainException('mine');
        refused(\DomainException::class, 'mine', fn () => sent($connection));
        same($emulates, $connection->attributes[\PDO::ATTR_EMULATE_PREPARES]);
    }
});

test('what is returned', function () {
    $connection = new Played();
    holds(query($connection, 'SELECT 1') instanceof PlayedRow);
    same(3, execute($connection, 'DELETE FROM t WHERE id IN (:ids)', ['ids' => [1, 2]]));
    same('DELETE FROM t WHERE id IN (1, 2)', end($connection->sent));
});

test('what is no connection of MySQL is refused', function () {
    $other = new Played();
    $other->attributes[\PDO::ATTR_DRIVER_NAME] = 'sqlite';
    foreach ([['query', query(...)], ['execute', execute(...)]] as [$name, $call]) {
        refused(\TypeError::class, "MysqlParams\\$name(): Argument #1 (\$connection) must be a PDO of the driver mysql", fn () => $call($other, 'SELECT 1'));
        foreach (['string' => 'x', 'stdClass' => new \stdClass(), 'null' => null] as $type => $given) {
            holds(str_contains(thrown(fn () => $call($given, 'SELECT 1'))->getMessage(), 'must be of type PDO|mysqli'), $type);
        }
    }
    refused(\TypeError::class, 'MysqlParams\ask_again(): Argument #1 ($connection) must be a PDO of the driver mysql', fn () => ask_again($other));
});
if (SOCKET === '') {
    finish();
}

test('hostile values on a server, in each mode by each driver', function () {
    foreach (connections() as $driver => $connection) {
        foreach (MODES as $mode) {
            plain($connection, "SET sql_mode = '$mode'");
            foreach (HOSTILE as $value) {
                $of = "$driver, $mode, " . bin2hex($value);
                same(strtoupper(bin2hex($value)), cell($connection, 'SELECT HEX(:a)', ['a' => $value]), $of);
                same(strtoupper(bin2hex($value)), cell($connection, 'SELECT HEX(?)', [$value]), $of);
                same(strtoupper(bin2hex($value)), cell($connection, 'SELECT HEX(?)', [$value], true), $of);
                same(strtoupper(bin2hex($value)), cell($connection, "SELECT HEX(?), '\u{e9}'", [$value]), $of);
            }
        }
    }
});

test('where a server wants a plain text a guarded one stands, and no steady one', function () {
    $query = "SELECT GROUP_CONCAT(a SEPARATOR ?) FROM (SELECT 'x' AS a UNION ALL SELECT 'x') AS t";
    foreach (connections() as $driver => $connection) {
        same("xit's\u{e9}x", cell($connection, $query, ["it's\u{e9}"]), $driver);
        $fault = thrown(fn () => cell($connection, $query, ["it's\u{e9}"], true));
        holds($fault instanceof \PDOException || $fault instanceof \mysqli_sql_exception, $driver);
    }
});

test('places in strings of the query stay', function () {
    foreach (connections() as $driver => $connection) {
        foreach (MODES as $mode) {
            plain($connection, "SET sql_mode = '$mode'");
            foreach (["'? :x'", "'it''s ? :x'", "'?' /* ? :x */", "'?' # :x ?\n", "'?' -- :x ?\n"] as $text) {
                $wanted = cell($connection, "SELECT $text", []);
                holds(str_contains($wanted, '?'), "$driver: $text");
                same("$wanted:x ?\\'", cell($connection, "SELECT CONCAT($text, :a)", ['a' => ":x ?\\'"]), "$driver: $text");
            }
        }
        // Without escapes a backslash ends no string, also not for PDO.
        plain($connection, "SET sql_mode = 'NO_BACKSLASH_ESCAPES'");
        same('\\? :x', cell($connection, "SELECT CONCAT('\\', ?, ' :x')", ['?']), $driver);
        same("\\", cell($connection, "SELECT '\\' AS `?`", []), $driver);
    }
});

test("without emulation PDO's own call changes such a text", function () {
    $connection = pdo([\PDO::ATTR_EMULATE_PREPARES => false]);
    $connection->exec("SET sql_mode = 'NO_BACKSLASH_ESCAPES'");
    same(' ?', $connection->query("SELECT '\\', ' :x'")->fetch(\PDO::FETCH_NUM)[1]);
    same(' :x', query($connection, "SELECT '\\', ' :x'")->fetch(\PDO::FETCH_NUM)[1]);
    same(' :x', query($connection, "SELECT ?, ?", ['\\', ' :x'])->fetch(\PDO::FETCH_NUM)[1]);
});
test('values of each type on a server', function () {
    foreach (connections() as $driver => $connection) {
        plain($connection, 'CREATE DATABASE IF NOT EXISTS shop');
        plain($connection, 'DROP TABLE IF EXISTS shop.item');
        plain($connection, 'CREATE TABLE shop.item (id INT, price DECIMAL(20,2), at DATETIME(6), span TIME(6), size DOUBLE, big BIGINT UNSIGNED, body BLOB)');
        $rows = [
            [1, new Decimal('12345678901234567.89'), new \DateTimeImmutable('2019-11-27 12:30:00.000001'), new \DateInterval('PT90M'), 0.1, new Decimal('18446744073709551615'), "\0\xFF'"],
            [2, null, null, null, 5e-324, 0, ''],
        ];
        $table = new Identifier('shop', 'item');
        same(2, execute($connection, 'INSERT INTO :table VALUES :rows', ['table' => $table, 'rows' => $rows]), $driver);
        $found = query($connection, 'SELECT price, at, span, big, HEX(body) FROM shop.item WHERE id = :id AND size = :size', ['id' => 1, 'size' => 0.1]);
        $row = $found instanceof \PDOStatement ? $found->fetchAll(\PDO::FETCH_NUM)[0] : $found->fetch_row();
        same(['12345678901234567.89', '2019-11-27 12:30:00.000001', '01:30:00.000000', '18446744073709551615', '00FF27'], array_map(strval(...), $row), $driver);
        same(1, (int) cell($connection, 'SELECT COUNT(*) FROM shop.item WHERE size = ?', [5e-324]), $driver);
        same(2, (int) cell($connection, 'SELECT id FROM shop.item WHERE id IN (:ids) ORDER BY :by :order LIMIT 1', ['ids' => [1, 2], 'by' => new Identifier('id'), 'order' => new Keyword('DESC', ['ASC', 'DESC'])]), $driver);
        same(2, execute($connection, 'DELETE FROM shop.item WHERE id IN (?)', [[1, 2, 3]]), $driver);
        same(0, execute($connection, 'DELETE FROM shop.item WHERE id <=> ?', [null]), $driver);
    }
});

test('an array where one value is meant does not reach a server', function () {
    foreach (connections() as $driver => $connection) {
        plain($connection, 'CREATE DATABASE IF NOT EXISTS shop');
        plain($connection, 'DROP TABLE IF EXISTS shop.person');
        plain($connection, 'CREATE TABLE shop.person (id INT, doc JSON)');
        same(2, execute($connection, 'INSERT INTO shop.person VALUES :rows', ['rows' => [[1, '{}'], [2, null]]]), $driver);
        $updates = fn () => (int) cell($connection, "SELECT VARIABLE_VALUE FROM information_schema.SESSION_STATUS WHERE VARIABLE_NAME = 'COM_UPDATE'");
        same(1, execute($connection, "UPDATE shop.person SET doc = JSON_SET(doc, '$.name', :a) WHERE id = 1", ['a' => 'y']), $driver);
        same(1, $updates(), $driver);
        refuses_array($connection, "UPDATE shop.person SET doc = JSON_SET(doc, '$.name', :a) WHERE id = 1", ROLE);
        same(1, $updates(), $driver);
        same('{"name": "y"}', cell($connection, 'SELECT doc FROM shop.person WHERE (id, 1) IN ( /* one */ :pairs )', ['pairs' => [[1, 1], [3, 1]]]), $driver);
        same(1, execute($connection, 'UPDATE shop.person SET doc = JSON_SET(doc, :set) WHERE id IN (:ids)', ['set' => new In(['$.name', 'z', '$.role', 'user']), 'ids' => [1, 7]]), $driver);
        same('{"name": "z", "role": "user"}', cell($connection, 'SELECT doc FROM shop.person WHERE id = 1'), $driver);
        same(2, (int) cell($connection, 'SELECT id FROM shop.person ORDER BY FIELD(id, :ids) LIMIT 1', ['ids' => new In([2, 1])]), $driver);
        same('a', cell($connection, 'SELECT COALESCE(:values)', ['values' => new In([null, 'a', 'b'])]), $driver);
    }
});

test('columns and assignments on a server', function () {
    foreach (connections() as $driver => $connection) {
        plain($connection, 'CREATE DATABASE IF NOT EXISTS shop');
        plain($connection, 'DROP TABLE IF EXISTS shop.`a``b`');
        plain($connection, 'CREATE TABLE shop.`a``b` (id INT, `x, y` VARCHAR(50), `it``s` DECIMAL(20,2))');
        $columns = [new Identifier('it`s'), new Identifier('id'), new Identifier('a`b', 'x, y')];
        $into = 'INSERT INTO :table (:columns) VALUES :rows';
        same(1, execute($connection, $into, ['table' => new Identifier('shop', 'a`b'), 'columns' => $columns, 'rows' => [[new Decimal('0.10'), 1, 'x']]]), $driver);
        foreach (MODES as $mode) {
            plain($connection, "SET sql_mode = '$mode'");
            foreach (["'; DROP TABLE t; -- ", '\\', "\\'", '`x, y` = 5'] as $text) {
                $set = new Assignments(['it`s' => new Decimal('2.20'), 'x, y' => $text]);
                execute($connection, 'UPDATE shop.`a``b` SET :set WHERE id = :id', ['set' => $set, 'id' => 1]);
                same($text, cell($connection, 'SELECT :c FROM shop.`a``b`', ['c' => new Identifier('x, y')]), "$driver, $mode, $text");
            }
        }
        same('2.20', cell($connection, 'SELECT ? FROM shop.`a``b` WHERE id = 1 GROUP BY ?', [[new Identifier('it`s')], $columns]), $driver);
        $set = new Assignments([[new Identifier('shop', 'a`b', 'x, y'), null]]);
        same(1, execute($connection, 'UPDATE shop.`a``b` SET ?', [$set]), $driver);
        same(null, cell($connection, 'SELECT `x, y` FROM shop.`a``b`'), $driver);
    }
});

test('a text of the longest packet, and one that is longer', function () {
    plain(mysqli(), 'SET GLOBAL max_allowed_packet = 1048576');
    try {
        foreach ([pdo(), mysqli()] as $connection) {
            $most = 1048576 - 4 - strlen("SELECT LENGTH('')");
            same($most, (int) cell($connection, 'SELECT LENGTH(?)', [str_repeat('x', $most)]));
            same(BindException::PACKET, thrown(fn () => cell($connection, 'SELECT LENGTH(?)', [str_repeat('x', $most + 1)]))->getCode());
            same(1, (int) cell($connection, 'SELECT 1'));
        }
    } finally {
        plain(mysqli(), 'SET GLOBAL max_allowed_packet = 16777216');
    }
});

test('the call of the first page', function () {
    $pdo = pdo();
    same(42, (int) \MysqlParams\query($pdo, 'SELECT :id', ['id' => 42])->fetchColumn());
});

/** A PDO whose exceptions have those of the driver before them. */
class Wrapping extends \PDO
{
    /** @var ?callable what is made of an exception before it is thrown */
    public static $made = null;

    public function query(string $query, ?int $fetchMode = null, mixed ...$fetchModeArgs): \PDOStatement|false
    {
        return $this->sent([$query]);
    }

    private function sent(array $texts): \PDOStatement
    {
        try {
            return parent::query($texts[0]);
        } catch (\PDOException $fault) {
            $thrown = new \DomainException('mine', 0, new \Error('mine too', 0, $fault));
            throw self::$made ? (self::$made)($thrown) : $thrown;
        }
    }
}

/** Calls with an argument of its own, which a trace may show. */
function calling(string $mine, callable $call): mixed
{
    return $call();
}

/** Throws unless an exception and those before it show neither the text that was sent nor a value, and their frames stay. */
function hidden(\Throwable $fault, string $of): void
{
    $shown = '';
    for ($one = $fault; $one !== null; $one = $one->getPrevious()) {
        $shown .= $one . print_r($one->getTrace(), true);
        holds(in_array('MysqlParams\\Tests\\calling', array_column($one->getTrace(), 'function'), true), $of);
        holds(str_contains(print_r($one->getTrace(), true), 'own argument'), $of);
    }
    holds(!str_contains($shown, 'secret') && !str_contains($shown, "nofn('"), "$of: $shown");
    holds(preg_match('/#[0-9]+ .*: (PDO|mysqli)->(query|exec)\(\)/', $shown) === 1, "$of: $shown");
}

test('no trace of a driver shows a text', function () {
    ini_set('zend.exception_ignore_args', '0');
    foreach (connections() + ['wrapped' => pdo(kind: Wrapping::class)] as $driver => $connection) {
        foreach ([query(...), execute(...)] as $send) {
            hidden(thrown(fn () => calling('own argument', fn () => $send($connection, 'SELECT nofn(:a)', ['a' => 'secret']))), $driver);
        }
    }
});

test('no warning of a driver shows a text', function () {
    mysqli_report(MYSQLI_REPORT_ERROR);
    try {
        foreach (['PDO' => pdo([\PDO::ATTR_ERRMODE => \PDO::ERRMODE_WARNING]), 'mysqli' => mysqli()] as $driver => $connection) {
            foreach ([query(...), execute(...)] as $send) {
                error_clear_last();
                same(false, @$send($connection, 'SELECT nofn(:a)', ['a' => 'secret']), $driver);
                $told = error_get_last()['message'];
                holds(str_contains($told, 'nofn') && !str_contains($told, 'secret'), $told);
                set_error_handler(fn ($number, $message) => throw new \ErrorException($message));
                try {
                    hidden(thrown(fn () => calling('own argument', fn () => $send($connection, 'SELECT nofn(:a)', ['a' => 'secret']))), $driver);
                } finally {
                    restore_error_handler();
                }
            }
        }
    } finally {
        mysqli_report(MYSQLI_REPORT_ERROR | MYSQLI_REPORT_STRICT);
    }
});

test('exceptions that are a ring, and traces of other things', function () {
    $connection = pdo(kind: Wrapping::class);
    $given = ['previous' => fn ($fault) => $fault, 'trace' => fn () => [5, [], ['function' => 7], ['function' => 'MysqlParams\\query', 'args' => ['kept']]]];
    foreach ($given as $name => $value) {
        $property = new \ReflectionProperty(\Exception::class, $name);
        Wrapping::$made = function (\Throwable $fault) use ($property, $value) {
            $property->setValue($fault, $value($fault));
            return $fault;
        };
        $fault = thrown(fn () => query($connection, 'SELECT nofn(:a)', ['a' => 'secret']));
        same('mine', $fault->getMessage());
        same($value($fault), $property->getValue($fault));
        $property->setValue($fault, $name === 'previous' ? null : []);
    }
    Wrapping::$made = null;
});

test("a driver's own refusals", function () {
    holds(thrown(fn () => query(pdo(), 'SELECT FROM :a', ['a' => 1])) instanceof \PDOException);
    holds(thrown(fn () => query(mysqli(), 'SELECT FROM :a', ['a' => 1])) instanceof \mysqli_sql_exception);
    $silent = pdo([\PDO::ATTR_ERRMODE => \PDO::ERRMODE_SILENT, \PDO::ATTR_EMULATE_PREPARES => false]);
    same([false, false], [query($silent, 'SELECT FROM :a', ['a' => 1]), execute($silent, 'SELECT FROM :a', ['a' => 1])]);
    same(false, (bool) $silent->getAttribute(\PDO::ATTR_EMULATE_PREPARES));
    mysqli_report(MYSQLI_REPORT_OFF);
    same([false, false], [query(mysqli(), 'SELECT FROM :a', ['a' => 1]), execute(mysqli(), 'SELECT FROM :a', ['a' => 1])]);
    mysqli_report(MYSQLI_REPORT_ERROR | MYSQLI_REPORT_STRICT);
    same(true, query(mysqli(), 'DO ?', [1]));
    same(1, (int) execute(mysqli(), 'SELECT ?', [1]));
});

finish();
