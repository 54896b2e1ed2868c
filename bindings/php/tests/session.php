<?php

/**
 * Tests of what is asked of a connection: when, and what is made of the answer. Most need the server that SOCKET names.
 */

namespace MysqlParams\Tests;

use MysqlParams\BindException;

use function MysqlParams\{ask_again, execute, query};

require __DIR__ . '/connections.php';

test('a connection whose driver has no idea of the mode is asked each time', function () {
    $connection = new Played();
    same("SELECT '\\\\'", sent($connection));
    $connection->session[0] = 'ANSI_QUOTES,no_backslash_escapes';
    same('SELECT _utf8mb4 0x5C', sent($connection));
    $connection->session[0] = 'NOT_NO_BACKSLASH_ESCAPES,NO_BACKSLASH_ESCAPE';
    same("SELECT '\\\\'", sent($connection));
    same(3, $connection->asked);
    query($connection, 'SELECT 1', alwaysAsk: true);
    execute($connection, 'SELECT 1', alwaysAsk: true);
    ask_again($connection);
    sent($connection);
    same(6, $connection->asked);
    ask_again(new Played());
});

test('another character set is refused', function () {
    foreach ([[1, 'character_set_client', 'latin1'], [2, 'character_set_connection', 'gbk'], [1, 'character_set_client', 'utf8mb3']] as [$at, $variable, $value]) {
        $connection = new Played();
        $connection->session[$at] = $value;
        $message = "The connection's $variable is $value, and has to be utf8mb4: connect with charset=utf8mb4";
        for ($i = 0; $i < 2; $i++) {
            $refusal = refused(BindException::class, $message, fn () => sent($connection));
            same([BindException::SESSION, ['name' => $variable]], [$refusal->getCode(), fields($refusal)]);
            same([], $connection->sent);
        }
    }
});

test('a connection that gives no answer is refused', function () {
    foreach ([false, ['STRICT'], []] as $session) {
        $connection = new Played();
        $connection->session = $session;
        $message = 'The connection gave no answer to SELECT @@sql_mode, @@character_set_client, @@character_set_connection, @@max_allowed_packet';
        $refusal = refused(BindException::class, $message, fn () => sent($connection));
        same([BindException::SESSION, []], [$refusal->getCode(), fields($refusal)]);
        same([], $connection->sent);
    }
});
if (SOCKET === '') {
    finish();
}

test('a connection is asked once', function () {
    $connection = new PlayedOver();
    for ($i = 0; $i < 3; $i++) {
        same("SELECT '\\\\'", sent($connection));
    }
    same(1, $connection->asked);
    sent($connection, alwaysAsk: true);
    same(2, $connection->asked);
    ask_again($connection);
    sent($connection);
    sent($connection);
    same(3, $connection->asked);
    ask_again(new PlayedOver());
});

test('an answer is of one connection', function () {
    for ($i = 0; $i < 20; $i++) {
        $connection = new PlayedOver();
        sent($connection);
        $other = new PlayedOver();
        sent($other);
        sent($connection);
        same([1, 1], [$connection->asked, $other->asked]);
        unset($connection, $other);
    }
});

test('another mode is seen', function () {
    $connection = new PlayedOver();
    same("SELECT '\\\\'", sent($connection));
    $connection->change('NO_BACKSLASH_ESCAPES', 'ANSI_QUOTES,no_backslash_escapes');
    same('SELECT _utf8mb4 0x5C', sent($connection));
    same('SELECT _utf8mb4 0x5C', sent($connection));
    same(2, $connection->asked);
    $connection->change('', 'NOT_NO_BACKSLASH_ESCAPES,NO_BACKSLASH_ESCAPE');
    same("SELECT '\\\\'", sent($connection));
    same(3, $connection->asked);
});

test('a driver with another idea of the mode is asked each time', function () {
    $connection = new PlayedOver();
    $connection->session[0] = 'NO_BACKSLASH_ESCAPES';
    same(['SELECT _utf8mb4 0x5C', 'SELECT _utf8mb4 0x5C'], [sent($connection), sent($connection)]);
    same(2, $connection->asked);
    $connection->change('NO_BACKSLASH_ESCAPES', 'NO_BACKSLASH_ESCAPES');
    sent($connection);
    sent($connection);
    same(4, $connection->asked);
});
test('a connection is asked once, and again after its mode has changed', function () {
    $connection = pdo(kind: Counting::class);
    for ($i = 0; $i < 3; $i++) {
        same('\\', cell($connection, 'SELECT ?', ['\\']));
    }
    same(1, $connection->asked);
    $connection->exec("SET sql_mode = 'NO_BACKSLASH_ESCAPES'");
    for ($i = 0; $i < 3; $i++) {
        same('\\', cell($connection, 'SELECT ?', ['\\']));
    }
    same(2, $connection->asked);
    // MariaDB says a statement's own mode for the session's: the connection is asked each time from then on.
    $connection->query("SET STATEMENT sql_mode = '' FOR SELECT 1")->fetchAll();
    for ($i = 0; $i < 3; $i++) {
        same('\\', cell($connection, 'SELECT ?', ['\\']));
    }
    holds($connection->asked >= 2);
});

test('a reconnect is seen', function () {
    $connection = mysqli();
    plain($connection, "SET sql_mode = 'NO_BACKSLASH_ESCAPES'");
    same("\\'", cell($connection, 'SELECT ?', ["\\'"]));
    $connection->close();
    $connection = mysqli();
    same("\\'", cell($connection, 'SELECT ?', ["\\'"]));
    plain($connection, "SET sql_mode = 'NO_BACKSLASH_ESCAPES'");
    same("\\'", cell($connection, 'SELECT ?', ["\\'"]));
    // The object stays, and its connection is another one.
    $thread = $connection->thread_id;
    mysqli($connection);
    holds($connection->thread_id !== $thread);
    same("\\'", cell($connection, 'SELECT ?', ["\\'"]));
    // The session is made anew, and its connection stays.
    plain($connection, "SET sql_mode = 'NO_BACKSLASH_ESCAPES'");
    same("\\'", cell($connection, 'SELECT ?', ["\\'"]));
    $connection->change_user('root', '', null);
    same("\\'", cell($connection, 'SELECT ?', ["\\'"]));
});

test('a change of the user sets the character set of the driver again', function () {
    $connection = mysqli(charset: 'gbk');
    plain($connection, 'SET NAMES utf8mb4');
    same('1', (string) cell($connection, 'SELECT 1'));
    $connection->change_user('root', '', null);
    $refusal = thrown(fn () => query($connection, 'SELECT ?', ["\u{20ac}' , 7 -- "]));
    same([BindException::SESSION, 'character_set_client'], [$refusal->getCode(), $refusal->name]);
});

test('a connection of the server that ended, and a persistent one', function () {
    $connection = pdo();
    same('1', (string) cell($connection, 'SELECT 1'));
    $number = (int) cell($connection, 'SELECT CONNECTION_ID()');
    plain(mysqli(), "KILL $number");
    usleep(100000);
    holds(@thrown(fn () => cell($connection, 'SELECT ?', ['\\'])) instanceof \PDOException);
    $connection = pdo([\PDO::ATTR_PERSISTENT => true]);
    $connection->exec("SET sql_mode = 'NO_BACKSLASH_ESCAPES'");
    $number = cell($connection, 'SELECT CONNECTION_ID()');
    same("\\'", cell($connection, 'SELECT ?', ["\\'"]));
    unset($connection);
    $connection = pdo([\PDO::ATTR_PERSISTENT => true]);
    same($number, cell($connection, 'SELECT CONNECTION_ID()'));
    same("\\'", cell($connection, 'SELECT ?', ["\\'"]));
});

test('other character sets are refused', function () {
    foreach (['latin1', 'gbk', 'utf8'] as $charset) {
        foreach ([pdo(charset: $charset), mysqli(charset: $charset)] as $connection) {
            $refusal = thrown(fn () => query($connection, 'SELECT ?', ["\xBF'"]));
            same([BindException::class, BindException::SESSION, 'character_set_client'], [get_class($refusal), $refusal->getCode(), $refusal->name]);
            plain($connection, 'SET NAMES utf8mb4');
            same("\u{e9}'", cell($connection, 'SELECT ?', ["\u{e9}'"]));
        }
    }
    $connection = mysqli();
    same('a', cell($connection, 'SELECT ?', ['a']));
    $connection->set_charset('latin1');
    same(BindException::SESSION, thrown(fn () => query($connection, 'SELECT ?', ['a']))->getCode());
    foreach ([pdo(), mysqli()] as $connection) {
        same('a', cell($connection, 'SELECT ?', ['a']));
        plain($connection, 'SET NAMES gbk');
        ask_again($connection);
        same(BindException::SESSION, thrown(fn () => query($connection, 'SELECT ?', ['a']))->getCode());
        plain($connection, 'SET NAMES utf8mb4');
        plain($connection, 'SET character_set_connection = latin1');
        same('character_set_connection', thrown(fn () => query($connection, 'SELECT ?', ['a']))->name);
    }
});

/** Connections whose own methods say another thing than the driver's. */
class SlashingPdo extends \PDO
{
    public function quote(string $string, int $type = \PDO::PARAM_STR): string|false
    {
        return "'" . addslashes($string) . "'";
    }
}

class SlashingMysqli extends \mysqli
{
    public function real_escape_string(string $string): string
    {
        return addslashes($string);
    }

    public function character_set_name(): string
    {
        return 'utf8mb4';
    }

    public function more_results(): bool
    {
        return false;
    }

    /** Reads all results of earlier texts first. */
    public function query(string $query, int $resultMode = MYSQLI_STORE_RESULT): \mysqli_result|bool
    {
        while (parent::more_results()) {
            $this->next_result();
            $this->store_result();
        }
        return parent::query($query, $resultMode);
    }
}

const ESCAPING = ["\\", "\\' , 7 -- ", "' , 7 -- "];

test('what a subclass says of the mode and the character set is not asked', function () {
    foreach ([pdo(kind: SlashingPdo::class), mysqli(new SlashingMysqli())] as $connection) {
        foreach (['', 'NO_BACKSLASH_ESCAPES', ''] as $mode) {
            plain($connection, "SET sql_mode = '$mode'");
            foreach (ESCAPING as $value) {
                same($value, cell($connection, 'SELECT ?', [$value]), get_class($connection) . $mode);
            }
        }
    }
    $connection->set_charset('gbk');
    same(BindException::SESSION, thrown(fn () => cell($connection, 'SELECT ?', ['a']))->getCode());
});

test('nothing counts as known while mysqli has results that it has not read', function () {
    $connection = mysqli(new SlashingMysqli());
    foreach (['NO_BACKSLASH_ESCAPES', '', 'NO_BACKSLASH_ESCAPES'] as $mode) {
        foreach (ESCAPING as $value) {
            same($value, cell($connection, 'SELECT ?', [$value]), $mode);
        }
        $connection->multi_query("SELECT 1; SET sql_mode = '$mode'");
        $connection->store_result();
        foreach (ESCAPING as $value) {
            same($value, cell($connection, 'SELECT ?', [$value]), $mode);
        }
        $connection->multi_query('SELECT 1; SET NAMES gbk');
        $connection->store_result();
        same(BindException::SESSION, thrown(fn () => cell($connection, 'SELECT ?', ['a']))->getCode());
        plain($connection, 'SET NAMES utf8mb4');
    }
});

test('a driver sends nothing while it has results that it has not read', function () {
    $pdo = pdo();
    same('1', (string) cell($pdo, 'SELECT 1'));
    $result = query($pdo, "SELECT 1; SET sql_mode = 'NO_BACKSLASH_ESCAPES'");
    holds(thrown(fn () => query($pdo, 'SELECT ?', ['\\'])) instanceof \PDOException);
    while ($result->nextRowset()) {
    }
    same("\\'", cell($pdo, 'SELECT ?', ["\\'"]));
    $mysqli = mysqli();
    same('1', (string) cell($mysqli, 'SELECT 1'));
    $mysqli->multi_query("SELECT 1; SET sql_mode = 'NO_BACKSLASH_ESCAPES'");
    holds(thrown(fn () => query($mysqli, 'SELECT ?', ['\\'])) instanceof \mysqli_sql_exception);
    do {
        $mysqli->store_result();
    } while ($mysqli->more_results() && $mysqli->next_result());
    same("\\'", cell($mysqli, 'SELECT ?', ["\\'"]));
});

test('what was asked is forgotten after a text that may change it', function () {
    $connection = pdo(kind: Counting::class);
    $connection->exec('CREATE DATABASE IF NOT EXISTS shop');
    $connection->exec('CREATE OR REPLACE TABLE shop.kept (id INT PRIMARY KEY, body VARCHAR(50))');
    execute($connection, 'INSERT INTO shop.kept VALUES (1, ?)', ['x']);
    foreach (['REPLACE INTO shop.kept VALUES (1, ?)', "\n update shop.kept SET body = ?", 'DELETE FROM shop.kept WHERE body = ? ; ', 'Select/**/?', 'SELECT ?;'] as $query) {
        query($connection, $query, ['x; SET NAMES gbk'])->closeCursor();
    }
    same(1, $connection->asked);
    $others = ['SET @a = ?', 'DO ?', 'SELECTS ?', "SELECT ?, ';'", 'SELECT ?; SELECT 1', 'EXECUTE IMMEDIATE ?', "# SELECT\nSELECT ?", '(SELECT ?)', '?'];
    foreach ($others as $number => $query) {
        try {
            query($connection, $query, ['SELECT 1'])->closeCursor();
        } catch (\PDOException) {
        }
        same('1', (string) cell($connection, 'SELECT 1'), $query);
        same($number + 2, $connection->asked, $query);
    }
});

test('a change of the session by these calls is seen', function () {
    foreach (connections() as $driver => $connection) {
        foreach ([query(...), execute(...)] as $send) {
            foreach (['SET NAMES gbk', 'SET character_set_connection = latin1', "EXECUTE IMMEDIATE 'SET NAMES gbk'"] as $text) {
                same('a', cell($connection, 'SELECT ?', ['a']), $driver);
                $send($connection, $text);
                same(BindException::SESSION, thrown(fn () => cell($connection, 'SELECT ?', ['a']))->getCode(), "$driver: $text");
                plain($connection, 'SET NAMES utf8mb4');
            }
            foreach (['NO_BACKSLASH_ESCAPES', ''] as $mode) {
                $send($connection, 'SET sql_mode = ?', [$mode]);
                same("\\' , 7 -- ", cell($connection, 'SELECT ?', ["\\' , 7 -- "]), $driver);
            }
        }
    }
});

/** A PDO that keeps a log by the same calls, before it returns what a text gives. */
class Logging extends Counting
{
    public function query(string $query, ?int $fetchMode = null, mixed ...$fetchModeArgs): \PDOStatement|false
    {
        $found = parent::query($query);
        if (!str_contains($query, '@@') && !str_contains($query, 'logged')) {
            query($this, 'SELECT ? AS logged', [$query])->closeCursor();
        }
        return $found;
    }
}

test('a text that is sent while another is sent is seen', function () {
    $connection = pdo(kind: Logging::class);
    same('a', cell($connection, 'SELECT ?', ['a']));
    same(1, $connection->asked);
    same(BindException::SESSION, thrown(fn () => query($connection, 'SET NAMES gbk'))->getCode());
    same(BindException::SESSION, thrown(fn () => query($connection, 'SELECT 1'))->getCode());
});

/** Values that leave a plain literal of another mode or character set than was told. */
const LEAVING = [
    "\\' OR 1=1 -- ", "\\' , 8 -- ", "' , 8 -- ", '\\', "\\\\' , 8 -- ", "\u{e9}\\' , 8 -- ", "\u{8aa0}' , 8 -- ", "\u{8aa0}\\",
    "\u{20ac}' , 8 -- ", "\u{8868}\\' , 8 -- ", "\xBF' , 8 -- ", "\\\\' '\\\\\\' , 8 -- ",
];

/** Has a connection be in a mode, while its driver and the answer that is kept tell another: MariaDB tells a statement's own mode. */
function set_unseen(\PDO|\mysqli $connection, string $mode, string $believed): void
{
    plain($connection, "SET sql_mode = '$believed'");
    same('1', (string) cell($connection, 'SELECT 1'));
    plain($connection, "SET sql_mode = '$mode'");
    plain($connection, "SET STATEMENT sql_mode = '$believed' FOR DO 1");
}

test('no value runs in another mode than that of the answer that is kept', function () {
    foreach ([pdo(kind: Counting::class), mysqli()] as $connection) {
        foreach (['' => 'NO_BACKSLASH_ESCAPES', 'NO_BACKSLASH_ESCAPES' => ''] as $believed => $mode) {
            foreach (LEAVING as $value) {
                $of = get_class($connection) . ": $mode: " . bin2hex($value);
                set_unseen($connection, $mode, $believed);
                $asked = $connection->asked ?? 0;
                [$first, $kept, $last] = row($connection, 'SELECT :a, 7, :a', ['a' => $value]);
                same(['7', $first, $asked], [(string) $kept, $last, $connection->asked ?? 0], $of);
                holds(in_array($first, [$value, str_replace('\\', '\\\\', $value)], true), $of);
                set_unseen($connection, $mode, $believed);
                same([$value, '7'], array_map(strval(...), row($connection, 'SELECT :a, 7', ['a' => $value], true)), $of);
            }
            // The text of a query that isn't ASCII is plain, and the value runs.
            set_unseen($connection, $mode, $believed);
            same('8', (string) row($connection, "SELECT :a, 7 /* \u{e9} */", ['a' => "\\' , 8 -- "])[1]);
        }
    }
});

test('no value runs in a mode that the text itself sets', function () {
    $connection = pdo();
    foreach (['', 'NO_BACKSLASH_ESCAPES', ''] as $mode) {
        foreach (['', 'NO_BACKSLASH_ESCAPES'] as $other) {
            foreach (LEAVING as $value) {
                plain($connection, "SET sql_mode = '$mode'");
                $result = query($connection, "SET sql_mode = '$other'; SELECT :a, 7", ['a' => $value]);
                holds($result->nextRowset());
                [$found, $kept] = $result->fetch(\PDO::FETCH_NUM);
                same('7', (string) $kept, $mode . bin2hex($value));
                holds(in_array($found, [$value, str_replace('\\', '\\\\', $value)], true), $mode . bin2hex($value));
                $result->closeCursor();
            }
        }
    }
});

test('no value runs over a character set that the driver does not tell of', function () {
    foreach ([pdo(), mysqli()] as $connection) {
        foreach (['', 'NO_BACKSLASH_ESCAPES'] as $mode) {
            foreach (['gbk', 'big5', 'cp932', 'sjis', 'latin1'] as $charset) {
                plain($connection, "SET NAMES utf8mb4, sql_mode = '$mode'");
                ask_again($connection);
                same("\\'", cell($connection, 'SELECT ?', ["\\'"]));
                plain($connection, "SET NAMES $charset");
                foreach (LEAVING as $value) {
                    $row = row($connection, 'SELECT :a, 7, :a', ['a' => $value]);
                    same([3, '7'], [count($row), (string) $row[1]], "$mode $charset " . bin2hex($value));
                }
            }
            // The text of a query that isn't ASCII is plain, and by its backslash the value runs.
            plain($connection, 'SET NAMES gbk');
            same($mode === '' ? '8' : '7', (string) row($connection, "SELECT :a, 7 /* \u{e9} */", ['a' => "\u{20ac}' , 8 -- "])[1]);
        }
    }
});

test('a character set of the driver that is not that of the server changes no byte', function () {
    $hostile = ["\u{8AA0}' OR 1=1 -- ", "\u{529F}' OR 1=1 -- ", "\u{8868}' OR 1=1 -- ", "\\' , 7 -- ", "\u{e9}"];
    foreach (['gbk', 'big5', 'cp932', 'sjis'] as $charset) {
        foreach ([pdo(charset: $charset), pdo([\PDO::ATTR_EMULATE_PREPARES => false], $charset), mysqli(charset: $charset)] as $connection) {
            plain($connection, 'SET NAMES utf8mb4');
            foreach ($hostile as $value) {
                same($value, cell($connection, 'SELECT :a', ['a' => $value]), "$charset: $value");
                same(0, execute($connection, 'DO :a', ['a' => $value]), "$charset: $value");
            }
        }
    }
});
finish();
