<?php

/**
 * The connections of the tests that send: those that are played here, and, if SOCKET names the socket of a MariaDB, real ones.
 */

namespace MysqlParams\Tests;

use function MysqlParams\query;

require __DIR__ . '/harness.php';

/** The socket of the server, or an empty text. */
define(__NAMESPACE__ . '\SOCKET', (string) getenv('SOCKET'));

const MODES = ['', 'NO_BACKSLASH_ESCAPES', 'STRICT_TRANS_TABLES,ANSI_QUOTES,NO_BACKSLASH_ESCAPES', 'STRICT_TRANS_TABLES'];

/**
 * A connection that is played: it answers what it is asked by the session, and keeps the texts that it gets. PDO's constructor
 * isn't called, as by a class that sends through another PDO: the driver has no idea of the mode.
 */
class Played extends \PDO
{
    public array $sent = [];
    public array $attributes = [\PDO::ATTR_DRIVER_NAME => 'mysql', \PDO::ATTR_EMULATE_PREPARES => true];
    public array|false $session = ['STRICT_TRANS_TABLES', 'utf8mb4', 'utf8mb4', '1000'];
    public int $asked = 0;
    public ?\Throwable $fault = null;

    public function __construct()
    {
    }

    public function getAttribute(int $attribute): mixed
    {
        return $this->attributes[$attribute];
    }

    public function setAttribute(int $attribute, mixed $value): bool
    {
        $this->attributes[$attribute] = $value;
        return true;
    }

    public function query(string $query, ?int $fetchMode = null, mixed ...$fetchModeArgs): \PDOStatement|false
    {
        if (str_contains($query, '@@sql_mode')) {
            $this->asked++;
            return $this->session === false ? false : new PlayedRow($this->session);
        }
        holds($this->attributes[\PDO::ATTR_EMULATE_PREPARES] === true, 'places are not looked for');
        if ($this->fault) {
            throw $this->fault;
        }
        $this->sent[] = $query;
        return new PlayedRow(['result']);
    }

    public function exec(string $statement): int|false
    {
        $this->sent[] = $statement;
        return 3;
    }
}

class PlayedRow extends \PDOStatement
{
    public function __construct(private ?array $row)
    {
    }

    public function fetch(int $mode = 0, int $cursorOrientation = 0, int $cursorOffset = 0): mixed
    {
        same(\PDO::FETCH_NUM, $mode);
        return $this->row;
    }

    public function closeCursor(): bool
    {
        $this->row = null;
        return true;
    }
}

/** Sends a query over a played connection, and returns the text that it got. */
function sent(Played $connection, string $query = 'SELECT :a', array $params = ['a' => '\\'], bool $alwaysAsk = false, bool $steady = false): string
{
    query($connection, $query, $params, $alwaysAsk, $steady);
    return end($connection->sent);
}

/** Returns a connection that is played, in a mode, to which a text of any length goes out. */
function played(string $mode): Played
{
    $connection = new Played();
    $connection->session = [$mode, 'utf8mb4', 'utf8mb4', '10000000'];
    return $connection;
}

/** Returns a PDO of the server. */
function pdo(array $attributes = [], string $charset = 'utf8mb4', string $kind = \PDO::class): \PDO
{
    $attributes += [\PDO::ATTR_ERRMODE => \PDO::ERRMODE_EXCEPTION];
    return new $kind('mysql:unix_socket=' . SOCKET . ";charset=$charset", 'root', '', $attributes);
}

/** Connects a mysqli to the server, or makes one. */
function mysqli(?\mysqli $own = null, string $charset = 'utf8mb4'): \mysqli
{
    $own ??= mysqli_init();
    $own->real_connect('localhost', 'root', '', null, 0, SOCKET);
    $own->set_charset($charset);
    return $own;
}

/** A PDO that counts what it is asked. */
class Counting extends \PDO
{
    public int $asked = 0;

    public function query(string $query, ?int $fetchMode = null, mixed ...$fetchModeArgs): \PDOStatement|false
    {
        $this->asked += str_contains($query, '@@sql_mode') ? 1 : 0;
        return parent::query($query);
    }
}

/** Returns the first cell of what a query gives. */
function cell(\PDO|\mysqli $connection, string $query, array $params = [], bool $steady = false): mixed
{
    return row($connection, $query, $params, $steady)[0];
}

/** Returns the first row. */
function row(\PDO|\mysqli $connection, string $query, array $params, bool $steady = false): array
{
    $result = query($connection, $query, $params, steady: $steady);
    if ($result instanceof \PDOStatement) {
        $row = $result->fetch(\PDO::FETCH_NUM);
        $result->closeCursor();
        return $row;
    }
    return $result->fetch_row();
}

/** Sends a text of the test's own. */
function plain(\PDO|\mysqli $connection, string $text): void
{
    $connection instanceof \PDO ? $connection->exec($text) : $connection->query($text);
}

/** The connections of each driver, made anew. */
function connections(): array
{
    return [
        'PDO' => pdo(),
        'PDO with prepared statements of the server' => pdo([\PDO::ATTR_EMULATE_PREPARES => false]),
        'PDO that waits with rows' => pdo([\PDO::MYSQL_ATTR_USE_BUFFERED_QUERY => false]),
        'mysqli' => mysqli(),
    ];
}

/** A connection that is played over a real one, whose driver has an idea of the mode. */
class PlayedOver extends Played
{
    public function __construct()
    {
        \PDO::__construct('mysql:unix_socket=' . SOCKET . ';charset=utf8mb4', 'root', '');
    }

    /** Has the server be in a mode, which the driver knows, and the session answer another. */
    public function change(string $mode, string $answered): void
    {
        \PDO::exec("SET sql_mode = '$mode'");
        $this->session[0] = $answered;
    }
}
