<?php
// Sends texts by a driver of PHP, as handed_over.py tells it: sender.php SOCKET DRIVER. DRIVER is pdo or mysqli. Each line of
// standard input is a JSON object, which gets a line of JSON as its answer.

declare(strict_types=1);

use function MysqlParams\query;

/** Connects by a driver over a character set. */
function connect(string $socket, string $driver, string $charset): PDO|mysqli
{
    if ($driver === 'pdo') {
        $errors = [PDO::ATTR_ERRMODE => PDO::ERRMODE_EXCEPTION];
        return new PDO("mysql:unix_socket=$socket;charset=$charset", 'root', '', $errors);
    }
    mysqli_report(MYSQLI_REPORT_ERROR | MYSQLI_REPORT_STRICT);
    $connection = new mysqli(null, 'root', '', '', 0, $socket);
    $connection->set_charset($charset);
    return $connection;
}

/** Sends a bound text, and returns its rows. */
function rows(PDO|mysqli $connection, string $query, #[SensitiveParameter] array $values): array
{
    $result = query($connection, $query, $values);
    if ($result instanceof PDOStatement) {
        return $result->columnCount() > 0 ? $result->fetchAll(PDO::FETCH_NUM) : [];
    }
    return $result instanceof mysqli_result ? $result->fetch_all() : [];
}

[, $socket, $driver] = $argv;
$connection = null;
while (($line = fgets(STDIN)) !== false) {
    $request = json_decode($line, true, 512, JSON_THROW_ON_ERROR);
    $answer = (object) [];
    try {
        if (isset($request['connect'])) {
            $connection = connect($socket, $driver, $request['connect']);
        } elseif (isset($request['plain'])) {
            $connection->query($request['plain']);
        } else {
            $answer = ['rows' => rows($connection, $request['send'], $request['values'])];
        }
    } catch (PDOException | mysqli_sql_exception $error) {
        $answer = ['failed' => $error->getMessage()];
    } catch (Throwable $error) {
        $answer = ['refused' => $error->getMessage(), 'shown' => print_r($error, true)];
    }
    echo json_encode($answer, JSON_THROW_ON_ERROR | JSON_INVALID_UTF8_SUBSTITUTE), "\n";
}
