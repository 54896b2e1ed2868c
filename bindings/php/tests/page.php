<?php

/**
 * Runs each program of packages/php.md, which has to write what the block of `text` after it says. One that connects is run with
 * SOCKET, the socket of a MariaDB, and else left out. What the page says of comments is tried too, and the stub, to which it sends
 * its reader, has to say when each refusal comes and what each field tells.
 */

namespace MysqlParams\Tests;

use MysqlParams\{BindException, Construct, Keyword};

use function MysqlParams\{bind, first_unportable};

require __DIR__ . '/harness.php';

const CONNECTS = "new PDO('mysql:host=localhost;dbname=shop;charset=utf8mb4', 'app', \$password)";

/** Returns what a program of the page writes, in a process of its own. */
function written(string $program): string
{
    $file = tempnam(sys_get_temp_dir(), 'page');
    file_put_contents($file, "<?php\n$program");
    $words = [PHP_BINARY, '-n', '-d', 'display_errors=1', '-d', 'html_errors=0'];
    foreach (preg_split('/\s+/', getenv('DRIVERS') ?: '', -1, PREG_SPLIT_NO_EMPTY) as $word) {
        $words[] = $word;
    }
    array_push($words, '-d', 'extension=' . getenv('MODULE'), $file);
    exec(implode(' ', array_map(escapeshellarg(...), $words)) . ' 2>&1', $lines);
    unlink($file);
    return implode("\n", $lines) . "\n";
}

/** Returns a program over a table of the server, in place of the page's own connection. */
function over_server(string $program, string $socket): string
{
    $made = "(function () { \$made = new PDO('mysql:unix_socket=$socket;charset=utf8mb4', 'root', ''); "
        . "foreach (['CREATE DATABASE IF NOT EXISTS shop', 'USE shop', 'DROP TABLE IF EXISTS item', "
        . "'CREATE TABLE item (id INT, name VARCHAR(50))'] as \$text) { \$made->exec(\$text); } return \$made; })()";
    return str_replace(CONNECTS, $made, $program);
}

/** Returns each program of a page with the text that follows it. */
function programs(string $page): array
{
    $programs = [];
    $block = null;
    foreach (explode("\n", $page) as $line) {
        if (str_starts_with($line, '```')) {
            $block = ['```php' => 0, '```text' => 1][$line] ?? null;
            if ($block === 0) {
                $programs[] = ['', ''];
            }
        } elseif ($block !== null) {
            $programs[count($programs) - 1][$block] .= "$line\n";
        }
    }
    return $programs;
}

/** Returns the keywords that a comment lists after these words. */
function keywords(string $file, string $words): array
{
    $text = preg_replace('/\s+(\*\s+)?/', ' ', file_get_contents($file));
    same(1, preg_match("/ $words: (ASC, [A-Z, ]*)\\./", $text, $found), $file);
    return explode(', ', $found[1]);
}

const STUB = __DIR__ . '/../mysql_params.stub.php';

$page = file_get_contents(__DIR__ . '/../../../packages/php.md');
$found = programs($page);
$socket = (string) getenv('SOCKET');
foreach ($found as $number => [$program, $text]) {
    if (str_contains($program, 'new PDO') && $socket === '') {
        echo "program $number of the page: skipped: there is no server\n";
        continue;
    }
    test("program $number of the page", fn () => same($text, written(over_server($program, $socket))));
}

test('the page has programs, and each has a text', function () use ($page, $found) {
    same([3, 3, 3], [count($found), substr_count($page, "\n```php\n"), substr_count($page, "\n```text\n")]);
});

test('the stub says when each refusal comes, and what each field tells', function () {
    $stub = file_get_contents(STUB);
    foreach ((new \ReflectionClass(BindException::class))->getConstants() as $name => $number) {
        holds(str_contains($stub, " */\n    const $name = $number;\n"), $name);
    }
    foreach ((new \ReflectionClass(BindException::class))->getProperties() as $property) {
        if ($property->isPublic()) {
            holds(preg_match("# \\*/\n    public \\S+ \\$" . $property->getName() . ' = null;#', $stub) === 1, $property->getName());
        }
    }
});

test('the page names each function', function () use ($page) {
    foreach (get_defined_functions()['internal'] as $name) {
        if (preg_match('/^mysqlparams\\\\(?!bind_form)(.*)/', $name, $found)) {
            holds(preg_match("/`[^`]*\\b$found[1]\\b|\\b$found[1]\\(/", $page) === 1, $name);
        }
    }
});

test('the stub lists the keywords that are bound', function () {
    $keywords = keywords(STUB, 'writes these alone');
    same(keywords(__DIR__ . '/../../c/mysql_params.h', 'keywords that are written'), $keywords);
    foreach ($keywords as $word) {
        same("SELECT $word", bind('SELECT ?', [new Keyword($word, $keywords)]));
    }
});

test('the comment of the page is refused', function () {
    same([Construct::ExecutableComment, 7], [first_unportable('SELECT /*! :a */ 1')->construct, first_unportable('SELECT /*! :a */ 1')->position]);
});

finish();
