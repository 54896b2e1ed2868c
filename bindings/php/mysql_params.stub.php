<?php

/**
 * What the extension mysql_params has, for IDEs and for tools that read types. It is not loaded by a program.
 *
 * Parameters are a list, for `?`, or have names, for `:name`; a key may have its colon. A value is null, a bool, an int, a float, a
 * string, a DateTimeInterface, a DateInterval of a known length, or a case of an enum with values. Where a place takes more, it is
 * also a Decimal, an Identifier or a list of them, Assignments, a Keyword, or an In. A place alone in brackets, as `IN (:ids)`, takes
 * a list of values, or a list of lists as rows. Rows also stand after VALUES. Anything else is a TypeError, which tells the place.
 *
 * A DateTimeInterface is written with its microseconds, in the years 1 to 9999. A DateInterval is hours, minutes and seconds with
 * a sign. PHP makes a float of a whole number that no int holds: write a Decimal. A Decimal of up to 64 bits is taken wherever a
 * value is.
 *
 * `$noBackslashEscape` says whether the connection's `@@sql_mode` has NO_BACKSLASH_ESCAPES. It is true or false: anything
 * else is a TypeError.
 */

namespace MysqlParams;

/**
 * Returns the query with literals in its places whose ends no sql_mode and no character set of a connection moves.
 *
 * The query is ASCII without a backslash, and portable.
 *
 * @param array<mixed> $params
 * @throws BindException for a query or parameters that are refused
 * @throws \TypeError|\ValueError for a value that has no literal
 */
function bind_anywhere(string $query, array $params = []): string
{
}

/**
 * Returns the query with literals in its places for a connection of this mode, over utf8mb4.
 *
 * Ask first_unportable of the query before.
 *
 * @param array<mixed> $params
 * @throws BindException for a query or parameters that are refused
 * @throws \TypeError|\ValueError for a value that has no literal
 */
function bind(string $query, array $params = [], bool $noBackslashEscape = false): string
{
}

/**
 * Returns the text of bind_anywhere for a query that may have bytes from 128 on, over utf8mb4. Each place takes one value, and no
 * float.
 *
 * @param array<mixed> $params
 * @throws BindException for a query or parameters that are refused
 * @throws \TypeError|\ValueError for a value that has no literal
 */
function bind_in_both_modes(string $query, array $params = []): string
{
}

/**
 * Returns the text of each row: what bind returns for the query and the row's parameters. Each place takes one value.
 *
 * The query is parsed once for many rows. The BindException of a row tells its number, and by `texts()` the texts of the rows
 * before it.
 *
 * @param iterable<array<mixed>> $rows
 * @return list<string>
 * @throws BindException for the first row that is refused
 * @throws \TypeError|\ValueError for a value that has no literal
 */
function bind_rows(string $query, iterable $rows, bool $noBackslashEscape = false): array
{
}

/**
 * Returns what bind returns for parameters that stand in their flat form already, which mysql_params.h describes.
 *
 * @throws BindException
 */
function bind_form(string $query, string $form, bool $noBackslashEscape = false): string
{
}

/**
 * Returns what bind_anywhere returns for parameters in their flat form.
 *
 * @throws BindException
 */
function bind_form_anywhere(string $query, string $form): string
{
}

/**
 * Returns what bind_in_both_modes returns for parameters in their flat form.
 *
 * @throws BindException
 */
function bind_form_in_both_modes(string $query, string $form): string
{
}

/**
 * Returns the names of a query, and the query with `?` in their places.
 *
 * @throws BindException for a query with names and marks
 */
function names(string $query, bool $noBackslashEscape = false): Names
{
}

/**
 * Returns the first construct of a query that servers read in different ways, or null if there is none.
 */
function first_unportable(string $query, bool $noBackslashEscape = false): ?Unportable
{
}

/**
 * Returns the same for a query whose bound text goes through the client `mysql --comments`.
 */
function first_unportable_in_client(string $query, bool $noBackslashEscape = false): ?Unportable
{
}

/**
 * Binds a query, sends the text by `PDO::query` or `mysqli::query`, without parameters, and returns what that returns.
 *
 * If the query and its identifiers are ASCII without a backslash, the text has guarded literals, as `'it''s'`: a session of another
 * mode or character set than was told, except swe7, may read another value, and no value as SQL. Else it is the text of bind in the
 * mode that was told. With $steady it is that of bind_anywhere, which refuses such a query.
 *
 * The connection's mode, character sets and max_allowed_packet are asked for before the first text, and kept while the object
 * lives. They are asked for anew after a query of these calls that isn't one SELECT, INSERT, UPDATE, DELETE or REPLACE, when the
 * driver tells of another mode, and with mysqli after a reconnect, `change_user` or `set_charset`. They are asked for before each
 * text with $alwaysAsk, and for an object that sends by another and whose own constructor isn't called. The query is portable.
 *
 * @param array<mixed> $params
 * @throws BindException also for a connection that isn't utf8mb4, and for a text that is too long
 * @throws \TypeError|\ValueError for a value that has no literal
 */
function query(\PDO|\mysqli $connection, string $query, array $params = [], bool $alwaysAsk = false, bool $steady = false): \PDOStatement|\mysqli_result|bool
{
}

/**
 * Binds a query, sends the text by `PDO::exec` or `mysqli::query`, and returns how many rows it changed.
 *
 * All else is as by query. A number of rows that no int has is a string, as mysqli gives it.
 *
 * @param array<mixed> $params
 * @throws BindException also for a connection that isn't utf8mb4, and for a text that is too long
 * @throws \TypeError|\ValueError for a value that has no literal
 */
function execute(\PDO|\mysqli $connection, string $query, array $params = [], bool $alwaysAsk = false, bool $steady = false): int|string|false
{
}

/**
 * Has the connection be asked anew before its next text. Call it after the driver itself was given a `SET` of sql_mode or of a
 * character set.
 */
function ask_again(\PDO|\mysqli $connection): void
{
}

/** A query whose places are found once, to bind it many times: it gives what bind gives. */
final class Template
{
    public readonly string $query;
    public readonly bool $noBackslashEscape;

    public function __construct(string $query, bool $noBackslashEscape = false)
    {
    }

    /**
     * @param array<mixed> $params
     * @throws BindException
     */
    public function bind(array $params = []): string
    {
    }

    /** @throws BindException */
    public function bindForm(string $form): string
    {
    }

    /**
     * @param iterable<array<mixed>> $rows
     * @return list<string>
     * @throws BindException
     */
    public function bindRows(iterable $rows): array
    {
    }
}

/** An exact number: at most one `-`, then at most 65 digits with at most one point between them, as `-1.50`. */
final class Decimal implements \Stringable
{
    public readonly string $digits;

    public function __construct(string|int $digits)
    {
    }

    public function __toString(): string
    {
    }
}

/**
 * Several arguments, as the program says: a list of values, or a list of lists as rows. It stands anywhere, as in
 * `FIELD(id, :ids)`.
 *
 * An array stands only alone in brackets, as `IN (:ids)`. So a list in a request's JSON adds no arguments to
 * `JSON_SET(doc, '$.name', :name)`. An In adds them: look first at what comes from outside.
 */
final class In
{
    /** @var list<mixed> */
    public readonly array $items;

    /**
     * @param list<mixed> $items values, or lists of values
     * @throws \TypeError for an array with keys
     */
    public function __construct(array $items)
    {
    }
}

/**
 * The name of a table or a column; `new Identifier('shop', 'item')` is one in another. A point in a name is a part of it. A list of
 * them is written with commas in between.
 */
final class Identifier
{
    /** @var list<string> */
    public readonly array $parts;

    public function __construct(string ...$parts)
    {
    }
}

/**
 * Columns and what they are set to, for `SET ?`: `new Assignments(['price' => 7, 'sold' => null])`. Take only columns of yours,
 * since an array from outside may have any.
 */
final class Assignments
{
    /** @var list<array{Identifier, mixed}> */
    public readonly array $pairs;

    /**
     * A key is the name of a column. Give pairs for a column in a table, as `[[new Identifier('item', 'sold'), null]]`, and for
     * one whose name is a whole number, since PHP makes an int of such a key. What a column is set to is as in a list of values.
     *
     * @param array<string, mixed>|list<array{string|Identifier, mixed}> $assigned
     * @throws \TypeError for other keys, and for what is no pair
     */
    public function __construct(array $assigned)
    {
    }
}

/**
 * A keyword of the program, as `DESC`, chosen among those that it names: else a ValueError. It is never a text from outside.
 *
 * The archive writes these alone: ASC, DESC, ALL, DISTINCT, AND, OR, XOR, NOT, NULL, IS NULL, IS NOT NULL, DEFAULT, TRUE, FALSE,
 * LIKE, NOT LIKE, MICROSECOND, SECOND, MINUTE, HOUR, DAY, WEEK, MONTH, QUARTER, YEAR, LEFT, RIGHT, INNER, CROSS, UNION,
 * UNION ALL, FOR UPDATE, LOCK IN SHARE MODE.
 */
final class Keyword
{
    public readonly string $word;

    /** @param array<string> $among */
    public function __construct(string $word, array $among)
    {
    }
}

/** The names of a query. */
final class Names
{
    /** The query with `?` in the place of each name. */
    public readonly string $query;
    /** @var list<string> the names without their colons, in order, with repeats */
    public readonly array $names;

    private function __construct()
    {
    }
}

/** A construct that servers read in different ways. */
final class Unportable
{
    public readonly Construct $construct;
    /** The byte of the query at which it begins. */
    public readonly int $position;

    private function __construct()
    {
    }
}

/** The constructs, with their numbers in C. */
enum Construct: int
{
    case ExecutableComment = 1;
    case Hint = 2;
    case MariadbComment = 3;
    case Dashes = 4;
    case EscapedQuote = 5;
    case Bracket = 6;
    case DollarQuote = 7;
    case DashesAfterExponent = 8;
    case PlaceAfterExponent = 9;
    case OpenerInComment = 10;
    case JoiningComment = 11;
    case DashesBeforeComment = 12;
    case ClientCommand = 13;
    case DashInFront = 14;
    case Delimiter = 15;
    case ClientWord = 16;
    case EscapedNewline = 17;
    case ZeroByte = 18;
    case EscapedBackquote = 19;
    case ReturnInComment = 20;

    /** What to write instead. */
    public function message(): string
    {
    }
}

/** What is wrong with a list, rows, an exact number, an identifier or a keyword. */
enum Fault: int
{
    case Empty = 1;
    case EmptyRow = 2;
    case RowLength = 3;
    case Number = 4;
    case EmptyName = 5;
    case ZeroByte = 6;
    case LongName = 7;
    case TrailingSpace = 8;
    /** The word is none of those that the class Keyword lists. */
    case Keyword = 9;
    case Backslash = 10;
}

/** A refusal. Its code is that of C, or SESSION or PACKET. A field that it doesn't tell is null. */
class BindException extends \RuntimeException
{
    /** The form ends within a parameter: of a flat form that you write yourself, as the next three. */
    const FORM_END = 3;
    /** A length in the form begins with a wrong byte. */
    const FORM_LENGTH_LEAD = 4;
    /** A parameter of the form has a column type without a binary form. */
    const FORM_TYPE = 5;
    /** The form has parameters with and without a name. */
    const FORM_MIXED = 6;
    /** A name is given twice, as with a colon and without. */
    const FORM_REPEATED = 7;
    /** The query has names and marks. */
    const MIXED = 8;
    /** A name of the query has no value. */
    const MISSING = 9;
    /** Parameters with names, and the query has no names. */
    const NAMED_FOR_POSITIONAL = 10;
    /** Parameters without names, and the query has names. */
    const POSITIONAL_FOR_NAMED = 11;
    /** Not as many values as marks. */
    const MARK_COUNT = 12;
    /** A place could run into its neighbour, as in `1?`. */
    const NOT_ALONE = 13;
    /** A NaN or an infinity: give null. By bind_in_both_modes each float. */
    const FLOAT = 14;
    /** By bind_anywhere, also for $steady: a backslash or a byte outside ASCII in the query. Take bind_in_both_modes, or bind. */
    const UNSTEADY = 15;
    /** Servers read the query in different ways, as with an executable comment: the message says what to write. */
    const UNPORTABLE = 16;
    /** An empty list, no assignments, rows of two lengths, a wrong number, name or keyword: $fault. */
    const FAULT = 17;
    /** By bind_in_both_modes: a backslash in a string of the query. Take bind. */
    const BACKSLASH = 18;
    /** By bind_anywhere, also for $steady: a name that isn't ASCII without a backslash. Take bind. */
    const UNSTEADY_FRAGMENT = 19;
    /** A list, where one value is meant: write its place alone in brackets, as `IN (:ids)`, or give an In. */
    const UNBRACKETED = 21;
    /** The connection isn't utf8mb4, or gives no answer. */
    const SESSION = -1;
    /** The text is longer than max_allowed_packet. */
    const PACKET = -2;

    /** The number of the place in the query, or of the parameter in the form, from 0. */
    public ?int $place = null;
    /** The byte of the query, or of the form, from 0. */
    public ?int $position = null;
    /** How many marks the query has. */
    public ?int $marks = null;
    /** How many values were given. */
    public ?int $values = null;
    /** The byte that is wrong in the form. */
    public ?int $byte = null;
    /** The number of the row, from 0: of bind_rows, or within the rows of a place. */
    public ?int $row = null;
    /** The number of the item in the row or the list, or of the name in an Identifier. */
    public ?int $item = null;
    /** The name that is missing or repeated, that of the place of a value, or the variable of the session. */
    public ?string $name = null;
    /** The whole word of the query, if a letter outside ASCII stands in it after a colon, as in `:größe`. */
    public ?string $word = null;
    /** Of UNPORTABLE: what servers read in different ways. */
    public ?Construct $construct = null;
    /** Of FAULT: what is wrong. */
    public ?Fault $fault = null;

    /**
     * Of bind_rows: returns the texts of the rows before it. Another refusal has none, and one that was unserialized. They hold
     * values, so they are no field, which `var_dump` or a page of errors would show.
     *
     * @return ?list<string>
     */
    public function texts(): ?array
    {
    }
}
