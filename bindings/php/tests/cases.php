<?php

/** Runs the cases of bindings/cases: those that all calls answer alike, and those of `wide`. Its README says what a line means. */

namespace MysqlParams\Tests;

use MysqlParams\{Assignments, BindException, Construct, Decimal, Fault, Identifier, In, Keyword, Template, Unportable};

require __DIR__ . '/harness.php';

/** Returns the bytes of a text: pairs of hexadecimal digits within { }, or as they stand. */
function text_of(string $text): string
{
    return preg_replace_callback('/\{([0-9A-F]+)\}/', fn ($found) => hex2bin($found[1]), $text);
}

/** Returns a whole number of up to 64 bits, which is a Decimal if no int has it. */
function whole_of(string $digits): int|Decimal
{
    return (string) (int) $digits === $digits ? (int) $digits : new Decimal($digits);
}

function float_of(string $text): float
{
    return ['nan' => NAN, 'inf' => INF, '-inf' => -INF][$text] ?? (float) $text;
}

function date_of(string $fields): \DateTimeImmutable
{
    return new \DateTimeImmutable(vsprintf('%04d-%02d-%02d %02d:%02d:%02d.%06d', explode(' ', $fields)));
}

function interval_of(string $fields): \DateInterval
{
    [$sign, $days, $hours, $minutes, $seconds, $microseconds] = explode(' ', $fields);
    $interval = new \DateInterval("P{$days}DT{$hours}H{$minutes}M{$seconds}S");
    $interval->f = $microseconds / 1e6;
    $interval->invert = $sign === '-' ? 1 : 0;
    return $interval;
}

function list_of(string $items): array
{
    return $items === '' ? [] : array_map(value_of(...), explode('|', $items));
}

function rows_of(string $rows): array
{
    return array_map(list_of(...), explode('||', $rows));
}

/** Returns the identifier of names between bars. */
function identifier_of(string $text): Identifier
{
    return new Identifier(...array_map(text_of(...), explode('|', $text)));
}

/** Returns a column and what it is set to. A column of one name is a string. */
function pair_of(string $text): array
{
    [$names, $value] = explode('=', $text, 2);
    return [str_contains($names, '|') ? identifier_of($names) : text_of($names), value_of($value)];
}

/** Returns what a function makes of each part of a text between two bars. */
function each_of(callable $make, string $text): array
{
    return $text === '' ? [] : array_map($make, explode('||', $text));
}

/** Returns the value of a parameter as PHP has it. */
function value_of(string $text): mixed
{
    [$kind, $rest] = explode(':', $text, 2) + [1 => ''];
    return match ($kind) {
        'null' => null,
        'i', 'u' => whole_of($rest),
        's' => text_of($rest),
        'd' => new Decimal($rest),
        'float' => unpack('g', pack('g', float_of($rest)))[1],
        'double' => float_of($rest),
        'date' => date_of($rest),
        'time' => interval_of($rest),
        'list' => new In(list_of($rest)),
        'rows' => new In(rows_of($rest)),
        'implicit_list' => list_of($rest),
        'implicit_rows' => rows_of($rest),
        'identifier', 'qualified' => identifier_of($rest),
        // No array says that it would have held Identifiers.
        'identifiers' => $rest === '' ? new In([]) : each_of(identifier_of(...), $rest),
        'assignments' => new Assignments(each_of(pair_of(...), $rest)),
        'keyword' => new Keyword($rest, ['ASC', $rest]),
    };
}

/** A case. */
final class Case_
{
    public string $query = '';
    public ?string $form = null;
    public ?string $text = null;
    public ?string $renamed = null;
    public ?string $refusal = null;
    public ?string $construct = null;
    public ?string $message = null;
    public ?string $message_in_c = null;
    public bool $portable = false;
    public bool $mode = false;
    public array $params = [];
    public array $rows = [];
    public array $texts = [];
    public array $names = [];
    public array $fields = [];

    public function __construct(public array $lines)
    {
        foreach ($lines as $line) {
            [$word, $rest] = explode(' ', $line, 2) + [1 => ''];
            $this->read($word, $rest);
        }
    }

    private function read(string $word, string $rest): void
    {
        match ($word) {
            'query', 'renamed' => $this->$word = text_of($rest),
            'text' => $this->rows ? $this->texts[] = text_of($rest) : $this->text = text_of($rest),
            'row' => $this->rows[] = [],
            'param' => $this->add($rest),
            'form' => $this->form .= hex2bin(str_replace(' ', '', $rest)),
            'no_backslash_escape' => $this->mode = true,
            'name' => $this->names[] = $rest,
            'message', 'message_in_c' => $this->$word = $rest,
            'refused' => $this->tell('refusal', $rest),
            'unportable' => $this->tell('construct', $rest),
            'portable' => $this->portable = true,
        };
    }

    /** Adds a parameter. A name that is given twice has its colon the second time, since a PHP array has a key once. */
    private function add(string $rest): void
    {
        [$name, $value] = explode('=', $rest, 2);
        if ($this->rows) {
            $params = &$this->rows[count($this->rows) - 1];
        } else {
            $params = &$this->params;
        }
        if ($name === '') {
            $params[] = value_of($value);
        } else {
            $params[isset($params[$name]) || array_key_exists($name, $params) ? ":$name" : $name] = value_of($value);
        }
    }

    private function tell(string $which, string $rest): void
    {
        $words = explode(' ', $rest);
        $this->$which = array_shift($words);
        foreach ($words as $word) {
            [$field, $value] = explode('=', $word, 2);
            $this->fields[$field] = in_array($field, ['name', 'word', 'of'], true) ? text_of($value) : (int) $value;
        }
    }

    /** Returns the fields that the refusal has to have, in the order of their names. */
    public function wanted(): array
    {
        $told = $this->fields + array_fill_keys(['place', 'position', 'byte', 'marks', 'values'], 0);
        $named = isset($told['of']) ? ['name' => $told['of']] : [];
        $worded = isset($told['word']) ? ['word' => $told['word']] : [];
        $at = ['place' => $told['place'], 'position' => $told['position']];
        $fields = match ($this->refusal) {
            'FORM_END', 'FORM_MIXED' => $at,
            'FORM_LENGTH_LEAD', 'FORM_TYPE' => $at + ['byte' => $told['byte']],
            'FORM_REPEATED', 'MISSING' => $at + $worded + ['name' => $told['name']],
            'NOT_ALONE' => $at + $worded,
            'UNBRACKETED' => $named + $at,
            'NAMED_FOR_POSITIONAL' => $worded,
            'MARK_COUNT' => ['marks' => $told['marks'], 'values' => $told['values']],
            'FLOAT', 'UNSTEADY_FRAGMENT' => $named + ['place' => $told['place']],
            'UNSTEADY', 'BACKSLASH' => ['position' => $told['position']],
            'UNPORTABLE' => ['construct' => Construct::from($told['byte']), 'position' => $told['position']],
            'FAULT' => $named + ['place' => $told['place'], 'fault' => Fault::from($told['byte']),
                'row' => $told['position'], 'item' => $told['values']],
            'MIXED', 'POSITIONAL_FOR_NAMED' => [],
        };
        ksort($fields);
        return $fields;
    }

    /** Throws unless a call gives the text, or the refusal. */
    public function judge(callable $call): void
    {
        if ($this->text !== null) {
            same($this->text, $call());
            return;
        }
        $fault = thrown($call);
        same(BindException::class, get_class($fault), $fault->getMessage());
        same(constant(BindException::class . '::' . $this->refusal), $fault->getCode());
        same($this->wanted(), fields($fault));
        same($this->message_told() ?? $fault->getMessage(), $fault->getMessage());
    }

    /** Returns the message, or null if the case has none and it is C's. */
    public function message_told(): ?string
    {
        ['place' => $place, 'position' => $position, 'marks' => $marks, 'values' => $values] = $this->fields + array_fill_keys(['place', 'position', 'marks', 'values'], 0);
        if (isset($this->fields['word'])) {
            return $this->message_of_c();
        }
        $for = isset($this->fields['of']) ? "`:{$this->fields['of']}`" : "place $place";
        $value = isset($this->fields['of']) ? "The value of $for" : "The value for $for";
        return match ($this->refusal) {
            'NAMED_FOR_POSITIONAL' => 'The values have names, and the query has no `:name` outside of strings and comments',
            'POSITIONAL_FOR_NAMED' => "The query has names: give the values by name, as ['id' => 42]",
            'MARK_COUNT' => "The query has $marks of `?` outside of strings and comments, and $values values are given",
            'NOT_ALONE' => $this->touching($position),
            'UNBRACKETED' => $this->unbracketed($position),
            'FLOAT' => "$value is a float that isn't written: give null for NaN and infinities, else a text",
            'FAULT' => $this->faulty($for, $value, $position, $values),
            'UNSTEADY_FRAGMENT' => "$value has a name with a backslash or a letter outside ASCII: bind takes it",
            default => $this->message_of_c(),
        };
    }

    /** Returns what is said of a place of the query that touches its neighbour. */
    private function touching(int $position): string
    {
        $before = $position > 0 ? $this->query[$position - 1] : '';
        preg_match('/\G(\?|:[A-Za-z0-9_]*)(.?)/s', $this->query, $found, 0, $position);
        $touched = $before === '' || str_contains("\t\n\v\f\r (,=<>+-*/%&|^~", $before) ? $found[2] : $before;
        $shown = preg_replace_callback('/[^ -~]|["\\\\]/s', fn ($byte) => '\\x' . bin2hex($byte[0]), $touched);
        $to_do = $touched === '.' ? 'for a name with a point write one place, and give an Identifier of two names' : 'put a space between';
        return "`$found[1]` at byte $position touches `$shown`: $to_do";
    }

    /** Returns what is said of a place that is one value, and was given a list. */
    private function unbracketed(int $position): string
    {
        [$place, $at] = isset($this->fields['of']) ? [":{$this->fields['of']}", ''] : ['?', " at byte $position"];
        return "`$place`$at is one value here, and was given a list: write it alone in brackets, as `IN ($place)`, or give new In([..])";
    }

    /** Returns what is said of a list, rows, an exact number, a name or a keyword. */
    private function faulty(string $for, string $value, int $row, int $item): string
    {
        $digits = 'is no exact number: at most one `-`, then at most 65 digits, with at most one point between';
        return match (Fault::from($this->fields['byte'])) {
            Fault::Empty => "The list for $for is empty",
            Fault::EmptyRow => "Row $row for $for is empty",
            Fault::RowLength => "Row $row for $for is not as long as the first",
            Fault::Number => ($row + $item === 0 ? "The Decimal for $for" : "Item $item of row $row for $for") . " $digits",
            Fault::EmptyName => "Name $item for $for is empty",
            Fault::ZeroByte => "Name $item for $for has a byte 0",
            Fault::LongName => "Name $item for $for has more than 64 characters",
            Fault::TrailingSpace => "Name $item for $for ends in a space",
            Fault::Backslash => "Name $item for $for has a backslash before a backquote or at its end",
            Fault::Keyword => "$value is none of the keywords that the class Keyword lists: for another word choose among queries",
        };
    }

    /** Returns the message of C, or null if the case has none: it ends before the name of a place, which is a field. */
    public function message_of_c(): ?string
    {
        return $this->message_in_c ?? ($this->message === null ? null : explode(': the value of `', $this->message)[0]);
    }
}

/** Returns the cases of one file. */
function cases_of(string $path): array
{
    $cases = [];
    foreach (explode("\n\n", file_get_contents($path)) as $part) {
        $lines = array_values(array_filter(explode("\n", $part), fn ($line) => $line !== '' && $line[0] !== '#'));
        if ($lines) {
            $cases[] = new Case_($lines);
        }
    }
    holds($cases !== [], "$path has a case");
    return $cases;
}

/** Judges each case of a file, and of the file of its name in `wide`, by one test. */
function each_case(string $file, callable $judge): void
{
    test("cases of $file", function () use ($file, $judge) {
        $wide = CASES . "/wide/$file";
        $cases = array_merge(cases_of(CASES . "/$file"), file_exists($wide) ? cases_of($wide) : []);
        foreach ($cases as $case) {
            try {
                $judge($case);
            } catch (\Exception $fault) {
                throw new \Exception(implode("\n", $case->lines) . "\n" . $fault->getMessage());
            }
        }
    });
}

each_case('bind.txt', function (Case_ $case) {
    $case->judge(fn () => \MysqlParams\bind($case->query, $case->params, $case->mode));
    $case->judge(fn () => (new Template($case->query, $case->mode))->bind($case->params));
});

// A parameter as a reference, and an array that another variable holds too, are bound alike.
each_case('bind.txt', function (Case_ $case) {
    $params = $case->params;
    foreach ($params as &$value) {
        $held = &$value;
    }
    $case->judge(fn () => \MysqlParams\bind($case->query, $params, $case->mode));
});

each_case('fragments.txt', function (Case_ $case) {
    $case->judge(fn () => \MysqlParams\bind($case->query, $case->params, $case->mode));
    $case->judge(fn () => (new Template($case->query, $case->mode))->bind($case->params));
});

each_case('fragments_anywhere.txt', function (Case_ $case) {
    $case->judge(fn () => \MysqlParams\bind_anywhere($case->query, $case->params));
});

each_case('anywhere.txt', function (Case_ $case) {
    $case->judge(fn () => $case->form === null
        ? \MysqlParams\bind_anywhere($case->query, $case->params)
        : \MysqlParams\bind_form_anywhere($case->query, $case->form));
});

each_case('both_modes.txt', function (Case_ $case) {
    $case->judge(fn () => $case->form === null
        ? \MysqlParams\bind_in_both_modes($case->query, $case->params)
        : \MysqlParams\bind_form_in_both_modes($case->query, $case->form));
});

each_case('forms.txt', function (Case_ $case) {
    $case->judge(fn () => \MysqlParams\bind_form($case->query, $case->form ?? '', $case->mode));
    $case->judge(fn () => (new Template($case->query, $case->mode))->bindForm($case->form ?? ''));
});

/** Throws unless rows give the texts of a case, or its refusal with the texts before it. */
function judge_rows(Case_ $case, callable $call): void
{
    if ($case->refusal === null) {
        same($case->texts, $call());
        return;
    }
    $fault = thrown($call);
    $fields = fields($fault);
    same($case->texts, $fault->texts());
    same(count($case->texts), $fault->row);
    unset($fields['texts'], $fields['row']);
    same($case->wanted(), $fields);
    same(constant(BindException::class . '::' . $case->refusal), $fault->getCode());
    $message = $case->message_told();
    same($message === null ? $fault->getMessage() : "row $fault->row: $message", $fault->getMessage());
}

each_case('rows.txt', function (Case_ $case) {
    judge_rows($case, fn () => \MysqlParams\bind_rows($case->query, $case->rows, $case->mode));
    judge_rows($case, fn () => \MysqlParams\bind_rows($case->query, new \ArrayIterator($case->rows), $case->mode));
    judge_rows($case, fn () => \MysqlParams\bind_rows($case->query, (fn () => yield from $case->rows)(), $case->mode));
    judge_rows($case, fn () => (new Template($case->query, $case->mode))->bindRows($case->rows));
});

each_case('names.txt', function (Case_ $case) {
    if ($case->renamed === null) {
        $case->judge(fn () => \MysqlParams\names($case->query, $case->mode));
        return;
    }
    $found = \MysqlParams\names($case->query, $case->mode);
    same([$case->renamed, $case->names], [$found->query, $found->names]);
});

/** Throws unless a query has the construct of a case, or none. */
function judge_construct(Case_ $case, ?Unportable $found): void
{
    if ($case->portable) {
        same(null, $found);
        return;
    }
    $name = str_replace('_', '', ucwords(strtolower($case->construct), '_'));
    same([$name, $case->fields['position']], [$found?->construct->name, $found?->position]);
    same($case->message ?? $found->construct->message(), $found->construct->message());
}

each_case('portable.txt', fn (Case_ $case) => judge_construct($case, \MysqlParams\first_unportable($case->query, $case->mode)));

each_case('in_client.txt', fn (Case_ $case) => judge_construct($case, \MysqlParams\first_unportable_in_client($case->query, $case->mode)));

test('each file of cases has a test', function () {
    $files = array_map(basename(...), glob(CASES . '/*.txt'));
    $source = file_get_contents(__FILE__);
    foreach ($files as $file) {
        holds(str_contains($source, "each_case('$file'"), $file);
    }
    holds(count($files) >= 10);
});

finish();
