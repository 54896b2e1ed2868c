/* The reader of bindings/cases. */
#include "cases.h"

#include <inttypes.h>
#include <stdio.h>
#include <stdlib.h>
#include <string.h>

static const char *file_name;
static int line_number;

static void stop(const char *what)
{
    fprintf(stderr, "%s:%d: %s\n", file_name, line_number, what);
    exit(2);
}

void append_bytes(bytes *to, const void *from, size_t len)
{
    to->at = realloc(to->at, to->len + len + 1);
    if (to->at == NULL)
        stop("out of memory");
    if (len > 0)
        memcpy(to->at + to->len, from, len);
    to->len += len;
    to->at[to->len] = 0;
}

void append_string(bytes *to, const void *from, size_t len)
{
    uint8_t lead[4] = {(uint8_t)len};
    size_t count = 1;
    if (len >= 251) {
        count = len < 65536 ? 3 : 4;
        lead[0] = len < 65536 ? 0xFC : 0xFD;
        lead[1] = (uint8_t)len;
        lead[2] = (uint8_t)(len >> 8);
        lead[3] = (uint8_t)(len >> 16);
    }
    append_bytes(to, lead, count);
    append_bytes(to, from, len);
}

void clear_bytes(bytes *it)
{
    free(it->at);
    it->at = NULL;
    it->len = 0;
}

/* The byte that two hexadecimal digits say. */
static uint8_t hexadecimal(const char *digits)
{
    unsigned byte = 0;
    if (sscanf(digits, "%2x", &byte) != 1)
        stop("two hexadecimal digits are wanted");
    return (uint8_t)byte;
}

/* Appends the bytes of a text, which ends at a zero byte: pairs of digits within { }, or bytes as they stand. */
static void append_text(bytes *to, const char *text)
{
    bool within = false;
    append_bytes(to, "", 0);
    while (*text != '\0') {
        uint8_t byte = (uint8_t)*text;
        if (byte == '{' || byte == '}') {
            within = byte == '{';
            text++;
        } else if (within) {
            byte = hexadecimal(text);
            append_bytes(to, &byte, 1);
            text += 2;
        } else {
            append_bytes(to, &byte, 1);
            text++;
        }
    }
}

/* Appends the bytes of pairs of digits with spaces anywhere. */
static void append_digits(bytes *to, const char *text)
{
    for (; *text != '\0'; text++) {
        if (*text == ' ')
            continue;
        uint8_t byte = hexadecimal(text);
        append_bytes(to, &byte, 1);
        text++;
    }
}

static bool begins(const char *text, const char *beginning)
{
    return strncmp(text, beginning, strlen(beginning)) == 0;
}

static bool append_date(mysql_params_form *form, const char *name, const char *value)
{
    mysql_params_date date = {0};
    if (sscanf(value, "date:%" SCNu16 " %" SCNu8 " %" SCNu8 " %" SCNu8 " %" SCNu8 " %" SCNu8 " %" SCNu32,
               &date.year, &date.month, &date.day, &date.hour, &date.minute, &date.second, &date.microsecond) != 7)
        stop("seven fields are wanted");
    return mysql_params_append_date(form, name, date);
}

static bool append_time(mysql_params_form *form, const char *name, const char *value)
{
    char sign = 0;
    mysql_params_time time = {0};
    if (sscanf(value, "time:%c %" SCNu32 " %" SCNu8 " %" SCNu8 " %" SCNu8 " %" SCNu32,
               &sign, &time.days, &time.hours, &time.minutes, &time.seconds, &time.microseconds) != 6)
        stop("a sign and five fields are wanted");
    time.negative = sign == '-';
    return mysql_params_append_time(form, name, time);
}

static bool append_value(mysql_params_form *form, const char *name, const char *value);

/* Appends the items that stand between `|`; none of no text. It cuts the text. */
static void append_items(mysql_params_form *form, char *items)
{
    while (items != NULL && *items != '\0') {
        char *next = strchr(items, '|');
        if (next != NULL)
            *next++ = '\0';
        append_value(form, NULL, items);
        items = next;
    }
}

/* Cuts a text at its first `||`. Returns what stands behind that, or null if there is none. */
static char *cut_at_bars(char *text)
{
    char *next = strstr(text, "||");
    if (next == NULL)
        return NULL;
    *next = '\0';
    return next + 2;
}

/* Types of the form that C has no function for, since whoever calls one says what is a list. */
enum { IMPLICIT_LIST = 136, IMPLICIT_ROWS = 137 };

/* Makes the list or the rows that begin with the last bytes of the form implicit: a type, flags and the count. */
static void make_implicit(mysql_params_form *form, uint8_t type)
{
    form->room[form->needed - 6] = type;
}

/* Appends the rows that stand between `||`. It cuts the text. */
static bool append_rows(mysql_params_form *form, const char *name, char *rows, bool implicit)
{
    if (!mysql_params_begin_rows(form, name))
        return false;
    if (implicit)
        make_implicit(form, IMPLICIT_ROWS);
    while (rows != NULL) {
        char *next = cut_at_bars(rows);
        mysql_params_begin_row(form);
        append_items(form, rows);
        mysql_params_end_row(form);
        rows = next;
    }
    return mysql_params_end_rows(form);
}

/* Names that stand between `|`. */
enum { MOST_NAMES = 4 };

typedef struct names {
    bytes text; /* all, with a zero byte after each */
    const char *at[MOST_NAMES];
    uint32_t count;
} names;

/* Takes the names of a text apart. Let go of the memory of their text. */
static names read_names(const char *value)
{
    names them = {{NULL, 0}, {NULL}, 0};
    append_text(&them.text, value);
    for (char *name = (char *)them.text.at; name != NULL;) {
        char *next = strchr(name, '|');
        if (next != NULL)
            *next++ = '\0';
        if (them.count == MOST_NAMES)
            stop("so many names are too many");
        them.at[them.count++] = name;
        name = next;
    }
    return them;
}

/* Appends a qualified identifier. */
static bool append_qualified(mysql_params_form *form, const char *name, const char *value)
{
    names them = read_names(value);
    bool fits = mysql_params_append_qualified(form, name, them.at, them.count);
    clear_bytes(&them.text);
    return fits;
}

/* Appends the identifiers that stand between `||`; none of no text. It cuts the text. */
static bool append_identifiers(mysql_params_form *form, const char *name, char *identifiers)
{
    mysql_params_begin_identifiers(form, name);
    for (char *one = *identifiers == '\0' ? NULL : identifiers; one != NULL;) {
        char *next = cut_at_bars(one);
        names them = read_names(one);
        if (them.count == 1)
            mysql_params_append_identifier(form, NULL, them.at[0]);
        else
            mysql_params_append_qualified(form, NULL, them.at, them.count);
        clear_bytes(&them.text);
        one = next;
    }
    return mysql_params_end_identifiers(form);
}

/* Appends the assignments that stand between `||`, each a column, `=` and an item; none of no text. It cuts the text. */
static bool append_assignments(mysql_params_form *form, const char *name, char *assignments)
{
    mysql_params_begin_assignments(form, name);
    for (char *one = *assignments == '\0' ? NULL : assignments; one != NULL;) {
        char *next = cut_at_bars(one), *item = strchr(one, '=');
        if (item == NULL)
            stop("an assignment without =");
        *item++ = '\0';
        names them = read_names(one);
        if (them.count > 1)
            mysql_params_begin_assignment(form, them.at, them.count);
        append_value(form, them.at[0], item);
        clear_bytes(&them.text);
        one = next;
    }
    return mysql_params_end_assignments(form);
}

/* Appends an identifier or a keyword. */
static bool append_word(mysql_params_form *form, const char *name, const char *value, bool is_keyword)
{
    bytes text = {NULL, 0};
    append_text(&text, value);
    const char *word = (const char *)text.at;
    bool fits = is_keyword ? mysql_params_append_keyword(form, name, word) :
                             mysql_params_append_identifier(form, name, word);
    clear_bytes(&text);
    return fits;
}

/* Appends a list. It cuts the text of the items. */
static bool append_list(mysql_params_form *form, const char *name, char *items, bool implicit)
{
    if (!mysql_params_begin_list(form, name))
        return false;
    if (implicit)
        make_implicit(form, IMPLICIT_LIST);
    append_items(form, items);
    return mysql_params_end_list(form);
}

/* Appends what isn't one value to the form. */
static bool append_fragment(mysql_params_form *form, const char *name, const char *value)
{
    char copy[512];
    snprintf(copy, sizeof copy, "%s", strchr(value, ':') + 1);
    bool implicit = begins(value, "implicit_");
    if (begins(value, "list:") || begins(value, "implicit_list:"))
        return append_list(form, name, copy, implicit);
    if (begins(value, "rows:") || begins(value, "implicit_rows:"))
        return append_rows(form, name, copy, implicit);
    if (begins(value, "qualified:"))
        return append_qualified(form, name, copy);
    if (begins(value, "identifiers:"))
        return append_identifiers(form, name, copy);
    if (begins(value, "assignments:"))
        return append_assignments(form, name, copy);
    return append_word(form, name, copy, begins(value, "keyword:"));
}

static bool append_value(mysql_params_form *form, const char *name, const char *value)
{
    static const char *const fragments[] = {"list:", "rows:", "implicit_list:", "implicit_rows:", "identifier:",
                                            "qualified:", "keyword:", "identifiers:", "assignments:"};
    for (size_t i = 0; i < sizeof fragments / sizeof fragments[0]; i++)
        if (begins(value, fragments[i]))
            return append_fragment(form, name, value);
    if (begins(value, "d:"))
        return mysql_params_append_decimal(form, name, value + 2);
    if (strcmp(value, "null") == 0)
        return mysql_params_append_null(form, name);
    if (begins(value, "i:"))
        return mysql_params_append_int(form, name, strtoll(value + 2, NULL, 10));
    if (begins(value, "u:"))
        return mysql_params_append_uint(form, name, strtoull(value + 2, NULL, 10));
    if (begins(value, "float:"))
        return mysql_params_append_float(form, name, strtof(value + 6, NULL));
    if (begins(value, "double:"))
        return mysql_params_append_double(form, name, strtod(value + 7, NULL));
    if (begins(value, "date:"))
        return append_date(form, name, value);
    if (begins(value, "time:"))
        return append_time(form, name, value);
    if (!begins(value, "s:"))
        stop("this value is not known");
    bytes text = {NULL, 0};
    append_text(&text, value + 2);
    bool fits = mysql_params_append_bytes(form, name, text.at, text.len);
    clear_bytes(&text);
    return fits;
}

/* Appends a parameter NAME=VALUE to the form, by the functions that are under test too. */
static void append_param(bytes *to, char *param)
{
    uint8_t room[512];
    mysql_params_form form = mysql_params_form_in(room, sizeof room);
    char *value = strchr(param, '=');
    if (value == NULL)
        stop("a parameter without =");
    *value = '\0';
    if (!append_value(&form, param, value + 1))
        stop("the parameter is too long for the room of this test");
    append_bytes(to, form.room, form.len);
}

/* Names of the numbers, as in enum mysql_params_number. */
static const char *const NUMBERS[] = {
    "DONE", "OUT_OF_MEMORY", "ROOM", "FORM_END", "FORM_LENGTH_LEAD", "FORM_TYPE", "FORM_MIXED", "FORM_REPEATED", "MIXED",
    "MISSING", "NAMED_FOR_POSITIONAL", "POSITIONAL_FOR_NAMED", "MARK_COUNT", "NOT_ALONE", "FLOAT",
    "UNSTEADY", "UNPORTABLE", "FAULT", "BACKSLASH", "UNSTEADY_FRAGMENT", "OTHER_TABLE", "UNBRACKETED"};

/* The number of a name: its index in the names, from first to last. */
static int32_t index_of(const char *name, const char *const *names, int32_t first, int32_t last)
{
    for (int32_t number = first; number <= last; number++)
        if (strcmp(names[number], name) == 0)
            return number;
    stop("this name is not known");
    return -1;
}

static int32_t number_of(const char *name)
{
    return index_of(name, NUMBERS, 0, MYSQL_PARAMS_UNBRACKETED);
}

/* Reads one FIELD=VALUE of a refusal or a construct. What Rust and Python tell alone is read over. */
static void read_field(test_case *it, char *field)
{
    char *value = strchr(field, '=');
    if (value == NULL)
        stop("a field without =");
    *value++ = '\0';
    size_t number = strtoull(value, NULL, 10);
    if (strcmp(field, "name") == 0) {
        append_text(&it->name, value);
        it->report.len = it->name.len;
    } else if (strcmp(field, "place") == 0)
        it->report.place = number;
    else if (strcmp(field, "position") == 0)
        it->report.position = number;
    else if (strcmp(field, "marks") == 0)
        it->report.marks = number;
    else if (strcmp(field, "values") == 0)
        it->report.values = number;
    else if (strcmp(field, "byte") == 0)
        it->report.byte = number;
    else if (strcmp(field, "word") != 0 && strcmp(field, "of") != 0)
        stop("this field is not known");
}

/* Names of the constructs, as in enum mysql_params_construct. */
static const char *const CONSTRUCTS[] = {
    "PORTABLE", "EXECUTABLE_COMMENT", "HINT", "MARIADB_COMMENT", "DASHES", "ESCAPED_QUOTE", "BRACKET", "DOLLAR_QUOTE",
    "DASHES_AFTER_EXPONENT", "PLACE_AFTER_EXPONENT", "OPENER_IN_COMMENT", "JOINING_COMMENT", "DASHES_BEFORE_COMMENT",
    "CLIENT_COMMAND", "DASH_IN_FRONT", "DELIMITER", "CLIENT_WORD", "ESCAPED_NEWLINE", "ZERO_BYTE", "ESCAPED_BACKQUOTE",
    "RETURN_IN_COMMENT"};

static int32_t construct_of(const char *name)
{
    return index_of(name, CONSTRUCTS, 1, MYSQL_PARAMS_RETURN_IN_COMMENT);
}

/* Reads a name, which the function knows, and the fields after it. */
static void read_named(test_case *it, char *text, int32_t (*known)(const char *))
{
    char *word = strtok(text, " ");
    it->number = known(word == NULL ? "" : word);
    while ((word = strtok(NULL, " ")) != NULL)
        read_field(it, word);
}

/* Appends the form of the last row to those of all rows. */
static void end_row(test_case *it)
{
    if (it->rows == 0)
        return;
    append_string(&it->forms, it->form.at, it->form.len);
    clear_bytes(&it->form);
}

/* Sets how many bytes of the forms the rows take that have a text. */
static void set_read(test_case *it)
{
    const uint8_t *rest = it->forms.at;
    size_t left = it->forms.len;
    mysql_params_string form;
    for (size_t row = 0; row < it->texts; row++)
        if (!mysql_params_next_string(&rest, &left, &form))
            stop("a text without a row");
    it->read = it->forms.len - left;
}

/* Reads a line of a case: its first word, and the text after one space. */
static void read_line(test_case *it, const char *word, char *text)
{
    bytes whole = {NULL, 0};
    if (strcmp(word, "query") == 0)
        append_text(&it->query, text);
    else if (strcmp(word, "param") == 0)
        append_param(&it->form, text);
    else if (strcmp(word, "row") == 0) {
        end_row(it);
        it->rows++;
    } else if (strcmp(word, "text") == 0 && it->rows > 0) {
        append_text(&whole, text);
        append_string(&it->answer, whole.at, whole.len);
        it->texts++;
    } else if (strcmp(word, "form") == 0)
        append_digits(&it->form, text);
    else if (strcmp(word, "no_backslash_escape") == 0)
        it->no_backslash_escape = true;
    else if (strcmp(word, "text") == 0)
        append_text(&it->answer, text);
    else if (strcmp(word, "renamed") == 0 || strcmp(word, "name") == 0) {
        append_text(&whole, text);
        append_string(&it->answer, whole.at, whole.len);
    } else if (strcmp(word, "message") == 0)
        append_text(&it->message, text);
    else if (strcmp(word, "message_in_c") == 0) {
        clear_bytes(&it->message);
        append_text(&it->message, text);
    } else if (strcmp(word, "refused") == 0)
        read_named(it, text, number_of);
    else if (strcmp(word, "unportable") == 0)
        read_named(it, text, construct_of);
    else if (strcmp(word, "portable") == 0)
        it->portable = true;
    else
        stop("this word is not known");
    clear_bytes(&whole);
}

/* Hands a case on and lets go of its memory. */
static void end_case(test_case *it, void (*use)(const test_case *))
{
    end_row(it);
    set_read(it);
    append_bytes(&it->query, "", 0);
    append_bytes(&it->form, "", 0);
    append_bytes(&it->forms, "", 0);
    append_bytes(&it->answer, "", 0);
    if (it->number == MYSQL_PARAMS_DONE)
        it->report.len = it->answer.len;
    use(it);
    clear_bytes(&it->query);
    clear_bytes(&it->form);
    clear_bytes(&it->forms);
    clear_bytes(&it->answer);
    clear_bytes(&it->name);
    clear_bytes(&it->message);
    *it = (test_case){0};
}

int each_case(const char *folder, const char *file, void (*use)(const test_case *))
{
    char path[1024], line[1024];
    test_case it = {0};
    int cases = 0;
    snprintf(path, sizeof path, "%s/%s", folder, file);
    file_name = path;
    line_number = 0;
    FILE *stream = fopen(path, "rb");
    if (stream == NULL)
        stop("the file can't be opened");
    while (fgets(line, sizeof line, stream) != NULL) {
        line_number++;
        line[strcspn(line, "\n")] = '\0';
        if (line[0] == '\0' && it.line != 0) {
            end_case(&it, use);
            cases++;
        }
        if (line[0] == '\0' || line[0] == '#')
            continue;
        if (it.line == 0)
            it.line = line_number;
        char *text = line + strcspn(line, " ");
        if (*text != '\0')
            *text++ = '\0';
        read_line(&it, line, text);
    }
    fclose(stream);
    if (it.line != 0) {
        end_case(&it, use);
        cases++;
    }
    if (cases == 0)
        stop("there is no case");
    return cases;
}
