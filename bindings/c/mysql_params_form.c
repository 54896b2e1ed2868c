/* The flat form written, a text in memory of malloc, answers taken apart, refusals and constructs told, the processor asked: see
 * mysql_params_form.h. It is C and C++. */
#include "mysql_params_form.h"

#include <stdarg.h>
#include <stdio.h>
#include <stdlib.h>
#include <string.h>
#if defined(__x86_64__) && defined(__GNUC__)
#include <cpuid.h>
#endif

/* Numbers of column types in the protocol. */
enum {
    TYPE_FLOAT = 4,
    TYPE_DOUBLE = 5,
    TYPE_NULL = 6,
    TYPE_LONGLONG = 8,
    TYPE_TIME = 11,
    TYPE_DATETIME = 12,
    TYPE_VAR_STRING = 253
};

/* Numbers of the types that the calls that bind fragments alone take. */
enum {
    TYPE_NUMBER = 128,
    TYPE_LIST = 129,
    TYPE_ROWS = 130,
    TYPE_IDENTIFIER = 131,
    TYPE_QUALIFIED = 132,
    TYPE_KEYWORD = 133,
    TYPE_IDENTIFIERS = 134,
    TYPE_ASSIGNMENTS = 135
};

/* Where the next part of a form stands. */
enum {
    OUTSIDE,        /* in no list and no rows */
    IN_LIST,        /* in a list */
    IN_ROWS,        /* in rows, and in no row of them */
    IN_ROW,         /* in a row */
    IN_IDENTIFIERS, /* in identifiers */
    IN_ASSIGNMENTS, /* in assignments, where a column is next */
    AT_ITEM,        /* behind the column of an assignment, where its item is next */
    AMONG_FORMS     /* behind a row that mysql_params_append_row has appended */
};

/* Bit of the flags that says unsigned. */
enum { FLAG_UNSIGNED = 128 };

/* The longest length, FE and 8 bytes. */
enum { LENGTH_ROOM = 9 };

/* A count. */
enum { COUNT_ROOM = 4 };

/* The longest value but a string: a length byte and the 12 bytes of a time. */
enum { VALUE_ROOM = 13 };

mysql_params_form mysql_params_form_in(uint8_t *room, size_t room_len)
{
    /* Lent if no memory is given, since mysql_params_bind takes no null. Its length is 0, so it is never written. */
    static uint8_t nothing;
    mysql_params_form form = {room == NULL ? &nothing : room, room == NULL ? 0 : room_len, 0, 0, false, 0, 0, 0, 0, 0, OUTSIDE};
    return form;
}

mysql_params_form mysql_params_form_growing(void)
{
    mysql_params_form form = mysql_params_form_in(NULL, 0);
    form.grows = true;
    return form;
}

void mysql_params_form_free(mysql_params_form *form)
{
    if (!form->grows)
        return;
    if (form->room_len > 0)
        free(form->room);
    *form = mysql_params_form_growing();
}

/* Writes the number into `count` bytes, least byte first. */
static void fill_number(uint8_t *bytes, size_t count, uint64_t number)
{
    for (size_t i = 0; i < count; i++)
        bytes[i] = (uint8_t)(number >> (8 * i));
}

/* Writes the shortest form of a length, and returns how many bytes it has. */
static size_t fill_length(uint8_t bytes[LENGTH_ROOM], uint64_t length)
{
    if (length < 251) {
        bytes[0] = (uint8_t)length;
        return 1;
    }
    size_t count = length < 65536 ? 2 : length < 16777216 ? 3 : 8;
    bytes[0] = count == 2 ? 0xFC : count == 3 ? 0xFD : 0xFE;
    fill_number(bytes + 1, count, length);
    return 1 + count;
}

/* The sum, or SIZE_MAX if that is too much to count. */
static size_t sum(size_t a, size_t b)
{
    return a > SIZE_MAX - b ? SIZE_MAX : a + b;
}

/* Makes room for so many bytes more in a form that grows, if there is memory. */
static void grow(mysql_params_form *form, size_t more)
{
    size_t wanted = sum(form->written, more);
    size_t twice = sum(form->room_len, form->room_len);
    if (wanted < twice)
        wanted = twice;
    void *room = wanted > PTRDIFF_MAX ? NULL : realloc(form->room_len > 0 ? form->room : NULL, wanted);
    if (room == NULL)
        return;
    form->room = (uint8_t *)room;
    form->room_len = wanted;
}

/* Whether all that was appended stands in the room, and nothing where it can't stand. */
static bool fits(const mysql_params_form *form)
{
    return form->needed == form->written;
}

/* Counts so many bytes more as needed. Returns whether there is room for them, with more memory in a form that grows. */
static bool makes_room(mysql_params_form *form, size_t more)
{
    if (form->grows && fits(form) && more > form->room_len - form->written)
        grow(form, more);
    bool has_room = fits(form) && more <= form->room_len - form->written;
    form->needed = sum(form->needed, more);
    return has_room;
}

/* Appends bytes for which there is room. */
static void append(mysql_params_form *form, const void *bytes, size_t len)
{
    if (len > 0)
        memcpy(form->room + form->written, bytes, len);
    form->written += len;
}

/* Has the form be one to which something was appended where it can't stand, whatever its room. */
static bool append_nothing(mysql_params_form *form)
{
    form->needed = SIZE_MAX;
    return false;
}

/* Counts what was appended to the form, unless it stands in a list or in rows that have no end yet. Returns whether all fits. */
static bool commit(mysql_params_form *form)
{
    if (fits(form) && (form->state == OUTSIDE || form->state == AMONG_FORMS))
        form->len = form->written;
    return fits(form);
}

/* Whether the form is one of parameters, and lacks nothing. */
static bool is_whole(const mysql_params_form *form)
{
    return form->needed == form->len && form->state == OUTSIDE;
}

/* Whether a parameter of a type may stand next. In a list and in a row the archive judges it; an assignment is of a value or
 * an exact number. */
static bool is_taken(const mysql_params_form *form, uint8_t type)
{
    switch (form->state) {
    case OUTSIDE:
    case IN_LIST:
    case IN_ROW:
        return true;
    case IN_ASSIGNMENTS:
    case AT_ITEM:
        return type <= TYPE_NUMBER || type == TYPE_VAR_STRING;
    default:
        return false;
    }
}

/* Counts an item more of what is open. Returns whether the count has a number for it. */
static bool counts_item(mysql_params_form *form)
{
    if (form->state == OUTSIDE)
        return true;
    if (form->items == UINT32_MAX)
        return false;
    form->items++;
    return true;
}

/* Fills in what stands before a parameter's name, and returns how many bytes it has: the name's length, behind the count of
 * the names if it is that of a column. An item has no name. */
static size_t fill_front(const mysql_params_form *form, size_t name_len, uint8_t front[COUNT_ROOM + LENGTH_ROOM])
{
    bool is_column = form->state == IN_ASSIGNMENTS;
    if (form->state != OUTSIDE && !is_column)
        return 0;
    size_t count_len = is_column ? COUNT_ROOM : 0;
    fill_number(front, count_len, 1);
    return count_len + fill_length(front + count_len, name_len);
}

/* Appends a parameter, or the beginning of one: name, type, flags, then `head` and `tail`, which are its value in binary form.
 * An item of a list has no name, and that of an assignment is its column's. */
static void append_beginning(mysql_params_form *form, const char *name, uint8_t type, uint8_t flags,
                             const uint8_t *head, size_t head_len, const void *tail, size_t tail_len)
{
    uint8_t front[COUNT_ROOM + LENGTH_ROOM];
    bool has_name = form->state == OUTSIDE || form->state == IN_ASSIGNMENTS;
    size_t name_len = name == NULL || !has_name ? 0 : strlen(name);
    size_t front_len = fill_front(form, name_len, front);
    if (!is_taken(form, type) || !counts_item(form)) {
        append_nothing(form);
        return;
    }
    if (form->state == AT_ITEM)
        form->state = IN_ASSIGNMENTS;
    if (!makes_room(form, sum(sum(front_len + 2 + head_len, name_len), tail_len)))
        return;
    const uint8_t type_and_flags[2] = {type, flags};
    append(form, front, front_len);
    append(form, name, name_len);
    append(form, type_and_flags, 2);
    append(form, head, head_len);
    append(form, tail, tail_len);
}

/* Appends a whole parameter. */
static bool append_parameter(mysql_params_form *form, const char *name, uint8_t type, uint8_t flags,
                             const uint8_t *head, size_t head_len, const void *tail, size_t tail_len)
{
    append_beginning(form, name, type, flags, head, head_len, tail, tail_len);
    return commit(form);
}

bool mysql_params_append_null(mysql_params_form *form, const char *name)
{
    return append_parameter(form, name, TYPE_NULL, 0, NULL, 0, NULL, 0);
}

bool mysql_params_append_int(mysql_params_form *form, const char *name, int64_t number)
{
    uint8_t value[8];
    fill_number(value, 8, (uint64_t)number);
    return append_parameter(form, name, TYPE_LONGLONG, 0, value, 8, NULL, 0);
}

bool mysql_params_append_uint(mysql_params_form *form, const char *name, uint64_t number)
{
    uint8_t value[8];
    fill_number(value, 8, number);
    return append_parameter(form, name, TYPE_LONGLONG, FLAG_UNSIGNED, value, 8, NULL, 0);
}

bool mysql_params_append_bytes(mysql_params_form *form, const char *name, const void *bytes, size_t len)
{
    uint8_t length[LENGTH_ROOM];
    size_t length_len = fill_length(length, len);
    return append_parameter(form, name, TYPE_VAR_STRING, 0, length, length_len, bytes, len);
}

bool mysql_params_append_text(mysql_params_form *form, const char *name, const char *text)
{
    return mysql_params_append_bytes(form, name, text, strlen(text));
}

/* The 7 bytes of a time of day. */
static void fill_clock(uint8_t *clock, uint8_t hour, uint8_t minute, uint8_t second, uint32_t microsecond)
{
    clock[0] = hour;
    clock[1] = minute;
    clock[2] = second;
    fill_number(clock + 3, 4, microsecond);
}

/* Always the longest form, which says every field. */
bool mysql_params_append_date(mysql_params_form *form, const char *name, mysql_params_date date)
{
    uint8_t value[VALUE_ROOM] = {11};
    fill_number(value + 1, 2, date.year);
    value[3] = date.month;
    value[4] = date.day;
    fill_clock(value + 5, date.hour, date.minute, date.second, date.microsecond);
    return append_parameter(form, name, TYPE_DATETIME, 0, value, 12, NULL, 0);
}

/* Always the longest form, which says every field, the sign of zero too. */
bool mysql_params_append_time(mysql_params_form *form, const char *name, mysql_params_time time)
{
    uint8_t value[VALUE_ROOM] = {12};
    value[1] = time.negative ? 1 : 0;
    fill_number(value + 2, 4, time.days);
    fill_clock(value + 6, time.hours, time.minutes, time.seconds, time.microseconds);
    return append_parameter(form, name, TYPE_TIME, 0, value, 13, NULL, 0);
}

/* Appends a floating-point number whose bits take `size` bytes, 8 at most. */
static bool append_bits(mysql_params_form *form, const char *name, uint8_t type, uint64_t bits, size_t size)
{
    uint8_t value[8];
    fill_number(value, size, bits);
    return append_parameter(form, name, type, 0, value, size, NULL, 0);
}

bool mysql_params_append_double(mysql_params_form *form, const char *name, double number)
{
    uint64_t bits;
    memcpy(&bits, &number, sizeof bits);
    return append_bits(form, name, TYPE_DOUBLE, bits, sizeof bits);
}

bool mysql_params_append_float(mysql_params_form *form, const char *name, float number)
{
    uint32_t bits;
    memcpy(&bits, &number, sizeof bits);
    return append_bits(form, name, TYPE_FLOAT, bits, sizeof bits);
}

/* Appends a parameter whose value is a text that a zero byte ends. */
static bool append_string(mysql_params_form *form, const char *name, uint8_t type, const char *text)
{
    uint8_t length[LENGTH_ROOM];
    size_t length_len = fill_length(length, strlen(text));
    return append_parameter(form, name, type, 0, length, length_len, text, strlen(text));
}

bool mysql_params_append_decimal(mysql_params_form *form, const char *name, const char *digits)
{
    return append_string(form, name, TYPE_NUMBER, digits);
}

/* Appends a count. */
static void append_count(mysql_params_form *form, uint32_t count)
{
    uint8_t number[COUNT_ROOM];
    fill_number(number, COUNT_ROOM, count);
    if (makes_room(form, COUNT_ROOM))
        append(form, number, COUNT_ROOM);
}

/* Appends the count of names, and these. */
static void append_names(mysql_params_form *form, const char *const *names, uint32_t count)
{
    append_count(form, count);
    for (uint32_t i = 0; i < count; i++) {
        uint8_t length[LENGTH_ROOM];
        size_t len = strlen(names[i]);
        size_t length_len = fill_length(length, len);
        if (makes_room(form, sum(length_len, len))) {
            append(form, length, length_len);
            append(form, names[i], len);
        }
    }
}

/* Appends the names of an identifier to identifiers. */
static bool append_to_identifiers(mysql_params_form *form, const char *const *names, uint32_t count)
{
    if (!counts_item(form))
        return append_nothing(form);
    append_names(form, names, count);
    return commit(form);
}

bool mysql_params_append_identifier(mysql_params_form *form, const char *name, const char *identifier)
{
    if (form->state == IN_IDENTIFIERS)
        return append_to_identifiers(form, &identifier, 1);
    return append_string(form, name, TYPE_IDENTIFIER, identifier);
}

bool mysql_params_append_keyword(mysql_params_form *form, const char *name, const char *keyword)
{
    return append_string(form, name, TYPE_KEYWORD, keyword);
}

bool mysql_params_append_qualified(mysql_params_form *form, const char *name, const char *const *identifiers,
                                   uint32_t count)
{
    if (form->state == IN_IDENTIFIERS)
        return append_to_identifiers(form, identifiers, count);
    append_beginning(form, name, TYPE_QUALIFIED, 0, NULL, 0, NULL, 0);
    append_names(form, identifiers, count);
    return commit(form);
}

/* Where the count that was appended last stands, if all fits. */
static size_t count_place(const mysql_params_form *form)
{
    return form->needed - COUNT_ROOM;
}

/* Writes a count into its place, if all fits. */
static void fill_count(mysql_params_form *form, size_t at, uint32_t count)
{
    if (fits(form))
        fill_number(form->room + at, COUNT_ROOM, count);
}

/* Appends the beginning of a parameter of a type, whose count isn't known yet. None stands in another. */
static bool begin(mysql_params_form *form, const char *name, uint8_t type, uint32_t state)
{
    const uint8_t count[COUNT_ROOM] = {0, 0, 0, 0};
    if (form->state != OUTSIDE)
        return append_nothing(form);
    append_beginning(form, name, type, 0, count, COUNT_ROOM, NULL, 0);
    form->state = state;
    return commit(form);
}

/* Begins what holds items. */
static bool begin_list_of(mysql_params_form *form, const char *name, uint8_t type, uint32_t state)
{
    bool begun = begin(form, name, type, state);
    form->list_at = count_place(form);
    form->items = 0;
    return begun;
}

/* Ends what holds items and is open, with what comes after it. */
static bool end_list_of(mysql_params_form *form, uint32_t open, uint32_t next)
{
    if (form->state != open)
        return append_nothing(form);
    fill_count(form, form->list_at, form->items);
    form->state = next;
    return commit(form);
}

bool mysql_params_begin_list(mysql_params_form *form, const char *name)
{
    return begin_list_of(form, name, TYPE_LIST, IN_LIST);
}

bool mysql_params_end_list(mysql_params_form *form)
{
    return end_list_of(form, IN_LIST, OUTSIDE);
}

bool mysql_params_begin_identifiers(mysql_params_form *form, const char *name)
{
    return begin_list_of(form, name, TYPE_IDENTIFIERS, IN_IDENTIFIERS);
}

bool mysql_params_end_identifiers(mysql_params_form *form)
{
    return end_list_of(form, IN_IDENTIFIERS, OUTSIDE);
}

bool mysql_params_begin_assignments(mysql_params_form *form, const char *name)
{
    return begin_list_of(form, name, TYPE_ASSIGNMENTS, IN_ASSIGNMENTS);
}

bool mysql_params_begin_assignment(mysql_params_form *form, const char *const *identifiers, uint32_t count)
{
    if (form->state != IN_ASSIGNMENTS)
        return append_nothing(form);
    form->state = AT_ITEM;
    append_names(form, identifiers, count);
    return commit(form);
}

bool mysql_params_end_assignments(mysql_params_form *form)
{
    return end_list_of(form, IN_ASSIGNMENTS, OUTSIDE);
}

bool mysql_params_begin_rows(mysql_params_form *form, const char *name)
{
    bool begun = begin(form, name, TYPE_ROWS, IN_ROWS);
    form->rows_at = count_place(form);
    form->rows = 0;
    return begun;
}

bool mysql_params_begin_row(mysql_params_form *form)
{
    if (form->state != IN_ROWS || form->rows == UINT32_MAX)
        return append_nothing(form);
    append_count(form, 0);
    form->list_at = count_place(form);
    form->items = 0;
    form->rows++;
    form->state = IN_ROW;
    return commit(form);
}

bool mysql_params_end_row(mysql_params_form *form)
{
    return end_list_of(form, IN_ROW, IN_ROWS);
}

bool mysql_params_end_rows(mysql_params_form *form)
{
    if (form->state != IN_ROWS)
        return append_nothing(form);
    fill_count(form, form->rows_at, form->rows);
    form->state = OUTSIDE;
    return commit(form);
}

bool mysql_params_append_row(mysql_params_form *forms, const mysql_params_form *row)
{
    uint8_t length[LENGTH_ROOM];
    size_t length_len = fill_length(length, row->len);
    bool is_empty = forms->state == OUTSIDE && forms->needed == 0;
    if (!(is_empty || forms->state == AMONG_FORMS) || !is_whole(row))
        return append_nothing(forms);
    forms->state = AMONG_FORMS;
    if (makes_room(forms, sum(length_len, row->len))) {
        append(forms, length, length_len);
        append(forms, row->room, row->len);
    }
    return commit(forms);
}

/* The least memory that texts ask for. */
enum { LEAST_TEXTS = 4096 };

/* Makes room for `more` bytes behind the texts, and at least for twice as many as before. All bytes have a value. */
static bool grow_texts(mysql_params_texts *texts, size_t more)
{
    size_t room_len = sum(texts->len, more);
    if (room_len < LEAST_TEXTS)
        room_len = LEAST_TEXTS;
    if (texts->room_len <= PTRDIFF_MAX / 2 && room_len < 2 * texts->room_len)
        room_len = 2 * texts->room_len;
    if (room_len > PTRDIFF_MAX)
        return false;
    uint8_t *at = (uint8_t *)realloc(texts->at, room_len);
    if (at == NULL)
        return false;
    memset(at + texts->room_len, 0, room_len - texts->room_len);
    texts->at = at;
    texts->room_len = room_len;
    return true;
}

/* The calls that bind rows, by names without capitals and by wide ones. */
typedef int32_t rows_call(const uint8_t *query, size_t query_len, const uint8_t *forms, size_t forms_len,
                          bool no_backslash_escape, uint8_t *room, size_t room_len, mysql_params_rows *rows,
                          mysql_params_report *report);

/* Binds all rows by a call, into memory that grows. */
static int32_t bind_growing(rows_call *bind_rows, const uint8_t *query, size_t query_len, const uint8_t *forms,
                            size_t forms_len, bool no_backslash_escape, mysql_params_texts *texts,
                            mysql_params_rows *rows, mysql_params_report *report)
{
    const mysql_params_report nothing = {0, 0, 0, 0, 0, 0};
    const mysql_params_rows none = {0, 0, 0};
    uint8_t lent = 0; /* where the archive finds a room of no bytes, since it takes no null */
    *rows = none;
    for (;;) {
        mysql_params_rows some = none;
        uint8_t *room = texts->at == NULL ? &lent : texts->at + texts->len;
        int32_t number = bind_rows(query, query_len, forms + rows->read, forms_len - rows->read, no_backslash_escape, room,
                                   texts->room_len - texts->len, &some, report);
        rows->count += some.count;
        rows->read += some.read;
        rows->written += some.written;
        texts->len += some.written;
        if (number == MYSQL_PARAMS_DONE)
            report->len = rows->written;
        if (number != MYSQL_PARAMS_ROOM)
            return number;
        if (!grow_texts(texts, report->len)) {
            *report = nothing;
            return MYSQL_PARAMS_OUT_OF_MEMORY;
        }
    }
}

int32_t mysql_params_bind_all_rows(const uint8_t *query, size_t query_len, const uint8_t *forms, size_t forms_len,
                                   bool no_backslash_escape, mysql_params_texts *texts, mysql_params_rows *rows,
                                   mysql_params_report *report)
{
    return bind_growing(mysql_params_bind_rows, query, query_len, forms, forms_len, no_backslash_escape, texts, rows,
                        report);
}

int32_t mysql_params_bind_all_rows_wide(const uint8_t *query, size_t query_len, const uint8_t *forms, size_t forms_len,
                                        bool no_backslash_escape, mysql_params_texts *texts, mysql_params_rows *rows,
                                        mysql_params_report *report)
{
    return bind_growing(mysql_params_bind_rows_wide, query, query_len, forms, forms_len, no_backslash_escape, texts, rows,
                        report);
}

bool mysql_params_next_string(const uint8_t **answer, size_t *len, mysql_params_string *string)
{
    if (*len == 0)
        return false;
    uint8_t lead = (*answer)[0];
    size_t count = lead < 251 ? 0 : lead == 0xFC ? 2 : lead == 0xFD ? 3 : 8;
    if (lead == 0xFB || lead == 0xFF || *len - 1 < count)
        return false;
    uint64_t length = lead < 251 ? lead : 0;
    for (size_t i = count; i > 0; i--)
        length = length << 8 | (*answer)[i];
    if (length > *len - 1 - count)
        return false;
    string->bytes = *answer + 1 + count;
    string->len = (size_t)length;
    *answer = string->bytes + string->len;
    *len -= 1 + count + string->len;
    return true;
}

/* A line that is being written: if it is full, it is only counted. */
typedef struct line {
    char *bytes;
    size_t room_len;
    size_t len;
    bool wide_names; /* whether names may have capitals */
} line;

static void append_byte(line *to, char byte)
{
    if (to->len + 1 < to->room_len)
        to->bytes[to->len] = byte;
    to->len++;
}

/* Appends a short text, as printf gives it. */
#ifdef __GNUC__
__attribute__((format(printf, 2, 3)))
#endif
static void append_text(line *to, const char *format, ...)
{
    char text[160];
    va_list words;
    va_start(words, format);
    vsnprintf(text, sizeof text, format, words);
    va_end(words);
    for (const char *byte = text; *byte != '\0'; byte++)
        append_byte(to, *byte);
}

/* Appends bytes as messages show them: one that is not printable ASCII, `"` and `\` as `\x` and two digits. */
static void append_shown(line *to, const uint8_t *bytes, size_t len)
{
    for (size_t i = 0; i < len; i++) {
        uint8_t byte = bytes[i];
        if (byte < 32 || byte > 126 || byte == '"' || byte == '\\')
            append_text(to, "\\x%02x", (unsigned)byte);
        else
            append_byte(to, (char)byte);
    }
}

/* Appends the name that a report tells, if it stands in the source. */
static void append_name(line *to, const mysql_params_report *report, const uint8_t *source, size_t source_len)
{
    if (report->position <= source_len && report->len <= source_len - report->position)
        append_shown(to, source + report->position, report->len);
}

/* Returns whether a byte is one of those that names are of. */
static bool is_of_names(const line *to, uint8_t byte)
{
    return (byte >= 'a' && byte <= 'z') || (byte >= '0' && byte <= '9') || byte == '_' ||
           (to->wide_names && byte >= 'A' && byte <= 'Z');
}

/* Returns whether a byte is of a letter that no name has: outside ASCII, or a capital unless names may have some. */
static bool is_other_letter(const line *to, uint8_t byte)
{
    return byte >= 128 || (!to->wide_names && byte >= 'A' && byte <= 'Z');
}

/* Appends what names are of, if a letter that none has stands directly after the name that begins at a byte. */
static void append_alphabet(line *to, const uint8_t *query, size_t query_len, size_t begin)
{
    size_t name_end = begin;
    while (name_end < query_len && is_of_names(to, query[name_end]))
        name_end++;
    size_t word_end = name_end;
    while (word_end < query_len && (is_of_names(to, query[word_end]) || is_other_letter(to, query[word_end])))
        word_end++;
    if (word_end == name_end)
        return;
    append_text(to, ": names are of %s and _, so `:", to->wide_names ? "ASCII letters, digits" : "a to z, 0 to 9");
    append_shown(to, query + begin, word_end - begin);
    append_text(to, name_end == begin ? "` is none" : "` ends after `");
    append_shown(to, query + begin, name_end - begin);
    if (name_end > begin)
        append_byte(to, '`');
}

/* Returns where the place at a byte of the query ends. */
static size_t place_end(const line *to, const uint8_t *query, size_t query_len, size_t at)
{
    size_t end = at + 1;
    while (query[at] == ':' && end < query_len && is_of_names(to, query[end]))
        end++;
    return end;
}

/* Returns whether a point stands directly before or after the place at a byte of the query, as in `b.:c`. */
static bool is_beside_point(const line *to, const uint8_t *query, size_t query_len, size_t at)
{
    size_t end = place_end(to, query, query_len, at);
    return (at > 0 && query[at - 1] == '.') || (end < query_len && query[end] == '.');
}

/* Appends what may be why the place at a byte of the query doesn't stand alone. */
static void append_neighbour(line *to, const uint8_t *query, size_t query_len, size_t at)
{
    size_t before = to->len;
    if (query[at] == ':')
        append_alphabet(to, query, query_len, at + 1);
    if (to->len == before && is_beside_point(to, query, query_len, at))
        append_text(to, ": for a name with a point write one place, and give an identifier of two names");
}

/* Appends what may be why the query is refused, as what names are of. */
static void append_hint(line *to, int32_t number, const mysql_params_report *report,
                        const uint8_t *query, size_t query_len)
{
    size_t at = report->position;
    if (number == MYSQL_PARAMS_MISSING) {
        append_alphabet(to, query, query_len, at);
    } else if (number == MYSQL_PARAMS_NOT_ALONE && at < query_len) {
        append_neighbour(to, query, query_len, at);
    } else if (number == MYSQL_PARAMS_NAMED_FOR_POSITIONAL) {
        for (at = 1; at < query_len; at++)
            if (query[at - 1] == ':' && is_other_letter(to, query[at])) {
                append_alphabet(to, query, query_len, at);
                return;
            }
    }
}

/* Returns the message of a number that has no field, or null for any other. */
static const char *fixed_message(int32_t number)
{
    switch (number) {
    case MYSQL_PARAMS_OUT_OF_MEMORY:
        return "out of memory";
    case MYSQL_PARAMS_MIXED:
        return "Named and positional params in one query";
    case MYSQL_PARAMS_OTHER_TABLE:
        return "The table is that of another query";
    case MYSQL_PARAMS_NAMED_FOR_POSITIONAL:
        return "Named params given where positional params are expected";
    case MYSQL_PARAMS_POSITIONAL_FOR_NAMED:
        return "Positional params given where named params are expected";
    default:
        return NULL;
    }
}

/* Returns what is wrong with a parameter of the form, or null if the number says something else. */
static const char *fault_of_form(int32_t number)
{
    switch (number) {
    case MYSQL_PARAMS_FORM_END:
        return "Unexpected end of buffer";
    case MYSQL_PARAMS_FORM_LENGTH_LEAD:
        return "Bad length lead";
    case MYSQL_PARAMS_FORM_TYPE:
        return "Unsupported column type";
    case MYSQL_PARAMS_FORM_MIXED:
        return "Named and positional params in one form";
    default:
        return NULL;
    }
}

/* Appends the message of a number that tells a name. */
static void append_of_name(line *to, int32_t number, const mysql_params_report *report,
                           const uint8_t *source, size_t source_len)
{
    bool missing = number == MYSQL_PARAMS_MISSING;
    append_text(to, "%s named parameter `", missing ? "Missing" : "Redefinition of");
    append_name(to, report, source, source_len);
    append_text(to, "%s", missing ? "` for statement" : "'");
}

/* Appends the message of a number whose fields are numbers. */
static void append_of_numbers(line *to, int32_t number, const mysql_params_report *report)
{
    switch (number) {
    case MYSQL_PARAMS_DONE:
        append_text(to, "done: %zu bytes", report->len);
        return;
    case MYSQL_PARAMS_ROOM:
        append_text(to, "The answer needs room for %zu bytes", report->len);
        return;
    case MYSQL_PARAMS_MARK_COUNT:
        append_text(to, "Query has %zu marks and %zu values", report->marks, report->values);
        return;
    case MYSQL_PARAMS_NOT_ALONE:
        append_text(to, "Place %zu at byte %zu does not stand alone", report->place, report->position);
        return;
    case MYSQL_PARAMS_FLOAT:
        append_text(to, "Float at place %zu", report->place);
        return;
    case MYSQL_PARAMS_UNSTEADY:
        append_text(to, "Backslash or byte that is not ASCII at byte %zu of the query: ", report->position);
        append_text(to, "over utf8mb4 bind_in_both_modes takes it, except a backslash in a string");
        return;
    case MYSQL_PARAMS_BACKSLASH:
        append_text(to, "Backslash in a string at byte %zu of the query", report->position);
        return;
    case MYSQL_PARAMS_UNSTEADY_FRAGMENT:
        append_text(to, "Fragment at place %zu has a name with a backslash or a byte that is not ASCII", report->place);
        return;
    default:
        append_text(to, "Unknown number %ld", (long)number);
    }
}

/* Appends the message of a query that isn't portable. */
static void append_unportable(line *to, const mysql_params_report *report)
{
    const char *construct = report->byte <= INT32_MAX ? mysql_params_construct_message((int32_t)report->byte) : NULL;
    append_text(to, "Not portable at byte %zu of the query: ", report->position);
    append_text(to, "%s", construct == NULL ? "unknown construct" : construct);
}

/* Appends the message of what can't be written. */
static void append_fault(line *to, const mysql_params_report *report)
{
    append_text(to, "Fragment at place %zu can't be written: ", report->place);
    switch (report->byte) {
    case MYSQL_PARAMS_FAULT_EMPTY:
        append_text(to, "it is empty");
        return;
    case MYSQL_PARAMS_FAULT_EMPTY_ROW:
        append_text(to, "row %zu is empty", report->position);
        return;
    case MYSQL_PARAMS_FAULT_ROW_LENGTH:
        append_text(to, "row %zu is not as long as the first", report->position);
        return;
    case MYSQL_PARAMS_FAULT_NUMBER:
        append_text(to, "item %zu of row %zu is no exact number", report->values, report->position);
        return;
    case MYSQL_PARAMS_FAULT_EMPTY_NAME:
        append_text(to, "name %zu is empty", report->values);
        return;
    case MYSQL_PARAMS_FAULT_ZERO_BYTE:
        append_text(to, "name %zu has a byte 0", report->values);
        return;
    case MYSQL_PARAMS_FAULT_LONG_NAME:
        append_text(to, "name %zu has more than 64 characters", report->values);
        return;
    case MYSQL_PARAMS_FAULT_TRAILING_SPACE:
        append_text(to, "name %zu ends in a space", report->values);
        return;
    case MYSQL_PARAMS_FAULT_KEYWORD:
        append_text(to, "it is none of the keywords in capitals that mysql_params.h lists");
        return;
    case MYSQL_PARAMS_FAULT_BACKSLASH:
        append_text(to, "name %zu has a backslash before a backquote or at its end", report->values);
        return;
    default:
        append_text(to, "unknown fault");
    }
}

/* Appends the message of a list that isn't alone in brackets, with its place as the query has it. */
static void append_unbracketed(line *to, const mysql_params_report *report, const uint8_t *query, size_t query_len)
{
    size_t at = report->position;
    bool known = at < query_len;
    const uint8_t *place = known ? query + at : (const uint8_t *)"?";
    size_t len = known ? place_end(to, query, query_len, at) - at : 1;
    append_byte(to, '`');
    append_shown(to, place, len);
    append_byte(to, '`');
    if (*place == '?')
        append_text(to, " at byte %zu", at);
    append_text(to, " is one value here, and was given a list: write it alone in brackets, as `IN (");
    append_shown(to, place, len);
    append_text(to, ")`, or say by type 129 or 130 that several are meant");
}

/* Appends the message of any number. */
static void append_message(line *to, int32_t number, const mysql_params_report *report,
                           const uint8_t *source, size_t source_len)
{
    const char *fault = fault_of_form(number);
    const char *fixed = fixed_message(number);
    if (fault != NULL) {
        append_text(to, "Parameter %zu at byte %zu of the form: %s", report->place, report->position, fault);
        if (number == MYSQL_PARAMS_FORM_LENGTH_LEAD || number == MYSQL_PARAMS_FORM_TYPE)
            append_text(to, " %zu", report->byte);
    } else if (number == MYSQL_PARAMS_MISSING || number == MYSQL_PARAMS_FORM_REPEATED) {
        append_of_name(to, number, report, source, source_len);
    } else if (fixed != NULL) {
        append_text(to, "%s", fixed);
    } else if (number == MYSQL_PARAMS_UNPORTABLE) {
        append_unportable(to, report);
    } else if (number == MYSQL_PARAMS_FAULT) {
        append_fault(to, report);
    } else if (number == MYSQL_PARAMS_UNBRACKETED) {
        append_unbracketed(to, report, source, source_len);
    } else {
        append_of_numbers(to, number, report);
    }
}

/* Writes the message of any number into an empty line, and returns its whole length without the zero byte. */
static size_t write_message(line *to, int32_t number, const mysql_params_report *report,
                            const uint8_t *source, size_t source_len)
{
    append_message(to, number, report, source, source_len);
    append_hint(to, number, report, source, source_len);
    if (to->room_len > 0)
        to->bytes[to->len < to->room_len ? to->len : to->room_len - 1] = '\0';
    return to->len;
}

size_t mysql_params_message(int32_t number, const mysql_params_report *report,
                            const uint8_t *source, size_t source_len,
                            char *line_room, size_t line_len)
{
    line to = {line_room, line_len, 0, false};
    return write_message(&to, number, report, source, source_len);
}

size_t mysql_params_message_wide(int32_t number, const mysql_params_report *report,
                                 const uint8_t *source, size_t source_len,
                                 char *line_room, size_t line_len)
{
    line to = {line_room, line_len, 0, true};
    return write_message(&to, number, report, source, source_len);
}

const char *mysql_params_construct_message(int32_t construct)
{
    switch (construct) {
    case MYSQL_PARAMS_EXECUTABLE_COMMENT:
        return "`/*!` is executed or skipped: no quote, place, comment, `-` or `;`; spaces around";
    case MYSQL_PARAMS_HINT:
        return "`/*+` is a hint or a comment: no quote, place, comment, `-` or `;`; a space after it";
    case MYSQL_PARAMS_MARIADB_COMMENT:
        return "`/*M!` is executed or not: no quote, place, comment, `-` or `;`; spaces around";
    case MYSQL_PARAMS_DASHES:
        return "`--` is a comment or two signs here: write a space between them, or after them";
    case MYSQL_PARAMS_ESCAPED_QUOTE:
        return "`\\\"` may end an identifier here: write `\"\"`, or the text in `'`";
    case MYSQL_PARAMS_BRACKET:
        return "`[` may open an identifier: write the name in backquotes";
    case MYSQL_PARAMS_DOLLAR_QUOTE:
        return "`$$` and `$tag$` may open a string: write it in `'`, or a name in backquotes";
    case MYSQL_PARAMS_DASHES_AFTER_EXPONENT:
        return "`--` after `.e` may open no comment: write the exponent's digits, or a space first";
    case MYSQL_PARAMS_PLACE_AFTER_EXPONENT:
        return "a value's digits would join this number: write a space before the place";
    case MYSQL_PARAMS_OPENER_IN_COMMENT:
        return "the client may not end this comment here: keep `/*!`, `/*+` and `/*/` out of it";
    case MYSQL_PARAMS_JOINING_COMMENT:
        return "the client may join what stands around this comment: write a space after it";
    case MYSQL_PARAMS_DASHES_BEFORE_COMMENT:
        return "a client that drops comments begins one here: write a space between the two signs";
    case MYSQL_PARAMS_CLIENT_COMMAND:
        return "the client takes `\\` and the next byte for its command: leave the `\\` out";
    case MYSQL_PARAMS_DASH_IN_FRONT:
        return "the client may take this line for a comment: write a space after the `-`";
    case MYSQL_PARAMS_DELIMITER:
        return "the client takes this line for its command: write the word in backquotes";
    case MYSQL_PARAMS_CLIENT_WORD:
        return "the client may run this word itself: leave it out, name the database by an option";
    case MYSQL_PARAMS_ESCAPED_NEWLINE:
        return "the client changes a `\\` at the end of a line: write `\\n`, or the newline alone";
    case MYSQL_PARAMS_ZERO_BYTE:
        return "the client sends nothing from this line on: write `\\0` in a string, or hexadecimal";
    case MYSQL_PARAMS_ESCAPED_BACKQUOTE:
        return "`\\` may escape this name's backquote: no name ends in `\\` or has it before one";
    case MYSQL_PARAMS_RETURN_IN_COMMENT:
        return "a comment may end at a carriage return: leave it out, or write a newline after it";
    default:
        return NULL;
    }
}

/* Binds a form to what the context says. */
typedef int32_t bind_call(const void *context, const mysql_params_form *form, uint8_t *room, size_t room_len,
                          mysql_params_report *report);

/* Binds by such a call, into memory of malloc, to a query of a length. */
static int32_t bind_into_memory(bind_call *bind, const void *context, size_t query_len, const mysql_params_form *form,
                                char **text, mysql_params_report *report)
{
    mysql_params_report nothing = {0, 0, 0, 0, 0, 0};
    /* A literal of bytes has at most twice their number, and quotes; and the zero byte. */
    size_t room_len = sum(sum(query_len, sum(form->len, form->len)), 64);
    *text = NULL;
    *report = nothing;
    if (!is_whole(form))
        return MYSQL_PARAMS_OUT_OF_MEMORY;
    for (;;) {
        uint8_t *room = room_len > PTRDIFF_MAX ? NULL : (uint8_t *)malloc(room_len);
        if (room == NULL)
            return MYSQL_PARAMS_OUT_OF_MEMORY;
        memset(room, 0, room_len);
        int32_t number = bind(context, form, room, room_len - 1, report);
        if (number == MYSQL_PARAMS_DONE) {
            *text = (char *)room;
            return number;
        }
        free(room);
        if (number != MYSQL_PARAMS_ROOM)
            return number;
        room_len = sum(report->len, 1);
        *report = nothing;
    }
}

/* A query, its mode, and the call of the archive that binds to it. */
typedef struct in_a_mode {
    int32_t (*bind)(const uint8_t *query, size_t query_len, const uint8_t *form, size_t form_len, bool no_backslash_escape,
                    uint8_t *room, size_t room_len, mysql_params_report *report);
    const uint8_t *query;
    size_t query_len;
    bool no_backslash_escape;
} in_a_mode;

/* Binds to a query in its mode, to which the context points. */
static int32_t bind_in_a_mode(const void *context, const mysql_params_form *form, uint8_t *room, size_t room_len,
                              mysql_params_report *report)
{
    const in_a_mode *to = (const in_a_mode *)context;
    return to->bind(to->query, to->query_len, form->room, form->len, to->no_backslash_escape, room, room_len, report);
}

int32_t mysql_params_bind_form(const uint8_t *query, size_t query_len, const mysql_params_form *form,
                               bool no_backslash_escape, char **text, mysql_params_report *report)
{
    const in_a_mode to = {mysql_params_bind, query, query_len, no_backslash_escape};
    return bind_into_memory(bind_in_a_mode, &to, query_len, form, text, report);
}

int32_t mysql_params_bind_form_wide(const uint8_t *query, size_t query_len, const mysql_params_form *form,
                                    bool no_backslash_escape, char **text, mysql_params_report *report)
{
    const in_a_mode to = {mysql_params_bind_wide, query, query_len, no_backslash_escape};
    return bind_into_memory(bind_in_a_mode, &to, query_len, form, text, report);
}

int32_t mysql_params_bind_fragments_form(const uint8_t *query, size_t query_len, const mysql_params_form *form,
                                         bool no_backslash_escape, char **text, mysql_params_report *report)
{
    const in_a_mode to = {mysql_params_bind_fragments, query, query_len, no_backslash_escape};
    return bind_into_memory(bind_in_a_mode, &to, query_len, form, text, report);
}

int32_t mysql_params_bind_fragments_form_wide(const uint8_t *query, size_t query_len, const mysql_params_form *form,
                                              bool no_backslash_escape, char **text, mysql_params_report *report)
{
    const in_a_mode to = {mysql_params_bind_fragments_wide, query, query_len, no_backslash_escape};
    return bind_into_memory(bind_in_a_mode, &to, query_len, form, text, report);
}

/* A query, and the call of the archive that binds to it for any server. */
typedef struct for_any_server {
    int32_t (*bind)(const uint8_t *query, size_t query_len, const uint8_t *form, size_t form_len, uint8_t *room,
                    size_t room_len, mysql_params_report *report);
    const uint8_t *query;
    size_t query_len;
} for_any_server;

/* Binds to a query for any server, to which the context points. */
static int32_t bind_for_any_server(const void *context, const mysql_params_form *form, uint8_t *room, size_t room_len,
                                   mysql_params_report *report)
{
    const for_any_server *to = (const for_any_server *)context;
    return to->bind(to->query, to->query_len, form->room, form->len, room, room_len, report);
}

int32_t mysql_params_bind_fragments_anywhere_form(const uint8_t *query, size_t query_len, const mysql_params_form *form,
                                                  char **text, mysql_params_report *report)
{
    const for_any_server to = {mysql_params_bind_fragments_anywhere, query, query_len};
    return bind_into_memory(bind_for_any_server, &to, query_len, form, text, report);
}

int32_t mysql_params_bind_fragments_anywhere_form_wide(const uint8_t *query, size_t query_len,
                                                       const mysql_params_form *form, char **text,
                                                       mysql_params_report *report)
{
    const for_any_server to = {mysql_params_bind_fragments_anywhere_wide, query, query_len};
    return bind_into_memory(bind_for_any_server, &to, query_len, form, text, report);
}

/* A query and its tables, in one block: the places of both and the query's bytes follow the fields. */
struct mysql_params_template {
    mysql_params_table_head head;
    mysql_params_anywhere_head anywhere;
    size_t places_len;   /* of the first table */
    size_t anywhere_len; /* room for those of the second, which has as many: none without wide names */
    size_t query_len;
    bool no_backslash_escape;
    bool wide_names;
    bool is_anywhere; /* the second table was made: mysql_params_bind_anywhere_wide binds the query */
    bool is_plain;    /* by wide names: the query isn't ASCII without a backslash, and is portable in its mode */
};

/* Returns the places of a template, which stand after its fields. */
static const mysql_params_place *places_of(const mysql_params_template *made)
{
    const void *after = made + 1;
    return (const mysql_params_place *)after;
}

/* Returns the places of its second table, which stand after these. */
static const mysql_params_place *anywhere_places_of(const mysql_params_template *made)
{
    return places_of(made) + made->places_len;
}

/* Returns the query of a template, which stands after its places. */
static const uint8_t *query_of(const mysql_params_template *made)
{
    const void *after = anywhere_places_of(made) + made->anywhere_len;
    return (const uint8_t *)after;
}

/* The calls that make a table, by names without capitals and by wide ones. */
typedef int32_t table_call(const uint8_t *query, size_t query_len, bool no_backslash_escape, mysql_params_table_head *head,
                           mysql_params_place *places, size_t places_len, mysql_params_report *report);

/* Finds out of a template's query what it is by wide names, and makes its second table. A query that is one for any mode has as
 * many places in each. Without memory for the tests it is neither. */
static void test_query(mysql_params_template *made, mysql_params_place *places)
{
    mysql_params_report report = {0, 0, 0, 0, 0, 0};
    const uint8_t *query = query_of(made);
    int32_t number = mysql_params_table_anywhere_wide(query, made->query_len, &made->anywhere, places, made->anywhere_len,
                                                      &report);
    made->is_anywhere = number == MYSQL_PARAMS_DONE;
    made->is_plain = number == MYSQL_PARAMS_UNSTEADY &&
                     mysql_params_first_unportable_wide(query, made->query_len, made->no_backslash_escape, &report) ==
                         MYSQL_PARAMS_PORTABLE;
}

/* Makes a template by a call. */
static mysql_params_template *new_template(table_call *table, const uint8_t *query, size_t query_len,
                                           bool no_backslash_escape, bool wide_names)
{
    mysql_params_table_head head = {0, 0, 0, 0, 0, 0};
    mysql_params_place none = {0, 0};
    mysql_params_report report = {0, 0, 0, 0, 0, 0};
    size_t places_len = 0;
    /* With no room it tells the number of the places. */
    int32_t number = table(query, query_len, no_backslash_escape, &head, &none, 0, &report);
    if (number == MYSQL_PARAMS_ROOM)
        places_len = report.len;
    else if (number != MYSQL_PARAMS_DONE)
        return NULL;
    if (places_len > PTRDIFF_MAX / (2 * sizeof(mysql_params_place)))
        return NULL;
    size_t anywhere_len = wide_names ? places_len : 0;
    size_t len = sum(sum(sizeof(mysql_params_template), query_len), (places_len + anywhere_len) * sizeof(mysql_params_place));
    mysql_params_template *made = len > PTRDIFF_MAX ? NULL : (mysql_params_template *)malloc(len);
    if (made == NULL)
        return NULL;
    memset(made, 0, len);
    made->places_len = places_len;
    made->anywhere_len = anywhere_len;
    made->query_len = query_len;
    made->no_backslash_escape = no_backslash_escape;
    made->wide_names = wide_names;
    void *places = made + 1;
    void *copy = (mysql_params_place *)places + places_len + anywhere_len;
    memcpy(copy, query, query_len);
    if (table((uint8_t *)copy, query_len, no_backslash_escape, &made->head, (mysql_params_place *)places, places_len,
              &report) != MYSQL_PARAMS_DONE) {
        free(made);
        return NULL;
    }
    if (wide_names)
        test_query(made, (mysql_params_place *)places + places_len);
    return made;
}

mysql_params_template *mysql_params_template_new(const uint8_t *query, size_t query_len, bool no_backslash_escape)
{
    return new_template(mysql_params_table, query, query_len, no_backslash_escape, false);
}

mysql_params_template *mysql_params_template_new_wide(const uint8_t *query, size_t query_len, bool no_backslash_escape)
{
    return new_template(mysql_params_table_wide, query, query_len, no_backslash_escape, true);
}

void mysql_params_template_free(mysql_params_template *made)
{
    free(made);
}

const uint8_t *mysql_params_template_query(const mysql_params_template *made, size_t *query_len)
{
    *query_len = made->query_len;
    return query_of(made);
}

int32_t mysql_params_template_bind(const mysql_params_template *made, const uint8_t *form, size_t form_len,
                                   uint8_t *room, size_t room_len, mysql_params_report *report)
{
    if (made->wide_names)
        return mysql_params_bind_template_wide(query_of(made), made->query_len, &made->head, places_of(made),
                                               made->places_len, form, form_len, made->no_backslash_escape, room, room_len,
                                               report);
    return mysql_params_bind_template(query_of(made), made->query_len, &made->head, places_of(made), made->places_len,
                                      form, form_len, made->no_backslash_escape, room, room_len, report);
}

int32_t mysql_params_template_bind_anywhere(const mysql_params_template *made, const uint8_t *form, size_t form_len,
                                            uint8_t *room, size_t room_len, mysql_params_report *report)
{
    const uint8_t *query = query_of(made);
    if (made->is_anywhere)
        return mysql_params_bind_template_anywhere_wide(query, made->query_len, &made->anywhere, anywhere_places_of(made),
                                                        made->anywhere_len, form, form_len, room, room_len, report);
    if (made->wide_names)
        return mysql_params_bind_anywhere_wide(query, made->query_len, form, form_len, room, room_len, report);
    return mysql_params_bind_anywhere(query, made->query_len, form, form_len, room, room_len, report);
}

/* Binds with plain literals to a query that is portable in the mode. */
static int32_t bind_portable(const in_a_mode *to, const uint8_t *form, size_t form_len, uint8_t *room, size_t room_len,
                             mysql_params_report *report)
{
    int32_t construct = mysql_params_first_unportable_wide(to->query, to->query_len, to->no_backslash_escape, report);
    if (construct == MYSQL_PARAMS_PORTABLE)
        return to->bind(to->query, to->query_len, form, form_len, to->no_backslash_escape, room, room_len, report);
    report->byte = (size_t)construct;
    return MYSQL_PARAMS_UNPORTABLE;
}

/* Returns what refuses values whose names don't fit, as the call for values tells it: it has no room for a text. Those for
 * fragments tell another name that is missing, and of no values that they have no names. */
static int32_t told_of_values(const in_a_mode *to, const uint8_t *form, size_t form_len, uint8_t *room, int32_t number,
                              mysql_params_report *report)
{
    mysql_params_report told = {0, 0, 0, 0, 0, 0};
    int32_t own = to->bind(to->query, to->query_len, form, form_len, to->no_backslash_escape, room, 0, &told);
    if (own == MYSQL_PARAMS_DONE || own == MYSQL_PARAMS_ROOM)
        return number;
    *report = told;
    return own;
}

int32_t mysql_params_bind_for_connection_wide(const uint8_t *query, size_t query_len, const uint8_t *form, size_t form_len,
                                              bool has_fragments, bool no_backslash_escape, uint8_t *room, size_t room_len,
                                              mysql_params_report *report)
{
    const in_a_mode to = {has_fragments ? mysql_params_bind_fragments_wide : mysql_params_bind_wide, query, query_len,
                          no_backslash_escape};
    int32_t number = mysql_params_bind_fragments_guarded_wide(query, query_len, form, form_len, no_backslash_escape, room,
                                                              room_len, report);
    if (number == MYSQL_PARAMS_UNSTEADY || number == MYSQL_PARAMS_UNSTEADY_FRAGMENT)
        return bind_portable(&to, form, form_len, room, room_len, report);
    if (!has_fragments && (number == MYSQL_PARAMS_MISSING || number == MYSQL_PARAMS_POSITIONAL_FOR_NAMED))
        return told_of_values(&to, form, form_len, room, number, report);
    return number;
}

int32_t mysql_params_template_bind_for_connection(const mysql_params_template *made, const uint8_t *form, size_t form_len,
                                                  bool has_fragments, bool no_backslash_escape, uint8_t *room,
                                                  size_t room_len, mysql_params_report *report)
{
    const uint8_t *query = query_of(made);
    if (!made->wide_names) {
        memset(report, 0, sizeof *report);
        return MYSQL_PARAMS_OTHER_TABLE;
    }
    if (made->is_anywhere && !has_fragments)
        return mysql_params_bind_template_guarded_wide(query, made->query_len, &made->anywhere, anywhere_places_of(made),
                                                       made->anywhere_len, form, form_len, no_backslash_escape, room,
                                                       room_len, report);
    if (made->is_plain && !has_fragments && no_backslash_escape == made->no_backslash_escape)
        return mysql_params_bind_template_wide(query, made->query_len, &made->head, places_of(made), made->places_len, form,
                                               form_len, no_backslash_escape, room, room_len, report);
    return mysql_params_bind_for_connection_wide(query, made->query_len, form, form_len, has_fragments, no_backslash_escape,
                                                 room, room_len, report);
}

/* Binds to a template, to which the context points. */
static int32_t bind_made(const void *context, const mysql_params_form *form, uint8_t *room, size_t room_len,
                         mysql_params_report *report)
{
    return mysql_params_template_bind((const mysql_params_template *)context, form->room, form->len, room, room_len, report);
}

int32_t mysql_params_template_bind_form(const mysql_params_template *made, const mysql_params_form *form, char **text,
                                        mysql_params_report *report)
{
    return bind_into_memory(bind_made, made, made->query_len, form, text, report);
}

int32_t mysql_params_template_bind_rows(const mysql_params_template *made, const uint8_t *forms, size_t forms_len,
                                        uint8_t *room, size_t room_len, mysql_params_rows *rows,
                                        mysql_params_report *report)
{
    rows_call *bind_rows = made->wide_names ? mysql_params_bind_rows_wide : mysql_params_bind_rows;
    return bind_rows(query_of(made), made->query_len, forms, forms_len, made->no_backslash_escape, room, room_len, rows,
                     report);
}

int32_t mysql_params_template_bind_all_rows(const mysql_params_template *made, const uint8_t *forms, size_t forms_len,
                                            mysql_params_texts *texts, mysql_params_rows *rows,
                                            mysql_params_report *report)
{
    rows_call *bind_rows = made->wide_names ? mysql_params_bind_rows_wide : mysql_params_bind_rows;
    return bind_growing(bind_rows, query_of(made), made->query_len, forms, forms_len, made->no_backslash_escape, texts,
                        rows, report);
}

bool mysql_params_processor_suffices(void)
{
#if defined(__x86_64__) && defined(__GNUC__)
    unsigned eax, ebx, ecx, edx;
    const unsigned wanted = bit_SSE3 | bit_SSSE3 | bit_CMPXCHG16B | bit_SSE4_1 | bit_SSE4_2 | bit_POPCNT;
    if (__get_cpuid(1, &eax, &ebx, &ecx, &edx) == 0 || (ecx & wanted) != wanted)
        return false;
    return __get_cpuid(0x80000001, &eax, &ebx, &ecx, &edx) != 0 && (ecx & bit_LAHF_LM) != 0;
#else
    return true;
#endif
}
