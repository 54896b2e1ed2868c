/* mysql_params_form.h: parameters written as the flat form that mysql_params_bind reads, a text in memory of `malloc`,
 * rows bound into memory that grows, answers taken apart, refusals and constructs told in a line, and the processor
 * asked. Plain C and C++: a package's libmysql_params has these functions, so link that and compile nothing; with the
 * repository's libmysql_params_c.a compile bindings/c/mysql_params_form.c. It is tested, not proved. */
#ifndef MYSQL_PARAMS_FORM_H
#define MYSQL_PARAMS_FORM_H

#include "mysql_params.h"
#include <stdbool.h>

#ifdef __cplusplus
extern "C" {
#endif

/* A form that is being written. Set it up with mysql_params_form_growing, or with mysql_params_form_in. */
typedef struct mysql_params_form {
    /* The form's memory, or the caller's. It is never null, also if none was given. */
    uint8_t *room;
    /* Bytes of that memory. */
    size_t room_len;
    /* Bytes of the whole parameters so far: hand `room` and `len` to mysql_params_bind once `needed` is `len`. A list, rows,
     * identifiers and assignments are whole once they are ended. */
    size_t len;
    /* Bytes that all that was appended needs. It is greater than `len` while a list is open, and once a parameter did not
     * fit. It is SIZE_MAX, and stays so, if that is too many to count, or not known of a row, or if a function was called
     * where what it appends, begins or ends can't stand: an item between rows, say, or the 2^32nd of a list. */
    size_t needed;
    /* Whether the memory is the form's own, of `malloc`, and grows. */
    bool grows;
    /* The functions' own: the bytes that are written, those of an open list too; where the counts of the rows and of the list
     * that are open stand, and what is in them; and where the next part stands. */
    size_t written;
    size_t rows_at;
    size_t list_at;
    uint32_t rows;
    uint32_t items;
    uint32_t state;
} mysql_params_form;

/* A date with its time of day. Fields stand in the literal as they are, also a month 0 or 255; a time of day that is all
 * 0 is left out. */
typedef struct mysql_params_date {
    uint16_t year;        /* year */
    uint8_t month;        /* month, from 1 */
    uint8_t day;          /* day, from 1 */
    uint8_t hour;         /* hour */
    uint8_t minute;       /* minute */
    uint8_t second;       /* second */
    uint32_t microsecond; /* microsecond */
} mysql_params_date;

/* A span of time. Days and hours are added up to hours in the literal; the others stand in it as they are. */
typedef struct mysql_params_time {
    bool negative;         /* whether it is less than zero */
    uint32_t days;         /* days */
    uint8_t hours;         /* hours */
    uint8_t minutes;       /* minutes */
    uint8_t seconds;       /* seconds */
    uint32_t microseconds; /* microseconds */
} mysql_params_time;

/* Returns an empty form in the memory given. With no memory (null and 0) appending only counts `needed`; a form that
 * stays empty can be handed to mysql_params_bind as any other. */
mysql_params_form mysql_params_form_in(uint8_t *room, size_t room_len);

/* Returns an empty form with memory of its own, which grows by `realloc` as parameters are appended. Give it back by
 * mysql_params_form_free. If there is no memory, a parameter doesn't fit. */
mysql_params_form mysql_params_form_growing(void);

/* Gives back the memory of a form that grows, and leaves it empty. Does nothing to another form. */
void mysql_params_form_free(mysql_params_form *form);

/* The functions below append one parameter. `name` is the name without a colon, ended by a zero byte; null or "" gives
 * the parameter by position. Each returns true if this and all earlier parameters stand in the room. Else it has
 * written nothing, and later calls write nothing either: they go on counting `needed`. Behind `len` the room may hold the
 * beginning of a list.
 *
 * Neither the name nor the bytes nor the text may overlap the room: other bytes would be appended without a word. To
 * append what was read into the room, as from a socket, give the form another room. */

/* Appends NULL. */
bool mysql_params_append_null(mysql_params_form *form, const char *name);

/* Appends a signed whole number. */
bool mysql_params_append_int(mysql_params_form *form, const char *name, int64_t number);

/* Appends an unsigned whole number. */
bool mysql_params_append_uint(mysql_params_form *form, const char *name, uint64_t number);

/* Appends bytes, of any kind. `bytes` may be null if `len` is 0. */
bool mysql_params_append_bytes(mysql_params_form *form, const char *name, const void *bytes, size_t len);

/* Appends a text that a zero byte ends. */
bool mysql_params_append_text(mysql_params_form *form, const char *name, const char *text);

/* Appends a date. */
bool mysql_params_append_date(mysql_params_form *form, const char *name, mysql_params_date date);

/* Appends a span of time. */
bool mysql_params_append_time(mysql_params_form *form, const char *name, mysql_params_time time);

/* Appends a floating-point number. mysql_params_bind_fragments and mysql_params_bind_fragments_anywhere write a finite one as a
 * number with an exponent, 1.5e0, which a server reads as this DOUBLE. They refuse a NaN and an infinity as
 * MYSQL_PARAMS_FLOAT if the query has a place for it, and all other calls refuse each number so. For an exact number append
 * its digits, by mysql_params_append_decimal. */
bool mysql_params_append_double(mysql_params_form *form, const char *name, double number);

/* The same of a float, which is written as the double of its value: 0.1f as 0.10000000149011612e0. */
bool mysql_params_append_float(mysql_params_form *form, const char *name, float number);

/* The functions below append what mysql_params_bind_fragments and mysql_params_bind_fragments_anywhere alone take. Each
 * returns as those above. */

/* Appends an exact number, as "-1.50" or a whole number of any length. It may stand in a list. */
bool mysql_params_append_decimal(mysql_params_form *form, const char *name, const char *digits);

/* Appends the name of a table or a column. */
bool mysql_params_append_identifier(mysql_params_form *form, const char *name, const char *identifier);

/* Appends the name of what is in something else, as a table in a database: `count` names, of which the last is its own. */
bool mysql_params_append_qualified(mysql_params_form *form, const char *name, const char *const *identifiers,
                                   uint32_t count);

/* Appends a keyword that your program has, as "DESC", one of those that MYSQL_PARAMS_FAULT_KEYWORD lists: never a text from
 * outside. For another word choose among queries of your program. */
bool mysql_params_append_keyword(mysql_params_form *form, const char *name, const char *keyword);

/* Begins a list. Then append its items by the functions above, without a name, and end it. Nothing that is begun stands in a
 * list. */
bool mysql_params_begin_list(mysql_params_form *form, const char *name);

/* Ends a list. */
bool mysql_params_end_list(mysql_params_form *form);

/* Begins rows. Then begin each row, append its items, and end it; then end the rows. No item stands between rows. */
bool mysql_params_begin_rows(mysql_params_form *form, const char *name);

/* Begins a row. */
bool mysql_params_begin_row(mysql_params_form *form);

/* Ends a row. */
bool mysql_params_end_row(mysql_params_form *form);

/* Ends rows. */
bool mysql_params_end_rows(mysql_params_form *form);

/* Begins identifiers, as the columns of `INSERT INTO t (?)`. Then append each by mysql_params_append_identifier or
 * mysql_params_append_qualified, without a name, and end them. Nothing else can stand there. */
bool mysql_params_begin_identifiers(mysql_params_form *form, const char *name);

/* Ends identifiers. */
bool mysql_params_end_identifiers(mysql_params_form *form);

/* Begins assignments, as for `SET ?`. Then append what stands in a list, whose `name` is here the column that it is assigned
 * to, and end them:
 *
 *     mysql_params_begin_assignments(&form, "set");
 *     mysql_params_append_int(&form, "price", 7);
 *     mysql_params_append_null(&form, "sold");
 *     mysql_params_end_assignments(&form);
 *
 * writes `price` = 7, `sold` = NULL. Nothing else can stand there. */
bool mysql_params_begin_assignments(mysql_params_form *form, const char *name);

/* Names the column that the next item is assigned to, as a column of a table: `count` names, of which the last is its own.
 * The item's `name` isn't looked at. */
bool mysql_params_begin_assignment(mysql_params_form *form, const char *const *identifiers, uint32_t count);

/* Ends assignments. No column stands without an item. */
bool mysql_params_end_assignments(mysql_params_form *form);

/* Binds as mysql_params_bind_fragments, as mysql_params_bind_form binds by mysql_params_bind. */
int32_t mysql_params_bind_fragments_form(const uint8_t *query, size_t query_len, const mysql_params_form *form,
                                         bool no_backslash_escape, char **text, mysql_params_report *report);

/* Binds as mysql_params_bind_fragments_anywhere, so too. */
int32_t mysql_params_bind_fragments_anywhere_form(const uint8_t *query, size_t query_len, const mysql_params_form *form,
                                                  char **text, mysql_params_report *report);

/* Binds as mysql_params_bind, into memory of `malloc`: `*text` gets the text, `report->len` bytes and a zero byte after
 * them, which the caller gives back by `free`; null unless the number is MYSQL_PARAMS_DONE. It never returns
 * MYSQL_PARAMS_ROOM. It returns MYSQL_PARAMS_OUT_OF_MEMORY also, without reading the form, if `needed` isn't `len` or the
 * form has rows of mysql_params_append_row, so that what the appending functions return needn't be looked at. A text may
 * hold zero bytes without backslash escapes: go by the length. */
int32_t mysql_params_bind_form(const uint8_t *query, size_t query_len, const mysql_params_form *form,
                               bool no_backslash_escape, char **text, mysql_params_report *report);

/* A query whose places were found once, to bind it many times: it owns a copy of the query, and doesn't change after it
 * was made, so that many threads may bind it at once. */
typedef struct mysql_params_template mysql_params_template;

/* Makes a template of a query in the mode of the flag, which is that of mysql_params_bind: in one block of `malloc`. Give
 * it back by mysql_params_template_free. Null if there is no memory. */
mysql_params_template *mysql_params_template_new(const uint8_t *query, size_t query_len, bool no_backslash_escape);

/* Gives back a template, which no call may be binding. Does nothing to null. */
void mysql_params_template_free(mysql_params_template *made);

/* Returns the query that a template owns, with its length: the source for mysql_params_message. */
const uint8_t *mysql_params_template_query(const mysql_params_template *made, size_t *query_len);

/* Binds as mysql_params_bind does to the template's query: it returns the same numbers, and writes the same reports and
 * texts. `form` and `room` are as there. */
int32_t mysql_params_template_bind(const mysql_params_template *made, const uint8_t *form, size_t form_len,
                                   uint8_t *room, size_t room_len, mysql_params_report *report);

/* Binds as mysql_params_bind_anywhere does to the template's query, in whatever mode the template was made. A query that
 * mysql_params_template_new_wide found to be one for any mode and any server isn't tested again, nor walked except for
 * MYSQL_PARAMS_MISSING. Any other is tested by each call: if it is refused, if mysql_params_template_new made the template,
 * or if there was no memory for the test. */
int32_t mysql_params_template_bind_anywhere(const mysql_params_template *made, const uint8_t *form, size_t form_len,
                                            uint8_t *room, size_t room_len, mysql_params_report *report);

/* Binds the text to send over a connection in the mode of the flag over utf8mb4, by wide names, and decides what its literals
 * are: a binding that sends calls nothing else. They are guarded, as of mysql_params_bind_fragments_guarded_wide. If the query, or
 * a name in a fragment, isn't ASCII without a backslash, they are plain, as of mysql_params_bind_fragments_wide: what another mode
 * or character set than was told reads of that text may be another statement.
 *
 * It returns the numbers of these calls, but neither MYSQL_PARAMS_UNSTEADY nor MYSQL_PARAMS_UNSTEADY_FRAGMENT. A query that isn't
 * portable in the mode is refused by MYSQL_PARAMS_UNPORTABLE. If `has_fragments` is false, the form has values alone and no float,
 * and a missing name is told as by mysql_params_bind_wide. */
int32_t mysql_params_bind_for_connection_wide(const uint8_t *query, size_t query_len, const uint8_t *form, size_t form_len,
                                              bool has_fragments, bool no_backslash_escape, uint8_t *room, size_t room_len,
                                              mysql_params_report *report);

/* The same to the query of a template of mysql_params_template_new_wide, in whatever mode that was made; it returns
 * MYSQL_PARAMS_OTHER_TABLE for one of mysql_params_template_new. If `has_fragments` is false, a query that is one for any mode and
 * any server isn't walked, nor is one that isn't ASCII without a backslash, in the mode of its template, if it is portable. */
int32_t mysql_params_template_bind_for_connection(const mysql_params_template *made, const uint8_t *form, size_t form_len,
                                                  bool has_fragments, bool no_backslash_escape, uint8_t *room,
                                                  size_t room_len, mysql_params_report *report);

/* Binds as mysql_params_bind_form does to the template's query. */
int32_t mysql_params_template_bind_form(const mysql_params_template *made, const mysql_params_form *form, char **text,
                                        mysql_params_report *report);

/* The same by wide names, as `:userId`: mysql_params.h says what these are. A template of mysql_params_template_new_wide is
 * bound by the calls above and below, which then read its query so. */
int32_t mysql_params_bind_form_wide(const uint8_t *query, size_t query_len, const mysql_params_form *form,
                                    bool no_backslash_escape, char **text, mysql_params_report *report);

int32_t mysql_params_bind_fragments_form_wide(const uint8_t *query, size_t query_len, const mysql_params_form *form,
                                              bool no_backslash_escape, char **text, mysql_params_report *report);

int32_t mysql_params_bind_fragments_anywhere_form_wide(const uint8_t *query, size_t query_len,
                                                       const mysql_params_form *form, char **text,
                                                       mysql_params_report *report);

mysql_params_template *mysql_params_template_new_wide(const uint8_t *query, size_t query_len, bool no_backslash_escape);

/* Appends a row to the forms of mysql_params_bind_rows: a form as a length-encoded string. `forms` is set up as a form is,
 * and has nothing else appended: a parameter can't stand there. Returns as the functions above. It appends no row that isn't
 * whole, whose own `needed` isn't its `len`: then `needed` of `forms` is SIZE_MAX. The row doesn't overlap the room. */
bool mysql_params_append_row(mysql_params_form *forms, const mysql_params_form *row);

/* Texts in memory that grows, one after another, each as a length-encoded string. Begin with `= {0}`, and end with
 * `free(texts.at)`; set `len` to 0 to use the memory again. */
typedef struct mysql_params_texts {
    uint8_t *at;     /* the memory, of `malloc`; null before the first row */
    size_t len;      /* bytes of the texts */
    size_t room_len; /* bytes of the memory */
} mysql_params_texts;

/* Calls mysql_params_bind_rows, with more memory as long as a text needs it, and appends the texts. It returns what that
 * returns, with MYSQL_PARAMS_OUT_OF_MEMORY in place of MYSQL_PARAMS_ROOM; `rows` tells how far it has come, and the texts
 * of these rows are kept. After MYSQL_PARAMS_OUT_OF_MEMORY it can go on from `forms + rows->read`. */
int32_t mysql_params_bind_all_rows(const uint8_t *query, size_t query_len,
                                   const uint8_t *forms, size_t forms_len,
                                   bool no_backslash_escape,
                                   mysql_params_texts *texts,
                                   mysql_params_rows *rows,
                                   mysql_params_report *report);

/* The same by wide names. */
int32_t mysql_params_bind_all_rows_wide(const uint8_t *query, size_t query_len,
                                        const uint8_t *forms, size_t forms_len,
                                        bool no_backslash_escape,
                                        mysql_params_texts *texts,
                                        mysql_params_rows *rows,
                                        mysql_params_report *report);

/* Binds rows as mysql_params_bind_rows does to the template's query. That finds the places once for all rows by itself, and
 * not by the template's table: each call walks the query once, or twice if it has more than 16 places. */
int32_t mysql_params_template_bind_rows(const mysql_params_template *made,
                                        const uint8_t *forms, size_t forms_len,
                                        uint8_t *room, size_t room_len,
                                        mysql_params_rows *rows,
                                        mysql_params_report *report);

/* Binds rows as mysql_params_bind_all_rows does to the template's query. */
int32_t mysql_params_template_bind_all_rows(const mysql_params_template *made,
                                            const uint8_t *forms, size_t forms_len,
                                            mysql_params_texts *texts,
                                            mysql_params_rows *rows,
                                            mysql_params_report *report);

/* Bytes within an answer of mysql_params_names or mysql_params_bind_rows. */
typedef struct mysql_params_string {
    const uint8_t *bytes; /* the first byte */
    size_t len;           /* how many */
} mysql_params_string;

/* Takes the next length-encoded string off the front of an answer: of mysql_params_names the query with marks first, then
 * each name; of mysql_params_bind_rows each text. It moves `*answer` and `*len` after it. Returns false, and changes
 * nothing, if no whole string stands there. */
bool mysql_params_next_string(const uint8_t **answer, size_t *len, mysql_params_string *string);

/* Writes what a number and its report say into `line`: one line of printable ASCII, ended by a zero byte, cut to
 * `line_len` bytes with that byte. `source`, of `source_len` bytes, is the form for MYSQL_PARAMS_FORM_REPEATED, else
 * the query; without any (null and 0) a name is left out. For MYSQL_PARAMS_MISSING, _NOT_ALONE and
 * _NAMED_FOR_POSITIONAL the line also says what names are of, if a letter that none has stands directly after a name
 * or in place of one: of `:userId` that it ends after `user`. For _NOT_ALONE of a place beside a point, as in `b.:c`,
 * it says what to write instead. Returns the length of the whole line without the zero byte. */
size_t mysql_params_message(int32_t number, const mysql_params_report *report,
                            const uint8_t *source, size_t source_len,
                            char *line, size_t line_len);

/* The same for a number of a call by wide names: there only a letter outside ASCII is one that no name has. */
size_t mysql_params_message_wide(int32_t number, const mysql_params_report *report,
                                 const uint8_t *source, size_t source_len,
                                 char *line, size_t line_len);

/* Returns what a number of enum mysql_params_construct says, with what to write instead: one line of printable ASCII,
 * ended by a zero byte. Null for MYSQL_PARAMS_PORTABLE, and for what is no number of that enum. */
const char *mysql_params_construct_message(int32_t construct);

/* Returns whether the processor has what the archive is compiled for, x86-64-v2. If it is false, a call of the
 * archive may end the process with SIGILL: ask it once, before the first. If the compiler has no way to ask, it is
 * true. */
bool mysql_params_processor_suffices(void);

#ifdef __cplusplus
}
#endif

#endif
