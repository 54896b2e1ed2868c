/* cases.h: the cases of bindings/cases, for the tests in C and C++. cases/README.md says what a case is.
 *
 * A VALUE of a line `param NAME=VALUE` is, in all languages, one of these. Those from `d:` on are only in fragments.txt and
 * fragments_anywhere.txt; their texts have no `|`.
 * - `null`
 * - `i:NUMBER`, `u:NUMBER`: a whole number, signed or unsigned
 * - `s:TEXT`: bytes
 * - `float:NUMBER`, `double:NUMBER`: 32 or 64 bits: a decimal number, `nan`, `inf`, `-inf`
 * - `date:YEAR MONTH DAY HOUR MINUTE SECOND MICROSECOND`: a date
 * - `time:SIGN DAYS HOURS MINUTES SECONDS MICROSECONDS`: a time; the sign is `-` or `+`
 * - `d:DIGITS`: an exact number
 * - `list:VALUE|VALUE..`: a list; `list:` is empty
 * - `rows:VALUE|VALUE||VALUE..`: rows, with two bars between them
 * - `implicit_list:VALUE|VALUE..`, `implicit_rows:VALUE|VALUE||VALUE..`: the same, of which the program didn't say that they are such
 * - `identifier:TEXT`, `qualified:TEXT|TEXT`: a name; one in another
 * - `identifiers:TEXT||TEXT|TEXT..`: names, single or in another; `identifiers:` is empty
 * - `assignments:TEXT=VALUE||TEXT|TEXT=VALUE..`: columns and their items; `assignments:` is empty
 * - `keyword:TEXT`: a keyword */
#ifndef CASES_H
#define CASES_H

#include "mysql_params_form.h"

#ifdef __cplusplus
extern "C" {
#endif

/* Bytes, with a zero byte after them that `len` does not count. */
typedef struct bytes {
    uint8_t *at;
    size_t len;
} bytes;

/* A case. What its lines do not say is empty or 0. */
typedef struct test_case {
    int line;                   /* the line of the file in which it begins */
    bytes query;                /* the query */
    bytes form;                 /* the parameters, as a flat form; those of the last row */
    size_t rows;                /* how many rows there are */
    bytes forms;                /* the forms of the rows, as length-encoded strings */
    size_t texts;               /* how many rows have a text */
    size_t read;                /* the bytes of these rows' forms */
    bool no_backslash_escape;   /* the mode */
    bytes answer;               /* the text, or as length-encoded strings the answer of names or the texts of rows */
    int32_t number;             /* the number that is wanted: of a call's end, or of a construct */
    bool portable;              /* whether it says that the query is portable */
    mysql_params_report report; /* the report that is wanted */
    bytes name;                 /* the name that the report has to tell */
    bytes message;              /* the message that is wanted, or empty */
} test_case;

/* Reads the cases of a file, hands each to the function, and returns how many there were. It ends the program with a
 * message if the file can't be read. */
int each_case(const char *folder, const char *file, void (*use)(const test_case *));

/* Appends bytes. */
void append_bytes(bytes *to, const void *from, size_t len);

/* Appends a length-encoded string. */
void append_string(bytes *to, const void *from, size_t len);

/* Lets go of the memory. */
void clear_bytes(bytes *it);

#ifdef __cplusplus
}
#endif

#endif
