/* native.h: the extension module of Python's package mysql_params, over the archive.
 *
 * It writes parameters as the flat form, calls the archive, and hands its answers out. A value of just a type that most values are
 * of is written here. Any other, a subclass among them, is handed to the package's functions in Python, which write or refuse it:
 * so each rule and message stands once. The module is tested, not proved.
 *
 * It is of CPython's limited API of 3.9, so that one file serves all later versions.
 *
 * References and memory:
 * - A parameter is borrowed: its caller holds it until the call returns.
 * - A function that returns a PyObject * returns a new reference, or null with an exception set.
 * - A function that returns bool returns false with an exception set, unless its comment says otherwise.
 * - A field of a struct says beside it whether it is owned or borrowed.
 * - A form's memory and a table's are of PyMem_.., so that tracemalloc sees them, taken and given back with the GIL held. A room
 *   for an answer is of calloc, which takes no time for what isn't written.
 */
#ifndef NATIVE_H
#define NATIVE_H

#define Py_LIMITED_API 0x03090000
#define PY_SSIZE_T_CLEAN
#include <Python.h>

#include "mysql_params_form.h"

#include <stdbool.h>
#include <stdint.h>
#include <string.h>

/* What the package hands to the module when it is imported, in the order of HANDED_NAMES. */
enum handed {
    /* Functions that write a value where places take values alone, what stands in a place, and an item of a list. */
    HANDED_VALUE_FORM,
    HANDED_PLACE_FORM,
    HANDED_ITEM_FORM,
    /* Parameters that are none of None, a list, a tuple and a dict: whether they have names, and what to iterate over. */
    HANDED_PARAMETERS,
    /* The bytes of a name, and of a query or a form. */
    HANDED_NAME,
    HANDED_BYTES_OF,
    HANDED_COPY,
    /* What to raise for a number of the archive. */
    HANDED_REFUSAL,
    /* The table that is kept of a long query, or None. */
    HANDED_TABLE_OF,
    /* Raises for what is no time zone, and for what is no mode. */
    HANDED_ZONE_OF,
    HANDED_FLAG,
    /* The registered functions, a dict by types. */
    HANDED_REGISTERED,
    /* Types. */
    HANDED_DATE,
    HANDED_DATETIME,
    HANDED_TIME,
    HANDED_TIMEDELTA,
    HANDED_DECIMAL,
    HANDED_IN,
    HANDED_LISTS,
    HANDED_COUNT
};

/* Attributes that are read of dates, times and In, in the order of ATTRIBUTE_NAMES. */
enum attribute {
    ATTRIBUTE_YEAR,
    ATTRIBUTE_MONTH,
    ATTRIBUTE_DAY,
    ATTRIBUTE_HOUR,
    ATTRIBUTE_MINUTE,
    ATTRIBUTE_SECOND,
    ATTRIBUTE_MICROSECOND,
    ATTRIBUTE_TZINFO,
    ATTRIBUTE_DAYS,
    ATTRIBUTE_SECONDS,
    ATTRIBUTE_MICROSECONDS,
    ATTRIBUTE_ITEMS,
    ATTRIBUTE_COUNT
};

/* How long the room is that the module keeps for answers. The GIL is let go around a call whose text may be longer. */
enum { KEPT_ROOM = 1 << 16 };

/* How many queries have a template that is kept, and of how many bytes they are at most, so that what is kept stays small. */
enum { KEPT_QUERIES = 256, LONGEST_KEPT = 2048 };

/* A template, and how many hold it: its slot, and calls that let others run. The number is changed with the GIL alone. */
typedef struct held_template {
    mysql_params_template *made; /* owned */
    size_t holders;
} held_template;

/* A slot for the queries whose hashes end alike. */
typedef struct kept_query {
    Py_hash_t hash;      /* of the last query that was given without a template */
    unsigned times;      /* how often it was given so, one time after another */
    held_template *held; /* held; of a query that was given often enough, or null */
} kept_query;

/* The module's own. */
typedef struct native_state {
    PyObject *handed[HANDED_COUNT];         /* owned */
    PyObject *attributes[ATTRIBUTE_COUNT];  /* owned */
    PyTypeObject *table_type;               /* owned */
    uint8_t *room;                          /* owned, KEPT_ROOM bytes; used with the GIL alone, and not across a call of Python */
    kept_query *kept;                       /* owned, KEPT_QUERIES of them; used as the room, see kept.c */
    Py_ssize_t least_kept;                  /* how long a query is at least of which the package keeps a table */
} native_state;

/* The state of a module that was handed everything; else null, with an exception set. */
native_state *state_of(PyObject *module);

/* Takes the arguments of a call apart: `count` borrowed references. */
bool take_arguments(PyObject *arguments, Py_ssize_t count, PyObject **taken);

/* A flat form that is being written. */
typedef struct form {
    uint8_t *bytes;    /* `first`, or owned */
    size_t len;        /* bytes of the form so far */
    size_t room;       /* bytes that there is room for */
    bool is_fragments; /* whether it is for the calls that bind fragments */
    uint8_t first[1000];
} form;

void form_begin(form *form);
void form_free(form *form);

/* Makes room for so many bytes more. */
bool form_grow(form *form, size_t more);

/* Where so many bytes more are to be written; null with an exception set. */
static inline uint8_t *form_more(form *form, size_t more)
{
    if (more > form->room - form->len && !form_grow(form, more))
        return NULL;
    uint8_t *at = form->bytes + form->len;
    form->len += more;
    return at;
}

/* Appends a length-encoded string. */
bool form_string(form *form, const void *bytes, size_t len);

/* Makes what stands behind the byte at `begin` a length-encoded string, whose length has that byte's place. */
bool form_enclose(form *form, size_t begin);

/* Numbers of column types in the protocol, and of the types that the calls that bind fragments alone take. */
enum {
    TYPE_DOUBLE = 5,
    TYPE_NULL = 6,
    TYPE_LONGLONG = 8,
    TYPE_TIME = 11,
    TYPE_DATETIME = 12,
    TYPE_NUMBER = 128,
    TYPE_LIST = 129,
    TYPE_ROWS = 130,
    TYPE_IMPLICIT_LIST = 136,
    TYPE_IMPLICIT_ROWS = 137,
    TYPE_VAR_STRING = 253
};

/* Where a value goes: where places take values alone, to a place that takes more, or to an item of a list or a row. */
enum level { LEVEL_VALUES, LEVEL_PLACES, LEVEL_ITEMS };

/* The first names of the row before, whose bytes serve the next row too if that has the same objects as names. */
enum { NAMES_OF_ROW = 32 };
typedef struct row_names {
    PyObject *names[NAMES_OF_ROW]; /* held; each a str, or null */
    PyObject *bytes[NAMES_OF_ROW]; /* held; theirs */
} row_names;

/* Lets them go. */
void row_names_end(row_names *names);

/* What values are written by. */
typedef struct writer {
    const native_state *state; /* borrowed */
    form *form;                /* borrowed */
    PyObject *zone;            /* borrowed; the zone that datetimes with one are shown in, or None */
    enum level level;
    row_names *before; /* borrowed; null for other parameters than those of rows */
} writer;

/* The place that a value is for, as messages tell it. */
typedef struct place {
    PyObject *name;    /* borrowed; its name, as bytes; null for a place by position */
    Py_ssize_t number; /* which place by position */
} place;

/* How it went with a value. */
typedef enum outcome { WRITTEN, FOR_PYTHON, FAILED } outcome;

/* Appends type, flags and value. */
bool write_value(const writer *writer, PyObject *value, const place *place);

/* Appends the count of items, and these. */
bool write_items(const writer *writer, PyObject *items, const place *place);

/* Appends a list or rows, of a list or a tuple, implicit ones unless the caller said that it is several values; what may be
 * identifiers is for Python. */
outcome write_list(const writer *writer, PyObject *value, bool is_implicit, const place *place);

/* Appends a date, a datetime, a span or a time of day, of just these types. */
outcome write_moment(const writer *writer, PyObject *value);

/* Appends all parameters. */
bool write_params(const writer *writer, PyObject *params);

/* The bytes of a query. */
PyObject *bytes_of(const native_state *state, PyObject *query);

/* A query and the table of its places in a mode. Nothing changes it once it is made. */
typedef struct table {
    PyObject_HEAD
    PyObject *query; /* owned, bytes */
    bool mode;
    Py_ssize_t count; /* how many places it has */
    Py_ssize_t size;  /* its bytes, with those of the query */
    mysql_params_table_head head;
    mysql_params_place *places; /* owned */
} table;

extern PyType_Spec table_spec;

/* A table, after its query, as bytes, and its mode. */
PyObject *table_new(const native_state *state, PyObject *query, bool mode);

/* What is asked of the archive. */
enum call {
    CALL_NAMES,
    CALL_BIND,
    CALL_FOR_CONNECTION, /* of the text to send over a connection in the mode */
    CALL_ANYWHERE,
    CALL_BOTH_MODES
};

typedef struct question {
    enum call call;
    PyObject *query;     /* borrowed, bytes */
    const table *table;  /* borrowed; the query's in this mode, or null */
    const uint8_t *form; /* borrowed */
    size_t form_len;
    bool is_fragments;
    bool mode;                         /* without backslash escapes */
    const mysql_params_template *made; /* borrowed; the query's, of wide names; if null, one that is kept may be taken */
} question;

/* Takes the call that gives the text to send: that for steady literals if these are wanted. */
bool take_call_to_send(PyObject *wants_steady, enum call *call);

/* The slots for templates that are kept, without any; null without an exception if there is no memory. */
kept_query *kept_begin(void);

/* Gives the slots back, and lets their templates go; does nothing to null. */
void kept_end(kept_query *kept);

/* A template of a query, which is bytes, held by the caller; null without an exception if there is no memory. The GIL is let go for
 * a query that is too long to be kept. */
held_template *new_template(PyObject *query);

/* Lets a template go, which is given back if no one else holds it; does nothing to null. */
void let_template_go(held_template *held);

/* The template that is kept of a query, held by the caller, or null without an exception. */
held_template *hold_kept(const native_state *state, PyObject *query);

/* The template that is kept of a query that is given once more, or null without an exception. It may be given back by the next call
 * or when the GIL is let go. */
const mysql_params_template *kept_template(const native_state *state, PyObject *query);

/* The whole answer to a question, as bytes. */
PyObject *answer(const native_state *state, const question *question);

/* Raises what the package makes of a number of the archive that isn't done, and returns null. The form is of the question. */
PyObject *refuse(const native_state *state, const question *question, int32_t number, const mysql_params_report *report);

/* Raises OutOfMemoryError, and returns null. */
PyObject *refuse_memory(const native_state *state);

/* The mode of a call: whether it is without backslash escapes. */
bool take_mode(const native_state *state, PyObject *given, bool *mode);

/* The functions of the module that bind rows, and that ask of queries. */
PyObject *native_bind_rows(PyObject *module, PyObject *arguments);
PyObject *native_row_items(PyObject *module, PyObject *arguments);
PyObject *native_names(PyObject *module, PyObject *arguments);
PyObject *native_first_unportable(PyObject *module, PyObject *arguments);
PyObject *native_first_unportable_in_client(PyObject *module, PyObject *arguments);
PyObject *native_table(PyObject *module, PyObject *arguments);

#endif
