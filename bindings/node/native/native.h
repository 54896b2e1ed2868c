/* native.h: the addon of Node's package mysql-params, over the archive.
 *
 * JavaScript writes the parameters of a call as a flat form into one ArrayBuffer, so that a call crosses the border once. The
 * addon takes the query, calls the archive, and hands out the text or the refusal. It is tested, not proved.
 *
 * It is of N-API 8, so that one file serves Node 18 and all later versions. Each environment, as that of a worker, has its own
 * state. No function keeps a pointer into memory of JavaScript after it returns, and none calls JavaScript while it has one.
 *
 * A function that returns a napi_value returns null with an exception pending. */
#ifndef NATIVE_H
#define NATIVE_H

#define NAPI_VERSION 8
#include <node_api.h>

#include "mysql_params_form.h"

/* How long the rooms are that an environment keeps, for queries and for answers. */
enum { KEPT_ROOM = 1 << 16 };

/* What an environment keeps. */
typedef struct native_state {
    uint8_t *query; /* owned, KEPT_ROOM bytes */
    uint8_t *room;  /* owned, KEPT_ROOM bytes, each of which has a value */
} native_state;

/* The bits of the number that says how a call is meant: lib/native.js has the same. */
enum {
    CALL_BIND = 0,
    CALL_ANYWHERE = 1,
    CALL_BOTH_MODES = 2,
    CALL_FOR_CONNECTION = 3, /* the text that is sent over a connection of the mode */
    CALLS = 3,
    FLAG_MODE = 4,       /* without backslash escapes */
    FLAG_FRAGMENTS = 8,  /* the form is for the calls that bind fragments */
    FLAG_BYTES = 16,     /* the query is a Uint8Array, and so is its text */
    FLAG_CHECKED = 32,   /* the query, a string, has no lone surrogate */
    FLAG_IN_CLIENT = 64  /* for the client too */
};

/* A query that is taken from JavaScript. */
typedef struct query {
    const uint8_t *at;
    size_t len;
    uint8_t *own; /* owned; null if it stands in the room that is kept, or elsewhere */
} query;

/* How it went with a query. */
typedef enum taken { TAKEN, DOUBTFUL, FAILED } taken;

/* Copies a query. It is doubtful if it has U+FFFD, which may stand for a lone surrogate, unless FLAG_CHECKED is given. FAILED
 * leaves an exception. */
taken take_query(napi_env env, const native_state *state, uint32_t flags, napi_value given, query *taken);

void give_query_back(query *taken);

/* Takes so many arguments; false with an exception pending if there are fewer. */
bool take_arguments(napi_env env, napi_callback_info info, size_t count, napi_value *arguments, native_state **state);

bool take_number(napi_env env, napi_value given, uint32_t *number);

/* Takes the bytes of a form: those between two numbers of an ArrayBuffer. */
bool take_form(napi_env env, napi_value buffer, napi_value from, napi_value to, const uint8_t **form, size_t *len);

/* A text as JavaScript has it: a Buffer for a query of bytes, else a string. */
napi_value text_of(napi_env env, uint32_t flags, const uint8_t *bytes, size_t len);

/* What lib/errors.js takes for a refusal: its number, its message, the fields of the report, and the name that it tells. */
napi_value refusal_of(napi_env env, int32_t number, const mysql_params_report *report, const uint8_t *source,
                      size_t source_len);

/* Throws a RangeError, and returns null. */
napi_value throw_range(napi_env env, const char *message);

/* The functions that are exported. */
napi_value native_bind(napi_env env, napi_callback_info info);
napi_value native_bind_rows(napi_env env, napi_callback_info info);
napi_value native_names(napi_env env, napi_callback_info info);
napi_value native_first_unportable(napi_env env, napi_callback_info info);
napi_value native_construct_message(napi_env env, napi_callback_info info);
napi_value native_template(napi_env env, napi_callback_info info);
napi_value native_bind_template(napi_env env, napi_callback_info info);

#endif
