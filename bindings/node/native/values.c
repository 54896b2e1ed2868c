/* values.c: what crosses the border between JavaScript and C. */
#include "native.h"

#include <stdio.h>
#include <stdlib.h>
#include <string.h>

napi_value throw_range(napi_env env, const char *message)
{
    bool pending = false;
    if (napi_is_exception_pending(env, &pending) == napi_ok && !pending)
        napi_throw_range_error(env, NULL, message);
    return NULL;
}

static bool throw_type(napi_env env)
{
    bool pending = false;
    if (napi_is_exception_pending(env, &pending) == napi_ok && !pending)
        napi_throw_type_error(env, NULL, "the addon of mysql-params was called with other arguments than its package gives");
    return false;
}

bool take_arguments(napi_env env, napi_callback_info info, size_t count, napi_value *arguments, native_state **state)
{
    size_t given = count;
    if (napi_get_cb_info(env, info, &given, arguments, NULL, NULL) != napi_ok || given < count)
        return throw_type(env);
    return napi_get_instance_data(env, (void **)state) == napi_ok && *state != NULL ? true : throw_type(env);
}

bool take_number(napi_env env, napi_value given, uint32_t *number)
{
    return napi_get_value_uint32(env, given, number) == napi_ok ? true : throw_type(env);
}

/* Takes a whole number of bytes. */
static bool take_size(napi_env env, napi_value given, size_t *size)
{
    int64_t number;
    if (napi_get_value_int64(env, given, &number) != napi_ok || number < 0)
        return throw_type(env);
    *size = (size_t)number;
    return true;
}

bool take_form(napi_env env, napi_value buffer, napi_value from, napi_value to, const uint8_t **form, size_t *len)
{
    static const uint8_t nothing;
    void *at = NULL;
    size_t room = 0, begin, end;
    if (!take_size(env, from, &begin) || !take_size(env, to, &end))
        return false;
    if (napi_get_arraybuffer_info(env, buffer, &at, &room) != napi_ok || begin > end || end > room)
        return throw_type(env);
    *form = at == NULL ? &nothing : (const uint8_t *)at + begin;
    *len = end - begin;
    return true;
}

/* Whether bytes hold U+FFFD, which takes the place of a lone surrogate. */
static bool has_replacement(const uint8_t *bytes, size_t len)
{
    while (len >= 3) {
        const uint8_t *at = memchr(bytes, 0xEF, len - 2);
        if (at == NULL)
            return false;
        if (at[1] == 0xBF && at[2] == 0xBD)
            return true;
        len -= (size_t)(at + 1 - bytes);
        bytes = at + 1;
    }
    return false;
}

/* Has a query stand in memory of its own, if the room that is kept is too short. */
static uint8_t *room_for(napi_env env, const native_state *state, size_t len, query *taken)
{
    if (len <= KEPT_ROOM)
        return state->query;
    taken->own = malloc(len);
    if (taken->own == NULL)
        throw_range(env, "no memory for the query");
    return taken->own;
}

static taken take_bytes(napi_env env, const native_state *state, napi_value given, query *taken)
{
    napi_typedarray_type type;
    void *at = NULL;
    size_t len = 0;
    if (napi_get_typedarray_info(env, given, &type, &len, &at, NULL, NULL) != napi_ok || type != napi_uint8_array) {
        throw_type(env);
        return FAILED;
    }
    /* A copy, since another thread may write into memory that is shared. */
    uint8_t *room = room_for(env, state, len, taken);
    if (room == NULL)
        return FAILED;
    if (len > 0)
        memcpy(room, at, len);
    taken->at = room;
    taken->len = len;
    return TAKEN;
}

static taken take_string(napi_env env, const native_state *state, napi_value given, query *taken)
{
    size_t len = 0;
    if (napi_get_value_string_utf8(env, given, (char *)state->query, KEPT_ROOM, &len) != napi_ok) {
        throw_type(env);
        return FAILED;
    }
    taken->at = state->query;
    taken->len = len;
    if (len < KEPT_ROOM - 4) /* Else it may have been cut before a letter. */
        return TAKEN;
    if (napi_get_value_string_utf8(env, given, NULL, 0, &len) != napi_ok || len >= SIZE_MAX / 2) {
        throw_type(env);
        return FAILED;
    }
    taken->own = malloc(len + 1);
    if (taken->own == NULL) {
        throw_range(env, "no memory for the query");
        return FAILED;
    }
    taken->at = taken->own;
    taken->len = 0;
    if (napi_get_value_string_utf8(env, given, (char *)taken->own, len + 1, &taken->len) == napi_ok)
        return TAKEN;
    give_query_back(taken);
    throw_type(env);
    return FAILED;
}

taken take_query(napi_env env, const native_state *state, uint32_t flags, napi_value given, query *taken)
{
    *taken = (query){NULL, 0, NULL};
    if (flags & FLAG_BYTES)
        return take_bytes(env, state, given, taken);
    enum taken how = take_string(env, state, given, taken);
    if (how != TAKEN || flags & FLAG_CHECKED || !has_replacement(taken->at, taken->len))
        return how;
    give_query_back(taken);
    return DOUBTFUL;
}

void give_query_back(query *taken)
{
    free(taken->own);
    taken->own = NULL;
}

/* Looks at eight bytes at once. */
static bool is_ascii(const uint8_t *bytes, size_t len)
{
    uint64_t found = 0, eight;
    size_t i = 0;
    for (; i + sizeof eight <= len; i += sizeof eight) {
        memcpy(&eight, bytes + i, sizeof eight);
        found |= eight;
    }
    for (; i < len; i++)
        found |= bytes[i];
    return (found & 0x8080808080808080) == 0;
}

napi_value text_of(napi_env env, uint32_t flags, const uint8_t *bytes, size_t len)
{
    napi_value text = NULL;
    napi_status status;
    if (flags & FLAG_BYTES)
        status = napi_create_buffer_copy(env, len, bytes, NULL, &text);
    else if (is_ascii(bytes, len))
        status = napi_create_string_latin1(env, (const char *)bytes, len, &text);
    else
        status = napi_create_string_utf8(env, (const char *)bytes, len, &text);
    if (status == napi_ok && text != NULL)
        return text;
    return throw_range(env, flags & FLAG_BYTES ? "the text is longer than a Buffer can be"
                                               : "the text is longer than a string can be: give the query as a Buffer");
}

/* The message of a number as a string of JavaScript. */
static napi_value message_of(napi_env env, int32_t number, const mysql_params_report *report, const uint8_t *source,
                             size_t source_len)
{
    char line[512];
    napi_value message = NULL;
    size_t len = mysql_params_message_wide(number, report, source, source_len, line, sizeof line);
    char *longer = len < sizeof line ? NULL : malloc(len + 1);
    if (longer != NULL)
        mysql_params_message_wide(number, report, source, source_len, longer, len + 1);
    else if (len >= sizeof line)
        len = sizeof line - 1;
    napi_status status = napi_create_string_latin1(env, longer == NULL ? line : longer, len, &message);
    free(longer);
    return status == napi_ok ? message : throw_range(env, "no memory for a message");
}

/* The name that a report tells; undefined if it tells none. */
static napi_value name_of(napi_env env, int32_t number, const mysql_params_report *report, const uint8_t *source,
                          size_t source_len)
{
    napi_value name = NULL;
    bool tells = number == MYSQL_PARAMS_MISSING || number == MYSQL_PARAMS_FORM_REPEATED;
    if (tells && report->position <= source_len && report->len <= source_len - report->position) {
        const char *at = (const char *)source + report->position;
        return napi_create_string_utf8(env, at, report->len, &name) == napi_ok ? name : throw_range(env, "no memory for a name");
    }
    return napi_get_undefined(env, &name) == napi_ok ? name : throw_range(env, "no memory for a name");
}

napi_value refusal_of(napi_env env, int32_t number, const mysql_params_report *report, const uint8_t *source,
                      size_t source_len)
{
    const double fields[] = {number,           (double)report->len,   (double)report->place, (double)report->position,
                             (double)report->marks, (double)report->values, (double)report->byte};
    const uint32_t count = sizeof fields / sizeof *fields;
    napi_value made = NULL, value = NULL;
    if (napi_create_array_with_length(env, count + 2, &made) != napi_ok)
        return throw_range(env, "no memory for a refusal");
    for (uint32_t i = 0; i < count; i++) {
        if (napi_create_double(env, fields[i], &value) != napi_ok || napi_set_element(env, made, i, value) != napi_ok)
            return throw_range(env, "no memory for a refusal");
    }
    value = message_of(env, number, report, source, source_len);
    if (value == NULL || napi_set_element(env, made, count, value) != napi_ok)
        return throw_range(env, "no memory for a refusal");
    value = name_of(env, number, report, source, source_len);
    if (value == NULL || napi_set_element(env, made, count + 1, value) != napi_ok)
        return throw_range(env, "no memory for a refusal");
    return made;
}
