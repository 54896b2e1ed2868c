/* calls.c: what is asked of the archive for one text, and its answer. */
#include "native.h"

#include <stdlib.h>

/* How much longer than query and literals a room is at first: quotes, and what a few values have beside them. */
enum { MORE_ROOM = 64 };

/* What is asked. */
typedef struct question {
    uint32_t flags;
    const uint8_t *query; /* borrowed */
    size_t query_len;
    const mysql_params_template *made; /* borrowed; the query's template, or null */
    const uint8_t *form;               /* borrowed */
    size_t form_len;
} question;

/* Asks in a mode, by the template if there is one. */
static int32_t ask_in_mode(const question *q, uint8_t *room, size_t len, mysql_params_report *report)
{
    bool mode = (q->flags & FLAG_MODE) != 0;
    if (q->flags & FLAG_FRAGMENTS)
        return mysql_params_bind_fragments_wide(q->query, q->query_len, q->form, q->form_len, mode, room, len, report);
    if (q->made != NULL)
        return mysql_params_template_bind(q->made, q->form, q->form_len, room, len, report);
    return mysql_params_bind_wide(q->query, q->query_len, q->form, q->form_len, mode, room, len, report);
}

/* Asks for the text that is sent over a connection of a mode, by the template if there is one. */
static int32_t ask_for_connection(const question *q, uint8_t *room, size_t len, mysql_params_report *report)
{
    bool mode = (q->flags & FLAG_MODE) != 0, is_fragments = (q->flags & FLAG_FRAGMENTS) != 0;
    if (q->made != NULL)
        return mysql_params_template_bind_for_connection(q->made, q->form, q->form_len, is_fragments, mode, room, len, report);
    return mysql_params_bind_for_connection_wide(q->query, q->query_len, q->form, q->form_len, is_fragments, mode, room, len,
                                                 report);
}

static int32_t ask(const question *q, uint8_t *room, size_t len, mysql_params_report *report)
{
    bool is_fragments = (q->flags & FLAG_FRAGMENTS) != 0;
    switch (q->flags & CALLS) {
    case CALL_FOR_CONNECTION:
        return ask_for_connection(q, room, len, report);
    case CALL_ANYWHERE:
        if (is_fragments)
            return mysql_params_bind_fragments_anywhere_wide(q->query, q->query_len, q->form, q->form_len, room, len, report);
        if (q->made != NULL)
            return mysql_params_template_bind_anywhere(q->made, q->form, q->form_len, room, len, report);
        return mysql_params_bind_anywhere_wide(q->query, q->query_len, q->form, q->form_len, room, len, report);
    case CALL_BOTH_MODES:
        return mysql_params_bind_in_both_modes_wide(q->query, q->query_len, q->form, q->form_len, room, len, report);
    default:
        return ask_in_mode(q, room, len, report);
    }
}

/* What comes of an answer in a room: the text, or the refusal. */
static napi_value taken_from(napi_env env, const question *q, int32_t number, const uint8_t *room, size_t room_len,
                             const mysql_params_report *report)
{
    if (number != MYSQL_PARAMS_DONE) {
        bool of_form = number == MYSQL_PARAMS_FORM_REPEATED;
        return refusal_of(env, number, report, of_form ? q->form : q->query, of_form ? q->form_len : q->query_len);
    }
    if (report->len > room_len)
        return throw_range(env, "the archive says that it wrote more bytes than it had room for");
    return text_of(env, q->flags, room, report->len);
}

/* A room of zeros; null if there is no memory. */
static uint8_t *new_room(size_t len)
{
    return len >= PTRDIFF_MAX ? NULL : calloc(len + 1, 1);
}

/* Answers by a room of its own, of a length that was guessed or is needed. */
static napi_value long_answer(napi_env env, const question *q, size_t len)
{
    const mysql_params_report nothing = {0};
    mysql_params_report report = {0};
    uint8_t *room = new_room(len);
    if (room == NULL) {
        len = 0; /* The answer may be far shorter than the guess, and then there is room for it. */
        room = new_room(len);
    }
    int32_t number = room == NULL ? MYSQL_PARAMS_OUT_OF_MEMORY : ask(q, room, len, &report);
    if (number == MYSQL_PARAMS_ROOM) {
        free(room);
        len = report.len;
        report = nothing;
        room = new_room(len);
        number = room == NULL ? MYSQL_PARAMS_OUT_OF_MEMORY : ask(q, room, len, &report);
    }
    napi_value answer = taken_from(env, q, number, room, len, &report);
    free(room);
    return answer;
}

static napi_value answer(napi_env env, const native_state *state, const question *q)
{
    /* A literal has at most twice the bytes of its value; those of other texts, and of items, have more beside them. */
    size_t factor = (q->flags & (CALLS | FLAG_FRAGMENTS)) != 0 ? 4 : 2;
    size_t guess = q->form_len > PTRDIFF_MAX / 8 ? SIZE_MAX / 2 : q->query_len + factor * q->form_len + MORE_ROOM;
    if (guess > KEPT_ROOM)
        return long_answer(env, q, guess);
    mysql_params_report report = {0};
    int32_t number = ask(q, state->room, KEPT_ROOM, &report);
    if (number == MYSQL_PARAMS_ROOM)
        return long_answer(env, q, report.len);
    return taken_from(env, q, number, state->room, KEPT_ROOM, &report);
}

/* Returns undefined, for a query that JavaScript has to look at. */
static napi_value of_doubtful(napi_env env)
{
    napi_value nothing = NULL;
    return napi_get_undefined(env, &nothing) == napi_ok ? nothing : NULL;
}

/* bind(flags, query, buffer, from, to): the text of a form */
napi_value native_bind(napi_env env, napi_callback_info info)
{
    napi_value arguments[5];
    native_state *state;
    question q = {0};
    query taken;
    if (!take_arguments(env, info, 5, arguments, &state) || !take_number(env, arguments[0], &q.flags) ||
        !take_form(env, arguments[2], arguments[3], arguments[4], &q.form, &q.form_len))
        return NULL;
    enum taken how = take_query(env, state, q.flags, arguments[1], &taken);
    if (how != TAKEN)
        return how == DOUBTFUL ? of_doubtful(env) : NULL;
    q.query = taken.at;
    q.query_len = taken.len;
    napi_value text = answer(env, state, &q);
    give_query_back(&taken);
    return text;
}

/* Gives back a template whose object is gone. */
static void finalize_template(napi_env env, void *made, void *hint)
{
    int64_t held;
    size_t len;
    (void)hint;
    (void)mysql_params_template_query(made, &len);
    napi_adjust_external_memory(env, -(int64_t)len, &held);
    mysql_params_template_free(made);
}

/* template(flags, query): what holds a template, or a refusal if there is no memory */
napi_value native_template(napi_env env, napi_callback_info info)
{
    napi_value arguments[2], object = NULL;
    native_state *state;
    uint32_t flags;
    query taken;
    int64_t held;
    if (!take_arguments(env, info, 2, arguments, &state) || !take_number(env, arguments[0], &flags))
        return NULL;
    enum taken how = take_query(env, state, flags, arguments[1], &taken);
    if (how != TAKEN)
        return how == DOUBTFUL ? of_doubtful(env) : NULL;
    mysql_params_template *made = mysql_params_template_new_wide(taken.at, taken.len, (flags & FLAG_MODE) != 0);
    size_t len = taken.len;
    give_query_back(&taken);
    if (made == NULL) {
        const mysql_params_report report = {0};
        static const uint8_t nothing;
        return refusal_of(env, MYSQL_PARAMS_OUT_OF_MEMORY, &report, &nothing, 0);
    }
    if (napi_create_external(env, made, finalize_template, NULL, &object) != napi_ok) {
        mysql_params_template_free(made);
        return throw_range(env, "no memory for a template");
    }
    napi_adjust_external_memory(env, (int64_t)len, &held);
    return object;
}

/* bindTemplate(flags, template, buffer, from, to): the text of a form */
napi_value native_bind_template(napi_env env, napi_callback_info info)
{
    napi_value arguments[5];
    native_state *state;
    question q = {0};
    void *made = NULL;
    if (!take_arguments(env, info, 5, arguments, &state) || !take_number(env, arguments[0], &q.flags) ||
        !take_form(env, arguments[2], arguments[3], arguments[4], &q.form, &q.form_len))
        return NULL;
    if (napi_get_value_external(env, arguments[1], &made) != napi_ok || made == NULL) {
        napi_throw_type_error(env, NULL, "a template is wanted");
        return NULL;
    }
    q.made = made;
    q.query = mysql_params_template_query(q.made, &q.query_len);
    return answer(env, state, &q);
}

/* names(flags, query): the query with marks, and its names, in an array */
static napi_value names_of(napi_env env, uint32_t flags, const uint8_t *answer, size_t len)
{
    napi_value found = NULL;
    mysql_params_string string;
    if (napi_create_array(env, &found) != napi_ok)
        return throw_range(env, "no memory for the names");
    for (uint32_t i = 0; mysql_params_next_string(&answer, &len, &string); i++) {
        napi_handle_scope scope;
        if (napi_open_handle_scope(env, &scope) != napi_ok)
            return throw_range(env, "no memory for the names");
        /* The names are ASCII, also of a query that is bytes. */
        napi_value name = text_of(env, i == 0 ? flags : 0, string.bytes, string.len);
        bool done = name != NULL && napi_set_element(env, found, i, name) == napi_ok;
        napi_close_handle_scope(env, scope);
        if (!done)
            return throw_range(env, "no memory for the names");
    }
    return found;
}

/* Asks for the names in a room of its own. */
static napi_value find_names(napi_env env, uint32_t flags, const query *taken)
{
    bool mode = (flags & FLAG_MODE) != 0;
    size_t len = taken->len + MORE_ROOM;
    for (;;) {
        mysql_params_report report = {0};
        uint8_t *room = new_room(len);
        int32_t number = room == NULL ? MYSQL_PARAMS_OUT_OF_MEMORY
                                      : mysql_params_names_wide(taken->at, taken->len, mode, room, len, &report);
        napi_value found = NULL;
        if (number == MYSQL_PARAMS_DONE)
            found = report.len > len ? throw_range(env, "the archive says that it wrote more bytes than it had room for")
                                     : names_of(env, flags, room, report.len);
        else if (number != MYSQL_PARAMS_ROOM)
            found = refusal_of(env, number, &report, taken->at, taken->len);
        free(room);
        if (number != MYSQL_PARAMS_ROOM)
            return found;
        len = report.len;
    }
}

napi_value native_names(napi_env env, napi_callback_info info)
{
    napi_value arguments[2];
    native_state *state;
    uint32_t flags;
    query taken;
    if (!take_arguments(env, info, 2, arguments, &state) || !take_number(env, arguments[0], &flags))
        return NULL;
    enum taken how = take_query(env, state, flags, arguments[1], &taken);
    if (how != TAKEN)
        return how == DOUBTFUL ? of_doubtful(env) : NULL;
    napi_value found = find_names(env, flags, &taken);
    give_query_back(&taken);
    return found;
}

/* firstUnportable(flags, query): 0, or the refusal of a query that isn't portable */
napi_value native_first_unportable(napi_env env, napi_callback_info info)
{
    napi_value arguments[2], found = NULL;
    native_state *state;
    uint32_t flags;
    query taken;
    mysql_params_report report = {0};
    if (!take_arguments(env, info, 2, arguments, &state) || !take_number(env, arguments[0], &flags))
        return NULL;
    enum taken how = take_query(env, state, flags, arguments[1], &taken);
    if (how != TAKEN)
        return how == DOUBTFUL ? of_doubtful(env) : NULL;
    bool mode = (flags & FLAG_MODE) != 0;
    int32_t number = flags & FLAG_IN_CLIENT
                         ? mysql_params_first_unportable_in_client_wide(taken.at, taken.len, mode, &report)
                         : mysql_params_first_unportable_wide(taken.at, taken.len, mode, &report);
    if (number == MYSQL_PARAMS_PORTABLE) {
        if (napi_create_uint32(env, 0, &found) != napi_ok)
            found = throw_range(env, "no memory for a number");
    } else {
        report.byte = (size_t)number;
        found = refusal_of(env, MYSQL_PARAMS_UNPORTABLE, &report, taken.at, taken.len);
    }
    give_query_back(&taken);
    return found;
}

/* constructMessage(number): what a construct says, or null */
napi_value native_construct_message(napi_env env, napi_callback_info info)
{
    napi_value arguments[1], message = NULL;
    native_state *state;
    uint32_t number;
    if (!take_arguments(env, info, 1, arguments, &state) || !take_number(env, arguments[0], &number))
        return NULL;
    const char *said = number > INT32_MAX ? NULL : mysql_params_construct_message((int32_t)number);
    napi_status status = said == NULL ? napi_get_null(env, &message)
                                      : napi_create_string_latin1(env, said, NAPI_AUTO_LENGTH, &message);
    return status == napi_ok ? message : throw_range(env, "no memory for a message");
}
