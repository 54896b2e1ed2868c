/* calls.c: what is asked of the archive, and its answers and refusals. */
#include "native.h"

#include <stdlib.h>

/* How much longer than query and literals a room is at first: quotes, and what a few values have beside them. */
enum { MORE_ROOM = 64 };

bool take_mode(const native_state *state, PyObject *given, bool *mode)
{
    *mode = given == Py_True;
    if (given == Py_True || given == Py_False)
        return true;
    PyObject *taken = PyObject_CallFunctionObjArgs(state->handed[HANDED_FLAG], given, NULL);
    Py_XDECREF(taken);
    return taken != NULL;
}

PyObject *bytes_of(const native_state *state, PyObject *query)
{
    if (Py_TYPE(query) == &PyBytes_Type) {
        Py_INCREF(query);
        return query;
    }
    if (Py_TYPE(query) == &PyUnicode_Type) {
        PyObject *own = PyUnicode_AsUTF8String(query);
        if (own != NULL || !PyErr_ExceptionMatches(PyExc_UnicodeEncodeError))
            return own;
        PyErr_Clear(); /* The package's function raises its own. */
    }
    return PyObject_CallFunctionObjArgs(state->handed[HANDED_BYTES_OF], query, NULL);
}

/* Bytes that something else holds, as a query's bytes object. */
typedef struct bytes {
    const uint8_t *at;
    size_t len;
} bytes;

static bytes query_of(const question *question)
{
    bytes query = {(const uint8_t *)PyBytes_AsString(question->query), (size_t)PyBytes_Size(question->query)};
    return query;
}

bool take_call_to_send(PyObject *wants_steady, enum call *call)
{
    int wanted = PyObject_IsTrue(wants_steady);
    *call = wanted > 0 ? CALL_ANYWHERE : CALL_FOR_CONNECTION;
    return wanted >= 0;
}

/* Asks in a mode, by the table if there is one. */
static int32_t ask_in_mode(const question *q, bytes query, uint8_t *room, size_t len, mysql_params_report *report)
{
    if (q->is_fragments)
        return mysql_params_bind_fragments_wide(query.at, query.len, q->form, q->form_len, q->mode, room, len, report);
    if (q->table != NULL)
        return mysql_params_bind_template_wide(query.at, query.len, &q->table->head, q->table->places,
                                               (size_t)q->table->count, q->form, q->form_len, q->mode, room, len, report);
    return mysql_params_bind_wide(query.at, query.len, q->form, q->form_len, q->mode, room, len, report);
}

/* Asks for what is sent over a connection in a mode, by the template if there is one. */
static int32_t ask_for_connection(const question *q, bytes query, uint8_t *room, size_t len, mysql_params_report *report)
{
    if (q->made != NULL)
        return mysql_params_template_bind_for_connection(q->made, q->form, q->form_len, q->is_fragments, q->mode, room, len,
                                                         report);
    return mysql_params_bind_for_connection_wide(query.at, query.len, q->form, q->form_len, q->is_fragments, q->mode, room, len,
                                                 report);
}

/* Asks for what is for any mode and server, by the template if there is one. */
static int32_t ask_anywhere(const question *q, bytes query, uint8_t *room, size_t len, mysql_params_report *report)
{
    if (q->is_fragments)
        return mysql_params_bind_fragments_anywhere_wide(query.at, query.len, q->form, q->form_len, room, len, report);
    if (q->made != NULL)
        return mysql_params_template_bind_anywhere(q->made, q->form, q->form_len, room, len, report);
    return mysql_params_bind_anywhere_wide(query.at, query.len, q->form, q->form_len, room, len, report);
}

/* Asks the archive. It calls nothing of Python. */
static int32_t ask(const question *q, bytes query, uint8_t *room, size_t len, mysql_params_report *report)
{
    switch (q->call) {
    case CALL_NAMES:
        return mysql_params_names_wide(query.at, query.len, q->mode, room, len, report);
    case CALL_BOTH_MODES:
        return mysql_params_bind_in_both_modes_wide(query.at, query.len, q->form, q->form_len, room, len, report);
    case CALL_ANYWHERE:
        return ask_anywhere(q, query, room, len, report);
    case CALL_FOR_CONNECTION:
        return ask_for_connection(q, query, room, len, report);
    case CALL_BIND:
        break;
    }
    return ask_in_mode(q, query, room, len, report);
}

/* Asks the archive without the GIL. */
static int32_t ask_long(const question *question, uint8_t *room, size_t len, mysql_params_report *report)
{
    int32_t number;
    bytes query = query_of(question);
    Py_BEGIN_ALLOW_THREADS
    number = ask(question, query, room, len, report);
    Py_END_ALLOW_THREADS
    return number;
}

/* What a report says, as the package takes it. */
static PyObject *report_of(const mysql_params_report *report)
{
    return Py_BuildValue("(KKKKKK)", (unsigned long long)report->len, (unsigned long long)report->place,
                         (unsigned long long)report->position, (unsigned long long)report->marks,
                         (unsigned long long)report->values, (unsigned long long)report->byte);
}

PyObject *refuse(const native_state *state, const question *question, int32_t number, const mysql_params_report *report)
{
    PyObject *told = report_of(report);
    if (told == NULL)
        return NULL;
    bool has_mode = question->call == CALL_BIND || question->call == CALL_FOR_CONNECTION;
    PyObject *without_escapes = has_mode && question->mode ? Py_True : Py_False;
    PyObject *error = PyObject_CallFunction(state->handed[HANDED_REFUSAL], "iOOy#O", (int)number, told, question->query,
                                            (const char *)question->form, (Py_ssize_t)question->form_len, without_escapes);
    Py_DECREF(told);
    if (error != NULL)
        PyErr_SetObject((PyObject *)Py_TYPE(error), error);
    Py_XDECREF(error);
    return NULL;
}

PyObject *refuse_memory(const native_state *state)
{
    static const uint8_t no_form;
    PyObject *no_query = PyBytes_FromStringAndSize("", 0);
    if (no_query == NULL)
        return NULL;
    const question of_memory = {.call = CALL_NAMES, .query = no_query, .form = &no_form};
    const mysql_params_report report = {0};
    refuse(state, &of_memory, MYSQL_PARAMS_OUT_OF_MEMORY, &report);
    Py_DECREF(no_query);
    return NULL;
}

/* The answer in the bytes of a room, of which the archive says that it is `len` bytes long. */
static PyObject *taken(bytes room, size_t len)
{
    if (len <= room.len)
        return PyBytes_FromStringAndSize((const char *)room.at, (Py_ssize_t)len);
    PyErr_Format(PyExc_RuntimeError, "the archive says that it wrote %zu bytes, and had room for %zu", len, room.len);
    return NULL;
}

/* The same by a room of its own, of a length that was guessed or is needed. */
static PyObject *long_answer(const native_state *state, const question *question, size_t len)
{
    mysql_params_report report = {0};
    uint8_t *room = len > (size_t)PY_SSIZE_T_MAX ? NULL : calloc(len + 1, 1);
    if (room == NULL) {
        len = 0; /* The answer may be far shorter than the guess, and then there is room for it. */
        room = calloc(1, 1);
    }
    int32_t number = room == NULL ? MYSQL_PARAMS_OUT_OF_MEMORY : ask_long(question, room, len, &report);
    if (number == MYSQL_PARAMS_ROOM) {
        free(room);
        len = report.len;
        room = len > (size_t)PY_SSIZE_T_MAX ? NULL : calloc(len + 1, 1);
        if (room == NULL)
            return refuse_memory(state);
        number = ask_long(question, room, len, &report);
    }
    PyObject *answer = number == MYSQL_PARAMS_DONE ? taken((bytes){room, len}, report.len)
                                                   : refuse(state, question, number, &report);
    free(room);
    return answer;
}

/* Whether a question is one for which a template of its query isn't walked. */
static bool takes_template(const question *question)
{
    return !question->is_fragments && (question->call == CALL_FOR_CONNECTION || question->call == CALL_ANYWHERE);
}

PyObject *answer(const native_state *state, const question *question)
{
    bytes query = query_of(question);
    size_t literals = (question->is_fragments ? 3 : 2) * question->form_len;
    size_t guess = query.len + literals + MORE_ROOM;
    if (guess > KEPT_ROOM)
        return long_answer(state, question, guess);
    /* While the GIL is held nothing takes the place of a template that is kept. */
    struct question held = *question;
    if (held.made == NULL && takes_template(question))
        held.made = kept_template(state, question->query);
    mysql_params_report report = {0};
    int32_t number = ask(&held, query, state->room, KEPT_ROOM, &report);
    if (number == MYSQL_PARAMS_ROOM)
        return long_answer(state, question, report.len);
    if (number != MYSQL_PARAMS_DONE)
        return refuse(state, question, number, &report);
    return taken((bytes){state->room, KEPT_ROOM}, report.len);
}
