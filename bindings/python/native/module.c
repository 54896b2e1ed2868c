/* module.c: the functions of the module mysql_params._native, and what it is handed by its package. */
#include "native.h"

#include <stdlib.h>

static const char *const HANDED_NAMES[HANDED_COUNT] = {
    "value_form", "place_form", "item_form", "parameters", "name",      "bytes_of", "copy",      "refusal", "table_of",
    "zone_of",    "flag",       "registered", "date",      "datetime",  "time",     "timedelta", "decimal", "in",
    "lists",
};

static const char *const ATTRIBUTE_NAMES[ATTRIBUTE_COUNT] = {
    "year", "month", "day", "hour", "minute", "second", "microsecond", "tzinfo", "days", "seconds", "microseconds", "items",
};

native_state *state_of(PyObject *module)
{
    native_state *state = PyModule_GetState(module);
    if (state != NULL && state->handed[HANDED_COUNT - 1] != NULL)
        return state;
    PyErr_SetString(PyExc_RuntimeError, "mysql_params._native is a part of mysql_params, which has to be imported first");
    return NULL;
}

bool take_arguments(PyObject *arguments, Py_ssize_t count, PyObject **taken)
{
    if (PyTuple_Size(arguments) != count) {
        PyErr_Format(PyExc_TypeError, "%zd arguments are wanted", count);
        return false;
    }
    for (Py_ssize_t i = 0; i < count; i++)
        taken[i] = PyTuple_GetItem(arguments, i);
    return true;
}

/* Takes what the package hands over, a dict. */
static PyObject *native_set_up(PyObject *module, PyObject *given)
{
    native_state *state = PyModule_GetState(module);
    if (state == NULL)
        return NULL;
    for (int i = 0; i < HANDED_COUNT; i++) {
        PyObject *found = PyDict_GetItemString(given, HANDED_NAMES[i]);
        if (found == NULL) {
            PyErr_Format(PyExc_TypeError, "%s is missing", HANDED_NAMES[i]);
            return NULL;
        }
        PyObject *before = state->handed[i];
        Py_INCREF(found);
        state->handed[i] = found;
        Py_XDECREF(before);
    }
    Py_RETURN_NONE;
}

/* Takes how long a query is at least of which a table is kept, and returns what it was before. */
static PyObject *native_keep_from(PyObject *module, PyObject *length)
{
    native_state *state = PyModule_GetState(module);
    Py_ssize_t least = PyLong_AsSsize_t(length);
    if (state == NULL || (least == -1 && PyErr_Occurred() != NULL))
        return NULL;
    PyObject *before = PyLong_FromSsize_t(state->least_kept);
    state->least_kept = least;
    return before;
}

/* A writer of a form that has begun, for a zone, which is checked. */
static bool begin_writing(const native_state *state, form *form, PyObject *zone, enum level level, writer *writer)
{
    form_begin(form);
    *writer = (struct writer){state, form, zone, level, NULL};
    if (zone == Py_None)
        return true;
    PyObject *checked = PyObject_CallFunctionObjArgs(state->handed[HANDED_ZONE_OF], zone, NULL);
    Py_XDECREF(checked);
    return checked != NULL;
}

/* The answer to a question whose parameters are written first, and whose mode, if it has one, is taken then. */
static PyObject *answer_with(const native_state *state, question *question, PyObject *params, PyObject *zone, PyObject *mode)
{
    form form;
    writer writer;
    PyObject *text = NULL;
    enum level level = question->call == CALL_BOTH_MODES ? LEVEL_VALUES : LEVEL_PLACES;
    if (begin_writing(state, &form, zone, level, &writer) && write_params(&writer, params) &&
        (mode == NULL || take_mode(state, mode, &question->mode))) {
        question->form = form.bytes;
        question->form_len = form.len;
        question->is_fragments = form.is_fragments && question->call != CALL_BOTH_MODES;
        text = answer(state, question);
    }
    form_free(&form);
    return text;
}

/* The answer to a question whose form is handed in. */
static PyObject *answer_of_form(const native_state *state, question *question, PyObject *form, PyObject *mode)
{
    PyObject *copy = PyObject_CallFunctionObjArgs(state->handed[HANDED_COPY], form, NULL);
    PyObject *text = NULL;
    char *at;
    Py_ssize_t len;
    if (copy != NULL && PyBytes_AsStringAndSize(copy, &at, &len) == 0 &&
        (mode == NULL || take_mode(state, mode, &question->mode))) {
        question->form = (const uint8_t *)at;
        question->form_len = (size_t)len;
        text = answer(state, question);
    }
    Py_XDECREF(copy);
    return text;
}

/* The table that the package keeps of a query in a mode, as both were given; null if there is none, or with an exception. */
static PyObject *kept_table(const native_state *state, PyObject *query, PyObject *mode)
{
    Py_ssize_t len = 0;
    if (Py_TYPE(query) == &PyUnicode_Type)
        len = PyUnicode_GetLength(query);
    else if (Py_TYPE(query) == &PyBytes_Type)
        len = PyBytes_Size(query);
    if (len < state->least_kept)
        return NULL;
    PyObject *found = PyObject_CallFunctionObjArgs(state->handed[HANDED_TABLE_OF], query, mode, NULL);
    if (found == NULL || Py_TYPE(found) == state->table_type)
        return found;
    Py_DECREF(found);
    return NULL;
}

/* Has a question be about a query, and the table that is kept of it, which is returned too: both are new references. */
static bool ask_about(const native_state *state, question *question, PyObject *query, PyObject *mode, PyObject **kept)
{
    *kept = kept_table(state, query, mode);
    if (*kept == NULL && PyErr_Occurred() != NULL)
        return false;
    if (*kept == NULL) {
        question->query = bytes_of(state, query);
        return question->query != NULL;
    }
    question->table = (table *)*kept;
    question->query = question->table->query;
    Py_INCREF(question->query);
    return true;
}

/* bind(query, params, mode, zone) */
static PyObject *native_bind(PyObject *module, PyObject *arguments)
{
    PyObject *taken[4], *kept = NULL, *text = NULL;
    native_state *state = state_of(module);
    question question = {.call = CALL_BIND};
    if (state == NULL || !take_arguments(arguments, 4, taken))
        return NULL;
    if (ask_about(state, &question, taken[0], taken[2], &kept))
        text = answer_with(state, &question, taken[1], taken[3], taken[2]);
    Py_XDECREF(question.query);
    Py_XDECREF(kept);
    return text;
}

/* bind_form(query, form, mode) */
static PyObject *native_bind_form(PyObject *module, PyObject *arguments)
{
    PyObject *taken[3], *kept = NULL, *text = NULL;
    native_state *state = state_of(module);
    question question = {.call = CALL_BIND};
    if (state == NULL || !take_arguments(arguments, 3, taken))
        return NULL;
    if (ask_about(state, &question, taken[0], taken[2], &kept))
        text = answer_of_form(state, &question, taken[1], taken[2]);
    Py_XDECREF(question.query);
    Py_XDECREF(kept);
    return text;
}

/* bind_written(query, form, mode, is_fragments, steady): the text to send of a form that `written` made, with steady literals or
 * with those for a connection in the mode */
static PyObject *native_bind_written(PyObject *module, PyObject *arguments)
{
    PyObject *taken[5];
    native_state *state = state_of(module);
    question question = {.call = CALL_FOR_CONNECTION};
    if (state == NULL || !take_arguments(arguments, 5, taken))
        return NULL;
    if (!PyBytes_Check(taken[0])) {
        PyErr_SetString(PyExc_TypeError, "a query of bytes is wanted");
        return NULL;
    }
    if (!take_call_to_send(taken[4], &question.call))
        return NULL;
    question.is_fragments = taken[3] == Py_True;
    question.query = taken[0];
    return answer_of_form(state, &question, taken[1], taken[2]);
}

/* Binds parameters to a query without a mode: query, params, zone. */
static PyObject *bind_without_mode(PyObject *module, PyObject *arguments, enum call call)
{
    PyObject *taken[3], *text = NULL;
    native_state *state = state_of(module);
    question question = {.call = call};
    if (state == NULL || !take_arguments(arguments, 3, taken))
        return NULL;
    question.query = bytes_of(state, taken[0]);
    if (question.query != NULL)
        text = answer_with(state, &question, taken[1], taken[2], NULL);
    Py_XDECREF(question.query);
    return text;
}

static PyObject *native_bind_anywhere(PyObject *module, PyObject *arguments)
{
    return bind_without_mode(module, arguments, CALL_ANYWHERE);
}

static PyObject *native_bind_in_both_modes(PyObject *module, PyObject *arguments)
{
    return bind_without_mode(module, arguments, CALL_BOTH_MODES);
}

/* Binds a form to a query without a mode: query, form. */
static PyObject *bind_form_without_mode(PyObject *module, PyObject *arguments, enum call call)
{
    PyObject *taken[2], *text = NULL;
    native_state *state = state_of(module);
    question question = {.call = call};
    if (state == NULL || !take_arguments(arguments, 2, taken))
        return NULL;
    question.query = bytes_of(state, taken[0]);
    if (question.query != NULL)
        text = answer_of_form(state, &question, taken[1], NULL);
    Py_XDECREF(question.query);
    return text;
}

static PyObject *native_bind_form_anywhere(PyObject *module, PyObject *arguments)
{
    return bind_form_without_mode(module, arguments, CALL_ANYWHERE);
}

static PyObject *native_bind_form_in_both_modes(PyObject *module, PyObject *arguments)
{
    return bind_form_without_mode(module, arguments, CALL_BOTH_MODES);
}

/* Has a question be about a table that is handed in. */
static bool ask_about_table(const native_state *state, question *question, PyObject *given)
{
    if (Py_TYPE(given) != state->table_type) {
        PyErr_SetString(PyExc_TypeError, "a Table is wanted");
        return false;
    }
    question->call = CALL_BIND;
    question->table = (table *)given;
    question->query = question->table->query;
    question->mode = question->table->mode;
    return true;
}

/* bind_table(table, params, zone) */
static PyObject *native_bind_table(PyObject *module, PyObject *arguments)
{
    PyObject *taken[3];
    native_state *state = state_of(module);
    question question = {.call = CALL_BIND};
    if (state == NULL || !take_arguments(arguments, 3, taken) || !ask_about_table(state, &question, taken[0]))
        return NULL;
    return answer_with(state, &question, taken[1], taken[2], NULL);
}

/* bind_form_table(table, form) */
static PyObject *native_bind_form_table(PyObject *module, PyObject *arguments)
{
    PyObject *taken[2];
    native_state *state = state_of(module);
    question question = {.call = CALL_BIND};
    if (state == NULL || !take_arguments(arguments, 2, taken) || !ask_about_table(state, &question, taken[0]))
        return NULL;
    return answer_of_form(state, &question, taken[1], NULL);
}

/* written(params, zone, takes_more): the flat form, and whether it is for the calls that bind fragments */
static PyObject *native_written(PyObject *module, PyObject *arguments)
{
    PyObject *taken[3], *made = NULL;
    native_state *state = state_of(module);
    form form;
    writer writer;
    if (state == NULL || !take_arguments(arguments, 3, taken))
        return NULL;
    enum level level = taken[2] == Py_True ? LEVEL_PLACES : LEVEL_VALUES;
    if (begin_writing(state, &form, taken[1], level, &writer) && write_params(&writer, taken[0]))
        made = Py_BuildValue("(y#O)", (const char *)form.bytes, (Py_ssize_t)form.len,
                             form.is_fragments ? Py_True : Py_False);
    form_free(&form);
    return made;
}

static PyMethodDef functions[] = {
    {"set_up", native_set_up, METH_O, NULL},
    {"keep_from", native_keep_from, METH_O, NULL},
    {"bind", native_bind, METH_VARARGS, NULL},
    {"bind_form", native_bind_form, METH_VARARGS, NULL},
    {"bind_written", native_bind_written, METH_VARARGS, NULL},
    {"bind_anywhere", native_bind_anywhere, METH_VARARGS, NULL},
    {"bind_form_anywhere", native_bind_form_anywhere, METH_VARARGS, NULL},
    {"bind_in_both_modes", native_bind_in_both_modes, METH_VARARGS, NULL},
    {"bind_form_in_both_modes", native_bind_form_in_both_modes, METH_VARARGS, NULL},
    {"table", native_table, METH_VARARGS, NULL},
    {"bind_table", native_bind_table, METH_VARARGS, NULL},
    {"bind_form_table", native_bind_form_table, METH_VARARGS, NULL},
    {"written", native_written, METH_VARARGS, NULL},
    {"bind_rows", native_bind_rows, METH_VARARGS, NULL},
    {"row_items", native_row_items, METH_VARARGS, NULL},
    {"names", native_names, METH_VARARGS, NULL},
    {"first_unportable", native_first_unportable, METH_VARARGS, NULL},
    {"first_unportable_in_client", native_first_unportable_in_client, METH_VARARGS, NULL},
    {NULL, NULL, 0, NULL},
};

static int begin(PyObject *module)
{
    native_state *state = PyModule_GetState(module);
    if (!mysql_params_processor_suffices()) {
        PyErr_SetString(PyExc_ImportError, "the processor lacks a feature of x86-64-v2 (SSSE3, SSE4.2, POPCNT and others), for"
                                           " which the library is compiled");
        return -1;
    }
    state->least_kept = PY_SSIZE_T_MAX;
    for (int i = 0; i < ATTRIBUTE_COUNT; i++) {
        state->attributes[i] = PyUnicode_InternFromString(ATTRIBUTE_NAMES[i]);
        if (state->attributes[i] == NULL)
            return -1;
    }
    state->room = calloc(KEPT_ROOM, 1);
    state->kept = kept_begin();
    if (state->room == NULL || state->kept == NULL) {
        PyErr_NoMemory();
        return -1;
    }
    state->table_type = (PyTypeObject *)PyType_FromSpec(&table_spec);
    return state->table_type == NULL ? -1 : PyModule_AddType(module, state->table_type);
}

static int traverse(PyObject *module, visitproc visit, void *arg)
{
    native_state *state = PyModule_GetState(module);
    for (int i = 0; state != NULL && i < HANDED_COUNT; i++)
        Py_VISIT(state->handed[i]);
    if (state != NULL)
        Py_VISIT(state->table_type);
    return 0;
}

static int clear(PyObject *module)
{
    native_state *state = PyModule_GetState(module);
    for (int i = 0; state != NULL && i < HANDED_COUNT; i++)
        Py_CLEAR(state->handed[i]);
    return 0;
}

static void give_back(void *module)
{
    native_state *state = PyModule_GetState(module);
    if (state == NULL)
        return;
    clear(module);
    for (int i = 0; i < ATTRIBUTE_COUNT; i++)
        Py_CLEAR(state->attributes[i]);
    Py_CLEAR(state->table_type);
    free(state->room);
    state->room = NULL;
    kept_end(state->kept);
    state->kept = NULL;
}

static PyModuleDef_Slot slots[] = {{Py_mod_exec, begin}, {0, NULL}};

static struct PyModuleDef definition = {
    PyModuleDef_HEAD_INIT,
    .m_name = "mysql_params._native",
    .m_doc = "Parameters written as the flat form, and the calls of the archive.",
    .m_size = sizeof(native_state),
    .m_methods = functions,
    .m_slots = slots,
    .m_traverse = traverse,
    .m_clear = clear,
    .m_free = give_back,
};

PyMODINIT_FUNC PyInit__native(void)
{
    return PyModuleDef_Init(&definition);
}
