/* tables.c: tables of the places of queries. */
#include "native.h"

#include <stddef.h>
#include <structmember.h>

/* Makes the table in the memory for so many places that it has. */
static int32_t make(table *table, mysql_params_report *report)
{
    int32_t number;
    const uint8_t *query = (const uint8_t *)PyBytes_AsString(table->query);
    size_t len = (size_t)PyBytes_Size(table->query);
    Py_BEGIN_ALLOW_THREADS
    number = mysql_params_table_wide(query, len, table->mode, &table->head, table->places, (size_t)table->count, report);
    Py_END_ALLOW_THREADS
    return number;
}

/* Gives a table memory for places, of which there is one at least, so that its pointer isn't null. */
static bool have_places(table *table, size_t count)
{
    if (count > (size_t)PY_SSIZE_T_MAX / sizeof(mysql_params_place) - 1)
        return false;
    size_t size = (count + 1) * sizeof(mysql_params_place);
    mysql_params_place *places = PyMem_Realloc(table->places, size);
    if (places == NULL)
        return false;
    memset(places, 0, size);
    table->places = places;
    table->count = (Py_ssize_t)count;
    return true;
}

/* Fills a table that has its query and its mode. */
static bool fill(const native_state *state, table *table)
{
    static const uint8_t no_form;
    mysql_params_report report = {0};
    if (!have_places(table, 0))
        return refuse_memory(state) != NULL;
    int32_t number = make(table, &report);
    if (number == MYSQL_PARAMS_ROOM) {
        if (!have_places(table, report.len))
            return refuse_memory(state) != NULL;
        number = make(table, &report);
    }
    const question question = {.call = CALL_BIND, .query = table->query, .form = &no_form, .mode = table->mode};
    if (number != MYSQL_PARAMS_DONE)
        return refuse(state, &question, number, &report) != NULL;
    table->size = PyBytes_Size(table->query) + table->count * (Py_ssize_t)sizeof(mysql_params_place);
    return true;
}

PyObject *table_new(const native_state *state, PyObject *query, bool mode)
{
    table *made = PyObject_New(table, state->table_type);
    if (made == NULL)
        return NULL;
    Py_INCREF(query);
    made->query = query;
    made->mode = mode;
    made->count = made->size = 0;
    made->places = NULL;
    memset(&made->head, 0, sizeof made->head);
    if (fill(state, made))
        return (PyObject *)made;
    Py_DECREF(made);
    return NULL;
}

static void table_dealloc(PyObject *self)
{
    table *gone = (table *)self;
    PyTypeObject *type = Py_TYPE(self);
    PyMem_Free(gone->places);
    Py_XDECREF(gone->query);
    PyObject_Free(self);
    Py_DECREF(type); /* An object holds its type, which is on the heap. */
}

/* None is made except by table_new: its fields would be no table. */
static PyObject *table_refused(PyTypeObject *type, PyObject *arguments, PyObject *named)
{
    (void)type, (void)arguments, (void)named;
    PyErr_SetString(PyExc_TypeError, "a Table is made by a query");
    return NULL;
}

static PyMemberDef table_members[] = {
    {"query", T_OBJECT_EX, offsetof(table, query), READONLY, "The query."},
    {"mode", T_BOOL, offsetof(table, mode), READONLY, "Whether it is read without backslash escapes."},
    {"count", T_PYSSIZET, offsetof(table, count), READONLY, "How many places it has."},
    {"size", T_PYSSIZET, offsetof(table, size), READONLY, "Its bytes, with those of the query."},
    {NULL, 0, 0, 0, NULL},
};

static PyType_Slot table_slots[] = {
    {Py_tp_dealloc, table_dealloc},
    {Py_tp_new, table_refused},
    {Py_tp_members, table_members},
    {Py_tp_doc, "A query and the table of its places in a mode."},
    {0, NULL},
};

PyType_Spec table_spec = {"mysql_params._native.Table", sizeof(table), 0, Py_TPFLAGS_DEFAULT, table_slots};

PyObject *native_table(PyObject *module, PyObject *arguments)
{
    PyObject *taken[2];
    bool mode;
    native_state *state = state_of(module);
    if (state == NULL || !take_arguments(arguments, 2, taken))
        return NULL;
    PyObject *query = bytes_of(state, taken[0]);
    PyObject *made = query != NULL && take_mode(state, taken[1], &mode) ? table_new(state, query, mode) : NULL;
    Py_XDECREF(query);
    return made;
}
