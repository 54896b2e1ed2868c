/* queries.c: what is asked of a query alone. */
#include "native.h"

/* Takes the query and the mode of a call; the query is a new reference. */
static bool take_query(const native_state *state, PyObject *arguments, PyObject **query, bool *mode)
{
    PyObject *taken[2];
    if (!take_arguments(arguments, 2, taken))
        return false;
    *query = bytes_of(state, taken[0]);
    if (*query == NULL)
        return false;
    if (take_mode(state, taken[1], mode))
        return true;
    Py_DECREF(*query);
    return false;
}

/* names(query, mode): the answer of the archive, a row of length-encoded strings */
PyObject *native_names(PyObject *module, PyObject *arguments)
{
    static const uint8_t no_form;
    native_state *state = state_of(module);
    question question = {.call = CALL_NAMES, .form = &no_form};
    if (state == NULL || !take_query(state, arguments, &question.query, &question.mode))
        return NULL;
    PyObject *found = answer(state, &question);
    Py_DECREF(question.query);
    return found;
}

typedef int32_t first_call(const uint8_t *, size_t, bool, mysql_params_report *);

/* The number of a query's first construct, and where it begins: by one of the archive's calls. */
static PyObject *first_of(PyObject *module, PyObject *arguments, first_call *call)
{
    PyObject *query;
    bool mode;
    mysql_params_report report = {0};
    native_state *state = state_of(module);
    if (state == NULL || !take_query(state, arguments, &query, &mode))
        return NULL;
    const uint8_t *at = (const uint8_t *)PyBytes_AsString(query);
    size_t len = (size_t)PyBytes_Size(query);
    PyThreadState *save = len > KEPT_ROOM ? PyEval_SaveThread() : NULL;
    int32_t number = call(at, len, mode, &report);
    if (save != NULL)
        PyEval_RestoreThread(save);
    Py_DECREF(query);
    return Py_BuildValue("(iK)", (int)number, (unsigned long long)report.position);
}

PyObject *native_first_unportable(PyObject *module, PyObject *arguments)
{
    return first_of(module, arguments, mysql_params_first_unportable_wide);
}

PyObject *native_first_unportable_in_client(PyObject *module, PyObject *arguments)
{
    return first_of(module, arguments, mysql_params_first_unportable_in_client_wide);
}
