/* params.c: lists, rows, and all parameters of a query. */
#include "native.h"

/* Writes a count of four bytes, least first, at a byte of the form that it has already. */
static void set_count(form *form, size_t at, size_t count)
{
    for (int i = 0; i < 4; i++)
        form->bytes[at + (size_t)i] = (uint8_t)(count >> (8 * i));
}

/* Appends type, flags and a count. */
static bool append_head(form *form, uint8_t type, size_t count)
{
    uint8_t *at = form_more(form, 6);
    if (at == NULL)
        return false;
    at[0] = type;
    at[1] = 0;
    set_count(form, form->len - 4, count);
    return true;
}

/* Appends items, and before them their count. The tuple isn't changed meanwhile, so that its items are held. */
static bool write_tuple(const writer *writer, PyObject *items, const place *place)
{
    Py_ssize_t count = PyTuple_Size(items);
    if (count < 0 || count > UINT32_MAX) {
        PyErr_SetString(PyExc_OverflowError, "int too big to convert");
        return false;
    }
    if (form_more(writer->form, 4) == NULL)
        return false;
    set_count(writer->form, writer->form->len - 4, (size_t)count);
    for (Py_ssize_t i = 0; i < count; i++) {
        if (!write_value(writer, PyTuple_GetItem(items, i), place))
            return false;
    }
    return true;
}

bool write_items(const writer *writer, PyObject *items, const place *place)
{
    struct writer inner = *writer;
    inner.level = LEVEL_ITEMS;
    PyObject *held = PySequence_Tuple(items);
    if (held == NULL)
        return false;
    bool done = write_tuple(&inner, held, place);
    Py_DECREF(held);
    return done;
}

/* Whether a value is of a type that most values are of, and which can't be registered. */
static bool is_common(PyObject *value)
{
    PyTypeObject *type = Py_TYPE(value);
    return type == &PyLong_Type || type == &PyUnicode_Type || type == &PyFloat_Type || type == &PyBytes_Type ||
           type == &PyBool_Type || value == Py_None;
}

/* Whether a value is a list or a tuple, which makes it a row; -1 with an exception set. */
static int is_row(const native_state *state, PyObject *value)
{
    PyTypeObject *type = Py_TYPE(value);
    if (type == &PyList_Type || type == &PyTuple_Type)
        return 1;
    return is_common(value) ? 0 : PyObject_IsInstance(value, state->handed[HANDED_LISTS]);
}

/* Whether a value may be an Identifier, or be made one by a registered function; -1 with an exception set. */
static int may_be_identifier(const native_state *state, PyObject *value)
{
    PyObject *const *handed = state->handed, *type = (PyObject *)Py_TYPE(value);
    if (is_common(value) || type == handed[HANDED_DATE] || type == handed[HANDED_DATETIME] || type == handed[HANDED_TIMEDELTA])
        return 0;
    bool is_value = type == handed[HANDED_DECIMAL] || type == handed[HANDED_TIME];
    return is_value ? PyDict_Contains(handed[HANDED_REGISTERED], type) : 1;
}

/* How many of a tuple's items are rows; -1 with an exception set. */
static Py_ssize_t count_rows(const native_state *state, PyObject *items, Py_ssize_t count)
{
    Py_ssize_t rows = 0;
    for (Py_ssize_t i = 0; i < count; i++) {
        int row = is_row(state, PyTuple_GetItem(items, i));
        if (row < 0)
            return -1;
        rows += row;
    }
    return rows;
}

/* Appends a tuple's items as rows, of one of the two types. */
static bool write_rows(const writer *writer, uint8_t type, PyObject *rows, const place *place)
{
    Py_ssize_t count = PyTuple_Size(rows);
    if (!append_head(writer->form, type, (size_t)count))
        return false;
    for (Py_ssize_t i = 0; i < count; i++) {
        if (!write_items(writer, PyTuple_GetItem(rows, i), place))
            return false;
    }
    return true;
}

/* Appends a tuple's items as a list, of one of the two types. */
static bool write_list_of(const writer *writer, uint8_t type, PyObject *items, const place *place)
{
    uint8_t *at = form_more(writer->form, 2);
    if (at == NULL)
        return false;
    at[0] = type;
    at[1] = 0;
    struct writer inner = *writer;
    inner.level = LEVEL_ITEMS;
    return write_tuple(&inner, items, place);
}

outcome write_list(const writer *writer, PyObject *value, bool is_implicit, const place *place)
{
    PyObject *items = PySequence_Tuple(value);
    if (items == NULL)
        return FAILED;
    Py_ssize_t count = PyTuple_Size(items), rows = count_rows(writer->state, items, count);
    /* Identifiers stand in no list of other items, so that the first tells them. */
    int first = rows == 0 && count > 0 ? may_be_identifier(writer->state, PyTuple_GetItem(items, 0)) : 0;
    outcome done = rows < 0 || first < 0 ? FAILED : FOR_PYTHON;
    if (done == FOR_PYTHON && first == 0 && count <= UINT32_MAX && (rows == 0 || rows == count)) {
        writer->form->is_fragments = true;
        bool written = rows == 0 ? write_list_of(writer, is_implicit ? TYPE_IMPLICIT_LIST : TYPE_LIST, items, place)
                                 : write_rows(writer, is_implicit ? TYPE_IMPLICIT_ROWS : TYPE_ROWS, items, place);
        done = written ? WRITTEN : FAILED;
    }
    Py_DECREF(items);
    return done;
}

/* Appends parameters in order. */
static bool write_in_order(const writer *writer, PyObject *params)
{
    PyObject *items = PySequence_Tuple(params);
    Py_ssize_t count = items == NULL ? 0 : PyTuple_Size(items);
    bool done = items != NULL;
    for (Py_ssize_t i = 0; done && i < count; i++) {
        place place = {NULL, i};
        done = form_string(writer->form, "", 0) && write_value(writer, PyTuple_GetItem(items, i), &place);
    }
    Py_XDECREF(items);
    return done;
}

/* The bytes of the name of the parameter of a number. */
static PyObject *name_of(const native_state *state, PyObject *name, Py_ssize_t number)
{
    PyObject *own = NULL;
    if (Py_TYPE(name) == &PyUnicode_Type) {
        own = bytes_of(state, name);
        if (own == NULL)
            return NULL;
    } else if (Py_TYPE(name) == &PyBytes_Type) {
        Py_INCREF(name);
        own = name;
    }
    if (own != NULL && PyBytes_Size(own) > 0)
        return own;
    Py_XDECREF(own);
    return PyObject_CallFunction(state->handed[HANDED_NAME], "On", name, number);
}

void row_names_end(row_names *names)
{
    for (int i = 0; i < NAMES_OF_ROW; i++) {
        Py_CLEAR(names->names[i]);
        Py_CLEAR(names->bytes[i]);
    }
}

/* The same by the names of the row before. A str doesn't change, so that the same one has the same bytes. */
static PyObject *name_in_row(const writer *writer, PyObject *name, Py_ssize_t number)
{
    row_names *before = writer->before;
    if (before == NULL || number >= NAMES_OF_ROW || Py_TYPE(name) != &PyUnicode_Type)
        return name_of(writer->state, name, number);
    if (before->names[number] != name) {
        PyObject *own = name_of(writer->state, name, number);
        if (own == NULL)
            return NULL;
        Py_XDECREF(before->names[number]);
        Py_XDECREF(before->bytes[number]);
        Py_INCREF(name);
        before->names[number] = name;
        before->bytes[number] = own;
    }
    Py_INCREF(before->bytes[number]);
    return before->bytes[number];
}

/* Appends a parameter with its name. */
static bool write_named(const writer *writer, PyObject *name, PyObject *value, Py_ssize_t number)
{
    PyObject *own = name_in_row(writer, name, number);
    char *at;
    Py_ssize_t len;
    bool done = own != NULL && PyBytes_AsStringAndSize(own, &at, &len) == 0;
    if (done) {
        place place = {own, 0};
        done = form_string(writer->form, at, (size_t)len) && write_value(writer, value, &place);
    }
    Py_XDECREF(own);
    return done;
}

/* Appends the parameters of a dict, which Python may change while a value is written. */
static bool write_dict(const writer *writer, PyObject *params)
{
    Py_ssize_t at = 0, number = 0, size = PyDict_Size(params);
    PyObject *name, *value;
    while (PyDict_Next(params, &at, &name, &value)) {
        Py_INCREF(name);
        Py_INCREF(value);
        bool done = write_named(writer, name, value, number++);
        Py_DECREF(name);
        Py_DECREF(value);
        if (done && PyDict_Size(params) != size) {
            PyErr_SetString(PyExc_RuntimeError, "dictionary changed size during iteration");
            done = false;
        }
        if (!done)
            return false;
    }
    return true;
}

/* Appends a parameter that an iterator gave, a pair if it has a name. */
static bool write_given(const writer *writer, PyObject *given, bool is_pair, Py_ssize_t number)
{
    place place = {NULL, number};
    if (!is_pair)
        return form_string(writer->form, "", 0) && write_value(writer, given, &place);
    PyObject *name = PyTuple_GetItem(given, 0), *value = PyTuple_GetItem(given, 1);
    return name != NULL && value != NULL && write_named(writer, name, value, number);
}

/* Appends what an iterator gives. */
static bool write_all_given(const writer *writer, PyObject *iterator, bool are_pairs)
{
    bool done = true;
    PyObject *given;
    for (Py_ssize_t number = 0; done && (given = PyIter_Next(iterator)) != NULL; number++) {
        done = write_given(writer, given, are_pairs, number);
        Py_DECREF(given);
    }
    return done && PyErr_Occurred() == NULL;
}

/* Appends parameters of another type, of which the package says whether they have names. */
static bool write_others(const writer *writer, PyObject *params)
{
    PyObject *made = PyObject_CallFunctionObjArgs(writer->state->handed[HANDED_PARAMETERS], params, NULL);
    PyObject *have_names = made == NULL ? NULL : PyTuple_GetItem(made, 0);
    PyObject *iterator = have_names == NULL ? NULL : PyTuple_GetItem(made, 1);
    bool done = iterator != NULL && write_all_given(writer, iterator, have_names == Py_True);
    Py_XDECREF(made);
    return done;
}

bool write_params(const writer *writer, PyObject *params)
{
    PyTypeObject *type = Py_TYPE(params);
    if (type == &PyTuple_Type || type == &PyList_Type)
        return write_in_order(writer, params);
    if (type == &PyDict_Type)
        return write_dict(writer, params);
    return params == Py_None || write_others(writer, params);
}
