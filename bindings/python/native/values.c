/* values.c: a value of just a type that most values are of, or else what the package's functions in Python make of it. */
#include "native.h"

#include <math.h>

/* The digits of an exact number, of which servers keep no more. */
enum { MOST_DIGITS = 65 };

/* Appends type, flags and a number of 8 bytes, which x86-64 has least byte first. */
static outcome append_eight(form *form, uint8_t type, uint8_t flags, const void *number)
{
    uint8_t *at = form_more(form, 10);
    if (at == NULL)
        return FAILED;
    at[0] = type;
    at[1] = flags;
    memcpy(at + 2, number, 8);
    return WRITTEN;
}

/* Appends type, flags and a string. */
static outcome append_string(form *form, uint8_t type, const char *bytes, Py_ssize_t len)
{
    uint8_t *at = form_more(form, 2);
    if (at == NULL)
        return FAILED;
    at[0] = type;
    at[1] = 0;
    return form_string(form, bytes, (size_t)len) ? WRITTEN : FAILED;
}

/* Appends the bytes of a bytes object. */
static outcome append_bytes(form *form, uint8_t type, PyObject *bytes)
{
    char *at;
    Py_ssize_t len;
    if (PyBytes_AsStringAndSize(bytes, &at, &len) != 0)
        return FAILED;
    return append_string(form, type, at, len);
}

/* Has Python write what raised an exception of a kind: its function raises a better one. */
static outcome for_python_after(PyObject *kind)
{
    if (!PyErr_ExceptionMatches(kind))
        return FAILED;
    PyErr_Clear();
    return FOR_PYTHON;
}

static outcome write_text(form *form, uint8_t type, PyObject *text)
{
    PyObject *bytes = PyUnicode_AsUTF8String(text);
    if (bytes == NULL)
        return for_python_after(PyExc_UnicodeEncodeError);
    outcome done = append_bytes(form, type, bytes);
    Py_DECREF(bytes);
    return done;
}

static outcome write_int(form *form, PyObject *value)
{
    int beyond;
    long long number = PyLong_AsLongLongAndOverflow(value, &beyond);
    if (beyond == 0)
        return number == -1 && PyErr_Occurred() != NULL ? FAILED : append_eight(form, TYPE_LONGLONG, 0, &number);
    if (beyond < 0)
        return FOR_PYTHON;
    unsigned long long positive = PyLong_AsUnsignedLongLong(value);
    if (positive == (unsigned long long)-1 && PyErr_Occurred() != NULL)
        return for_python_after(PyExc_OverflowError);
    return append_eight(form, TYPE_LONGLONG, 128, &positive);
}

static outcome write_double(form *form, PyObject *value)
{
    double number = PyFloat_AsDouble(value);
    if (isfinite(number))
        form->is_fragments = true;
    return append_eight(form, TYPE_DOUBLE, 0, &number);
}

static outcome write_null(form *form)
{
    uint8_t *at = form_more(form, 2);
    if (at == NULL)
        return FAILED;
    at[0] = TYPE_NULL;
    at[1] = 0;
    return WRITTEN;
}

/* Whether a text has the digits of a number that servers keep, without an exponent. */
static bool is_plain_number(const char *text, Py_ssize_t len)
{
    Py_ssize_t digits = 0;
    for (Py_ssize_t i = 0; i < len; i++) {
        if (text[i] >= '0' && text[i] <= '9')
            digits++;
        else if (text[i] != '.' && (text[i] != '-' || i > 0))
            return false;
    }
    return digits > 0 && digits <= MOST_DIGITS;
}

/* Appends a Decimal whose own text is what is wanted. One with an exponent, and what has no digits, is for Python. */
static outcome write_decimal(form *form, PyObject *value)
{
    PyObject *text = PyObject_Str(value);
    PyObject *bytes = text == NULL ? NULL : PyUnicode_AsUTF8String(text);
    Py_XDECREF(text);
    char *at;
    Py_ssize_t len;
    if (bytes == NULL || PyBytes_AsStringAndSize(bytes, &at, &len) != 0) {
        Py_XDECREF(bytes);
        return FAILED;
    }
    outcome done = is_plain_number(at, len) ? append_string(form, TYPE_NUMBER, at, len) : FOR_PYTHON;
    Py_DECREF(bytes);
    if (done == WRITTEN)
        form->is_fragments = true;
    return done;
}

/* Writes the items of an In. */
static outcome write_in(const writer *writer, PyObject *value, const place *place)
{
    PyObject *items = PyObject_GetAttr(value, writer->state->attributes[ATTRIBUTE_ITEMS]);
    outcome done = items == NULL ? FAILED : write_list(writer, items, false, place);
    Py_XDECREF(items);
    return done;
}

/* Writes a value of a type that may be registered. */
static outcome write_further(const writer *writer, PyObject *value, const place *place)
{
    PyTypeObject *type = Py_TYPE(value);
    PyObject *const *handed = writer->state->handed;
    bool is_list = type == &PyList_Type || type == &PyTuple_Type;
    bool is_decimal = (PyObject *)type == handed[HANDED_DECIMAL];
    bool is_time = (PyObject *)type == handed[HANDED_TIME];
    bool is_in = (PyObject *)type == handed[HANDED_IN];
    if (!is_list && !is_decimal && !is_time && !is_in)
        return write_moment(writer, value);
    int registered = PyDict_Contains(handed[HANDED_REGISTERED], (PyObject *)type);
    if (registered != 0)
        return registered > 0 ? FOR_PYTHON : FAILED;
    if (is_time)
        return write_moment(writer, value);
    if (is_decimal && writer->level != LEVEL_VALUES)
        return write_decimal(writer->form, value);
    if (writer->level != LEVEL_PLACES)
        return FOR_PYTHON;
    if (is_in)
        return write_in(writer, value, place);
    return is_list ? write_list(writer, value, true, place) : FOR_PYTHON;
}

/* Writes a value, unless it is for Python. */
static outcome write_known(const writer *writer, PyObject *value, const place *place)
{
    PyTypeObject *type = Py_TYPE(value);
    if (type == &PyUnicode_Type)
        return write_text(writer->form, TYPE_VAR_STRING, value);
    if (type == &PyLong_Type || type == &PyBool_Type)
        return write_int(writer->form, value);
    if (value == Py_None)
        return write_null(writer->form);
    if (type == &PyFloat_Type)
        return write_double(writer->form, value);
    if (type == &PyBytes_Type)
        return append_bytes(writer->form, TYPE_VAR_STRING, value);
    return write_further(writer, value, place);
}

/* Whether what Python wrote is for the calls that bind fragments: more than a value, or a finite number. */
static bool is_of_fragments(const uint8_t *bytes, Py_ssize_t len)
{
    double number;
    if (len != 10 || bytes[0] != TYPE_DOUBLE)
        return len > 0 && bytes[0] >= TYPE_NUMBER && bytes[0] <= TYPE_IMPLICIT_ROWS;
    memcpy(&number, bytes + 2, 8);
    return isfinite(number);
}

/* Appends what the package's function makes of a value. */
static bool write_by_python(const writer *writer, PyObject *value, const place *place)
{
    static const enum handed functions[] = {HANDED_VALUE_FORM, HANDED_PLACE_FORM, HANDED_ITEM_FORM};
    PyObject *function = writer->state->handed[functions[writer->level]];
    PyObject *bytes = place->name != NULL
                          ? PyObject_CallFunction(function, "OOO", value, place->name, writer->zone)
                          : PyObject_CallFunction(function, "OnO", value, place->number, writer->zone);
    char *at;
    Py_ssize_t len;
    if (bytes == NULL || PyBytes_AsStringAndSize(bytes, &at, &len) != 0) {
        Py_XDECREF(bytes);
        return false;
    }
    uint8_t *to = form_more(writer->form, (size_t)len);
    if (to != NULL) {
        memcpy(to, at, (size_t)len);
        writer->form->is_fragments |= is_of_fragments((const uint8_t *)at, len);
    }
    Py_DECREF(bytes);
    return to != NULL;
}

bool write_value(const writer *writer, PyObject *value, const place *place)
{
    size_t begin = writer->form->len;
    outcome done = write_known(writer, value, place);
    if (done != FOR_PYTHON)
        return done == WRITTEN;
    writer->form->len = begin;
    return write_by_python(writer, value, place);
}
