/* moments.c: dates, times of day and spans of time, by what their attributes say. */
#include "native.h"

/* The longest of their forms: type, flags, a length and 12 bytes. */
enum { FORM_OF_MOMENT = 15 };

/* The whole number that an attribute says; -1 with an exception set. */
static long number_of(const native_state *state, PyObject *value, enum attribute which)
{
    PyObject *number = PyObject_GetAttr(value, state->attributes[which]);
    if (number == NULL)
        return -1;
    long said = PyLong_AsLong(number);
    Py_DECREF(number);
    return said;
}

/* Reads attributes that follow each other. */
static bool numbers_of(const native_state *state, PyObject *value, enum attribute first, int count, long *numbers)
{
    for (int i = 0; i < count; i++) {
        numbers[i] = number_of(state, value, first + (unsigned)i);
        if (numbers[i] == -1 && PyErr_Occurred() != NULL)
            return false;
    }
    return true;
}

/* Writes a number of four bytes, least first. */
static void fill_four(uint8_t *at, long number)
{
    for (int i = 0; i < 4; i++)
        at[i] = (uint8_t)(number >> (8 * i));
}

/* Appends a date, and a time of day, of which a date has none. */
static outcome write_date(const writer *writer, PyObject *value, int count)
{
    long fields[7] = {0};
    if (!numbers_of(writer->state, value, ATTRIBUTE_YEAR, count, fields))
        return FAILED;
    uint8_t *at = form_more(writer->form, 2 + 12);
    if (at == NULL)
        return FAILED;
    at[0] = TYPE_DATETIME;
    at[1] = 0;
    at[2] = 11;
    at[3] = (uint8_t)fields[0];
    at[4] = (uint8_t)(fields[0] >> 8);
    for (int i = 1; i < 6; i++)
        at[4 + i] = (uint8_t)fields[i];
    fill_four(at + 10, fields[6]);
    return WRITTEN;
}

/* Appends a span: its sign, days, seconds up to a day, and microseconds. */
static outcome append_span(form *form, bool is_negative, long days, long seconds, long microseconds)
{
    uint8_t *at = form_more(form, FORM_OF_MOMENT);
    if (at == NULL)
        return FAILED;
    at[0] = TYPE_TIME;
    at[1] = 0;
    at[2] = 12;
    at[3] = is_negative;
    fill_four(at + 4, days);
    at[8] = (uint8_t)(seconds / 3600);
    at[9] = (uint8_t)(seconds / 60 % 60);
    at[10] = (uint8_t)(seconds % 60);
    fill_four(at + 11, microseconds);
    return WRITTEN;
}

/* Appends a span by sign and magnitude, and not by Python's negative days. */
static outcome write_span(const writer *writer, PyObject *value)
{
    long fields[3];
    if (!numbers_of(writer->state, value, ATTRIBUTE_DAYS, 3, fields))
        return FAILED;
    long days = fields[0], seconds = fields[1], microseconds = fields[2];
    bool is_negative = days < 0;
    if (is_negative) {
        days = -days;
        if (microseconds > 0) {
            microseconds = 1000000 - microseconds;
            seconds++;
        }
        if (seconds > 0) {
            seconds = 86400 - seconds;
            days--;
        }
    }
    return append_span(writer->form, is_negative, days, seconds, microseconds);
}

/* Whether an attribute is None; -1 with an exception set. */
static int is_none(const native_state *state, PyObject *value, enum attribute which)
{
    PyObject *found = PyObject_GetAttr(value, state->attributes[which]);
    if (found == NULL)
        return -1;
    Py_DECREF(found);
    return found == Py_None;
}

/* Appends a datetime, or a time of day as the span since midnight. What has a zone is for Python. */
static outcome write_clock(const writer *writer, PyObject *value, bool has_date)
{
    int naive = is_none(writer->state, value, ATTRIBUTE_TZINFO);
    if (naive != 1)
        return naive == 0 ? FOR_PYTHON : FAILED;
    if (has_date)
        return write_date(writer, value, 7);
    long fields[4];
    if (!numbers_of(writer->state, value, ATTRIBUTE_HOUR, 4, fields))
        return FAILED;
    return append_span(writer->form, false, 0, 3600 * fields[0] + 60 * fields[1] + fields[2], fields[3]);
}

outcome write_moment(const writer *writer, PyObject *value)
{
    PyObject *const *handed = writer->state->handed;
    PyObject *type = (PyObject *)Py_TYPE(value);
    if (type == handed[HANDED_DATETIME])
        return write_clock(writer, value, true);
    if (type == handed[HANDED_DATE])
        return write_date(writer, value, 3);
    if (type == handed[HANDED_TIMEDELTA])
        return write_span(writer, value);
    if (type == handed[HANDED_TIME])
        return write_clock(writer, value, false);
    return FOR_PYTHON;
}
