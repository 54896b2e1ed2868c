/* rows.c: one query bound to row after row, batch after batch. */
#include "native.h"

#include <stdlib.h>

/* Once the forms of rows have so many bytes, or their queries, the rows are bound. The forms are few enough to stay in a processor's
 * cache with their texts, and many enough for the GIL to be let go. */
enum { MOST_FORMS = 1 << 15, MOST_QUERIES = 1 << 18 };

/* After so many rows that are bound by themselves handlers of signals and other threads run. A row counts once more for each so many
 * bytes of its form. */
enum { ALONE_AT_ONCE = 256, FORM_AT_ONCE = 1 << 10 };

/* What a text has beside its query and its literals: its length. */
enum { BESIDE_TEXT = 9 };

/* Rows that are bound to a query. */
typedef struct binder {
    const native_state *state; /* borrowed */
    PyObject *query;           /* borrowed, bytes */
    PyObject *texts;           /* borrowed, a list: those of the rows that are bound */
    enum call call;            /* what gives the text of a row */
    bool mode;
    held_template *held; /* held; the query's, or null */
    form forms;          /* owned; of the rows that wait, each as a length-encoded string */
    size_t count;        /* rows that wait */
    size_t most;         /* of so many at most */
    size_t alone;        /* rows that were bound by themselves since others ran */
    uint8_t *room;       /* owned, of calloc */
    size_t room_len;
} binder;

/* What is asked for the row whose form stands somewhere. */
static question question_of(const binder *binder, const uint8_t *form, size_t len, bool is_fragments)
{
    const mysql_params_template *made = binder->held == NULL ? NULL : binder->held->made;
    question question = {binder->call, binder->query, NULL, form, len, is_fragments, binder->mode, made};
    return question;
}

/* Takes a length-encoded string off bytes: where it begins and ends in them; false without an exception if none stands there. */
static bool next_string(const uint8_t *bytes, size_t len, size_t *begin, size_t *end)
{
    if (len == 0)
        return false;
    uint8_t lead = bytes[0];
    size_t count = lead == 0xFC ? 2 : lead == 0xFD ? 3 : lead == 0xFE ? 8 : 0, found = count > 0 ? 0 : lead;
    if (lead == 0xFB || lead == 0xFF || len < 1 + count)
        return false;
    for (size_t i = 0; i < count; i++)
        found |= (size_t)bytes[1 + i] << (8 * i);
    *begin = 1 + count;
    *end = *begin + found;
    return found <= len - *begin;
}

/* Takes the form of the row that stands first off those of rows, as next_string. */
static bool next_form(const uint8_t *forms, size_t len, size_t *begin, size_t *end)
{
    if (next_string(forms, len, begin, end))
        return true;
    PyErr_SetString(PyExc_RuntimeError, "the archive says that it read more than the forms of the rows");
    return false;
}

/* Appends the text of a row, if there is one. */
static bool append_text(const binder *binder, PyObject *text)
{
    int status = text == NULL ? -1 : PyList_Append(binder->texts, text);
    Py_XDECREF(text);
    return status == 0;
}

/* Appends the texts of which an answer is a row. */
static bool append_texts(const binder *binder, size_t written)
{
    size_t begin, end;
    for (size_t at = 0; at < written; at += end) {
        if (!next_string(binder->room + at, written - at, &begin, &end)) {
            PyErr_SetString(PyExc_RuntimeError, "the answer of the archive is no row of strings");
            return false;
        }
        const char *text = (const char *)binder->room + at + begin;
        if (!append_text(binder, PyBytes_FromStringAndSize(text, (Py_ssize_t)(end - begin))))
            return false;
    }
    return true;
}

/* Has the room be as long as is wanted at least. */
static bool have_room(binder *binder, size_t wanted)
{
    if (binder->room != NULL && binder->room_len >= wanted)
        return true;
    free(binder->room);
    binder->room = wanted > (size_t)PY_SSIZE_T_MAX ? NULL : calloc(wanted + 1, 1);
    binder->room_len = binder->room == NULL ? 0 : wanted;
    return binder->room != NULL || refuse_memory(binder->state) != NULL;
}

/* Binds the rows whose forms stand there, without the GIL if they are many. */
static int32_t bind_some(binder *binder, const uint8_t *forms, size_t len, mysql_params_rows *rows,
                         mysql_params_report *report)
{
    const uint8_t *query = (const uint8_t *)PyBytes_AsString(binder->query);
    size_t query_len = (size_t)PyBytes_Size(binder->query);
    PyThreadState *save = binder->room_len > KEPT_ROOM ? PyEval_SaveThread() : NULL;
    int32_t number = mysql_params_bind_rows_wide(query, query_len, forms, len, binder->mode, binder->room,
                                                 binder->room_len, rows, report);
    if (save != NULL)
        PyEval_RestoreThread(save);
    return number;
}

/* Raises what the row whose form stands first is refused for. */
static bool refuse_row(const binder *binder, int32_t number, const uint8_t *forms, size_t len,
                       const mysql_params_report *report)
{
    size_t begin, end;
    if (!next_form(forms, len, &begin, &end))
        return false;
    question question = question_of(binder, forms + begin, end - begin, false);
    return refuse(binder->state, &question, number, report) != NULL;
}

/* Appends the texts of rows whose forms are the first `len` bytes, or raises for the first that is refused. */
static bool bind_forms(binder *binder, size_t len)
{
    size_t read = 0, query_len = (size_t)PyBytes_Size(binder->query);
    size_t guess = 2 * len + binder->count * (query_len + BESIDE_TEXT);
    while (have_room(binder, guess)) {
        mysql_params_rows rows = {0};
        mysql_params_report report = {0};
        int32_t number = bind_some(binder, binder->forms.bytes + read, len - read, &rows, &report);
        if (rows.written > binder->room_len || rows.read > len - read) {
            PyErr_Format(PyExc_RuntimeError, "the archive says that it wrote %zu bytes, and had room for %zu", rows.written,
                         binder->room_len);
            return false;
        }
        if (!append_texts(binder, rows.written))
            return false;
        if (number == MYSQL_PARAMS_DONE)
            return true;
        read += rows.read;
        if (number != MYSQL_PARAMS_ROOM)
            return refuse_row(binder, number, binder->forms.bytes + read, len - read, &report);
        guess = report.len > 2 * binder->room_len ? report.len : 2 * binder->room_len;
    }
    return false;
}

/* Binds the rows that wait, whose forms are the first `len` bytes. */
static bool bind_waiting(binder *binder, size_t len)
{
    bool done = binder->count == 0 || (PyErr_CheckSignals() == 0 && bind_forms(binder, len));
    binder->count = 0;
    return done;
}

/* Says in an exception which row it is of, and the texts of the rows before it. */
static void tell_row(const binder *binder, PyObject *fault)
{
    PyObject *row = PyLong_FromSsize_t(PyList_Size(binder->texts));
    if (row == NULL || PyObject_SetAttrString(fault, "row", row) != 0 ||
        PyObject_SetAttrString(fault, "texts", binder->texts) != 0)
        PyErr_Clear(); /* What the row is refused for is raised all the same. */
    Py_XDECREF(row);
}

/* Whether the exception is one that the parameters of a row are refused by. */
static bool is_of_parameters(void)
{
    return PyErr_ExceptionMatches(PyExc_TypeError) || PyErr_ExceptionMatches(PyExc_ValueError) ||
           PyErr_ExceptionMatches(PyExc_OverflowError);
}

/* After an exception: binds the rows before it, of which one may be refused, and tells the row if the exception is of its
 * parameters. One that ends the program, as KeyboardInterrupt, stays as it is. */
static void bind_before(binder *binder, size_t len, bool is_of_row)
{
    if (!PyErr_ExceptionMatches(PyExc_Exception))
        return;
    PyObject *kind, *fault, *trace;
    PyErr_Fetch(&kind, &fault, &trace);
    PyErr_NormalizeException(&kind, &fault, &trace);
    if (!bind_waiting(binder, len)) {
        Py_XDECREF(kind);
        Py_XDECREF(fault);
        Py_XDECREF(trace);
        return;
    }
    if (is_of_row && fault != NULL)
        tell_row(binder, fault);
    PyErr_Restore(kind, fault, trace);
}

/* Lets handlers of signals and other threads run, once in a while, after a row whose form has so many bytes. Python does so where a
 * function of its own begins, if any wait. One that let the GIL go and took it again would mostly have it before they do. */
static bool let_others_run(binder *binder, size_t form_len)
{
    binder->alone += 1 + form_len / FORM_AT_ONCE;
    if (binder->alone < ALONE_AT_ONCE)
        return true;
    binder->alone = 0;
    PyObject *begun = PyObject_CallFunctionObjArgs(binder->state->handed[HANDED_FLAG], Py_True, NULL);
    Py_XDECREF(begun);
    return begun != NULL;
}

/* Holds the template that is kept of a query that is sent, or makes one for the second row of a query that is too long to be kept. If
 * there is no memory, rows do without. */
static void hold_template(binder *binder)
{
    if (binder->held != NULL || binder->call == CALL_BIND)
        return;
    binder->held = hold_kept(binder->state, binder->query);
    if (binder->held == NULL && PyBytes_Size(binder->query) > LONGEST_KEPT && PyList_Size(binder->texts) == 1)
        binder->held = new_template(binder->query);
}

/* Binds a row by itself, whose form stands behind those that wait. */
static bool bind_alone(binder *binder, size_t begin)
{
    if (!bind_waiting(binder, begin))
        return false;
    hold_template(binder);
    size_t len = binder->forms.len - begin - 1;
    question question = question_of(binder, binder->forms.bytes + begin + 1, len, binder->forms.is_fragments);
    bool done = append_text(binder, answer(binder->state, &question));
    binder->forms.len = 0;
    return done && let_others_run(binder, len);
}

/* Has a row wait, and binds those that wait if they are many. What no call for many rows binds is bound by itself, as is all that is
 * sent. */
static bool add_row(binder *binder, const writer *writer, PyObject *row)
{
    size_t begin = binder->forms.len;
    binder->forms.is_fragments = false;
    if (form_more(&binder->forms, 1) == NULL)
        return false;
    if (!write_params(writer, row)) {
        bind_before(binder, begin, is_of_parameters());
        return false;
    }
    if (binder->forms.is_fragments || binder->call != CALL_BIND)
        return bind_alone(binder, begin);
    if (!form_enclose(&binder->forms, begin))
        return false;
    binder->count++;
    if (binder->forms.len < MOST_FORMS && binder->count < binder->most)
        return true;
    bool done = bind_waiting(binder, binder->forms.len);
    binder->forms.len = 0;
    return done;
}

/* Appends the texts of all rows. */
static bool bind_all(binder *binder, const writer *writer, PyObject *rows)
{
    PyObject *iterator = PyObject_GetIter(rows), *row;
    if (iterator == NULL)
        return false;
    bool done = true;
    while (done && (row = PyIter_Next(iterator)) != NULL) {
        done = add_row(binder, writer, row);
        Py_DECREF(row);
    }
    Py_DECREF(iterator);
    if (done && PyErr_Occurred() != NULL) {
        bind_before(binder, binder->forms.len, false);
        return false;
    }
    return done && bind_waiting(binder, binder->forms.len);
}

/* Binds rows: a query, which is bytes, the rows, the mode, a zone, whether the texts are to be sent, with steady literals or with
 * those for a connection in the mode, and a list of texts, which gets those of the rows up to the first that is refused. What is sent
 * takes more than values. */
PyObject *native_bind_rows(PyObject *module, PyObject *arguments)
{
    PyObject *taken[7];
    native_state *state = state_of(module);
    binder binder = {.state = state, .call = CALL_BIND};
    if (state == NULL || !take_arguments(arguments, 7, taken) || !take_mode(state, taken[2], &binder.mode))
        return NULL;
    if (!PyBytes_Check(taken[0]) || !PyList_Check(taken[6])) {
        PyErr_SetString(PyExc_TypeError, "a query of bytes and a list of texts are wanted");
        return NULL;
    }
    bool is_sent = taken[4] == Py_True;
    if (is_sent && !take_call_to_send(taken[5], &binder.call))
        return NULL;
    binder.query = taken[0];
    binder.texts = taken[6];
    binder.most = 1 + MOST_QUERIES / ((size_t)PyBytes_Size(taken[0]) + 1);
    form_begin(&binder.forms);
    row_names names = {0};
    const writer writer = {state, &binder.forms, taken[3], is_sent ? LEVEL_PLACES : LEVEL_VALUES, &names};
    bool done = bind_all(&binder, &writer, taken[1]);
    row_names_end(&names);
    form_free(&binder.forms);
    free(binder.room);
    let_template_go(binder.held);
    if (!done)
        return NULL;
    Py_RETURN_NONE;
}

/* How many bytes more than twice those of its form the number of a double has, which is up to 27 bytes long. */
enum { MORE_OF_DOUBLE = 7 };

/* So many has the literal of a text: `_utf8mb4 0x` has eleven, and the form of a text three beside its bytes. */
enum { MORE_OF_TEXT = 5 };

/* So many has a backslash after a byte from 128 on, which is written in five: the letter before it has two bytes or more. */
enum { MORE_OF_BACKSLASH = 1 };

/* What a literal of a row has beside it: a comma and a space. A row has brackets and a comma too, for which the four bytes of its
 * count do. */
enum { BESIDE_LITERAL = 2 };

/* How many bytes more than twice those of their form the backslashes have. */
static size_t more_of_backslashes(const form *form)
{
    size_t more = 0;
    const uint8_t *end = form->bytes + form->len;
    for (const uint8_t *at = form->bytes; (at = memchr(at, '\\', (size_t)(end - at))) != NULL; at++)
        more += at > form->bytes && at[-1] >= 128 ? MORE_OF_BACKSLASH : 0;
    return more;
}

/* How long what is written of a row is at most, in each mode and form of literals, by its form of so many items. A literal has at most
 * twice the bytes of its form, and more as above. What only looks like the head of a double, or like such a backslash, counts as one;
 * what is one adds fewer bytes in all than the form has. */
static size_t longest_row(const form *form, size_t items)
{
    size_t more = more_of_backslashes(form);
    for (size_t i = 0; i + 1 < form->len; i++)
        more += form->bytes[i] == TYPE_DOUBLE && form->bytes[i + 1] == 0 ? MORE_OF_DOUBLE : 0;
    return 2 * form->len + (more < form->len ? more : form->len) + (MORE_OF_TEXT + BESIDE_LITERAL) * items;
}

/* The count of a row's items and these, as the calls that bind fragments take a row, and how long what is written of it is at most:
 * of a row, its place, and a zone. */
PyObject *native_row_items(PyObject *module, PyObject *arguments)
{
    PyObject *taken[3];
    native_state *state = state_of(module);
    if (state == NULL || !take_arguments(arguments, 3, taken))
        return NULL;
    bool has_name = PyBytes_Check(taken[1]);
    place place = {has_name ? taken[1] : NULL, has_name ? 0 : PyLong_AsSsize_t(taken[1])};
    if (place.number == -1 && PyErr_Occurred() != NULL)
        return NULL;
    form form;
    form_begin(&form);
    const writer writer = {state, &form, taken[2], LEVEL_ITEMS, NULL};
    PyObject *made = NULL;
    if (write_items(&writer, taken[0], &place)) {
        size_t items = form.bytes[0] | (size_t)form.bytes[1] << 8 | (size_t)form.bytes[2] << 16 | (size_t)form.bytes[3] << 24;
        made = Py_BuildValue("(y#n)", (const char *)form.bytes, (Py_ssize_t)form.len, (Py_ssize_t)longest_row(&form, items));
    }
    form_free(&form);
    return made;
}
