/* rows.c: one query bound to row after row, batch after batch. */
#include "php_mysql_params.h"

#include "Zend/zend_exceptions.h"
#include "ext/spl/spl_iterators.h"

/* Once the forms of rows have so many bytes, or their queries, the rows are bound. The forms are few enough to stay in
 * a processor's cache with their texts. */
enum { MOST_FORMS = 1 << 15, MOST_QUERIES = 1 << 18 };

/* What a text has beside its query and its literals: its length. */
enum { BESIDE_TEXT = 9 };

/* Rows that are bound to a query. */
typedef struct binder {
    bytes query;
    bool mode;
    zval *texts;   /* an array: those of the rows that are bound */
    form forms;    /* of the rows that wait, each as a length-encoded string */
    size_t count;  /* rows that wait */
    size_t most;   /* of so many at most */
    uint8_t *room; /* owned, all of its bytes have a value */
    size_t room_len;
} binder;

/* How many rows are bound. */
static zend_long done(const binder *binder)
{
    return zend_hash_num_elements(Z_ARRVAL_P(binder->texts));
}

/* Has a refusal tell the texts of the rows before it. */
static void tell_texts(const binder *binder)
{
    if (EG(exception) != NULL && EG(exception)->ce == exception_ce)
        keep_texts(EG(exception), binder->texts);
}

/* Throws what the row whose form stands first is refused for. */
static bool refuse_row(const binder *binder, int32_t number, bytes forms, const mysql_params_report *report)
{
    mysql_params_string form;
    if (!mysql_params_next_string(&forms.at, &forms.len, &form)) {
        zend_throw_error(NULL, "the archive says that it read more than the forms of the rows");
        return false;
    }
    const question question = {.call = CALL_BIND, .query = binder->query, .form = {form.bytes, form.len},
                               .mode = binder->mode};
    refuse(&question, number, report, done(binder));
    tell_texts(binder);
    return false;
}

/* Appends the texts of which an answer is a row. */
static bool append_texts(const binder *binder, size_t written)
{
    const uint8_t *at = binder->room;
    mysql_params_string text;
    while (written > 0) {
        if (!mysql_params_next_string(&at, &written, &text)) {
            zend_throw_error(NULL, "the answer of the archive is no row of strings");
            return false;
        }
        add_next_index_stringl(binder->texts, (const char *)text.bytes, text.len);
    }
    return true;
}

/* Has the room be as long as is wanted at least. */
static void have_room(binder *binder, size_t wanted)
{
    if (binder->room != NULL && binder->room_len >= wanted)
        return;
    if (binder->room != NULL)
        efree(binder->room);
    binder->room = ecalloc(1, wanted + 1);
    binder->room_len = wanted;
}

/* Appends the texts of rows whose forms are the first `len` bytes, or throws for the first that is refused. */
static bool bind_forms(binder *binder, size_t len)
{
    bytes forms = {binder->forms.bytes, len};
    size_t guess = 2 * len + 12 * binder->forms.values + binder->count * (binder->query.len + BESIDE_TEXT);
    for (;;) {
        mysql_params_rows rows = {0};
        mysql_params_report report = {0};
        have_room(binder, guess);
        int32_t number = mysql_params_bind_rows_wide(binder->query.at, binder->query.len, forms.at, forms.len,
                                                     binder->mode, binder->room, binder->room_len, &rows, &report);
        if (rows.written > binder->room_len || rows.read > forms.len) {
            zend_throw_error(NULL, "the archive says that it wrote %zu bytes, and had room for %zu", rows.written,
                             binder->room_len);
            return false;
        }
        if (!append_texts(binder, rows.written))
            return false;
        if (number == MYSQL_PARAMS_DONE)
            return true;
        forms.at += rows.read;
        forms.len -= rows.read;
        if (number != MYSQL_PARAMS_ROOM)
            return refuse_row(binder, number, forms, &report);
        guess = MAX(report.len, 2 * binder->room_len);
    }
}

/* Binds the rows that wait, whose forms are the first `len` bytes. */
static bool bind_waiting(binder *binder, size_t len)
{
    bool is_bound = binder->count == 0 || bind_forms(binder, len);
    binder->count = 0;
    return is_bound;
}

/* After an exception: binds the rows before it, of which one may be refused, and throws the first of both. What ends the
 * program, or a fiber, stays as it is. */
static bool bind_before(binder *binder, size_t len)
{
    zend_object *held = EG(exception);
    if (zend_is_unwind_exit(held) || zend_is_graceful_exit(held))
        return false;
    GC_ADDREF(held);
    zend_clear_exception();
    if (bind_waiting(binder, len))
        zend_throw_exception_internal(held);
    else
        OBJ_RELEASE(held);
    return false;
}

/* Binds a row by itself, whose form stands behind those that wait and is for the calls that bind fragments. */
static bool bind_alone(binder *binder, size_t begin)
{
    if (!bind_waiting(binder, begin))
        return false;
    const bytes form = {binder->forms.bytes + begin + 1, binder->forms.len - begin - 1};
    const question question = {.call = CALL_BIND, .query = binder->query, .form = form,
                               .values = binder->forms.values, .is_fragments = true, .mode = binder->mode};
    zend_string *text = answer(&question);
    binder->forms.len = 0;
    if (text == NULL) {
        if (EG(exception)->ce == exception_ce)
            zend_update_property_long(exception_ce, EG(exception), "row", sizeof "row" - 1, done(binder));
        tell_texts(binder);
        return false;
    }
    add_next_index_str(binder->texts, text);
    return true;
}

/* Appends the form of a row behind those that wait. */
static bool write_row(binder *binder, zval *row)
{
    writer writer = {&binder->forms, LEVEL_VALUES, NULL, 0, done(binder) + (zend_long)binder->count};
    ZVAL_DEREF(row);
    form_more(&binder->forms, 1);
    if (Z_TYPE_P(row) == IS_ARRAY)
        return write_params(&writer, Z_ARRVAL_P(row));
    zend_type_error("row " ZEND_LONG_FMT ": a row is an array of its parameters, and not %s", writer.row,
                    zend_zval_type_name(row));
    return false;
}

/* Has a row wait, and binds those that wait if they are many. */
static bool add_row(binder *binder, zval *row)
{
    form *forms = &binder->forms;
    if (binder->count == 0)
        forms->len = forms->values = 0;
    size_t begin = forms->len;
    forms->is_fragments = false;
    if (!write_row(binder, row))
        return bind_before(binder, begin);
    if (forms->is_fragments)
        return bind_alone(binder, begin);
    form_enclose(forms, begin);
    binder->count++;
    if (forms->len < MOST_FORMS && binder->count < binder->most)
        return true;
    return bind_waiting(binder, forms->len);
}

/* Adds what an iterator gives, and stops at an exception. */
static int add_current(zend_object_iterator *iterator, void *given)
{
    zval *row = iterator->funcs->get_current_data(iterator);
    if (EG(exception) != NULL || row == NULL || !add_row(given, row))
        return ZEND_HASH_APPLY_STOP;
    return ZEND_HASH_APPLY_KEEP;
}

/* Adds the rows of an array. */
static bool add_array(binder *binder, HashTable *rows)
{
    zval *row;
    ZEND_HASH_FOREACH_VAL(rows, row) {
        if (!add_row(binder, row))
            return false;
    } ZEND_HASH_FOREACH_END();
    return true;
}

/* Adds all rows, and binds those that wait, also if the iterator of a user throws. */
static bool add_all(binder *binder, zval *rows)
{
    if (Z_TYPE_P(rows) == IS_ARRAY) {
        if (!add_array(binder, Z_ARRVAL_P(rows)))
            return false;
    } else {
        spl_iterator_apply(rows, add_current, binder);
        if (EG(exception) != NULL)
            return binder->count > 0 ? bind_before(binder, binder->forms.len) : false;
    }
    return bind_waiting(binder, binder->forms.len);
}

bool bind_all_rows(bytes query, bool mode, zval *rows, zval *texts)
{
    binder binder = {.query = query, .mode = mode, .texts = texts, .most = 1 + MOST_QUERIES / (query.len + 1)};
    array_init(texts);
    form_begin(&binder.forms);
    bool is_bound = add_all(&binder, rows);
    form_free(&binder.forms);
    if (binder.room != NULL)
        efree(binder.room);
    if (!is_bound) {
        zval_ptr_dtor(texts);
        ZVAL_UNDEF(texts);
    }
    return is_bound;
}
