/* calls.c: what is asked of the archive, its answers, and the functions that bind. */
#include "php_mysql_params.h"

#include "Zend/zend_exceptions.h"

/* How much longer than query and form a room is at first; and how much a value has beside twice its form, as a comma, a
 * space and `_utf8mb4 0x`, or the digits of a double. */
enum { MORE_ROOM = 64, BESIDE_VALUE = 12 };

/* Where no bytes are, since the archive takes no null. */
static const uint8_t nothing;

/* Asks in a mode, by the template if there is one. */
static int32_t ask_in_mode(const question *q, uint8_t *room, size_t len, mysql_params_report *report)
{
    if (q->is_fragments)
        return mysql_params_bind_fragments_wide(q->query.at, q->query.len, q->form.at, q->form.len, q->mode, room, len,
                                                report);
    if (q->made != NULL)
        return mysql_params_template_bind(q->made, q->form.at, q->form.len, room, len, report);
    return mysql_params_bind_wide(q->query.at, q->query.len, q->form.at, q->form.len, q->mode, room, len, report);
}

/* Asks for the text to send over a connection, by the template if there is one: it serves either mode. */
static int32_t ask_for_connection(const question *q, uint8_t *room, size_t len, mysql_params_report *report)
{
    if (q->made != NULL)
        return mysql_params_template_bind_for_connection(q->made, q->form.at, q->form.len, q->is_fragments, q->mode, room,
                                                         len, report);
    return mysql_params_bind_for_connection_wide(q->query.at, q->query.len, q->form.at, q->form.len, q->is_fragments, q->mode,
                                                 room, len, report);
}

static int32_t ask(const question *q, uint8_t *room, size_t len, mysql_params_report *report)
{
    bytes query = q->query, form = q->form;
    switch (q->call) {
    case CALL_NAMES:
        return mysql_params_names_wide(query.at, query.len, q->mode, room, len, report);
    case CALL_BOTH_MODES:
        return mysql_params_bind_in_both_modes_wide(query.at, query.len, form.at, form.len, room, len, report);
    case CALL_ANYWHERE:
        if (q->is_fragments)
            return mysql_params_bind_fragments_anywhere_wide(query.at, query.len, form.at, form.len, room, len, report);
        if (q->made != NULL)
            return mysql_params_template_bind_anywhere(q->made, form.at, form.len, room, len, report);
        return mysql_params_bind_anywhere_wide(query.at, query.len, form.at, form.len, room, len, report);
    case CALL_CONNECTION:
        return ask_for_connection(q, room, len, report);
    case CALL_BIND:
        break;
    }
    return ask_in_mode(q, room, len, report);
}

void refuse_memory(void)
{
    zend_error_noreturn(E_ERROR, "Out of memory (mysql_params)");
}

/* Throws for an archive that isn't this one's. */
static zend_string *refuse_length(size_t len, size_t room)
{
    zend_throw_error(NULL, "the archive says that it wrote %zu bytes, and had room for %zu", len, room);
    return NULL;
}

/* A text that has room for so many bytes, all of which have a value. */
static zend_string *room_of(size_t len)
{
    zend_string *text = zend_string_alloc(len, 0);
    memset(ZSTR_VAL(text), 0, len + 1);
    return text;
}

/* The answer by a room of its own, of a length that was guessed or is needed. */
static zend_string *long_answer(const question *question, size_t len)
{
    mysql_params_report report = {0};
    zend_string *text = room_of(len);
    int32_t number = ask(question, (uint8_t *)ZSTR_VAL(text), len, &report);
    if (number == MYSQL_PARAMS_ROOM) {
        zend_string_efree(text);
        len = report.len;
        text = room_of(len);
        number = ask(question, (uint8_t *)ZSTR_VAL(text), len, &report);
    }
    if (number == MYSQL_PARAMS_DONE && report.len <= len) {
        text = zend_string_truncate(text, report.len, 0);
        ZSTR_VAL(text)[report.len] = '\0';
        return text;
    }
    zend_string_efree(text);
    if (number == MYSQL_PARAMS_DONE)
        return refuse_length(report.len, len);
    refuse(question, number, &report, -1);
    return NULL;
}

zend_string *answer(const question *question)
{
    mysql_params_report report = {0};
    size_t guess = question->query.len + 2 * question->form.len + BESIDE_VALUE * question->values + MORE_ROOM;
    uint8_t *room = MYSQL_PARAMS_G(room);
    if (guess > KEPT_ROOM)
        return long_answer(question, guess);
    int32_t number = ask(question, room, KEPT_ROOM, &report);
    if (number == MYSQL_PARAMS_ROOM)
        return long_answer(question, report.len);
    if (number == MYSQL_PARAMS_DONE && report.len <= KEPT_ROOM)
        return zend_string_init((const char *)room, report.len, 0);
    if (number == MYSQL_PARAMS_DONE)
        return refuse_length(report.len, KEPT_ROOM);
    refuse(question, number, &report, -1);
    return NULL;
}

zend_string *answer_again(question *question)
{
    if (question->again != NULL && !question->is_fragments)
        question->made = kept_template(question->again);
    return answer(question);
}

bool take_mode(zval *given, uint32_t argument, bool *mode)
{
    *mode = given != NULL && Z_TYPE_P(given) == IS_TRUE;
    if (given == NULL || *mode || Z_TYPE_P(given) == IS_FALSE)
        return true;
    zend_argument_type_error(argument, "must be true or false, %s given: whether sql_mode has NO_BACKSLASH_ESCAPES",
                             zend_zval_type_name(given));
    return false;
}

zend_string *bound(question *question, HashTable *params, enum level level)
{
    form form;
    zend_string *text = NULL;
    form_begin(&form);
    writer writer = {&form, level, NULL, 0, -1};
    if (params == NULL || write_params(&writer, params)) {
        question->form = (bytes){form.bytes, form.len};
        question->values = form.values;
        question->is_fragments = form.is_fragments && level == LEVEL_PLACES;
        text = answer_again(question);
    }
    form_free(&form);
    return text;
}

/* Returns a text, or nothing if an exception was thrown. */
#define RETURN_TEXT(made)       \
    do {                        \
        zend_string *m = made;  \
        if (m == NULL)          \
            RETURN_THROWS();    \
        RETURN_STR(m);          \
    } while (0)

/* A call that has a query and parameters alone. */
static void bind_by(INTERNAL_FUNCTION_PARAMETERS, enum call call, enum level level)
{
    zend_string *query;
    HashTable *params = NULL;
    ZEND_PARSE_PARAMETERS_START(1, 2)
        Z_PARAM_STR(query)
        Z_PARAM_OPTIONAL
        Z_PARAM_ARRAY_HT(params)
    ZEND_PARSE_PARAMETERS_END();
    question question = {.call = call, .query = bytes_of(query)};
    if (call == CALL_ANYWHERE)
        question.again = query;
    RETURN_TEXT(bound(&question, params, level));
}

PHP_FUNCTION(MysqlParams_bind_anywhere)
{
    bind_by(INTERNAL_FUNCTION_PARAM_PASSTHRU, CALL_ANYWHERE, LEVEL_PLACES);
}

PHP_FUNCTION(MysqlParams_bind_in_both_modes)
{
    bind_by(INTERNAL_FUNCTION_PARAM_PASSTHRU, CALL_BOTH_MODES, LEVEL_VALUES);
}

PHP_FUNCTION(MysqlParams_bind)
{
    zend_string *query;
    HashTable *params = NULL;
    zval *mode = NULL;
    ZEND_PARSE_PARAMETERS_START(1, 3)
        Z_PARAM_STR(query)
        Z_PARAM_OPTIONAL
        Z_PARAM_ARRAY_HT(params)
        Z_PARAM_ZVAL(mode)
    ZEND_PARSE_PARAMETERS_END();
    question question = {.call = CALL_BIND, .query = bytes_of(query)};
    if (!take_mode(mode, 3, &question.mode))
        RETURN_THROWS();
    if (!question.mode)
        question.again = query;
    RETURN_TEXT(bound(&question, params, LEVEL_PLACES));
}

/* A call that has parameters as a flat form already. */
static void bind_form_by(INTERNAL_FUNCTION_PARAMETERS, enum call call)
{
    zend_string *query, *form;
    zval *mode = NULL;
    ZEND_PARSE_PARAMETERS_START(2, call == CALL_BIND ? 3 : 2)
        Z_PARAM_STR(query)
        Z_PARAM_STR(form)
        Z_PARAM_OPTIONAL
        Z_PARAM_ZVAL(mode)
    ZEND_PARSE_PARAMETERS_END();
    question question = {.call = call, .query = bytes_of(query), .form = bytes_of(form)};
    if (!take_mode(mode, 3, &question.mode))
        RETURN_THROWS();
    RETURN_TEXT(answer(&question));
}

PHP_FUNCTION(MysqlParams_bind_form)
{
    bind_form_by(INTERNAL_FUNCTION_PARAM_PASSTHRU, CALL_BIND);
}

PHP_FUNCTION(MysqlParams_bind_form_anywhere)
{
    bind_form_by(INTERNAL_FUNCTION_PARAM_PASSTHRU, CALL_ANYWHERE);
}

PHP_FUNCTION(MysqlParams_bind_form_in_both_modes)
{
    bind_form_by(INTERNAL_FUNCTION_PARAM_PASSTHRU, CALL_BOTH_MODES);
}

/* The names in an answer of the archive, after the query with marks; false with an exception thrown. */
static bool take_names(const zend_string *found, zval *query, zval *names)
{
    const uint8_t *at = (const uint8_t *)ZSTR_VAL(found);
    size_t len = ZSTR_LEN(found);
    mysql_params_string string;
    if (!mysql_params_next_string(&at, &len, &string)) {
        zend_throw_error(NULL, "the answer of the archive is no row of strings");
        return false;
    }
    ZVAL_STRINGL(query, (const char *)string.bytes, string.len);
    array_init(names);
    while (mysql_params_next_string(&at, &len, &string))
        add_next_index_stringl(names, (const char *)string.bytes, string.len);
    return true;
}

PHP_FUNCTION(MysqlParams_names)
{
    zend_string *query;
    zval *mode = NULL, renamed, names;
    ZEND_PARSE_PARAMETERS_START(1, 2)
        Z_PARAM_STR(query)
        Z_PARAM_OPTIONAL
        Z_PARAM_ZVAL(mode)
    ZEND_PARSE_PARAMETERS_END();
    question question = {.call = CALL_NAMES, .query = bytes_of(query), .form = {&nothing, 0}};
    if (!take_mode(mode, 2, &question.mode))
        RETURN_THROWS();
    zend_string *found = answer(&question);
    if (found == NULL)
        RETURN_THROWS();
    if (take_names(found, &renamed, &names)) {
        object_init_ex(return_value, names_ce);
        ZVAL_COPY_VALUE(OBJ_PROP_NUM(Z_OBJ_P(return_value), 0), &renamed);
        ZVAL_COPY_VALUE(OBJ_PROP_NUM(Z_OBJ_P(return_value), 1), &names);
    }
    zend_string_release(found);
}

PHP_FUNCTION(MysqlParams_bind_rows)
{
    zend_string *query;
    zval *rows, *mode = NULL;
    bool is_without;
    ZEND_PARSE_PARAMETERS_START(2, 3)
        Z_PARAM_STR(query)
        Z_PARAM_ITERABLE(rows)
        Z_PARAM_OPTIONAL
        Z_PARAM_ZVAL(mode)
    ZEND_PARSE_PARAMETERS_END();
    if (!take_mode(mode, 3, &is_without) || !bind_all_rows(bytes_of(query), is_without, rows, return_value))
        RETURN_THROWS();
}
