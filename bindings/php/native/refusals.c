/* refusals.c: the exception, and what a query has that servers read in different ways. */
#include "php_mysql_params.h"

#include "Zend/zend_enum.h"
#include "Zend/zend_exceptions.h"
#include "Zend/zend_weakrefs.h"
#include "ext/spl/spl_exceptions.h"

zend_class_entry *exception_ce, *construct_ce, *fault_ce, *unportable_ce;

static const uint8_t nothing;

zend_object *new_refusal(zend_long code, const char *format, ...)
{
    zval refusal, value;
    va_list words;
    va_start(words, format);
    zend_string *message = zend_vstrpprintf(0, format, words);
    va_end(words);
    object_init_ex(&refusal, exception_ce);
    ZVAL_STR(&value, message);
    zend_update_property_ex(zend_ce_exception, Z_OBJ(refusal), ZSTR_KNOWN(ZEND_STR_MESSAGE), &value);
    zend_string_release(message);
    ZVAL_LONG(&value, code);
    zend_update_property_ex(zend_ce_exception, Z_OBJ(refusal), ZSTR_KNOWN(ZEND_STR_CODE), &value);
    return Z_OBJ(refusal);
}

/* Throws a refusal, of which this takes the only reference. */
static void throw(zend_object *refusal)
{
    zval thrown;
    ZVAL_OBJ(&thrown, refusal);
    zend_throw_exception_object(&thrown);
}

void keep_texts(zend_object *refusal, zval *texts)
{
    Z_ADDREF_P(texts);
    zend_weakrefs_hash_add(&MYSQL_PARAMS_G(texts), refusal, texts);
}

static void set_long(zend_object *refusal, const char *name, size_t number)
{
    zend_update_property_long(exception_ce, refusal, name, strlen(name), (zend_long)number);
}

static void set_bytes(zend_object *refusal, const char *name, const uint8_t *bytes, size_t len)
{
    zend_update_property_stringl(exception_ce, refusal, name, strlen(name), (const char *)bytes, len);
}

/* Sets a field to the case of an enum that has a number, if it has one. */
static void set_case(zend_object *refusal, const char *name, zend_class_entry *kind, size_t number)
{
    zend_object *found;
    zval value;
    if (zend_enum_get_case_by_value(&found, kind, (zend_long)number, NULL, true) != SUCCESS || found == NULL)
        return;
    ZVAL_OBJ(&value, found);
    zend_update_property(exception_ce, refusal, name, strlen(name), &value);
}

/* The name of a number in the query, without its colon; null if the query has no names. */
static zend_string *name_of_place(const question *asked, size_t place)
{
    const question of_names = {.call = CALL_NAMES, .query = asked->query, .form = {&nothing, 0},
                               .mode = (asked->call == CALL_BIND || asked->call == CALL_CONNECTION) && asked->mode};
    zend_string *found = answer(&of_names), *name = NULL;
    if (found == NULL)
        return NULL;
    const uint8_t *at = (const uint8_t *)ZSTR_VAL(found);
    size_t len = ZSTR_LEN(found), number = 0;
    mysql_params_string string;
    while (mysql_params_next_string(&at, &len, &string)) {
        if (number++ == place + 1) {
            name = zend_string_init((const char *)string.bytes, string.len, 0);
            break;
        }
    }
    zend_string_release(found);
    return name;
}

/* The word that begins at a byte of the query, if a letter outside ASCII is in it, or no bytes. */
static bytes word_with_other(bytes query, size_t begin)
{
    size_t end = begin;
    bool has_other = false;
    while (end < query.len && (is_of_names(query.at[end]) || query.at[end] >= 128))
        has_other |= query.at[end++] >= 128;
    return has_other ? (bytes){query.at + begin, end - begin} : (bytes){&nothing, 0};
}

/* The first word after a colon that begins with a letter outside ASCII, or no bytes. */
static bytes word_without_name(bytes query)
{
    for (size_t at = 1; at < query.len; at++) {
        if (query.at[at - 1] == ':' && query.at[at] >= 128)
            return word_with_other(query, at);
    }
    return (bytes){&nothing, 0};
}

/* The word of the query that is no name, or no whole one, which may be why the query is refused; or no bytes. */
static bytes word_of(bytes query, int32_t number, const mysql_params_report *report)
{
    size_t at = report->position;
    if (number == MYSQL_PARAMS_NAMED_FOR_POSITIONAL)
        return word_without_name(query);
    if (number == MYSQL_PARAMS_MISSING)
        return word_with_other(query, at);
    if (number == MYSQL_PARAMS_NOT_ALONE && at < query.len && query.at[at] == ':')
        return word_with_other(query, at + 1);
    return (bytes){&nothing, 0};
}

/* Sets the name that a report tells, which stands in the query or in the form. */
static void set_told_name(zend_object *refusal, bytes source, const mysql_params_report *report)
{
    if (report->position <= source.len && report->len <= source.len - report->position)
        set_bytes(refusal, "name", source.at + report->position, report->len);
}

/* Sets what a refusal of a form tells. */
static void set_form_fields(zend_object *refusal, const question *question, int32_t number,
                            const mysql_params_report *report)
{
    set_long(refusal, "place", report->place);
    set_long(refusal, "position", report->position);
    if (number == MYSQL_PARAMS_FORM_REPEATED)
        set_told_name(refusal, question->form, report);
    if (number == MYSQL_PARAMS_FORM_LENGTH_LEAD || number == MYSQL_PARAMS_FORM_TYPE)
        set_long(refusal, "byte", report->byte);
}

/* Sets what a refusal of a list, rows, an exact number, a name or a keyword tells. */
static void set_fault_fields(zend_object *refusal, const mysql_params_report *report)
{
    set_long(refusal, "place", report->place);
    set_case(refusal, "fault", fault_ce, report->byte);
    set_long(refusal, "row", report->position);
    set_long(refusal, "item", report->values);
}

/* Sets what a refusal tells beside its message. */
static void set_fields(zend_object *refusal, const question *question, int32_t number,
                       const mysql_params_report *report)
{
    switch (number) {
    case MYSQL_PARAMS_FORM_END:
    case MYSQL_PARAMS_FORM_LENGTH_LEAD:
    case MYSQL_PARAMS_FORM_TYPE:
    case MYSQL_PARAMS_FORM_MIXED:
    case MYSQL_PARAMS_FORM_REPEATED:
        set_form_fields(refusal, question, number, report);
        return;
    case MYSQL_PARAMS_MISSING:
    case MYSQL_PARAMS_NOT_ALONE:
    case MYSQL_PARAMS_UNBRACKETED:
        set_long(refusal, "place", report->place);
        set_long(refusal, "position", report->position);
        if (number == MYSQL_PARAMS_MISSING)
            set_told_name(refusal, question->query, report);
        return;
    case MYSQL_PARAMS_MARK_COUNT:
        set_long(refusal, "marks", report->marks);
        set_long(refusal, "values", report->values);
        return;
    case MYSQL_PARAMS_FLOAT:
    case MYSQL_PARAMS_UNSTEADY_FRAGMENT:
        set_long(refusal, "place", report->place);
        return;
    case MYSQL_PARAMS_UNPORTABLE:
        set_case(refusal, "construct", construct_ce, report->byte);
        set_long(refusal, "position", report->position);
        return;
    case MYSQL_PARAMS_UNSTEADY:
    case MYSQL_PARAMS_BACKSLASH:
        set_long(refusal, "position", report->position);
        return;
    case MYSQL_PARAMS_FAULT:
        set_fault_fields(refusal, report);
    }
}

/* Whether a refusal is of what is given for a place, whose name is told then. */
static bool is_of_value(int32_t number)
{
    return number == MYSQL_PARAMS_FLOAT || number == MYSQL_PARAMS_FAULT || number == MYSQL_PARAMS_UNSTEADY_FRAGMENT ||
           number == MYSQL_PARAMS_UNBRACKETED;
}

/* Whether a number is that of a refusal of a query, a form or values. */
static bool is_refusal(int32_t number)
{
    return (number >= MYSQL_PARAMS_FORM_END && number <= MYSQL_PARAMS_UNSTEADY_FRAGMENT) ||
           number == MYSQL_PARAMS_UNBRACKETED;
}

void refuse(const question *question, int32_t number, const mysql_params_report *report, zend_long row)
{
    if (number == MYSQL_PARAMS_OUT_OF_MEMORY)
        refuse_memory();
    if (!is_refusal(number)) {
        zend_throw_error(NULL, "Unknown answer %d of the archive", (int)number);
        return;
    }
    bytes word = word_of(question->query, number, report);
    zend_string *name = is_of_value(number) ? name_of_place(question, report->place) : NULL;
    zend_string *message = message_of(question, number, report, name, word.len > 0);
    zend_object *refusal = row < 0 ? new_refusal(number, "%s", ZSTR_VAL(message))
                                   : new_refusal(number, "row " ZEND_LONG_FMT ": %s", row, ZSTR_VAL(message));
    zend_string_release(message);
    set_fields(refusal, question, number, report);
    if (word.len > 0)
        set_bytes(refusal, "word", word.at, word.len);
    if (name != NULL) {
        set_bytes(refusal, "name", (const uint8_t *)ZSTR_VAL(name), ZSTR_LEN(name));
        zend_string_release(name);
    }
    if (row >= 0)
        set_long(refusal, "row", (size_t)row);
    throw(refusal);
}

/* The calls that find the first construct of a query. */
typedef int32_t first_call(const uint8_t *, size_t, bool, mysql_params_report *);

/* Returns an Unportable, or null. */
static void find(INTERNAL_FUNCTION_PARAMETERS, first_call *call)
{
    zend_string *query;
    zval *given = NULL;
    bool mode;
    mysql_params_report report = {0};
    zend_object *construct;
    ZEND_PARSE_PARAMETERS_START(1, 2)
        Z_PARAM_STR(query)
        Z_PARAM_OPTIONAL
        Z_PARAM_ZVAL(given)
    ZEND_PARSE_PARAMETERS_END();
    if (!take_mode(given, 2, &mode))
        RETURN_THROWS();
    int32_t number = call(bytes_of(query).at, ZSTR_LEN(query), mode, &report);
    if (number == MYSQL_PARAMS_PORTABLE)
        RETURN_NULL();
    if (zend_enum_get_case_by_value(&construct, construct_ce, number, NULL, false) != SUCCESS)
        RETURN_THROWS();
    object_init_ex(return_value, unportable_ce);
    ZVAL_OBJ_COPY(OBJ_PROP_NUM(Z_OBJ_P(return_value), 0), construct);
    ZVAL_LONG(OBJ_PROP_NUM(Z_OBJ_P(return_value), 1), (zend_long)report.position);
}

PHP_FUNCTION(MysqlParams_first_unportable)
{
    find(INTERNAL_FUNCTION_PARAM_PASSTHRU, mysql_params_first_unportable_wide);
}

PHP_FUNCTION(MysqlParams_first_unportable_in_client)
{
    find(INTERNAL_FUNCTION_PARAM_PASSTHRU, mysql_params_first_unportable_in_client_wide);
}
