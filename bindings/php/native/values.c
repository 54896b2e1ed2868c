/* values.c: a value, a list, rows and all parameters, written as the flat form straight from PHP's own values. */
#include "php_mysql_params.h"

#include "Zend/zend_enum.h"
#include "Zend/zend_exceptions.h"
#include "Zend/zend_interfaces.h"
#include "Zend/zend_smart_str.h"
#include "ext/date/php_date.h"

#include <math.h>

/* Texts are made only by smart_str_append_printf, a function of PHP. What the header has inline calls functions that only PHP's
 * later patches have, and then the module isn't loaded by an earlier one. */
void append_shown(smart_str *to, bytes shown)
{
    for (size_t i = 0; i < shown.len; i++) {
        uint8_t byte = shown.at[i];
        bool is_shown = byte >= 32 && byte <= 126 && byte != '"' && byte != '\\';
        smart_str_append_printf(to, is_shown ? "%c" : "\\x%02x", byte);
    }
}

/* How messages call the value: by the name of its place, or by its number. */
static zend_string *place_of(const writer *writer)
{
    smart_str place = {0};
    if (writer->row >= 0)
        smart_str_append_printf(&place, "row " ZEND_LONG_FMT ": ", writer->row);
    if (writer->name == NULL) {
        smart_str_append_printf(&place, "the value for place " ZEND_LONG_FMT, writer->number);
    } else {
        bytes name = bytes_of(writer->name);
        bool has_colon = name.len > 0 && *name.at == ':';
        smart_str_append_printf(&place, "the value of `:");
        append_shown(&place, (bytes){name.at + has_colon, name.len - has_colon});
        smart_str_append_printf(&place, "`");
    }
    return smart_str_extract(&place);
}

bool refuse_value(const writer *writer, zend_class_entry *kind, const char *format, ...)
{
    va_list words;
    va_start(words, format);
    zend_string *place = place_of(writer), *fault = zend_vstrpprintf(0, format, words);
    va_end(words);
    zend_throw_exception_ex(kind, 0, "%s %s", ZSTR_VAL(place), ZSTR_VAL(fault));
    zend_string_release(place);
    zend_string_release(fault);
    return false;
}

/* Appends type, flags and a number of 8 bytes, which x86-64 has least byte first. */
static zend_always_inline void append_eight(form *form, uint8_t type, const void *number)
{
    uint8_t *at = form_more(form, 10);
    at[0] = type;
    at[1] = 0;
    memcpy(at + 2, number, 8);
}

/* Appends type and flags. */
static zend_always_inline void append_head(form *form, uint8_t type)
{
    uint8_t *at = form_more(form, 2);
    at[0] = type;
    at[1] = 0;
}

/* Appends type, flags and a string. */
static zend_always_inline void append_string(form *form, uint8_t type, const zend_string *string)
{
    append_head(form, type);
    form_string(form, ZSTR_VAL(string), ZSTR_LEN(string));
}

/* Appends a count of four bytes. */
static void append_count(form *form, size_t count)
{
    fill_number(form_more(form, 4), 4, count);
}

/* Appends the items of a list or a row, and before them their count. */
static bool write_items(const writer *writer, HashTable *items)
{
    struct writer inner = *writer;
    zval *item;
    inner.level = LEVEL_ITEMS;
    append_count(writer->form, zend_hash_num_elements(items));
    ZEND_HASH_FOREACH_VAL(items, item) {
        if (!write_value(&inner, item))
            return false;
    } ZEND_HASH_FOREACH_END();
    return true;
}

/* Appends rows, each a list, by a type. */
static bool write_rows(const writer *writer, uint8_t type, HashTable *rows)
{
    zval *row;
    zend_long number = 0;
    append_head(writer->form, type);
    append_count(writer->form, zend_hash_num_elements(rows));
    ZEND_HASH_FOREACH_VAL(rows, row) {
        ZVAL_DEREF(row);
        if (!zend_array_is_list(Z_ARRVAL_P(row)))
            return refuse_value(writer, zend_ce_type_error,
                                "has keys in row " ZEND_LONG_FMT ", and a row is a list: give array_values(..) of it",
                                number);
        if (!write_items(writer, Z_ARRVAL_P(row)))
            return false;
        number++;
    } ZEND_HASH_FOREACH_END();
    return true;
}

/* How many of an array's values are arrays, which makes them rows. */
static uint32_t count_rows(HashTable *items)
{
    uint32_t rows = 0;
    zval *item;
    ZEND_HASH_FOREACH_VAL(items, item) {
        ZVAL_DEREF(item);
        rows += Z_TYPE_P(item) == IS_ARRAY;
    } ZEND_HASH_FOREACH_END();
    return rows;
}

/* Appends a list of values by its type, or rows by theirs. */
static bool write_list(const writer *writer, uint8_t type, uint8_t type_of_rows, HashTable *items)
{
    uint32_t rows = count_rows(items);
    if (rows > 0 && rows < zend_hash_num_elements(items))
        return refuse_value(writer, zend_ce_type_error,
                            "has rows and values: give a list of values, or one of rows alone");
    writer->form->is_fragments = true;
    if (rows > 0)
        return write_rows(writer, type_of_rows, items);
    append_head(writer->form, type);
    return write_items(writer, items);
}

/* Throws for an object that holds nothing, or what its constructor doesn't make, as by reflection. */
static bool refuse_unmade(const zend_object *object)
{
    zend_throw_error(NULL, "%s was not constructed", ZSTR_VAL(object->ce->name));
    return false;
}

/* What a Decimal, an In, an Identifier, Assignments or a Keyword was made of; null with an exception thrown. */
static zval *made_of(zend_object *object)
{
    zval *made = FIRST_PROPERTY(object);
    if (Z_TYPE_P(made) != IS_UNDEF)
        return made;
    refuse_unmade(object);
    return NULL;
}

/* The names of an Identifier, at least one; null with an exception thrown. */
static HashTable *names_of(zend_object *object)
{
    zval *made = made_of(object), *name;
    if (made == NULL)
        return NULL;
    bool are_names = zend_hash_num_elements(Z_ARRVAL_P(made)) > 0;
    ZEND_HASH_FOREACH_VAL(Z_ARRVAL_P(made), name) {
        are_names &= Z_TYPE_P(name) == IS_STRING;
    } ZEND_HASH_FOREACH_END();
    if (are_names)
        return Z_ARRVAL_P(made);
    refuse_unmade(object);
    return NULL;
}

/* Appends names. */
static void append_names(form *form, HashTable *names)
{
    zval *name;
    ZEND_HASH_FOREACH_VAL(names, name) {
        form_string(form, Z_STRVAL_P(name), Z_STRLEN_P(name));
    } ZEND_HASH_FOREACH_END();
}

/* Appends the names of a column, and before them their count. */
static void append_column(form *form, HashTable *names)
{
    append_count(form, zend_hash_num_elements(names));
    append_names(form, names);
}

/* Whether an array's values are Identifiers, of which there is at least one. */
static bool are_identifiers(HashTable *items)
{
    zval *item;
    ZEND_HASH_FOREACH_VAL(items, item) {
        ZVAL_DEREF(item);
        if (Z_TYPE_P(item) != IS_OBJECT || Z_OBJCE_P(item) != identifier_ce)
            return false;
    } ZEND_HASH_FOREACH_END();
    return zend_hash_num_elements(items) > 0;
}

/* Appends identifiers. */
static bool write_identifiers(const writer *writer, HashTable *items)
{
    zval *item;
    writer->form->is_fragments = true;
    append_head(writer->form, TYPE_IDENTIFIERS);
    append_count(writer->form, zend_hash_num_elements(items));
    ZEND_HASH_FOREACH_VAL(items, item) {
        ZVAL_DEREF(item);
        HashTable *names = names_of(Z_OBJ_P(item));
        if (names == NULL)
            return false;
        append_column(writer->form, names);
    } ZEND_HASH_FOREACH_END();
    return true;
}

/* Whether each key of an array is a string. */
static bool has_names(HashTable *items)
{
    zend_string *name;
    ZEND_HASH_FOREACH_STR_KEY(items, name) {
        if (name == NULL)
            return false;
    } ZEND_HASH_FOREACH_END();
    return true;
}

/* Appends a list or rows, whose place has to be alone in brackets, since the program didn't say that they are; or
 * identifiers. */
static bool write_array(const writer *writer, HashTable *items)
{
    if (writer->level == LEVEL_VALUES)
        return refuse_value(writer, zend_ce_type_error,
                            "is an array, which has no literal: write a place for each of its values");
    if (writer->level == LEVEL_ITEMS)
        return refuse_value(writer, zend_ce_type_error, "has an array in a row: rows are of values");
    if (!zend_array_is_list(items))
        return refuse_value(writer, zend_ce_type_error,
                            "is an array with keys, which is no list: %sgive array_values(..) of it",
                            has_names(items) ? "for SET give new Assignments(..) of it, else " : "");
    if (are_identifiers(items))
        return write_identifiers(writer, items);
    return write_list(writer, TYPE_IMPLICIT_LIST, TYPE_IMPLICIT_ROWS, items);
}

/* Appends a list or rows for any place. */
static bool write_in(const writer *writer, const zend_object *object, HashTable *items)
{
    if (!zend_array_is_list(items))
        return refuse_unmade(object);
    return write_list(writer, TYPE_LIST, TYPE_ROWS, items);
}

/* Appends the name of what is in something else, or a name of its own. */
static bool write_identifier(const writer *writer, zend_object *object)
{
    HashTable *names = names_of(object);
    if (names == NULL)
        return false;
    if (zend_hash_num_elements(names) > 1) {
        append_head(writer->form, TYPE_QUALIFIED);
        append_column(writer->form, names);
    } else {
        append_head(writer->form, TYPE_IDENTIFIER);
        append_names(writer->form, names);
    }
    return true;
}

/* Throws for what no column is set to. */
static bool refuse_assigned(const writer *writer, HashTable *names, const zval *value)
{
    smart_str column = {0};
    zval *name;
    ZEND_HASH_FOREACH_VAL(names, name) {
        smart_str_append_printf(&column, column.s == NULL ? "`" : ".`");
        append_shown(&column, bytes_of(Z_STR_P(name)));
        smart_str_append_printf(&column, "`");
    } ZEND_HASH_FOREACH_END();
    smart_str_0(&column);
    refuse_value(writer, zend_ce_type_error, "sets %s to a value of type %s: a column takes one value",
                 ZSTR_VAL(column.s), Z_TYPE_P(value) == IS_OBJECT ? ZSTR_VAL(Z_OBJCE_P(value)->name) : "array");
    smart_str_free(&column);
    return false;
}

/* Whether it is an array, or an object that stands for more than one value or for none. */
static bool is_no_item(const zval *value)
{
    if (Z_TYPE_P(value) != IS_OBJECT)
        return Z_TYPE_P(value) == IS_ARRAY;
    const zend_class_entry *kind = Z_OBJCE_P(value);
    return kind == in_ce || kind == identifier_ce || kind == assignments_ce || kind == keyword_ce;
}

/* Appends a column and what it is set to, a pair of both. */
static bool write_assignment(const writer *writer, HashTable *pair)
{
    zval *column = zend_hash_index_find(pair, 0), *value = zend_hash_index_find(pair, 1);
    HashTable *names = names_of(Z_OBJ_P(column));
    if (names == NULL)
        return false;
    if (is_no_item(value))
        return refuse_assigned(writer, names, value);
    append_column(writer->form, names);
    return write_value(writer, value);
}

/* Whether it is a pair as the constructor of Assignments makes it. */
static bool is_pair(const zval *pair)
{
    if (Z_TYPE_P(pair) != IS_ARRAY)
        return false;
    const zval *column = zend_hash_index_find(Z_ARRVAL_P(pair), 0), *value = zend_hash_index_find(Z_ARRVAL_P(pair), 1);
    return column != NULL && Z_TYPE_P(column) == IS_OBJECT && Z_OBJCE_P(column) == identifier_ce && value != NULL &&
           Z_TYPE_P(value) != IS_REFERENCE;
}

/* Appends assignments. */
static bool write_assignments(const writer *writer, const zend_object *object, HashTable *pairs)
{
    struct writer inner = *writer;
    zval *pair;
    inner.level = LEVEL_ITEMS;
    append_head(writer->form, TYPE_ASSIGNMENTS);
    append_count(writer->form, zend_hash_num_elements(pairs));
    ZEND_HASH_FOREACH_VAL(pairs, pair) {
        if (!is_pair(pair))
            return refuse_unmade(object);
        if (!write_assignment(&inner, Z_ARRVAL_P(pair)))
            return false;
    } ZEND_HASH_FOREACH_END();
    return true;
}

/* Appends a whole number of up to 64 bits that digits say. Returns whether they say one, without an exception. */
static bool write_whole(form *form, const zend_string *digits)
{
    const char *at = ZSTR_VAL(digits), *end = at + ZSTR_LEN(digits);
    bool is_negative = at < end && *at == '-';
    uint64_t most = is_negative ? (uint64_t)1 << 63 : UINT64_MAX, number = 0;
    at += is_negative;
    if (at == end || (*at == '0' && end - at > 1))
        return false;
    for (; at < end; at++) {
        uint64_t digit = (uint64_t)(*at - '0');
        if (*at < '0' || *at > '9' || number > (most - digit) / 10)
            return false;
        number = 10 * number + digit;
    }
    if (is_negative)
        number = 0 - number;
    append_eight(form, TYPE_LONGLONG, &number);
    form->bytes[form->len - 9] = is_negative ? 0 : FLAG_UNSIGNED;
    return true;
}

/* Where places take values alone: appends a Decimal that is a whole number of up to 64 bits, or throws. */
static bool write_alone(const writer *writer, const zend_object *object, const zval *made)
{
    if (object->ce == decimal_ce && write_whole(writer->form, Z_STR_P(made)))
        return true;
    const char *to_do = ": give its digits as a text, within CAST(.. AS DECIMAL(20,2))";
    return refuse_value(writer, zend_ce_type_error, "is of type %s, and this call takes values alone%s",
                        ZSTR_VAL(object->ce->name), object->ce == decimal_ce ? to_do : "");
}

/* Appends a Decimal, an In, an Identifier, Assignments or a Keyword, of which only the first stands in a list of values. */
static bool write_fragment(const writer *writer, zend_object *object)
{
    zval *made = made_of(object);
    if (made == NULL)
        return false;
    if (writer->level == LEVEL_VALUES)
        return write_alone(writer, object, made);
    if (writer->level == LEVEL_ITEMS && object->ce != decimal_ce)
        return refuse_value(writer, zend_ce_type_error,
                            "has an item that is of type %s: lists and rows are of values, or a list of Identifiers "
                            "alone, so write a place for each",
                            ZSTR_VAL(object->ce->name));
    writer->form->is_fragments = true;
    if (object->ce == in_ce)
        return write_in(writer, object, Z_ARRVAL_P(made));
    if (object->ce == identifier_ce)
        return write_identifier(writer, object);
    if (object->ce == assignments_ce)
        return write_assignments(writer, object, Z_ARRVAL_P(made));
    append_string(writer->form, object->ce == decimal_ce ? TYPE_NUMBER : TYPE_KEYWORD, Z_STR_P(made));
    return true;
}

/* Appends the value of a case of a backed enum. */
static bool write_case(const writer *writer, zend_object *object)
{
    if (object->ce->enum_backing_type == IS_UNDEF)
        return refuse_value(writer, zend_ce_type_error,
                            "is a case of the enum %s, which has no value: give one a value",
                            ZSTR_VAL(object->ce->name));
    return write_value(writer, zend_enum_fetch_case_value(object));
}

static bool write_object(const writer *writer, zend_object *object)
{
    zend_class_entry *kind = object->ce;
    if (kind == decimal_ce || kind == in_ce || kind == identifier_ce || kind == assignments_ce || kind == keyword_ce)
        return write_fragment(writer, object);
    if (kind->ce_flags & ZEND_ACC_ENUM)
        return write_case(writer, object);
    if (instanceof_function(kind, php_date_get_interface_ce()))
        return write_date(writer, object);
    if (instanceof_function(kind, php_date_get_interval_ce()))
        return write_interval(writer, object);
    return refuse_value(writer, zend_ce_type_error, "is of type %s, which has no literal%s", ZSTR_VAL(kind->name),
                        instanceof_function(kind, zend_ce_stringable) ? ": give (string) of it" : "");
}

static void write_double(form *form, double number)
{
    if (isfinite(number))
        form->is_fragments = true;
    append_eight(form, TYPE_DOUBLE, &number);
}

static void write_bool(form *form, bool truth)
{
    int64_t number = truth;
    append_eight(form, TYPE_LONGLONG, &number);
}

bool write_value(const writer *writer, zval *value)
{
    form *form = writer->form;
    form->values++;
    ZVAL_DEREF(value);
    switch (Z_TYPE_P(value)) {
    case IS_LONG:
        append_eight(form, TYPE_LONGLONG, &Z_LVAL_P(value));
        return true;
    case IS_STRING:
        append_string(form, TYPE_VAR_STRING, Z_STR_P(value));
        return true;
    case IS_NULL:
        append_head(form, TYPE_NULL);
        return true;
    case IS_TRUE:
    case IS_FALSE:
        write_bool(form, Z_TYPE_P(value) == IS_TRUE);
        return true;
    case IS_DOUBLE:
        write_double(form, Z_DVAL_P(value));
        return true;
    case IS_ARRAY:
        return write_array(writer, Z_ARRVAL_P(value));
    case IS_OBJECT:
        return write_object(writer, Z_OBJ_P(value));
    default:
        return refuse_value(writer, zend_ce_type_error, "is a %s, which has no literal", zend_zval_type_name(value));
    }
}

/* Appends parameters in order. */
static bool write_in_order(writer *writer, HashTable *params)
{
    zval *value;
    writer->name = NULL;
    writer->number = 0;
    ZEND_HASH_FOREACH_VAL(params, value) {
        *form_more(writer->form, 1) = 0;
        if (!write_value(writer, value))
            return false;
        writer->number++;
    } ZEND_HASH_FOREACH_END();
    return true;
}

/* Throws for parameters that are neither in order nor all by name. */
static bool refuse_keys(const writer *writer)
{
    const char *wanted =
        "parameters are a list or have names, and these have other keys: give array_values(..) of them";
    if (writer->row < 0)
        zend_type_error("%s", wanted);
    else
        zend_type_error("row " ZEND_LONG_FMT ": %s", writer->row, wanted);
    return false;
}

/* Throws for the parameter of a number, whose name is empty. */
static bool refuse_name(zend_long number)
{
    zend_value_error("Parameter " ZEND_LONG_FMT " has an empty name", number);
    return false;
}

/* Appends parameters by name. A name may have its colon, as PDO's may. */
static bool write_named(writer *writer, HashTable *params)
{
    zend_string *name;
    zval *value;
    zend_long number = 0;
    ZEND_HASH_FOREACH_STR_KEY_VAL(params, name, value) {
        if (name == NULL)
            return refuse_keys(writer);
        bool has_colon = ZSTR_LEN(name) > 0 && ZSTR_VAL(name)[0] == ':';
        if (ZSTR_LEN(name) == has_colon)
            return refuse_name(number);
        form_string(writer->form, ZSTR_VAL(name) + has_colon, ZSTR_LEN(name) - has_colon);
        writer->name = name;
        if (!write_value(writer, value))
            return false;
        number++;
    } ZEND_HASH_FOREACH_END();
    return true;
}

bool write_params(writer *writer, HashTable *params)
{
    if (zend_array_is_list(params))
        return write_in_order(writer, params);
    return write_named(writer, params);
}
