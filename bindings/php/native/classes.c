/* classes.c: the classes, and what they are made of. */
#include "php_mysql_params.h"

#include "Zend/zend_enum.h"
#include "Zend/zend_exceptions.h"
#include "Zend/zend_interfaces.h"
#include "Zend/zend_smart_str.h"
#include "Zend/zend_weakrefs.h"
#include "ext/spl/spl_exceptions.h"

zend_class_entry *template_ce, *decimal_ce, *in_ce, *identifier_ce, *assignments_ce, *keyword_ce, *names_ce;

static zend_object_handlers template_handlers;

/* A query whose places were found once. */
typedef struct template {
    mysql_params_template *made; /* owned; null before the constructor */
    bool mode;
    zend_object std;
} template;

static template *template_of(zend_object *object)
{
    return (template *)((char *)object - XtOffsetOf(template, std));
}

static zend_object *template_create(zend_class_entry *kind)
{
    template *made = zend_object_alloc(sizeof *made, kind);
    made->made = NULL;
    made->mode = false;
    zend_object_std_init(&made->std, kind);
    object_properties_init(&made->std, kind);
    made->std.handlers = &template_handlers;
    return &made->std;
}

static void template_free(zend_object *object)
{
    mysql_params_template_free(template_of(object)->made);
    zend_object_std_dtor(object);
}

/* Sets a readonly property that the constructor sets. An exception is thrown if it is set already. */
static void set_readonly(zend_object *object, const char *name, zval *value)
{
    zend_update_property(object->ce, object, name, strlen(name), value);
}

PHP_METHOD(MysqlParams_Template, __construct)
{
    zend_string *query;
    zval *mode = NULL, kept;
    template *self = template_of(Z_OBJ_P(ZEND_THIS));
    ZEND_PARSE_PARAMETERS_START(1, 2)
        Z_PARAM_STR(query)
        Z_PARAM_OPTIONAL
        Z_PARAM_ZVAL(mode)
    ZEND_PARSE_PARAMETERS_END();
    bool is_without;
    if (!take_mode(mode, 2, &is_without))
        RETURN_THROWS();
    ZVAL_STR(&kept, query);
    set_readonly(&self->std, "query", &kept);
    ZVAL_BOOL(&kept, is_without);
    if (EG(exception) == NULL)
        set_readonly(&self->std, "noBackslashEscape", &kept);
    if (EG(exception) != NULL)
        RETURN_THROWS();
    self->mode = is_without;
    self->made = mysql_params_template_new_wide(bytes_of(query).at, ZSTR_LEN(query), is_without);
    if (self->made == NULL)
        refuse_memory();
}

/* A question to a template that was constructed; false with an exception thrown. */
static bool question_of(zend_object *object, question *asked)
{
    const template *self = template_of(object);
    *asked = (question){.call = CALL_BIND, .made = self->made, .mode = self->mode};
    if (self->made == NULL) {
        zend_throw_error(NULL, "%s was not constructed", ZSTR_VAL(object->ce->name));
        return false;
    }
    asked->query.at = mysql_params_template_query(self->made, &asked->query.len);
    return true;
}

PHP_METHOD(MysqlParams_Template, bind)
{
    HashTable *params = NULL;
    question question;
    ZEND_PARSE_PARAMETERS_START(0, 1)
        Z_PARAM_OPTIONAL
        Z_PARAM_ARRAY_HT(params)
    ZEND_PARSE_PARAMETERS_END();
    zend_string *text = question_of(Z_OBJ_P(ZEND_THIS), &question) ? bound(&question, params, LEVEL_PLACES) : NULL;
    if (text == NULL)
        RETURN_THROWS();
    RETURN_STR(text);
}

PHP_METHOD(MysqlParams_Template, bindForm)
{
    zend_string *form;
    question question;
    ZEND_PARSE_PARAMETERS_START(1, 1)
        Z_PARAM_STR(form)
    ZEND_PARSE_PARAMETERS_END();
    if (!question_of(Z_OBJ_P(ZEND_THIS), &question))
        RETURN_THROWS();
    question.form = bytes_of(form);
    zend_string *text = answer(&question);
    if (text == NULL)
        RETURN_THROWS();
    RETURN_STR(text);
}

PHP_METHOD(MysqlParams_Template, bindRows)
{
    zval *rows;
    question question;
    ZEND_PARSE_PARAMETERS_START(1, 1)
        Z_PARAM_ITERABLE(rows)
    ZEND_PARSE_PARAMETERS_END();
    if (!question_of(Z_OBJ_P(ZEND_THIS), &question) ||
        !bind_all_rows(question.query, question.mode, rows, return_value))
        RETURN_THROWS();
}

PHP_METHOD(MysqlParams_Decimal, __construct)
{
    zend_string *digits;
    zend_long number = 0;
    zval kept;
    ZEND_PARSE_PARAMETERS_START(1, 1)
        Z_PARAM_STR_OR_LONG(digits, number)
    ZEND_PARSE_PARAMETERS_END();
    ZVAL_STR(&kept, digits == NULL ? zend_long_to_str(number) : zend_string_copy(digits));
    set_readonly(Z_OBJ_P(ZEND_THIS), "digits", &kept);
    zval_ptr_dtor(&kept);
}

PHP_METHOD(MysqlParams_Decimal, __toString)
{
    ZEND_PARSE_PARAMETERS_NONE();
    zval *digits = FIRST_PROPERTY(Z_OBJ_P(ZEND_THIS));
    if (Z_TYPE_P(digits) != IS_STRING)
        RETURN_EMPTY_STRING();
    RETURN_COPY(digits);
}

PHP_METHOD(MysqlParams_In, __construct)
{
    zval *items;
    ZEND_PARSE_PARAMETERS_START(1, 1)
        Z_PARAM_ARRAY(items)
    ZEND_PARSE_PARAMETERS_END();
    if (!zend_array_is_list(Z_ARRVAL_P(items))) {
        zend_argument_type_error(1, "must be a list: give array_values(..) of it");
        RETURN_THROWS();
    }
    set_readonly(Z_OBJ_P(ZEND_THIS), "items", items);
}

PHP_METHOD(MysqlParams_Identifier, __construct)
{
    zval *parts = NULL, kept;
    uint32_t count = 0;
    ZEND_PARSE_PARAMETERS_START(1, -1)
        Z_PARAM_VARIADIC('+', parts, count)
    ZEND_PARSE_PARAMETERS_END();
    for (uint32_t i = 0; i < count; i++) {
        if (Z_TYPE(parts[i]) != IS_STRING) {
            zend_argument_type_error(i + 1, "must be of type string, %s given", zend_zval_type_name(&parts[i]));
            RETURN_THROWS();
        }
    }
    array_init_size(&kept, count);
    for (uint32_t i = 0; i < count; i++) {
        Z_TRY_ADDREF(parts[i]);
        zend_hash_next_index_insert(Z_ARRVAL(kept), &parts[i]);
    }
    set_readonly(Z_OBJ_P(ZEND_THIS), "parts", &kept);
    zval_ptr_dtor(&kept);
}

/* Makes an Identifier of one name. */
static void make_identifier(zval *made, zend_string *name)
{
    zval parts;
    object_init_ex(made, identifier_ce);
    array_init_size(&parts, 1);
    add_next_index_str(&parts, zend_string_copy(name));
    set_readonly(Z_OBJ_P(made), "parts", &parts);
    zval_ptr_dtor(&parts);
}

/* Adds a pair of a column, of which this takes the caller's reference, and a value. */
static void add_pair(HashTable *pairs, zval *column, zval *value)
{
    zval pair;
    Z_TRY_ADDREF_P(value);
    array_init_size(&pair, 2);
    zend_hash_next_index_insert_new(Z_ARRVAL(pair), column);
    zend_hash_next_index_insert_new(Z_ARRVAL(pair), value);
    zend_hash_next_index_insert_new(pairs, &pair);
}

/* Adds the pairs of keys, which are columns, and their values. Returns whether they are, without an exception. */
static bool add_named(HashTable *pairs, HashTable *assigned)
{
    zend_string *name;
    zval *value, column;
    ZEND_HASH_FOREACH_STR_KEY_VAL(assigned, name, value) {
        if (name == NULL)
            return false;
        ZVAL_DEREF(value);
        make_identifier(&column, name);
        add_pair(pairs, &column, value);
    } ZEND_HASH_FOREACH_END();
    return true;
}

/* Adds pairs of a column, which is a name or an Identifier, and a value. Returns whether they are, without an exception. */
static bool add_pairs(HashTable *pairs, HashTable *assigned)
{
    zval *pair, made;
    ZEND_HASH_FOREACH_VAL(assigned, pair) {
        ZVAL_DEREF(pair);
        if (Z_TYPE_P(pair) != IS_ARRAY || zend_hash_num_elements(Z_ARRVAL_P(pair)) != 2 ||
            !zend_array_is_list(Z_ARRVAL_P(pair)))
            return false;
        zval *column = zend_hash_index_find(Z_ARRVAL_P(pair), 0), *value = zend_hash_index_find(Z_ARRVAL_P(pair), 1);
        ZVAL_DEREF(column);
        ZVAL_DEREF(value);
        if (Z_TYPE_P(column) == IS_STRING)
            make_identifier(&made, Z_STR_P(column));
        else if (Z_TYPE_P(column) == IS_OBJECT && Z_OBJCE_P(column) == identifier_ce)
            ZVAL_COPY(&made, column);
        else
            return false;
        add_pair(pairs, &made, value);
    } ZEND_HASH_FOREACH_END();
    return true;
}

PHP_METHOD(MysqlParams_Assignments, __construct)
{
    HashTable *assigned;
    zval kept;
    ZEND_PARSE_PARAMETERS_START(1, 1)
        Z_PARAM_ARRAY_HT(assigned)
    ZEND_PARSE_PARAMETERS_END();
    array_init_size(&kept, zend_hash_num_elements(assigned));
    bool is_list = zend_array_is_list(assigned);
    if (is_list ? add_pairs(Z_ARRVAL(kept), assigned) : add_named(Z_ARRVAL(kept), assigned))
        set_readonly(Z_OBJ_P(ZEND_THIS), "pairs", &kept);
    else
        zend_argument_type_error(1, "must be an array whose keys are columns, or a list of pairs of a column, which is "
                                    "a string or an Identifier, and a value");
    zval_ptr_dtor(&kept);
}

/* Throws for a word that is none of the keywords of the program. */
static void refuse_word(const zend_string *word, HashTable *among)
{
    smart_str choice = {0};
    zval *one;
    ZEND_HASH_FOREACH_VAL(among, one) {
        ZVAL_DEREF(one);
        if (Z_TYPE_P(one) == IS_STRING)
            smart_str_append_printf(&choice, "%s%s", choice.s == NULL ? "" : ", ", Z_STRVAL_P(one));
    } ZEND_HASH_FOREACH_END();
    smart_str_0(&choice);
    zend_argument_value_error(1, "must be one of the keywords %s, and it has %zu bytes of another text",
                              choice.s == NULL ? "of none" : ZSTR_VAL(choice.s), ZSTR_LEN(word));
    smart_str_free(&choice);
}

PHP_METHOD(MysqlParams_Keyword, __construct)
{
    zend_string *word;
    HashTable *among;
    zval *one, kept;
    ZEND_PARSE_PARAMETERS_START(2, 2)
        Z_PARAM_STR(word)
        Z_PARAM_ARRAY_HT(among)
    ZEND_PARSE_PARAMETERS_END();
    ZEND_HASH_FOREACH_VAL(among, one) {
        ZVAL_DEREF(one);
        if (Z_TYPE_P(one) == IS_STRING && zend_string_equals(Z_STR_P(one), word)) {
            ZVAL_STR(&kept, word);
            set_readonly(Z_OBJ_P(ZEND_THIS), "word", &kept);
            return;
        }
    } ZEND_HASH_FOREACH_END();
    refuse_word(word, among);
}

PHP_METHOD(MysqlParams_Construct, message)
{
    ZEND_PARSE_PARAMETERS_NONE();
    zval *number = zend_enum_fetch_case_value(Z_OBJ_P(ZEND_THIS));
    RETURN_STRING(mysql_params_construct_message((int32_t)Z_LVAL_P(number)));
}

PHP_METHOD(MysqlParams_BindException, texts)
{
    ZEND_PARSE_PARAMETERS_NONE();
    zval *texts = zend_hash_index_find(&MYSQL_PARAMS_G(texts), zend_object_to_weakref_key(Z_OBJ_P(ZEND_THIS)));
    if (texts != NULL)
        RETURN_COPY(texts);
}

#include "mysql_params_arginfo.h"

/* What only the functions of this extension make. */
PHP_METHOD(MysqlParams_Unportable, __construct)
{
}

PHP_METHOD(MysqlParams_Names, __construct)
{
}

static zend_class_entry *register_class(const char *name, const zend_function_entry *methods)
{
    zend_class_entry kind, *registered;
    INIT_CLASS_ENTRY_EX(kind, name, strlen(name), methods);
    registered = zend_register_internal_class_ex(&kind, NULL);
    registered->ce_flags |= ZEND_ACC_FINAL | ZEND_ACC_NO_DYNAMIC_PROPERTIES | ZEND_ACC_NOT_SERIALIZABLE;
    return registered;
}

/* Declares a readonly property of a type. */
static void declare(zend_class_entry *kind, const char *name, zend_type type)
{
    zval none;
    zend_string *property = zend_string_init_interned(name, strlen(name), 1);
    ZVAL_UNDEF(&none);
    zend_declare_typed_property(kind, property, &none, ZEND_ACC_PUBLIC | ZEND_ACC_READONLY, NULL, type);
    zend_string_release(property);
}

static void declare_mask(zend_class_entry *kind, const char *name, uint32_t mask)
{
    declare(kind, name, (zend_type)ZEND_TYPE_INIT_MASK(mask));
}

/* The type of an object of a class, or null if that may be. */
static zend_type type_of(const zend_class_entry *kind, bool may_be_null)
{
    zend_string *name = zend_string_copy(kind->name);
    return (zend_type)ZEND_TYPE_INIT_CLASS(name, may_be_null, 0);
}

void register_classes(void)
{
    template_ce = register_class("MysqlParams\\Template", template_methods);
    template_ce->create_object = template_create;
    memcpy(&template_handlers, zend_get_std_object_handlers(), sizeof template_handlers);
    template_handlers.offset = XtOffsetOf(template, std);
    template_handlers.free_obj = template_free;
    template_handlers.clone_obj = NULL;
    declare_mask(template_ce, "query", MAY_BE_STRING);
    declare_mask(template_ce, "noBackslashEscape", MAY_BE_BOOL);
    decimal_ce = register_class("MysqlParams\\Decimal", decimal_methods);
    zend_class_implements(decimal_ce, 1, zend_ce_stringable);
    declare_mask(decimal_ce, "digits", MAY_BE_STRING);
    in_ce = register_class("MysqlParams\\In", in_methods);
    declare_mask(in_ce, "items", MAY_BE_ARRAY);
    identifier_ce = register_class("MysqlParams\\Identifier", identifier_methods);
    declare_mask(identifier_ce, "parts", MAY_BE_ARRAY);
    assignments_ce = register_class("MysqlParams\\Assignments", assignments_methods);
    declare_mask(assignments_ce, "pairs", MAY_BE_ARRAY);
    keyword_ce = register_class("MysqlParams\\Keyword", keyword_methods);
    declare_mask(keyword_ce, "word", MAY_BE_STRING);
    names_ce = register_class("MysqlParams\\Names", names_methods);
    declare_mask(names_ce, "query", MAY_BE_STRING);
    declare_mask(names_ce, "names", MAY_BE_ARRAY);
}

/* A case of an enum and its number. */
typedef struct enum_case {
    const char *name;
    zend_long number;
} enum_case;

static const enum_case constructs[] = {
    {"ExecutableComment", MYSQL_PARAMS_EXECUTABLE_COMMENT},
    {"Hint", MYSQL_PARAMS_HINT},
    {"MariadbComment", MYSQL_PARAMS_MARIADB_COMMENT},
    {"Dashes", MYSQL_PARAMS_DASHES},
    {"EscapedQuote", MYSQL_PARAMS_ESCAPED_QUOTE},
    {"Bracket", MYSQL_PARAMS_BRACKET},
    {"DollarQuote", MYSQL_PARAMS_DOLLAR_QUOTE},
    {"DashesAfterExponent", MYSQL_PARAMS_DASHES_AFTER_EXPONENT},
    {"PlaceAfterExponent", MYSQL_PARAMS_PLACE_AFTER_EXPONENT},
    {"OpenerInComment", MYSQL_PARAMS_OPENER_IN_COMMENT},
    {"JoiningComment", MYSQL_PARAMS_JOINING_COMMENT},
    {"DashesBeforeComment", MYSQL_PARAMS_DASHES_BEFORE_COMMENT},
    {"ClientCommand", MYSQL_PARAMS_CLIENT_COMMAND},
    {"DashInFront", MYSQL_PARAMS_DASH_IN_FRONT},
    {"Delimiter", MYSQL_PARAMS_DELIMITER},
    {"ClientWord", MYSQL_PARAMS_CLIENT_WORD},
    {"EscapedNewline", MYSQL_PARAMS_ESCAPED_NEWLINE},
    {"ZeroByte", MYSQL_PARAMS_ZERO_BYTE},
    {"EscapedBackquote", MYSQL_PARAMS_ESCAPED_BACKQUOTE},
    {"ReturnInComment", MYSQL_PARAMS_RETURN_IN_COMMENT},
};

static const enum_case faults[] = {
    {"Empty", MYSQL_PARAMS_FAULT_EMPTY},
    {"EmptyRow", MYSQL_PARAMS_FAULT_EMPTY_ROW},
    {"RowLength", MYSQL_PARAMS_FAULT_ROW_LENGTH},
    {"Number", MYSQL_PARAMS_FAULT_NUMBER},
    {"EmptyName", MYSQL_PARAMS_FAULT_EMPTY_NAME},
    {"ZeroByte", MYSQL_PARAMS_FAULT_ZERO_BYTE},
    {"LongName", MYSQL_PARAMS_FAULT_LONG_NAME},
    {"TrailingSpace", MYSQL_PARAMS_FAULT_TRAILING_SPACE},
    {"Keyword", MYSQL_PARAMS_FAULT_KEYWORD},
    {"Backslash", MYSQL_PARAMS_FAULT_BACKSLASH},
};

/* The codes of refusals: those of the archive, and two of sending. */
static const enum_case codes[] = {
    {"FORM_END", MYSQL_PARAMS_FORM_END},
    {"FORM_LENGTH_LEAD", MYSQL_PARAMS_FORM_LENGTH_LEAD},
    {"FORM_TYPE", MYSQL_PARAMS_FORM_TYPE},
    {"FORM_MIXED", MYSQL_PARAMS_FORM_MIXED},
    {"FORM_REPEATED", MYSQL_PARAMS_FORM_REPEATED},
    {"MIXED", MYSQL_PARAMS_MIXED},
    {"MISSING", MYSQL_PARAMS_MISSING},
    {"NAMED_FOR_POSITIONAL", MYSQL_PARAMS_NAMED_FOR_POSITIONAL},
    {"POSITIONAL_FOR_NAMED", MYSQL_PARAMS_POSITIONAL_FOR_NAMED},
    {"MARK_COUNT", MYSQL_PARAMS_MARK_COUNT},
    {"NOT_ALONE", MYSQL_PARAMS_NOT_ALONE},
    {"FLOAT", MYSQL_PARAMS_FLOAT},
    {"UNSTEADY", MYSQL_PARAMS_UNSTEADY},
    {"UNPORTABLE", MYSQL_PARAMS_UNPORTABLE},
    {"FAULT", MYSQL_PARAMS_FAULT},
    {"BACKSLASH", MYSQL_PARAMS_BACKSLASH},
    {"UNSTEADY_FRAGMENT", MYSQL_PARAMS_UNSTEADY_FRAGMENT},
    {"UNBRACKETED", MYSQL_PARAMS_UNBRACKETED},
    {"SESSION", REFUSED_SESSION},
    {"PACKET", REFUSED_PACKET},
};

static zend_class_entry *register_enum(const char *name, const zend_function_entry *methods, const enum_case *cases,
                                       size_t count)
{
    zend_class_entry *kind = zend_register_internal_enum(name, IS_LONG, methods);
    kind->ce_flags |= ZEND_ACC_FINAL;
    for (size_t i = 0; i < count; i++) {
        zval number;
        ZVAL_LONG(&number, cases[i].number);
        zend_enum_add_case_cstr(kind, cases[i].name, &number);
    }
    return kind;
}

/* Declares a field of a refusal, which is null if a refusal doesn't tell it. */
static void declare_field(const char *name, zend_type type)
{
    zval none;
    zend_string *property = zend_string_init_interned(name, strlen(name), 1);
    ZVAL_NULL(&none);
    zend_declare_typed_property(exception_ce, property, &none, ZEND_ACC_PUBLIC, NULL, type);
    zend_string_release(property);
}

void register_refusals(void)
{
    static const char *const numbers[] = {"place", "position", "marks", "values", "byte", "row", "item"};
    static const char *const texts[] = {"name", "word"};
    zend_class_entry kind;
    construct_ce = register_enum("MysqlParams\\Construct", construct_methods, constructs,
                                 sizeof constructs / sizeof *constructs);
    fault_ce = register_enum("MysqlParams\\Fault", NULL, faults, sizeof faults / sizeof *faults);
    unportable_ce = register_class("MysqlParams\\Unportable", unportable_methods);
    declare(unportable_ce, "construct", type_of(construct_ce, false));
    declare_mask(unportable_ce, "position", MAY_BE_LONG);
    INIT_CLASS_ENTRY(kind, "MysqlParams\\BindException", exception_methods);
    exception_ce = zend_register_internal_class_ex(&kind, spl_ce_RuntimeException);
    for (size_t i = 0; i < sizeof numbers / sizeof *numbers; i++)
        declare_field(numbers[i], (zend_type)ZEND_TYPE_INIT_MASK(MAY_BE_LONG | MAY_BE_NULL));
    for (size_t i = 0; i < sizeof texts / sizeof *texts; i++)
        declare_field(texts[i], (zend_type)ZEND_TYPE_INIT_MASK(MAY_BE_STRING | MAY_BE_NULL));
    declare_field("construct", type_of(construct_ce, true));
    declare_field("fault", type_of(fault_ce, true));
    for (size_t i = 0; i < sizeof codes / sizeof *codes; i++)
        zend_declare_class_constant_long(exception_ce, codes[i].name, strlen(codes[i].name), codes[i].number);
}
