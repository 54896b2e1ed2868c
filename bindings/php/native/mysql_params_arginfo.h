/* mysql_params_arginfo.h: what functions and methods take and return, as mysql_params.stub.php says it; classes.c and
 * mysql_params.c include it. */
#ifndef MYSQL_PARAMS_ARGINFO_H
#define MYSQL_PARAMS_ARGINFO_H

ZEND_BEGIN_ARG_INFO_EX(arginfo_none, 0, 0, 0)
ZEND_END_ARG_INFO()

ZEND_BEGIN_ARG_WITH_RETURN_TYPE_INFO_EX(arginfo_template_bind, 0, 0, IS_STRING, 0)
    ZEND_ARG_TYPE_INFO_WITH_DEFAULT_VALUE(0, params, IS_ARRAY, 0, "[]")
ZEND_END_ARG_INFO()

ZEND_BEGIN_ARG_WITH_RETURN_TYPE_INFO_EX(arginfo_template_bind_form, 0, 1, IS_STRING, 0)
    ZEND_ARG_TYPE_INFO(0, form, IS_STRING, 0)
ZEND_END_ARG_INFO()

ZEND_BEGIN_ARG_WITH_RETURN_TYPE_INFO_EX(arginfo_template_bind_rows, 0, 1, IS_ARRAY, 0)
    ZEND_ARG_OBJ_TYPE_MASK(0, rows, Traversable, MAY_BE_ARRAY, NULL)
ZEND_END_ARG_INFO()

ZEND_BEGIN_ARG_INFO_EX(arginfo_template_construct, 0, 0, 1)
    ZEND_ARG_TYPE_INFO(0, query, IS_STRING, 0)
    ZEND_ARG_TYPE_INFO_WITH_DEFAULT_VALUE(0, noBackslashEscape, _IS_BOOL, 0, "false")
ZEND_END_ARG_INFO()

ZEND_BEGIN_ARG_INFO_EX(arginfo_decimal_construct, 0, 0, 1)
    ZEND_ARG_TYPE_MASK(0, digits, MAY_BE_STRING | MAY_BE_LONG, NULL)
ZEND_END_ARG_INFO()

ZEND_BEGIN_ARG_WITH_RETURN_TYPE_INFO_EX(arginfo_text, 0, 0, IS_STRING, 0)
ZEND_END_ARG_INFO()

ZEND_BEGIN_ARG_WITH_RETURN_TYPE_INFO_EX(arginfo_exception_texts, 0, 0, IS_ARRAY, 1)
ZEND_END_ARG_INFO()

ZEND_BEGIN_ARG_INFO_EX(arginfo_in_construct, 0, 0, 1)
    ZEND_ARG_TYPE_INFO(0, items, IS_ARRAY, 0)
ZEND_END_ARG_INFO()

ZEND_BEGIN_ARG_INFO_EX(arginfo_identifier_construct, 0, 0, 0)
    ZEND_ARG_VARIADIC_TYPE_INFO(0, parts, IS_STRING, 0)
ZEND_END_ARG_INFO()

ZEND_BEGIN_ARG_INFO_EX(arginfo_assignments_construct, 0, 0, 1)
    ZEND_ARG_TYPE_INFO(0, assigned, IS_ARRAY, 0)
ZEND_END_ARG_INFO()

ZEND_BEGIN_ARG_INFO_EX(arginfo_keyword_construct, 0, 0, 2)
    ZEND_ARG_TYPE_INFO(0, word, IS_STRING, 0)
    ZEND_ARG_TYPE_INFO(0, among, IS_ARRAY, 0)
ZEND_END_ARG_INFO()

PHP_METHOD(MysqlParams_Template, __construct);
PHP_METHOD(MysqlParams_Template, bind);
PHP_METHOD(MysqlParams_Template, bindForm);
PHP_METHOD(MysqlParams_Template, bindRows);
PHP_METHOD(MysqlParams_Decimal, __construct);
PHP_METHOD(MysqlParams_Decimal, __toString);
PHP_METHOD(MysqlParams_In, __construct);
PHP_METHOD(MysqlParams_Identifier, __construct);
PHP_METHOD(MysqlParams_Assignments, __construct);
PHP_METHOD(MysqlParams_Keyword, __construct);
PHP_METHOD(MysqlParams_Construct, message);
PHP_METHOD(MysqlParams_BindException, texts);
PHP_METHOD(MysqlParams_Unportable, __construct);
PHP_METHOD(MysqlParams_Names, __construct);

static const zend_function_entry template_methods[] = {
    PHP_ME(MysqlParams_Template, __construct, arginfo_template_construct, ZEND_ACC_PUBLIC)
    PHP_ME(MysqlParams_Template, bind, arginfo_template_bind, ZEND_ACC_PUBLIC)
    PHP_ME(MysqlParams_Template, bindForm, arginfo_template_bind_form, ZEND_ACC_PUBLIC)
    PHP_ME(MysqlParams_Template, bindRows, arginfo_template_bind_rows, ZEND_ACC_PUBLIC)
    PHP_FE_END
};

static const zend_function_entry decimal_methods[] = {
    PHP_ME(MysqlParams_Decimal, __construct, arginfo_decimal_construct, ZEND_ACC_PUBLIC)
    PHP_ME(MysqlParams_Decimal, __toString, arginfo_text, ZEND_ACC_PUBLIC)
    PHP_FE_END
};

static const zend_function_entry in_methods[] = {
    PHP_ME(MysqlParams_In, __construct, arginfo_in_construct, ZEND_ACC_PUBLIC)
    PHP_FE_END
};

static const zend_function_entry identifier_methods[] = {
    PHP_ME(MysqlParams_Identifier, __construct, arginfo_identifier_construct, ZEND_ACC_PUBLIC)
    PHP_FE_END
};

static const zend_function_entry assignments_methods[] = {
    PHP_ME(MysqlParams_Assignments, __construct, arginfo_assignments_construct, ZEND_ACC_PUBLIC)
    PHP_FE_END
};

static const zend_function_entry keyword_methods[] = {
    PHP_ME(MysqlParams_Keyword, __construct, arginfo_keyword_construct, ZEND_ACC_PUBLIC)
    PHP_FE_END
};

static const zend_function_entry construct_methods[] = {
    PHP_ME(MysqlParams_Construct, message, arginfo_text, ZEND_ACC_PUBLIC)
    PHP_FE_END
};

static const zend_function_entry exception_methods[] = {
    PHP_ME(MysqlParams_BindException, texts, arginfo_exception_texts, ZEND_ACC_PUBLIC)
    PHP_FE_END
};

static const zend_function_entry unportable_methods[] = {
    PHP_ME(MysqlParams_Unportable, __construct, arginfo_none, ZEND_ACC_PRIVATE)
    PHP_FE_END
};

static const zend_function_entry names_methods[] = {
    PHP_ME(MysqlParams_Names, __construct, arginfo_none, ZEND_ACC_PRIVATE)
    PHP_FE_END
};

#endif
