/* mysql_params.c: the extension's module. */
#include "php_mysql_params.h"

#include "Zend/zend_attributes.h"
#include "Zend/zend_weakrefs.h"
#include "ext/standard/info.h"

ZEND_DECLARE_MODULE_GLOBALS(mysql_params)

ZEND_BEGIN_ARG_WITH_RETURN_TYPE_INFO_EX(arginfo_bind_by, 0, 1, IS_STRING, 0)
    ZEND_ARG_TYPE_INFO(0, query, IS_STRING, 0)
    ZEND_ARG_TYPE_INFO_WITH_DEFAULT_VALUE(0, params, IS_ARRAY, 0, "[]")
ZEND_END_ARG_INFO()

ZEND_BEGIN_ARG_WITH_RETURN_TYPE_INFO_EX(arginfo_bind, 0, 1, IS_STRING, 0)
    ZEND_ARG_TYPE_INFO(0, query, IS_STRING, 0)
    ZEND_ARG_TYPE_INFO_WITH_DEFAULT_VALUE(0, params, IS_ARRAY, 0, "[]")
    ZEND_ARG_TYPE_INFO_WITH_DEFAULT_VALUE(0, noBackslashEscape, _IS_BOOL, 0, "false")
ZEND_END_ARG_INFO()

ZEND_BEGIN_ARG_WITH_RETURN_TYPE_INFO_EX(arginfo_bind_form, 0, 2, IS_STRING, 0)
    ZEND_ARG_TYPE_INFO(0, query, IS_STRING, 0)
    ZEND_ARG_TYPE_INFO(0, form, IS_STRING, 0)
    ZEND_ARG_TYPE_INFO_WITH_DEFAULT_VALUE(0, noBackslashEscape, _IS_BOOL, 0, "false")
ZEND_END_ARG_INFO()

ZEND_BEGIN_ARG_WITH_RETURN_TYPE_INFO_EX(arginfo_bind_form_by, 0, 2, IS_STRING, 0)
    ZEND_ARG_TYPE_INFO(0, query, IS_STRING, 0)
    ZEND_ARG_TYPE_INFO(0, form, IS_STRING, 0)
ZEND_END_ARG_INFO()

ZEND_BEGIN_ARG_WITH_RETURN_TYPE_INFO_EX(arginfo_bind_rows, 0, 2, IS_ARRAY, 0)
    ZEND_ARG_TYPE_INFO(0, query, IS_STRING, 0)
    ZEND_ARG_OBJ_TYPE_MASK(0, rows, Traversable, MAY_BE_ARRAY, NULL)
    ZEND_ARG_TYPE_INFO_WITH_DEFAULT_VALUE(0, noBackslashEscape, _IS_BOOL, 0, "false")
ZEND_END_ARG_INFO()

ZEND_BEGIN_ARG_WITH_RETURN_OBJ_INFO_EX(arginfo_names, 0, 1, MysqlParams\\Names, 0)
    ZEND_ARG_TYPE_INFO(0, query, IS_STRING, 0)
    ZEND_ARG_TYPE_INFO_WITH_DEFAULT_VALUE(0, noBackslashEscape, _IS_BOOL, 0, "false")
ZEND_END_ARG_INFO()

ZEND_BEGIN_ARG_WITH_RETURN_OBJ_INFO_EX(arginfo_unportable, 0, 1, MysqlParams\\Unportable, 1)
    ZEND_ARG_TYPE_INFO(0, query, IS_STRING, 0)
    ZEND_ARG_TYPE_INFO_WITH_DEFAULT_VALUE(0, noBackslashEscape, _IS_BOOL, 0, "false")
ZEND_END_ARG_INFO()

ZEND_BEGIN_ARG_WITH_RETURN_OBJ_TYPE_MASK_EX(arginfo_query, 0, 2, PDOStatement|mysqli_result, MAY_BE_BOOL)
    ZEND_ARG_OBJ_TYPE_MASK(0, connection, PDO|mysqli, 0, NULL)
    ZEND_ARG_TYPE_INFO(0, query, IS_STRING, 0)
    ZEND_ARG_TYPE_INFO_WITH_DEFAULT_VALUE(0, params, IS_ARRAY, 0, "[]")
    ZEND_ARG_TYPE_INFO_WITH_DEFAULT_VALUE(0, alwaysAsk, _IS_BOOL, 0, "false")
    ZEND_ARG_TYPE_INFO_WITH_DEFAULT_VALUE(0, steady, _IS_BOOL, 0, "false")
ZEND_END_ARG_INFO()

ZEND_BEGIN_ARG_WITH_RETURN_TYPE_MASK_EX(arginfo_execute, 0, 2, MAY_BE_LONG | MAY_BE_STRING | MAY_BE_FALSE)
    ZEND_ARG_OBJ_TYPE_MASK(0, connection, PDO|mysqli, 0, NULL)
    ZEND_ARG_TYPE_INFO(0, query, IS_STRING, 0)
    ZEND_ARG_TYPE_INFO_WITH_DEFAULT_VALUE(0, params, IS_ARRAY, 0, "[]")
    ZEND_ARG_TYPE_INFO_WITH_DEFAULT_VALUE(0, alwaysAsk, _IS_BOOL, 0, "false")
    ZEND_ARG_TYPE_INFO_WITH_DEFAULT_VALUE(0, steady, _IS_BOOL, 0, "false")
ZEND_END_ARG_INFO()

ZEND_BEGIN_ARG_WITH_RETURN_TYPE_INFO_EX(arginfo_ask_again, 0, 1, IS_VOID, 0)
    ZEND_ARG_OBJ_TYPE_MASK(0, connection, PDO|mysqli, 0, NULL)
ZEND_END_ARG_INFO()

#define FUNCTION(name, arginfo) ZEND_RAW_FENTRY("MysqlParams\\" #name, zif_MysqlParams_##name, arginfo, 0)

static const zend_function_entry functions[] = {
    FUNCTION(bind_anywhere, arginfo_bind_by)
    FUNCTION(bind, arginfo_bind)
    FUNCTION(bind_in_both_modes, arginfo_bind_by)
    FUNCTION(bind_rows, arginfo_bind_rows)
    FUNCTION(bind_form, arginfo_bind_form)
    FUNCTION(bind_form_anywhere, arginfo_bind_form_by)
    FUNCTION(bind_form_in_both_modes, arginfo_bind_form_by)
    FUNCTION(names, arginfo_names)
    FUNCTION(first_unportable, arginfo_unportable)
    FUNCTION(first_unportable_in_client, arginfo_unportable)
    FUNCTION(query, arginfo_query)
    FUNCTION(execute, arginfo_execute)
    FUNCTION(ask_again, arginfo_ask_again)
    PHP_FE_END
};

/* Has traces of exceptions hide what is handed in as the argument of a number, from PHP 8.2 on. */
static void hide(HashTable *functions, const char *name, uint32_t argument)
{
#if PHP_VERSION_ID >= 80200
    zend_add_parameter_attribute(zend_hash_str_find_ptr(functions, name, strlen(name)), argument,
                                 ZSTR_KNOWN(ZEND_STR_SENSITIVEPARAMETER), 0);
#endif
}

/* Hides all values. */
static void hide_values(void)
{
    static const char *const second[] = {"bind_anywhere", "bind", "bind_in_both_modes", "bind_rows", "bind_form",
                                         "bind_form_anywhere", "bind_form_in_both_modes"};
    static const char *const third[] = {"query", "execute"};
    static const char *const of_template[] = {"bind", "bindform", "bindrows"};
    char name[64];
    for (size_t i = 0; i < sizeof second / sizeof *second; i++) {
        snprintf(name, sizeof name, "mysqlparams\\%s", second[i]);
        hide(CG(function_table), name, 1);
    }
    for (size_t i = 0; i < sizeof third / sizeof *third; i++) {
        snprintf(name, sizeof name, "mysqlparams\\%s", third[i]);
        hide(CG(function_table), name, 2);
    }
    for (size_t i = 0; i < sizeof of_template / sizeof *of_template; i++)
        hide(&template_ce->function_table, of_template[i], 0);
    hide(&in_ce->function_table, "__construct", 0);
    hide(&assignments_ce->function_table, "__construct", 0);
}

/* Where PHP has threads, this runs in each before all else, and the accessor of the globals reads the thread's cache. */
static PHP_GINIT_FUNCTION(mysql_params)
{
    ZEND_TSRMLS_CACHE_UPDATE();
    memset(mysql_params_globals, 0, sizeof *mysql_params_globals);
    mysql_params_globals->room = pecalloc(1, KEPT_ROOM, 1);
}

static PHP_GSHUTDOWN_FUNCTION(mysql_params)
{
    kept_end(mysql_params_globals->kept);
    pefree(mysql_params_globals->room, 1);
}

static PHP_MINIT_FUNCTION(mysql_params)
{
    (void)type, (void)module_number;
    if (!mysql_params_processor_suffices()) {
        zend_error(E_CORE_WARNING, "mysql_params: the processor lacks a feature of x86-64-v2");
        return FAILURE;
    }
    register_classes();
    register_refusals();
    hide_values();
    return SUCCESS;
}

/* Ends a table whose keys are objects, of which some live on. */
static void end_table(HashTable *table)
{
    zend_ulong key;
    ZEND_HASH_FOREACH_NUM_KEY(table, key) {
        zend_weakrefs_hash_del(table, zend_weakref_key_to_object(key));
    } ZEND_HASH_FOREACH_END();
    zend_hash_destroy(table);
}

static PHP_RINIT_FUNCTION(mysql_params)
{
    (void)type, (void)module_number;
    ZEND_TSRMLS_CACHE_UPDATE();
    zend_hash_init(&MYSQL_PARAMS_G(told), 0, NULL, told_free, 0);
    zend_hash_init(&MYSQL_PARAMS_G(texts), 0, NULL, ZVAL_PTR_DTOR, 0);
    return SUCCESS;
}

static PHP_RSHUTDOWN_FUNCTION(mysql_params)
{
    (void)type, (void)module_number;
    end_table(&MYSQL_PARAMS_G(told));
    end_table(&MYSQL_PARAMS_G(texts));
    return SUCCESS;
}

static PHP_MINFO_FUNCTION(mysql_params)
{
    (void)zend_module;
    php_info_print_table_start();
    php_info_print_table_row(2, "mysql_params", PHP_MYSQL_PARAMS_VERSION);
    php_info_print_table_end();
}

static const zend_module_dep needed[] = {
    ZEND_MOD_REQUIRED("date")
    ZEND_MOD_REQUIRED("spl")
    ZEND_MOD_END
};

zend_module_entry mysql_params_module_entry = {
    STANDARD_MODULE_HEADER_EX,
    NULL,
    needed,
    "mysql_params",
    functions,
    PHP_MINIT(mysql_params),
    NULL,
    PHP_RINIT(mysql_params),
    PHP_RSHUTDOWN(mysql_params),
    PHP_MINFO(mysql_params),
    PHP_MYSQL_PARAMS_VERSION,
    PHP_MODULE_GLOBALS(mysql_params),
    PHP_GINIT(mysql_params),
    PHP_GSHUTDOWN(mysql_params),
    NULL,
    STANDARD_MODULE_PROPERTIES_EX,
};

#ifdef ZTS
ZEND_TSRMLS_CACHE_DEFINE()
#endif
ZEND_GET_MODULE(mysql_params)
