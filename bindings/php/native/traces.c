/* traces.c: a driver's exception for a text that was sent, without the text in its trace. */
#include "php_mysql_params.h"

#include "Zend/zend_exceptions.h"

/* The class that declares what an exception has; null if the object is none, as PHP's own sign of `exit`. */
static zend_class_entry *base_of(const zend_object *object)
{
    if (instanceof_function(object->ce, zend_ce_exception))
        return zend_ce_exception;
    return instanceof_function(object->ce, zend_ce_error) ? zend_ce_error : NULL;
}

/* A property of an exception, without a reference around it. */
static zval *property_of(zend_object *exception, const char *name, zval *held)
{
    zval *value = zend_read_property(base_of(exception), exception, name, strlen(name), 1, held);
    ZVAL_DEREF(value);
    return value;
}

/* Whether a frame of a trace is a call that sends. */
static bool sends(const zval *frame)
{
    const zval *name = Z_TYPE_P(frame) == IS_ARRAY ? zend_hash_str_find(Z_ARRVAL_P(frame), "function", 8) : NULL;
    return name != NULL && Z_TYPE_P(name) == IS_STRING &&
           (zend_string_equals_literal(Z_STR_P(name), "MysqlParams\\query") ||
            zend_string_equals_literal(Z_STR_P(name), "MysqlParams\\execute"));
}

/* How many frames of a trace stand before the last call that sends: each may have the text. */
static size_t count_inner(HashTable *trace)
{
    size_t number = 0, inner = 0;
    zval *frame;
    ZEND_HASH_FOREACH_VAL(trace, frame) {
        if (sends(frame))
            inner = number;
        number++;
    } ZEND_HASH_FOREACH_END();
    return inner;
}

/* Takes the arguments out of the inner frames of a trace. The trace is made anew, since an argument may run code of a user as it
 * goes. */
static void hide_arguments(zend_object *exception)
{
    zval held, hidden, *frame, *trace = property_of(exception, "trace", &held);
    size_t inner = Z_TYPE_P(trace) == IS_ARRAY ? count_inner(Z_ARRVAL_P(trace)) : 0;
    if (inner == 0)
        return;
    array_init_size(&hidden, zend_hash_num_elements(Z_ARRVAL_P(trace)));
    ZEND_HASH_FOREACH_VAL(Z_ARRVAL_P(trace), frame) {
        zval kept;
        if (inner > 0 && Z_TYPE_P(frame) == IS_ARRAY) {
            ZVAL_ARR(&kept, zend_array_dup(Z_ARRVAL_P(frame)));
            zend_hash_str_del(Z_ARRVAL(kept), "args", 4);
        } else {
            ZVAL_COPY(&kept, frame);
        }
        inner -= inner > 0;
        zend_hash_next_index_insert_new(Z_ARRVAL(hidden), &kept);
    } ZEND_HASH_FOREACH_END();
    zend_update_property(base_of(exception), exception, "trace", 5, &hidden);
    zval_ptr_dtor(&hidden);
}

/* Adds an exception and those before it to `all`, each once: by reflection they may be a ring. */
static void add_previous(HashTable *all, zval *exception)
{
    zval held;
    while (Z_TYPE_P(exception) == IS_OBJECT && base_of(Z_OBJ_P(exception)) != NULL) {
        zval kept;
        ZVAL_COPY(&kept, exception);
        if (zend_hash_index_add(all, Z_OBJ(kept)->handle, &kept) == NULL) {
            zval_ptr_dtor(&kept);
            return;
        }
        exception = property_of(Z_OBJ(kept), "previous", &held);
    }
}

void hide_sent_text(void)
{
    HashTable all;
    zval thrown, *exception;
    ZVAL_OBJ(&thrown, EG(exception));
    zend_hash_init(&all, 0, NULL, ZVAL_PTR_DTOR, 0);
    add_previous(&all, &thrown);
    ZEND_HASH_FOREACH_VAL(&all, exception) {
        hide_arguments(Z_OBJ_P(exception));
    } ZEND_HASH_FOREACH_END();
    zend_hash_destroy(&all);
}
