/* kept.c: templates of queries that bind_anywhere, query and execute, and bind in the mode with backslash escapes, are given
 * again and again. */
#include "php_mysql_params.h"

/* Queries of more bytes have none, so that what is kept stays small. */
enum { LONGEST_KEPT = 1024 };

/* A query gets a template when it is given so often in a row, among those of its slot that have none. */
enum { ENOUGH_TIMES = 3 };

void kept_end(kept_query kept[KEPT_QUERIES])
{
    for (size_t i = 0; i < KEPT_QUERIES; i++)
        mysql_params_template_free(kept[i].made);
}

/* Whether a template is that of a query. */
static bool is_of(const mysql_params_template *made, const zend_string *query)
{
    size_t len;
    const uint8_t *own = mysql_params_template_query(made, &len);
    return len == ZSTR_LEN(query) && memcmp(own, ZSTR_VAL(query), len) == 0;
}

const mysql_params_template *kept_template(zend_string *query)
{
    if (ZSTR_LEN(query) > LONGEST_KEPT)
        return NULL;
    zend_ulong hash = zend_string_hash_val(query);
    kept_query *kept = &MYSQL_PARAMS_G(kept)[hash % KEPT_QUERIES];
    if (kept->made != NULL && is_of(kept->made, query))
        return kept->made;
    kept->times = kept->hash == hash ? kept->times + 1 : 1;
    kept->hash = hash;
    if (kept->times < ENOUGH_TIMES)
        return NULL;
    kept->times = 0;
    mysql_params_template_free(kept->made);
    kept->made = mysql_params_template_new_wide((const uint8_t *)ZSTR_VAL(query), ZSTR_LEN(query), false);
    return kept->made;
}
