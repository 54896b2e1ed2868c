/* kept.c: templates of queries that are sent again and again. */
#include "native.h"

#include <stdlib.h>

/* A query gets a template when it is given so often in a row, among those of its slot that have none. */
enum { ENOUGH_TIMES = 3 };

kept_query *kept_begin(void)
{
    return calloc(KEPT_QUERIES, sizeof(kept_query));
}

void kept_end(kept_query *kept)
{
    for (size_t i = 0; kept != NULL && i < KEPT_QUERIES; i++)
        let_template_go(kept[i].held);
    free(kept);
}

held_template *new_template(PyObject *query)
{
    held_template *held = malloc(sizeof *held);
    if (held == NULL)
        return NULL;
    const uint8_t *at = (const uint8_t *)PyBytes_AsString(query);
    size_t len = (size_t)PyBytes_Size(query);
    PyThreadState *save = len > LONGEST_KEPT ? PyEval_SaveThread() : NULL;
    mysql_params_template *made = mysql_params_template_new_wide(at, len, false);
    if (save != NULL)
        PyEval_RestoreThread(save);
    *held = (held_template){made, 1};
    if (made != NULL)
        return held;
    free(held);
    return NULL;
}

void let_template_go(held_template *held)
{
    if (held == NULL || --held->holders > 0)
        return;
    mysql_params_template_free(held->made);
    free(held);
}

/* Whether a template is that of a query. */
static bool is_of(const mysql_params_template *made, PyObject *query)
{
    size_t len;
    const uint8_t *own = mysql_params_template_query(made, &len);
    return len == (size_t)PyBytes_Size(query) && memcmp(own, PyBytes_AsString(query), len) == 0;
}

/* The slot of a query; null if it gets no template. */
static kept_query *slot_of(const native_state *state, PyObject *query, Py_hash_t *hash)
{
    /* The hash of a subclass may be code of a user, which runs others. */
    if (Py_TYPE(query) != &PyBytes_Type || PyBytes_Size(query) > LONGEST_KEPT)
        return NULL;
    *hash = PyObject_Hash(query);
    return &state->kept[(size_t)*hash % KEPT_QUERIES];
}

held_template *hold_kept(const native_state *state, PyObject *query)
{
    Py_hash_t hash;
    const kept_query *kept = slot_of(state, query, &hash);
    if (kept == NULL || kept->held == NULL || !is_of(kept->held->made, query))
        return NULL;
    kept->held->holders++;
    return kept->held;
}

const mysql_params_template *kept_template(const native_state *state, PyObject *query)
{
    Py_hash_t hash;
    kept_query *kept = slot_of(state, query, &hash);
    if (kept == NULL)
        return NULL;
    if (kept->held != NULL && is_of(kept->held->made, query))
        return kept->held->made;
    kept->times = kept->hash == hash ? kept->times + 1 : 1;
    kept->hash = hash;
    if (kept->times < ENOUGH_TIMES)
        return NULL;
    kept->times = 0;
    let_template_go(kept->held);
    kept->held = new_template(query);
    return kept->held == NULL ? NULL : kept->held->made;
}
