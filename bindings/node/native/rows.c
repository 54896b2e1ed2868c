/* rows.c: one query bound to row after row. */
#include "native.h"

#include <stdlib.h>

/* Appends the texts of an answer to an array, from an element on; false with an exception pending. */
static bool append_texts(napi_env env, uint32_t flags, napi_value texts, uint32_t *count, const uint8_t *answer, size_t len)
{
    mysql_params_string string;
    while (len > 0) {
        napi_handle_scope scope;
        if (!mysql_params_next_string(&answer, &len, &string)) {
            throw_range(env, "the answer of the archive is no row of strings");
            return false;
        }
        if (napi_open_handle_scope(env, &scope) != napi_ok)
            return throw_range(env, "no memory for a text") != NULL;
        napi_value text = text_of(env, flags, string.bytes, string.len);
        bool done = text != NULL && napi_set_element(env, texts, (*count)++, text) == napi_ok;
        napi_close_handle_scope(env, scope);
        if (!done)
            return throw_range(env, "no memory for a text") != NULL;
    }
    return true;
}

/* What the row whose form stands first is refused for. */
static napi_value refusal_of_row(napi_env env, int32_t number, const mysql_params_report *report, const query *taken,
                                 const uint8_t *forms, size_t len)
{
    mysql_params_string form = {taken->at, 0};
    if (number != MYSQL_PARAMS_FORM_REPEATED)
        return refusal_of(env, number, report, taken->at, taken->len);
    mysql_params_next_string(&forms, &len, &form);
    return refusal_of(env, number, report, form.bytes, form.len);
}

/* bindRows(flags, query, buffer, from, to, texts, count): appends the texts of rows, whose forms stand one after another, to the
 * array, which has so many; true, or the refusal of the first row that has one */
napi_value native_bind_rows(napi_env env, napi_callback_info info)
{
    napi_value arguments[7], answer = NULL;
    native_state *state;
    uint32_t flags, count;
    const uint8_t *forms;
    size_t len;
    query taken;
    mysql_params_texts texts = {0};
    mysql_params_rows rows = {0};
    mysql_params_report report = {0};
    if (!take_arguments(env, info, 7, arguments, &state) || !take_number(env, arguments[0], &flags) ||
        !take_form(env, arguments[2], arguments[3], arguments[4], &forms, &len) || !take_number(env, arguments[6], &count))
        return NULL;
    enum taken how = take_query(env, state, flags, arguments[1], &taken);
    if (how != TAKEN)
        return how == DOUBTFUL && napi_get_undefined(env, &answer) == napi_ok ? answer : NULL;
    int32_t number = mysql_params_bind_all_rows_wide(taken.at, taken.len, forms, len, (flags & FLAG_MODE) != 0, &texts, &rows,
                                                     &report);
    if (texts.len <= texts.room_len && rows.read <= len &&
        append_texts(env, flags, arguments[5], &count, texts.at, texts.len)) {
        if (number != MYSQL_PARAMS_DONE)
            answer = refusal_of_row(env, number, &report, &taken, forms + rows.read, len - rows.read);
        else if (napi_get_boolean(env, true, &answer) != napi_ok)
            answer = throw_range(env, "no memory for an answer");
    }
    free(texts.at);
    give_query_back(&taken);
    return answer;
}
