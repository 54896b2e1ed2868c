/* A template, and a statement for each row, in C. */
#include <mysql_params_form.h>
#include <stdio.h>
#include <stdlib.h>
#include <string.h>

int main(void)
{
    const char *query = "UPDATE t SET name = :name WHERE id = :id";
    const char *names[] = {"it's", "b"};
    mysql_params_template *update = mysql_params_template_new_wide((const uint8_t *)query, strlen(query), false);
    mysql_params_form rows = mysql_params_form_growing();
    for (int i = 0; i < 2; i++) {
        mysql_params_form row = mysql_params_form_growing();
        mysql_params_append_int(&row, "id", i);
        mysql_params_append_text(&row, "name", names[i]);
        mysql_params_append_row(&rows, &row);
        mysql_params_form_free(&row);
    }
    mysql_params_texts texts = {0};
    mysql_params_rows bound = {0};
    mysql_params_report report = {0};
    int32_t number = MYSQL_PARAMS_OUT_OF_MEMORY;
    if (update != NULL && rows.needed == rows.len)
        number = mysql_params_template_bind_all_rows(update, rows.room, rows.len, &texts, &bound, &report);
    const uint8_t *answer = texts.at;
    size_t left = texts.len;
    mysql_params_string text;
    while (mysql_params_next_string(&answer, &left, &text))
        printf("%.*s\n", (int)text.len, (const char *)text.bytes);
    if (number != MYSQL_PARAMS_DONE)
        fprintf(stderr, "row %zu is refused: %d\n", bound.count, (int)number);
    free(texts.at);
    mysql_params_form_free(&rows);
    mysql_params_template_free(update);
    return number != MYSQL_PARAMS_DONE;
}
