/* Assignments, a list, a column and a keyword, in C. An append needn't be checked: the call that binds says if one is lacking. */
#include <mysql_params_form.h>
#include <stdio.h>
#include <stdlib.h>
#include <string.h>

int main(void)
{
    const char *query = "UPDATE t SET :set WHERE id IN (:ids) AND name = :userName ORDER BY :column :order";
    mysql_params_form form = mysql_params_form_growing();
    mysql_params_begin_assignments(&form, "set");
    mysql_params_append_int(&form, "price", 7);
    mysql_params_append_null(&form, "sold");
    mysql_params_end_assignments(&form);
    mysql_params_begin_list(&form, "ids");
    mysql_params_append_int(&form, NULL, 42);
    mysql_params_append_int(&form, NULL, 7);
    mysql_params_end_list(&form);
    mysql_params_append_text(&form, "userName", "x' OR '1'='1");
    mysql_params_append_identifier(&form, "column", "price");
    mysql_params_append_keyword(&form, "order", "DESC");

    char *text = NULL;
    mysql_params_report report = {0};
    int32_t number = mysql_params_bind_fragments_anywhere_form_wide((const uint8_t *)query, strlen(query), &form, &text,
                                                                    &report);
    mysql_params_form_free(&form);
    if (number != MYSQL_PARAMS_DONE) {
        char line[256];
        mysql_params_message_wide(number, &report, (const uint8_t *)query, strlen(query), line, sizeof line);
        fprintf(stderr, "%s\n", line);
        return 1;
    }
    fwrite(text, 1, report.len, stdout);
    putchar('\n');
    free(text);
    return 0;
}
