/* Binds the query of README.md with a name of any length, the first word of the program, and writes the text: the form
 * and the text stand in memory of malloc. */
#include "mysql_params_form.h"

#include <stdio.h>
#include <stdlib.h>
#include <string.h>

int main(int count, char **words)
{
    const char *query = "SELECT * FROM t WHERE id = :id AND name = :name";
    const uint8_t *query_bytes = (const uint8_t *)query;
    if (count != 2 || !mysql_params_processor_suffices()) {
        fprintf(stderr, "usage: example_rooms NAME, on a processor with x86-64-v2\n");
        return 2;
    }
    mysql_params_report report = {0};
    int32_t construct = mysql_params_first_unportable(query_bytes, strlen(query), false, &report);
    if (construct != MYSQL_PARAMS_PORTABLE) {
        fprintf(stderr, "not portable at byte %zu: %s\n", report.position, mysql_params_construct_message(construct));
        return 1;
    }

    mysql_params_form form = mysql_params_form_growing();
    mysql_params_append_int(&form, "id", 42);
    mysql_params_append_text(&form, "name", words[1]);
    char *text = NULL;
    int32_t number = mysql_params_bind_form(query_bytes, strlen(query), &form, false, &text, &report);
    mysql_params_form_free(&form);
    if (number != MYSQL_PARAMS_DONE) {
        char line[256];
        mysql_params_message(number, &report, query_bytes, strlen(query), line, sizeof line);
        fprintf(stderr, "%s\n", line);
        return 1;
    }
    bool written = fwrite(text, 1, report.len, stdout) == report.len && putchar('\n') != EOF && fflush(stdout) == 0;
    free(text);
    if (!written)
        fprintf(stderr, "the text can't be written\n");
    return written ? 0 : 1;
}
