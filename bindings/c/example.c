/* Binds the query of README.md, with a name that tries to leave its literal, and writes the text. A query that servers
 * read in different ways is refused. */
#include "mysql_params_form.h"

#include <stdio.h>
#include <string.h>

int main(void)
{
    const char *query = "SELECT * FROM t WHERE id = :id AND name = :name";
    const uint8_t *query_bytes = (const uint8_t *)query;

    if (!mysql_params_processor_suffices()) {
        fprintf(stderr, "the processor lacks a feature of x86-64-v2\n");
        return 1;
    }
    mysql_params_report report = {0};
    int32_t construct = mysql_params_first_unportable(query_bytes, strlen(query), false, &report);
    if (construct != MYSQL_PARAMS_PORTABLE) {
        fprintf(stderr, "not portable at byte %zu: %s\n", report.position, mysql_params_construct_message(construct));
        return 1;
    }

    uint8_t form_room[128] = {0};
    mysql_params_form form = mysql_params_form_in(form_room, sizeof form_room);
    mysql_params_append_int(&form, "id", 42);
    mysql_params_append_text(&form, "name", "x' OR '1'='1");
    if (form.needed != form.len) {
        fprintf(stderr, "the form needs room for %zu bytes\n", form.needed);
        return 1;
    }

    uint8_t text[256] = {0};
    int32_t number = mysql_params_bind(query_bytes, strlen(query), form.room, form.len, false, text, sizeof text,
                                       &report);
    if (number != MYSQL_PARAMS_DONE) {
        char line[256];
        const uint8_t *source = number == MYSQL_PARAMS_FORM_REPEATED ? form.room : query_bytes;
        size_t source_len = number == MYSQL_PARAMS_FORM_REPEATED ? form.len : strlen(query);
        mysql_params_message(number, &report, source, source_len, line, sizeof line);
        fprintf(stderr, "%s\n", line);
        return 1;
    }
    if (fwrite(text, 1, report.len, stdout) != report.len || putchar('\n') == EOF || fflush(stdout) != 0) {
        fprintf(stderr, "the text can't be written\n");
        return 1;
    }
    return 0;
}
