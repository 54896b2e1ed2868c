/* told_archive.c: stands in for the archive in tests of the extension module, to answer what no archive of ours answers.
 *
 * A query is up to five numbers: what the call returns, and the report's len, place, position and byte. With 2 (ROOM) as the first
 * it wants a room of `len` bytes, and fills one with the letter x. Of bind_rows the later ones are the bytes read and written. A query
 * that begins with a space is one for any mode and server, whose tables are told by nothing else: bound by one, a text is of y.
 *
 * The module is linked with --wrap=calloc,--wrap=PyMem_Realloc, by which memory of more than `told_most` bytes is refused. So are
 * tables if `told_tables_refused` is true. */
#include "mysql_params.h"

#include <stdio.h>
#include <stdlib.h>
#include <string.h>

__attribute__((visibility("default"))) size_t told_most = SIZE_MAX;
__attribute__((visibility("default"))) bool told_tables_refused = false;

void *__real_calloc(size_t count, size_t size);
void *__real_PyMem_Realloc(void *memory, size_t size);
void *__wrap_calloc(size_t count, size_t size);
void *__wrap_PyMem_Realloc(void *memory, size_t size);

void *__wrap_calloc(size_t count, size_t size)
{
    return count * size > told_most ? NULL : __real_calloc(count, size);
}

void *__wrap_PyMem_Realloc(void *memory, size_t size)
{
    return size > told_most ? NULL : __real_PyMem_Realloc(memory, size);
}

/* Reads what a query tells, in its first bytes. */
static int32_t told(const uint8_t *query, size_t query_len, mysql_params_report *report)
{
    int number = 0;
    char line[128] = {0};
    memcpy(line, query, query_len < sizeof line ? query_len : sizeof line - 1);
    memset(report, 0, sizeof *report);
    (void)sscanf(line, "%d %zu %zu %zu %zu", &number, &report->len, &report->place, &report->position, &report->byte);
    return number;
}

/* Answers into a room, with a letter. */
static int32_t answer_with(int letter, const uint8_t *query, size_t query_len, uint8_t *room, size_t room_len,
                           mysql_params_report *report)
{
    int32_t number = told(query, query_len, report);
    if (number != MYSQL_PARAMS_ROOM || room_len < report->len)
        return number;
    memset(room, letter, report->len);
    return MYSQL_PARAMS_DONE;
}

/* Answers into a room. */
static int32_t answer(const uint8_t *query, size_t query_len, uint8_t *room, size_t room_len, mysql_params_report *report)
{
    return answer_with('x', query, query_len, room, room_len, report);
}

/* Whether a query is one for any mode and server. */
static bool is_anywhere(const uint8_t *query, size_t query_len)
{
    return query_len > 0 && query[0] == ' ';
}

int32_t mysql_params_names_wide(const uint8_t *query, size_t query_len, bool mode, uint8_t *room, size_t room_len,
                                mysql_params_report *report)
{
    (void)mode;
    return answer(query, query_len, room, room_len, report);
}

#define BIND(name)                                                                                                             \
    int32_t name(const uint8_t *query, size_t query_len, const uint8_t *form, size_t form_len, bool mode, uint8_t *room,       \
                 size_t room_len, mysql_params_report *report)                                                                 \
    {                                                                                                                          \
        (void)form, (void)form_len, (void)mode;                                                                                \
        return answer(query, query_len, room, room_len, report);                                                               \
    }
BIND(mysql_params_bind_wide)
BIND(mysql_params_bind_fragments_wide)
BIND(mysql_params_bind_fragments_guarded_wide)

#define BIND_STEADY(name)                                                                                                      \
    int32_t name(const uint8_t *query, size_t query_len, const uint8_t *form, size_t form_len, uint8_t *room, size_t room_len, \
                 mysql_params_report *report)                                                                                  \
    {                                                                                                                          \
        (void)form, (void)form_len;                                                                                            \
        return answer(query, query_len, room, room_len, report);                                                               \
    }
BIND_STEADY(mysql_params_bind_anywhere)
BIND_STEADY(mysql_params_bind_anywhere_wide)
BIND_STEADY(mysql_params_bind_in_both_modes_wide)
BIND_STEADY(mysql_params_bind_fragments_anywhere_wide)

int32_t mysql_params_bind_rows_wide(const uint8_t *query, size_t query_len, const uint8_t *forms, size_t forms_len, bool mode,
                                    uint8_t *room, size_t room_len, mysql_params_rows *rows, mysql_params_report *report)
{
    int32_t number = told(query, query_len, report);
    (void)forms, (void)forms_len, (void)mode;
    *rows = (mysql_params_rows){0, report->place, report->position};
    memset(room, (int)report->byte, report->position < room_len ? report->position : room_len);
    return number;
}

int32_t mysql_params_table_wide(const uint8_t *query, size_t query_len, bool mode, mysql_params_table_head *head,
                                mysql_params_place *places, size_t places_len, mysql_params_report *report)
{
    int32_t number = told(query, query_len, report);
    (void)mode, (void)places;
    memset(head, 0, sizeof *head);
    if (told_tables_refused)
        return MYSQL_PARAMS_OUT_OF_MEMORY;
    if (is_anywhere(query, query_len))
        return MYSQL_PARAMS_DONE;
    return number == MYSQL_PARAMS_ROOM && places_len >= report->len ? MYSQL_PARAMS_DONE : number;
}

int32_t mysql_params_bind_template_wide(const uint8_t *query, size_t query_len, const mysql_params_table_head *head,
                                        const mysql_params_place *places, size_t places_len, const uint8_t *form,
                                        size_t form_len, bool mode, uint8_t *room, size_t room_len,
                                        mysql_params_report *report)
{
    (void)head, (void)places, (void)places_len, (void)form, (void)form_len, (void)mode;
    return answer(query, query_len, room, room_len, report);
}

int32_t mysql_params_table_anywhere_wide(const uint8_t *query, size_t query_len, mysql_params_anywhere_head *head,
                                         mysql_params_place *places, size_t places_len, mysql_params_report *report)
{
    (void)places, (void)places_len, (void)report;
    memset(head, 0, sizeof *head);
    return is_anywhere(query, query_len) ? MYSQL_PARAMS_DONE : MYSQL_PARAMS_UNPORTABLE;
}

int32_t mysql_params_bind_template_anywhere_wide(const uint8_t *query, size_t query_len,
                                                 const mysql_params_anywhere_head *head, const mysql_params_place *places,
                                                 size_t places_len, const uint8_t *form, size_t form_len, uint8_t *room,
                                                 size_t room_len, mysql_params_report *report)
{
    (void)head, (void)places, (void)places_len, (void)form, (void)form_len;
    return answer_with('y', query, query_len, room, room_len, report);
}

int32_t mysql_params_bind_template_guarded_wide(const uint8_t *query, size_t query_len,
                                                const mysql_params_anywhere_head *head, const mysql_params_place *places,
                                                size_t places_len, const uint8_t *form, size_t form_len, bool mode,
                                                uint8_t *room, size_t room_len, mysql_params_report *report)
{
    (void)head, (void)places, (void)places_len, (void)form, (void)form_len, (void)mode;
    return answer_with('y', query, query_len, room, room_len, report);
}

#define FIRST(name)                                                                                                            \
    int32_t name(const uint8_t *query, size_t query_len, bool mode, mysql_params_report *report)                               \
    {                                                                                                                          \
        (void)mode;                                                                                                            \
        return told(query, query_len, report);                                                                                 \
    }
FIRST(mysql_params_first_unportable_wide)
FIRST(mysql_params_first_unportable_in_client_wide)
