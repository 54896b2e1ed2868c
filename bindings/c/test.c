/* Tests of the archive as C calls it, and of mysql_params_form.c. The argument is the folder of the cases.
 *
 * It is linked with -Wl,--wrap=malloc,--wrap=realloc,--wrap=free, so that the archive's memory can be refused and counted.
 * Queries, forms and rooms stand in blocks of exactly their length, so that a sanitizer sees a step too far: in this code,
 * and where the archive, which is not instrumented, copies by the C library. */
#include "cases.h"

#include <math.h>
#include <stdio.h>
#include <stdlib.h>
#include <string.h>

/* What a byte of the room holds before a call. */
enum { UNTOUCHED = 0xA5 };

void *__real_malloc(size_t size);
void *__real_realloc(void *block, size_t size);
void __real_free(void *block);

static long allocations_left = -1; /* how many more succeed; negative: all */
static bool allocation_refused;    /* whether one was refused */
static long blocks;                /* blocks that are not yet freed */

/* Returns whether this allocation is to be refused. */
static bool is_refused(void)
{
    if (allocations_left == 0) {
        allocation_refused = true;
        return true;
    }
    if (allocations_left > 0)
        allocations_left--;
    return false;
}

void *__wrap_malloc(size_t size)
{
    void *block = is_refused() ? NULL : __real_malloc(size);
    blocks += block != NULL;
    return block;
}

void *__wrap_realloc(void *old, size_t size)
{
    void *block = is_refused() ? NULL : __real_realloc(old, size);
    blocks += block != NULL && old == NULL;
    return block;
}

void __wrap_free(void *block)
{
    blocks -= block != NULL;
    __real_free(block);
}

static int failures; /* of the test that runs */

/* Counts a failure of a case, and says where. */
static void fail(const test_case *it, const char *what)
{
    printf("    the case at line %d: %s\n", it->line, what);
    failures++;
}

static void expect(bool holds, const test_case *it, const char *what)
{
    if (!holds)
        fail(it, what);
}

/* A copy in a block of exactly its length, or of one byte if there is none. */
static uint8_t *exact_copy(bytes from)
{
    uint8_t *copy = malloc(from.len > 0 ? from.len : 1);
    if (copy == NULL)
        exit(2);
    if (from.len > 0)
        memcpy(copy, from.at, from.len);
    return copy;
}

static bool is_untouched(const uint8_t *room, size_t begin, size_t end)
{
    for (size_t i = begin; i < end; i++)
        if (room[i] != UNTOUCHED)
            return false;
    return true;
}

static bool same_report(const mysql_params_report *a, const mysql_params_report *b)
{
    return a->len == b->len && a->place == b->place && a->position == b->position && a->marks == b->marks &&
           a->values == b->values && a->byte == b->byte;
}

/* An answer: its number, its report, and the room after the call. */
typedef struct outcome {
    int32_t number;
    mysql_params_report report;
    uint8_t *room;
    size_t room_len;
} outcome;

/* The call to try: of names, of binding values, by a template or not, or fragments in a mode, or of binding for any server,
 * by a table, a template or neither, or both modes. */
static enum {
    NAMES,
    BIND,
    BIND_TEMPLATE,
    BIND_FRAGMENTS,
    BIND_ANYWHERE,
    BIND_ANYWHERE_BY_TABLE,
    BIND_ANYWHERE_BY_TEMPLATE,
    BIND_IN_BOTH_MODES,
    BIND_FRAGMENTS_ANYWHERE
} tried;

/* The calls of the archive, by the names of the grammar or by wide ones. */
typedef int32_t in_a_mode(const uint8_t *, size_t, const uint8_t *, size_t, bool, uint8_t *, size_t, mysql_params_report *);
typedef int32_t for_any_server(const uint8_t *, size_t, const uint8_t *, size_t, uint8_t *, size_t, mysql_params_report *);

typedef struct calls {
    int32_t (*names)(const uint8_t *, size_t, bool, uint8_t *, size_t, mysql_params_report *);
    in_a_mode *bind;
    in_a_mode *bind_fragments;
    for_any_server *bind_anywhere;
    for_any_server *bind_in_both_modes;
    for_any_server *bind_fragments_anywhere;
    mysql_params_template *(*template_new)(const uint8_t *, size_t, bool);
    int32_t (*bind_rows)(const uint8_t *, size_t, const uint8_t *, size_t, bool, uint8_t *, size_t, mysql_params_rows *,
                         mysql_params_report *);
    int32_t (*bind_all_rows)(const uint8_t *, size_t, const uint8_t *, size_t, bool, mysql_params_texts *,
                             mysql_params_rows *, mysql_params_report *);
    int32_t (*first_unportable)(const uint8_t *, size_t, bool, mysql_params_report *);
    int32_t (*first_unportable_in_client)(const uint8_t *, size_t, bool, mysql_params_report *);
    size_t (*message)(int32_t, const mysql_params_report *, const uint8_t *, size_t, char *, size_t);
} calls;

static const calls by_grammar = {
    mysql_params_names,
    mysql_params_bind,
    mysql_params_bind_fragments,
    mysql_params_bind_anywhere,
    mysql_params_bind_in_both_modes,
    mysql_params_bind_fragments_anywhere,
    mysql_params_template_new,
    mysql_params_bind_rows,
    mysql_params_bind_all_rows,
    mysql_params_first_unportable,
    mysql_params_first_unportable_in_client,
    mysql_params_message,
};

static const calls by_wide_names = {
    mysql_params_names_wide,
    mysql_params_bind_wide,
    mysql_params_bind_fragments_wide,
    mysql_params_bind_anywhere_wide,
    mysql_params_bind_in_both_modes_wide,
    mysql_params_bind_fragments_anywhere_wide,
    mysql_params_template_new_wide,
    mysql_params_bind_rows_wide,
    mysql_params_bind_all_rows_wide,
    mysql_params_first_unportable_wide,
    mysql_params_first_unportable_in_client_wide,
    mysql_params_message_wide,
};

/* Those that are tried. */
static const calls *by = &by_grammar;

/* How many allocations of a call succeed: all of them. */
enum { ALL = -1 };

/* The table of a query for any mode and any server, and the number with which it was made. */
typedef struct anywhere_table {
    int32_t number;
    mysql_params_anywhere_head head;
    mysql_params_place *places;
    size_t places_len;
} anywhere_table;

/* Makes the table of a case's query, if such tables are tried. A query that gets none is refused for the same when it is
 * bound, unless the form is refused before. */
static anywhere_table anywhere_table_of(const test_case *it, const uint8_t *query)
{
    anywhere_table made = {MYSQL_PARAMS_DONE, {{0, 0, 0, 0, 0, 0}}, NULL, 0};
    mysql_params_report report = {0};
    if (tried != BIND_ANYWHERE_BY_TABLE)
        return made;
    made.places = malloc((it->query.len + 1) * sizeof(mysql_params_place));
    if (made.places == NULL)
        exit(2);
    made.number = mysql_params_table_anywhere_wide(query, it->query.len, &made.head, made.places, it->query.len,
                                                   &report);
    bool of_form = MYSQL_PARAMS_FORM_END <= it->number && it->number <= MYSQL_PARAMS_FORM_REPEATED;
    bool of_query = it->number == MYSQL_PARAMS_UNSTEADY || it->number == MYSQL_PARAMS_UNPORTABLE;
    if (made.number == MYSQL_PARAMS_DONE)
        expect(!of_query, it, "a table is made of a query that is refused");
    else
        expect(of_form || (made.number == it->number && same_report(&report, &it->report)), it, "another table is wanted");
    made.places_len = made.number == MYSQL_PARAMS_DONE ? report.len : 0;
    return made;
}

/* Calls with a room of a length, and refuses memory after some allocations. Checks that all memory is given back. */
static outcome call(const test_case *it, size_t room_len, long allocations)
{
    outcome is = {-1, {9, 9, 9, 9, 9, 9}, malloc(room_len > 0 ? room_len : 1), room_len};
    uint8_t *query = exact_copy(it->query);
    uint8_t *form = exact_copy(it->form);
    if (is.room == NULL)
        exit(2);
    memset(is.room, UNTOUCHED, room_len > 0 ? room_len : 1);
    bool mode = it->no_backslash_escape;
    mysql_params_template *made = by->template_new(query, it->query.len, mode);
    /* It has a copy of the query. */
    if ((tried == BIND_TEMPLATE || tried == BIND_ANYWHERE_BY_TEMPLATE) && it->query.len > 0)
        memset(query, '?', it->query.len);
    anywhere_table table = anywhere_table_of(it, query);
    long before = blocks;
    allocation_refused = false;
    allocations_left = allocations;
    if (tried == BIND_ANYWHERE_BY_TABLE && table.number == MYSQL_PARAMS_DONE)
        is.number = mysql_params_bind_template_anywhere_wide(query, it->query.len, &table.head, table.places,
                                                             table.places_len, form, it->form.len, is.room, room_len,
                                                             &is.report);
    else if (tried == BIND_TEMPLATE)
        is.number = mysql_params_template_bind(made, form, it->form.len, is.room, room_len, &is.report);
    else if (tried == BIND_ANYWHERE_BY_TEMPLATE)
        is.number = mysql_params_template_bind_anywhere(made, form, it->form.len, is.room, room_len, &is.report);
    else if (tried == NAMES)
        is.number = by->names(query, it->query.len, mode, is.room, room_len, &is.report);
    else if (tried == BIND_ANYWHERE || tried == BIND_ANYWHERE_BY_TABLE)
        is.number = by->bind_anywhere(query, it->query.len, form, it->form.len, is.room, room_len, &is.report);
    else if (tried == BIND_IN_BOTH_MODES)
        is.number = by->bind_in_both_modes(query, it->query.len, form, it->form.len, is.room, room_len, &is.report);
    else if (tried == BIND_FRAGMENTS_ANYWHERE)
        is.number = by->bind_fragments_anywhere(query, it->query.len, form, it->form.len, is.room, room_len, &is.report);
    else if (tried == BIND_FRAGMENTS)
        is.number = by->bind_fragments(query, it->query.len, form, it->form.len, mode, is.room, room_len, &is.report);
    else
        is.number = by->bind(query, it->query.len, form, it->form.len, mode, is.room, room_len, &is.report);
    allocations_left = ALL;
    expect(blocks == before, it, "memory isn't given back");
    mysql_params_template_free(made);
    free(table.places);
    free(query);
    free(form);
    return is;
}

/* Checks the outcome of a case for the room that it had. */
static void expect_outcome(const test_case *it, const outcome *is)
{
    size_t len = it->answer.len;
    bool done = it->number == MYSQL_PARAMS_DONE;
    if (done && is->room_len < len) {
        mysql_params_report wanted = {0};
        wanted.len = len;
        expect(is->number == MYSQL_PARAMS_ROOM, it, "the room is too short, and the number doesn't say so");
        expect(same_report(&is->report, &wanted), it, "the report isn't the length that is needed");
        expect(is_untouched(is->room, 0, is->room_len), it, "a room that is too short is written");
        return;
    }
    expect(is->number == it->number, it, "another number is wanted");
    expect(same_report(&is->report, &it->report), it, "another report is wanted");
    if (done)
        expect(memcmp(is->room, it->answer.at, len) == 0, it, "another text is wanted");
    expect(is_untouched(is->room, done ? len : 0, is->room_len), it, "the room is written after the answer");
}

/* Checks the name and the message that a refusal tells. */
static void expect_message(const test_case *it, const outcome *is)
{
    char line[256];
    bytes source = it->number == MYSQL_PARAMS_FORM_REPEATED ? it->form : it->query;
    if (it->name.len > 0)
        expect(is->report.position + is->report.len <= source.len && is->report.len == it->name.len &&
                   memcmp(source.at + is->report.position, it->name.at, it->name.len) == 0,
               it, "another name is wanted");
    if (it->message.len == 0)
        return;
    size_t len = by->message(is->number, &is->report, source.at, source.len, line, sizeof line);
    expect(len == it->message.len && memcmp(line, it->message.at, len) == 0, it, "another message is wanted");
}

/* A case with room enough, exact, one byte too short, and none. */
static void try_rooms(const test_case *it)
{
    size_t len = it->answer.len;
    size_t rooms[] = {len + 7, len, len > 0 ? len - 1 : 0, 0};
    for (size_t i = 0; i < sizeof rooms / sizeof rooms[0]; i++) {
        outcome is = call(it, rooms[i], ALL);
        expect_outcome(it, &is);
        if (i == 0)
            expect_message(it, &is);
        free(is.room);
    }
}

static const char *folder;

/* The cases of the file of this name for the calls that are tried, if there is one. Returns how many there were. */
static int each_own_case(const char *file, void (*use)(const test_case *))
{
    char own[64], path[1024];
    snprintf(own, sizeof own, "%s/%s", by == &by_wide_names ? "wide" : "grammar", file);
    snprintf(path, sizeof path, "%s/%s", folder, own);
    FILE *stream = fopen(path, "rb");
    if (stream == NULL)
        return 0;
    fclose(stream);
    return each_case(folder, own, use);
}

/* The cases of a file that all calls answer alike, and those. */
static void each_of_all(const char *file, void (*use)(const test_case *))
{
    each_case(folder, file, use);
    each_own_case(file, use);
}

static void table_of_binding(void)
{
    tried = BIND;
    each_of_all("bind.txt", try_rooms);
}

/* A template gives what mysql_params_bind gives. */
static void templates(void)
{
    tried = BIND_TEMPLATE;
    each_of_all("bind.txt", try_rooms);
    each_of_all("forms.txt", try_rooms);
    tried = BIND_ANYWHERE_BY_TEMPLATE;
    each_of_all("anywhere.txt", try_rooms);
}

static void table_of_steady_binding(void)
{
    tried = BIND_ANYWHERE;
    each_of_all("anywhere.txt", try_rooms);
    tried = BIND_IN_BOTH_MODES;
    each_of_all("both_modes.txt", try_rooms);
}

static void flat_forms(void)
{
    tried = BIND;
    each_of_all("forms.txt", try_rooms);
}

/* Also what is bound by mysql_params_bind is bound alike: values are fragments. */
static void table_of_fragments(void)
{
    tried = BIND_FRAGMENTS;
    each_of_all("fragments.txt", try_rooms);
    each_of_all("forms.txt", try_rooms);
}

/* The same for any server. */
static void table_of_steady_fragments(void)
{
    tried = BIND_FRAGMENTS_ANYWHERE;
    each_of_all("fragments_anywhere.txt", try_rooms);
    each_of_all("anywhere.txt", try_rooms);
}

static void names_of_queries(void)
{
    tried = NAMES;
    each_of_all("names.txt", try_rooms);
}

/* Returns a template of a case's query if templates are tried, else null. It has a copy of the query, which is written
 * over. */
static mysql_params_template *template_of(const test_case *it, uint8_t *query)
{
    if (tried != BIND_TEMPLATE)
        return NULL;
    mysql_params_template *made = by->template_new(query, it->query.len, it->no_backslash_escape);
    if (made == NULL)
        exit(2);
    if (it->query.len > 0)
        memset(query, '?', it->query.len);
    return made;
}

/* Binds the rows of a case with a room of a length, and refuses memory after some allocations: the texts before the row at
 * which it ends are kept, and the rest of the room is as before. Returns whether an allocation was refused. */
static bool try_rows_in(const test_case *it, size_t room_len, long allocations)
{
    mysql_params_rows rows = {9, 9, 9};
    mysql_params_report report = {9, 9, 9, 9, 9, 9}, wanted = it->report;
    uint8_t *room = malloc(room_len > 0 ? room_len : 1), *query = exact_copy(it->query), *forms = exact_copy(it->forms);
    if (room == NULL)
        exit(2);
    memset(room, UNTOUCHED, room_len > 0 ? room_len : 1);
    mysql_params_template *made = template_of(it, query);
    long before = blocks;
    allocation_refused = false;
    allocations_left = allocations;
    int32_t number =
        made == NULL ? by->bind_rows(query, it->query.len, forms, it->forms.len, it->no_backslash_escape, room, room_len,
                                     &rows, &report)
                     : mysql_params_template_bind_rows(made, forms, it->forms.len, room, room_len, &rows, &report);
    allocations_left = ALL;
    expect(blocks == before, it, "memory isn't given back");
    mysql_params_template_free(made);
    expect(rows.written <= room_len && rows.written <= it->answer.len && rows.read <= it->read && rows.count <= it->texts,
           it, "more rows are bound than there are");
    expect(memcmp(room, it->answer.at, rows.written) == 0, it, "other texts are wanted");
    expect(is_untouched(room, rows.written, room_len), it, "the room is written after the texts");
    if (number == MYSQL_PARAMS_OUT_OF_MEMORY) {
        mysql_params_report none = {0};
        expect(allocation_refused && same_report(&report, &none), it, "out of memory where none was refused");
    } else if (number == MYSQL_PARAMS_ROOM) {
        expect(rows.written + report.len > room_len && room_len < it->answer.len, it, "the room isn't too short");
    } else {
        expect(rows.count == it->texts && rows.read == it->read && rows.written == it->answer.len, it,
               "other rows are wanted");
        expect(number == it->number && same_report(&report, &wanted), it, "another number or report is wanted");
    }
    if (number != MYSQL_PARAMS_OUT_OF_MEMORY)
        expect(!allocation_refused, it, "a refused allocation is hidden");
    free(room);
    free(query);
    free(forms);
    return allocation_refused;
}

/* The same in rooms of all lengths up to one that is long enough, without memory, and in memory that grows. */
static void try_rows(const test_case *it)
{
    for (size_t room_len = 0; room_len <= it->answer.len + 3; room_len++)
        try_rows_in(it, room_len, ALL);
    for (long allocations = 0; try_rows_in(it, it->answer.len, allocations); allocations++)
        continue;
    mysql_params_texts texts = {0};
    mysql_params_rows rows = {9, 9, 9};
    mysql_params_report report = {9, 9, 9, 9, 9, 9};
    uint8_t *query = exact_copy(it->query);
    mysql_params_template *made = template_of(it, query);
    for (int round = 1; round <= 2; round++) {
        int32_t number =
            made == NULL
                ? by->bind_all_rows(query, it->query.len, it->forms.at, it->forms.len, it->no_backslash_escape, &texts,
                                    &rows, &report)
                : mysql_params_template_bind_all_rows(made, it->forms.at, it->forms.len, &texts, &rows, &report);
        expect(number == it->number && same_report(&report, &it->report), it, "another end of all rows is wanted");
        expect(rows.count == it->texts && rows.read == it->read && rows.written == it->answer.len, it,
               "another number of all rows is wanted");
        expect(texts.len == (size_t)round * it->answer.len && texts.len <= texts.room_len, it, "other texts are appended");
        expect(it->answer.len == 0 || memcmp(texts.at + texts.len - it->answer.len, it->answer.at, it->answer.len) == 0, it,
               "another text of all rows is wanted");
    }
    mysql_params_template_free(made);
    free(query);
    free(texts.at);
}

static void rows_of_queries(void)
{
    tried = BIND;
    each_of_all("rows.txt", try_rows);
}

/* A template binds rows as mysql_params_bind_rows does. */
static void rows_of_templates(void)
{
    tried = BIND_TEMPLATE;
    each_of_all("rows.txt", try_rows);
}

/* The call of the archive by which cases of constructs are tried. */
static int32_t (*first_of_case)(const uint8_t *, size_t, bool, mysql_params_report *);

/* A query in its mode: the first construct, its position and its message. No allocation is asked for. */
static void try_construct(const test_case *it)
{
    mysql_params_report report = {9, 9, 9, 9, 9, 9};
    uint8_t *query = exact_copy(it->query);
    expect(it->portable == (it->number == MYSQL_PARAMS_PORTABLE), it, "the case says both or neither");
    allocation_refused = false;
    allocations_left = 0;
    int32_t number = first_of_case(query, it->query.len, it->no_backslash_escape, &report);
    allocations_left = ALL;
    free(query);
    expect(!allocation_refused, it, "it allocates");
    expect(number == it->number, it, "another construct is wanted");
    expect(same_report(&report, &it->report), it, "another report is wanted");
    const char *message = mysql_params_construct_message(number);
    expect((message == NULL) == it->portable, it, "a construct has a message, and nothing else has one");
    if (it->message.len > 0)
        expect(message != NULL && strcmp(message, (const char *)it->message.at) == 0, it, "another text is wanted");
}

static void portable_queries(void)
{
    test_case it = {0};
    first_of_case = by->first_unportable;
    each_case(folder, "portable.txt", try_construct);
    expect(each_own_case("portable.txt", try_construct) > 0, &it, "the calls have cases of their own");
    first_of_case = by->first_unportable_in_client;
    each_case(folder, "in_client.txt", try_construct);
    each_own_case("in_client.txt", try_construct);
}

/* Numbers that are no construct. */
static void other_constructs(void)
{
    static const int32_t others[] = {0, 21, -1, INT32_MAX, INT32_MIN};
    test_case it = {0};
    for (size_t i = 0; i < sizeof others / sizeof others[0]; i++)
        expect(mysql_params_construct_message(others[i]) == NULL, &it, "a message of no construct");
}

/* By its table a query is bound for any server as without one. */
static void steady_binding_by_tables(void)
{
    tried = BIND_ANYWHERE_BY_TABLE;
    each_of_all("anywhere.txt", try_rooms);
}

/* The tables of cases by wide names. */
static void wide_names(void)
{
    by = &by_wide_names;
    table_of_binding();
    table_of_steady_binding();
    steady_binding_by_tables();
    flat_forms();
    templates();
    table_of_fragments();
    table_of_steady_fragments();
    names_of_queries();
    rows_of_queries();
    rows_of_templates();
    portable_queries();
    by = &by_grammar;
}

/* The table of a query with capitals, and a text by it. */
static void tables_by_wide_names(void)
{
    static const uint8_t query[] = "SELECT :userId, ':ID', :ID";
    /* `ID` is NULL, and `userId` the number 7 in one byte. */
    static const uint8_t form[] = {2, 'I', 'D', 6, 0, 6, 'u', 's', 'e', 'r', 'I', 'd', 1, 0, 7};
    static const char text[] = "SELECT 7, ':ID', NULL";
    static const mysql_params_table_head wanted_head = {2, 0, 0, 0, 0, 16};
    static const mysql_params_place wanted_places[] = {{7, 7}, {9, 3}};
    mysql_params_table_head head = {9, 9, 9, 9, 9, 9};
    mysql_params_place places[] = {{9, 9}, {9, 9}};
    mysql_params_report report = {9, 9, 9, 9, 9, 9};
    uint8_t room[sizeof text] = {0};
    test_case it = {0};
    int32_t number = mysql_params_table_wide(query, sizeof query - 1, false, &head, places, 2, &report);
    expect(number == MYSQL_PARAMS_DONE && report.len == 2, &it, "the number of places is wanted");
    expect(memcmp(&head, &wanted_head, sizeof head) == 0, &it, "another head is wanted");
    expect(memcmp(places, wanted_places, sizeof places) == 0, &it, "other places are wanted");
    number = mysql_params_bind_template_wide(query, sizeof query - 1, &head, places, 2, form, sizeof form, false, room,
                                             sizeof text - 1, &report);
    expect(number == MYSQL_PARAMS_DONE && report.len == sizeof text - 1, &it, "a text is wanted");
    expect(memcmp(room, text, sizeof text) == 0, &it, "another text is wanted");
}

/* A query that is bound for any mode and any server by its table. */
static void anywhere_by_a_table(void)
{
    static const uint8_t query[] = "SELECT :userId, ':ID', :ID";
    static const uint8_t form[] = {2, 'I', 'D', 253, 0, 4, 'i', 't', '\'', 's', 6, 'u', 's', 'e', 'r', 'I', 'd', 1, 0, 7};
    static const char text[] = "SELECT 7, ':ID', _utf8mb4'it''s'";
    static const mysql_params_anywhere_head wanted_head = {{2, 0, 0, 0, 0, 16}};
    static const mysql_params_place wanted_places[] = {{7, 7}, {9, 3}};
    static const uint8_t hint[] = "SELECT /*+ SET_VAR(x=?) */ 1";
    mysql_params_anywhere_head head = {{9, 9, 9, 9, 9, 9}};
    mysql_params_place places[] = {{9, 9}, {9, 9}};
    mysql_params_report report = {9, 9, 9, 9, 9, 9};
    uint8_t room[sizeof text] = {0};
    test_case it = {0};
    int32_t number = mysql_params_table_anywhere_wide(hint, sizeof hint - 1, &head, places, 2, &report);
    expect(number == MYSQL_PARAMS_UNPORTABLE && report.position == 7, &it, "the hint is wanted");
    expect(report.byte == MYSQL_PARAMS_HINT && head.table.names == 9 && places[0].len == 9, &it, "no table is wanted");
    number = mysql_params_table_anywhere_wide(query, sizeof query - 1, &head, places, 2, &report);
    expect(number == MYSQL_PARAMS_DONE && report.len == 2, &it, "the number of places is wanted");
    expect(memcmp(&head, &wanted_head, sizeof head) == 0, &it, "another head is wanted");
    expect(memcmp(places, wanted_places, sizeof places) == 0, &it, "other places are wanted");
    number = mysql_params_bind_template_anywhere_wide(query, sizeof query - 1, &head, places, 2, form, sizeof form, room,
                                                      sizeof text - 1, &report);
    expect(number == MYSQL_PARAMS_DONE && report.len == sizeof text - 1, &it, "a text is wanted");
    expect(memcmp(room, text, sizeof text) == 0, &it, "another text is wanted");
    number = mysql_params_bind_template_anywhere_wide(query, sizeof query - 1, &head, places, 1, form, sizeof form, room,
                                                      sizeof text - 1, &report);
    expect(number == MYSQL_PARAMS_OTHER_TABLE && report.len == 0, &it, "another table is bound by");
}

/* The same with guarded literals, which depend on the mode. */
static void guarded_by_a_table(void)
{
    static const uint8_t query[] = "SELECT :userId, ':ID', :ID";
    static const uint8_t form[] = {2, 'I', 'D', 253, 0, 2, '\'', '\\', 6, 'u', 's', 'e', 'r', 'I', 'd', 1, 0, 7};
    static const char *const texts[] = {"SELECT 7, ':ID', '''\\\\'", "SELECT 7, ':ID', _utf8mb4 0x275C"};
    mysql_params_anywhere_head head = {{9, 9, 9, 9, 9, 9}};
    mysql_params_place places[] = {{9, 9}, {9, 9}};
    mysql_params_report report = {9, 9, 9, 9, 9, 9};
    test_case it = {0};
    int32_t number = mysql_params_table_anywhere_wide(query, sizeof query - 1, &head, places, 2, &report);
    expect(number == MYSQL_PARAMS_DONE && report.len == 2, &it, "the number of places is wanted");
    for (int mode = 0; mode < 2; mode++) {
        uint8_t room[64] = {0};
        size_t len = strlen(texts[mode]);
        number = mysql_params_bind_template_guarded_wide(query, sizeof query - 1, &head, places, 2, form, sizeof form, mode,
                                                         room, len, &report);
        expect(number == MYSQL_PARAMS_DONE && report.len == len, &it, "a text is wanted");
        expect(memcmp(room, texts[mode], len + 1) == 0, &it, "another text is wanted");
        number = mysql_params_bind_template_guarded_wide(query, sizeof query - 1, &head, places, 2, form, sizeof form, mode,
                                                         room, len - 1, &report);
        expect(number == MYSQL_PARAMS_ROOM && report.len == len, &it, "a longer room is wanted");
        number = mysql_params_bind_template_guarded_wide(query, sizeof query - 1, &head, places, 1, form, sizeof form, mode,
                                                         room, len, &report);
        expect(number == MYSQL_PARAMS_OTHER_TABLE && report.len == 0, &it, "another table is bound by");
    }
}

/* A template that gets no memory for the test of its query is bound for any mode and any server too. */
static void templates_without_a_test(void)
{
    static const uint8_t query[] = "SELECT /*+ MAX_EXECUTION_TIME(9) */ :ID";
    static const uint8_t form[] = {2, 'I', 'D', 253, 0, 4, 'i', 't', '\'', 's'};
    static const char text[] = "SELECT /*+ MAX_EXECUTION_TIME(9) */ _utf8mb4'it''s'";
    test_case it = {0};
    long before = blocks;
    int untested = 0;
    allocation_refused = true;
    for (long allowed = 0; allocation_refused; allowed++) {
        uint8_t room[sizeof text] = {0};
        mysql_params_report report = {9, 9, 9, 9, 9, 9};
        it.line = (int)allowed;
        allocations_left = allowed;
        allocation_refused = false;
        mysql_params_template *made = mysql_params_template_new_wide(query, sizeof query - 1, false);
        allocations_left = ALL;
        expect(made != NULL || allocation_refused, &it, "a template is wanted");
        if (made == NULL)
            continue;
        untested += allocation_refused;
        int32_t number = mysql_params_template_bind_anywhere(made, form, sizeof form, room, sizeof text - 1, &report);
        expect(number == MYSQL_PARAMS_DONE && report.len == sizeof text - 1, &it, "a text is wanted");
        expect(memcmp(room, text, sizeof text) == 0, &it, "another text is wanted");
        mysql_params_template_free(made);
    }
    expect(untested > 0, &it, "no template lacks the test");
    expect(blocks == before, &it, "memory is kept");
}

/* Appends a byte, often. */
static void append_run(bytes *to, char byte, size_t len)
{
    char *run = malloc(len);
    if (run == NULL)
        exit(2);
    memset(run, byte, len);
    append_bytes(to, run, len);
    free(run);
}

/* Rows of which each text is longer than the memory that texts begin with. */
static void rows_in_growing_memory(void)
{
    enum { ROWS = 40, LENGTH = 9000 };
    test_case it = {0};
    bytes text = {NULL, 0}, string = {NULL, 0};
    append_run(&string, 'x', LENGTH);
    append_bytes(&text, "'", 1);
    append_bytes(&text, string.at, LENGTH);
    append_bytes(&text, "'", 1);
    mysql_params_form row = mysql_params_form_in(malloc(LENGTH + 16), LENGTH + 16);
    expect(mysql_params_append_bytes(&row, NULL, string.at, LENGTH), &it, "the row doesn't fit");
    mysql_params_form forms = mysql_params_form_in(NULL, 0);
    for (int i = 0; i < ROWS; i++)
        expect(!mysql_params_append_row(&forms, &row), &it, "a row without room is appended");
    size_t needed = forms.needed;
    forms = mysql_params_form_in(malloc(needed), needed);
    for (int i = 0; i < ROWS; i++)
        expect(mysql_params_append_row(&forms, &row), &it, "the row isn't appended");
    expect(forms.len == needed && forms.needed == needed, &it, "another need is wanted");
    expect(!mysql_params_append_row(&forms, &row) && forms.len == needed, &it, "a row is appended behind the room");
    mysql_params_form grown = mysql_params_form_growing();
    for (int i = 0; i < ROWS; i++)
        expect(mysql_params_append_row(&grown, &row), &it, "the row isn't appended to forms that grow");
    expect(grown.len == needed && memcmp(grown.room, forms.room, needed) == 0, &it, "forms that grow are others");
    mysql_params_form_free(&grown);
    for (long allocations = 0; allocations < 2; allocations++) {
        mysql_params_texts texts = {0};
        mysql_params_rows rows = {0};
        mysql_params_report report = {0};
        allocations_left = allocations == 0 ? ALL : 1;
        int32_t number = mysql_params_bind_all_rows((const uint8_t *)"?", 1, forms.room, forms.len, false, &texts, &rows, &report);
        allocations_left = ALL;
        expect(number == (allocations == 0 ? MYSQL_PARAMS_DONE : MYSQL_PARAMS_OUT_OF_MEMORY), &it, "another end is wanted");
        if (number != MYSQL_PARAMS_DONE) /* it goes on where it ended */
            number = mysql_params_bind_all_rows((const uint8_t *)"?", 1, forms.room + rows.read, forms.len - rows.read, false,
                                                &texts, &rows, &report);
        expect(number == MYSQL_PARAMS_DONE, &it, "the rows aren't bound");
        const uint8_t *rest = texts.at;
        size_t left = texts.len;
        mysql_params_string one = {NULL, 0};
        for (int i = 0; i < ROWS; i++)
            expect(mysql_params_next_string(&rest, &left, &one) && one.len == text.len && memcmp(one.bytes, text.at, one.len) == 0,
                   &it, "another text is wanted");
        expect(left == 0, &it, "there are more texts");
        free(texts.at);
    }
    free(row.room);
    free(forms.room);
    clear_bytes(&text);
    clear_bytes(&string);
}

/* A row whose parameters don't all stand in its room isn't bound as one with fewer of them. */
static void rows_that_are_cut(void)
{
    test_case it = {0};
    uint8_t row_room[16], room[64];
    for (int grows = 0; grows <= 1; grows++) {
        mysql_params_form row = mysql_params_form_in(row_room, 3);
        mysql_params_form forms = grows == 0 ? mysql_params_form_in(room, sizeof room) : mysql_params_form_growing();
        expect(mysql_params_append_null(&row, NULL), &it, "the row doesn't fit");
        expect(mysql_params_append_row(&forms, &row) && forms.len == 4, &it, "the row isn't appended");
        expect(!mysql_params_append_null(&row, NULL) && row.len == 3, &it, "a parameter is appended behind the room");
        expect(!mysql_params_append_row(&forms, &row), &it, "a row that is cut is appended");
        expect(forms.len == 4 && forms.needed == SIZE_MAX, &it, "it isn't seen that a row is cut");
        row = mysql_params_form_in(row_room, sizeof row_room);
        expect(!mysql_params_append_row(&forms, &row), &it, "a row is appended behind one that is cut");
        expect(forms.len == 4 && forms.needed == SIZE_MAX, &it, "it isn't seen any more");
        mysql_params_form_free(&forms);
    }
}

/* A query that is `len` bytes long once it is renamed: `'xx..' :a`. */
static void try_long_names(size_t len)
{
    test_case it = {0};
    bytes renamed = {NULL, 0};
    append_bytes(&renamed, "'", 1);
    append_run(&renamed, 'x', len - 4);
    append_bytes(&renamed, "' ", 2);
    append_bytes(&it.query, renamed.at, renamed.len);
    append_bytes(&it.query, ":a", 2);
    append_bytes(&renamed, "?", 1);
    append_string(&it.answer, renamed.at, renamed.len);
    append_string(&it.answer, "a", 1);
    it.report.len = it.answer.len;
    append_bytes(&it.form, "", 0);
    try_rooms(&it);
    const uint8_t *answer = it.answer.at;
    size_t left = it.answer.len;
    mysql_params_string string = {NULL, 0};
    expect(mysql_params_next_string(&answer, &left, &string) && string.len == renamed.len &&
               memcmp(string.bytes, renamed.at, renamed.len) == 0,
           &it, "the query isn't taken off the answer");
    expect(mysql_params_next_string(&answer, &left, &string) && string.len == 1 && string.bytes[0] == 'a', &it,
           "the name isn't taken off the answer");
    expect(left == 0 && !mysql_params_next_string(&answer, &left, &string), &it, "the answer doesn't end");
    clear_bytes(&renamed);
    clear_bytes(&it.query);
    clear_bytes(&it.form);
    clear_bytes(&it.answer);
}

static void names_of_long_queries(void)
{
    static const size_t lengths[] = {250, 251, 252, 65535, 65536, 65537};
    tried = NAMES;
    for (size_t i = 0; i < sizeof lengths / sizeof lengths[0]; i++)
        try_long_names(lengths[i]);
}

/* Appends the literal of one byte, after "SQL literals" in docs/RULES.md. */
static void append_literal(bytes *to, uint8_t byte)
{
    static const uint8_t escapes[][2] = {{0, '0'}, {'\n', 'n'}, {'\r', 'r'}, {26, 'Z'}, {'\\', '\\'}, {'\'', '\''}, {'"', '"'}};
    static const char digits[] = "0123456789ABCDEF";
    if (byte >= 128) {
        const char hexadecimal[] = {'0', 'x', digits[byte / 16], digits[byte % 16]};
        append_bytes(to, hexadecimal, 4);
        return;
    }
    append_bytes(to, "'", 1);
    for (size_t i = 0; i < sizeof escapes / sizeof escapes[0]; i++)
        if (escapes[i][0] == byte) {
            append_bytes(to, "\\", 1);
            byte = escapes[i][1];
            break;
        }
    append_bytes(to, &byte, 1);
    append_bytes(to, "'", 1);
}

static void each_value_of_one_byte(void)
{
    tried = BIND;
    for (int value = 0; value < 256; value++) {
        uint8_t byte = (uint8_t)value, room[16];
        mysql_params_form form = mysql_params_form_in(room, sizeof room);
        test_case it = {0};
        it.line = value;
        expect(mysql_params_append_bytes(&form, NULL, &byte, 1), &it, "the form doesn't fit");
        append_bytes(&it.query, "?", 1);
        append_bytes(&it.form, form.room, form.len);
        append_literal(&it.answer, byte);
        it.report.len = it.answer.len;
        try_rooms(&it);
        clear_bytes(&it.query);
        clear_bytes(&it.form);
        clear_bytes(&it.answer);
    }
}

/* Binds `:aa..` with names and strings of a length: `'xx..'`. */
static void try_length(size_t len)
{
    test_case it = {0};
    bytes name = {NULL, 0}, string = {NULL, 0};
    it.line = (int)len;
    append_run(&name, 'a', len);
    append_run(&string, 'x', len);
    append_bytes(&it.query, ":", 1);
    append_bytes(&it.query, name.at, len);
    append_bytes(&it.answer, "'", 1);
    append_bytes(&it.answer, string.at, len);
    append_bytes(&it.answer, "'", 1);
    it.report.len = len + 2;
    mysql_params_form form = mysql_params_form_in(NULL, 0);
    expect(!mysql_params_append_bytes(&form, (const char *)name.at, string.at, len), &it, "a form without room");
    size_t needed = form.needed;
    form = mysql_params_form_in(malloc(needed), needed);
    expect(mysql_params_append_bytes(&form, (const char *)name.at, string.at, len), &it, "the form doesn't fit");
    it.form = (bytes){form.room, form.len};
    try_rooms(&it);
    clear_bytes(&name);
    clear_bytes(&string);
    clear_bytes(&it.query);
    clear_bytes(&it.form);
    clear_bytes(&it.answer);
}

static void values_of_each_length(void)
{
    static const size_t lengths[] = {1, 250, 251, 65535, 65536, 16777215, 16777216};
    tried = BIND;
    for (size_t i = 0; i < sizeof lengths / sizeof lengths[0]; i++)
        try_length(lengths[i]);
}

/* A form needs 19 bytes: `id` 3 + 2 + 8, and `a` 2 + 2 + 2. Rooms of all lengths up to 24 are tried. */
static void rooms_of_forms(void)
{
    static const uint8_t wanted[] = {2, 'i', 'd', 8, 0, 42, 0, 0, 0, 0, 0, 0, 0, 1, 'a', 0xFD, 0, 1, 'x'};
    test_case it = {0};
    for (size_t room_len = 0; room_len < 24; room_len++) {
        uint8_t room[24];
        memset(room, UNTOUCHED, sizeof room);
        mysql_params_form form = mysql_params_form_in(room_len > 0 ? room : NULL, room_len);
        it.line = (int)room_len;
        expect(mysql_params_append_int(&form, "id", 42) == (room_len >= 13), &it, "the first parameter");
        expect(mysql_params_append_text(&form, "a", "x") == (room_len >= 19), &it, "the second parameter");
        expect(form.needed == 19, &it, "another need is wanted");
        expect(form.len == (room_len >= 19 ? 19 : room_len >= 13 ? 13 : 0), &it, "another length is wanted");
        expect(memcmp(room, wanted, form.len) == 0, &it, "another form is wanted");
        expect(is_untouched(room, form.len, sizeof room), &it, "the room is written after the form");
    }
    /* Once one does not fit (6 bytes), a shorter one (3 bytes) is not appended either. */
    uint8_t room[4];
    mysql_params_form form = mysql_params_form_in(room, sizeof room);
    it.line = 0;
    expect(!mysql_params_append_text(&form, NULL, "xx"), &it, "a text without room is appended");
    expect(!mysql_params_append_null(&form, NULL), &it, "NULL is appended after a text without room");
    expect(form.len == 0 && form.needed == 9, &it, "another need is wanted");
}

/* An empty form without memory can be bound, and holds nothing. */
static void forms_without_memory(void)
{
    static const uint8_t query[] = "SELECT 1";
    uint8_t room[8] = {0};
    mysql_params_report report = {0};
    test_case it = {0};
    mysql_params_form form = mysql_params_form_in(NULL, 0);
    expect(form.room != NULL && form.room_len == 0, &it, "the form has a null pointer, or room");
    expect(form.len == 0 && form.needed == 0, &it, "the form isn't empty");
    int32_t number = mysql_params_bind(query, 8, form.room, form.len, false, room, sizeof room, &report);
    expect(number == MYSQL_PARAMS_DONE && report.len == 8, &it, "a text is wanted");
    expect(memcmp(room, query, 8) == 0, &it, "another text is wanted");
    expect(!mysql_params_append_null(&form, NULL), &it, "NULL is appended without a room");
    expect(form.len == 0 && form.needed == 3, &it, "another need is wanted");
}

/* Appends a number and a text of a length to a form, binds it into memory of malloc, and returns the number. */
static int32_t bind_grown(mysql_params_form *form, const char *value, char **text, mysql_params_report *report)
{
    static const uint8_t query[] = "SELECT :id, :a";
    mysql_params_append_int(form, "id", 42);
    mysql_params_append_text(form, "a", value);
    return mysql_params_bind_form(query, sizeof query - 1, form, false, text, report);
}

/* A form that grows holds what a form in room does, and its text stands in memory of malloc with a zero byte after it. Each
 * request for memory is refused once, and all memory is given back. */
static void forms_that_grow(void)
{
    static const size_t lengths[] = {0, 1, 100, 250, 70000};
    test_case it = {0};
    long before = blocks;
    for (size_t i = 0; i < sizeof lengths / sizeof lengths[0]; i++) {
        size_t len = lengths[i];
        bytes value = {NULL, 0}, wanted = {NULL, 0};
        append_bytes(&wanted, "SELECT 42, '", 12);
        for (size_t j = 0; j < len; j++)
            append_bytes(&wanted, "\\'", 2);
        append_bytes(&wanted, "'", 2); /* with the zero byte */
        append_run(&value, '\'', len);
        append_bytes(&value, "", 1);
        it.line = (int)len;
        for (long allowed = 0;; allowed++) {
            char *text = (char *)value.at;
            mysql_params_report report = {9, 9, 9, 9, 9, 9};
            mysql_params_form form = mysql_params_form_growing();
            long held = blocks;
            allocations_left = allowed;
            allocation_refused = false;
            int32_t number = bind_grown(&form, (const char *)value.at, &text, &report);
            allocations_left = -1;
            mysql_params_form_free(&form);
            expect(form.len == 0 && form.needed == 0 && form.grows, &it, "the form isn't empty");
            if (!allocation_refused) {
                expect(number == MYSQL_PARAMS_DONE && report.len + 1 == wanted.len, &it, "a text is wanted");
                expect(memcmp(text, wanted.at, wanted.len) == 0, &it, "another text is wanted");
                free(text);
                expect(blocks == held && allowed > 2, &it, "memory is kept");
                break;
            }
            expect(number == MYSQL_PARAMS_OUT_OF_MEMORY && text == NULL, &it, "out of memory is wanted");
            expect(report.len == 0 && report.byte == 0, &it, "an empty report is wanted");
            expect(blocks == held, &it, "memory is kept");
        }
        clear_bytes(&value);
        clear_bytes(&wanted);
    }
    expect(blocks == before, &it, "memory is kept");
}

/* What mysql_params_bind_form is refused for, and a form in room, which it leaves. */
static void texts_that_are_refused(void)
{
    test_case it = {0};
    uint8_t room[8];
    char *text = NULL;
    mysql_params_report report = {0};
    mysql_params_form form = mysql_params_form_in(room, sizeof room);
    expect(bind_grown(&form, "x", &text, &report) == MYSQL_PARAMS_OUT_OF_MEMORY, &it, "a cut form is bound");
    mysql_params_form_free(&form);
    expect(form.needed == 19 && form.room == room, &it, "the form in room is changed");
    form = mysql_params_form_growing();
    const uint8_t query[] = "SELECT :id";
    int32_t number = mysql_params_bind_form(query, sizeof query - 1, &form, false, &text, &report);
    expect(number == MYSQL_PARAMS_MISSING && report.position == 8 && report.len == 2, &it, "a name is missing");
    expect(text == NULL, &it, "a refusal has a text");
    mysql_params_append_double(&form, "id", 1.5);
    number = mysql_params_bind_form(query, sizeof query - 1, &form, true, &text, &report);
    expect(number == MYSQL_PARAMS_FLOAT && text == NULL, &it, "a float is bound");
    mysql_params_form_free(&form);
}

/* Whether the calls that bind values refuse the last of two named parameters as a float, and write nothing. */
static bool refused_as_float(const uint8_t *query, size_t query_len, const mysql_params_form *form)
{
    uint8_t room[64];
    mysql_params_report reports[4] = {{0}};
    mysql_params_rows done = {0};
    mysql_params_form rows = mysql_params_form_growing();
    memset(room, UNTOUCHED, sizeof room);
    mysql_params_append_row(&rows, form);
    const int32_t numbers[] = {
        mysql_params_bind(query, query_len, form->room, form->len, false, room, sizeof room, &reports[0]),
        mysql_params_bind_anywhere(query, query_len, form->room, form->len, room, sizeof room, &reports[1]),
        mysql_params_bind_in_both_modes(query, query_len, form->room, form->len, room, sizeof room, &reports[2]),
        mysql_params_bind_rows(query, query_len, rows.room, rows.len, false, room, sizeof room, &done, &reports[3]),
    };
    mysql_params_form_free(&rows);
    bool refused = is_untouched(room, 0, sizeof room);
    for (size_t i = 0; i < 4; i++)
        refused = refused && numbers[i] == MYSQL_PARAMS_FLOAT && reports[i].place == 1;
    return refused;
}

/* What the calls that bind fragments write of floats; a NaN and an infinity have no number. All other calls refuse each. */
static void floats(void)
{
    static const uint8_t query[] = ":id; :x";
    static const struct {
        bool is_float;
        double number;
        const char *text;
    } wanted[] = {
        {false, 1.5, "7; 1.5e0"},
        {false, -0.0, "7; -0.0e0"},
        {false, 5e-324, "7; 5e-324"},
        {false, 0.1, "7; 0.1e0"},
        {true, 0.1, "7; 0.10000000149011612e0"},
        {true, -3.5, "7; -3.5e0"},
        {false, NAN, NULL},
        {false, -INFINITY, NULL},
        {true, INFINITY, NULL},
    };
    for (size_t i = 0; i < sizeof wanted / sizeof wanted[0]; i++) {
        test_case it = {0};
        it.line = (int)i;
        mysql_params_form form = mysql_params_form_growing();
        mysql_params_append_int(&form, "id", 7);
        if (wanted[i].is_float)
            mysql_params_append_float(&form, "x", (float)wanted[i].number);
        else
            mysql_params_append_double(&form, "x", wanted[i].number);
        for (int anywhere = 0; anywhere < 2; anywhere++) {
            char *text = NULL;
            mysql_params_report report = {0};
            int32_t number =
                anywhere ? mysql_params_bind_fragments_anywhere_form(query, sizeof query - 1, &form, &text, &report) :
                           mysql_params_bind_fragments_form(query, sizeof query - 1, &form, true, &text, &report);
            if (wanted[i].text == NULL)
                expect(number == MYSQL_PARAMS_FLOAT && report.place == 1 && text == NULL, &it, "it isn't finite");
            else
                expect(number == MYSQL_PARAMS_DONE && strcmp(text, wanted[i].text) == 0, &it, "another text is wanted");
            free(text);
        }
        expect(refused_as_float(query, sizeof query - 1, &form), &it, "a call that binds values binds a float");
        mysql_params_form_free(&form);
    }
}

/* Appends a list of numbers, and rows of one item each. */
static bool append_lists(mysql_params_form *form, int64_t count)
{
    mysql_params_begin_list(form, "ids");
    for (int64_t i = 0; i < count; i++)
        mysql_params_append_int(form, "no name in a list", i);
    mysql_params_end_list(form);
    mysql_params_begin_rows(form, "rows");
    for (int64_t i = 0; i < count; i++) {
        mysql_params_begin_row(form);
        mysql_params_append_decimal(form, NULL, "0.5");
        mysql_params_end_row(form);
    }
    return mysql_params_end_rows(form);
}

/* A form that grows has the text of its lists; one in each shorter room takes them not, and counts what they need. */
static void forms_of_lists(void)
{
    static const uint8_t query[] = ":ids; :rows";
    test_case it = {0};
    char *text = NULL;
    mysql_params_report report = {0};
    mysql_params_form form = mysql_params_form_growing();
    expect(append_lists(&form, 3), &it, "lists don't fit a form that grows");
    int32_t number = mysql_params_bind_fragments_form(query, sizeof query - 1, &form, false, &text, &report);
    expect(number == MYSQL_PARAMS_DONE && strcmp(text, "0, 1, 2; (0.5), (0.5), (0.5)") == 0, &it, "another text is wanted");
    free(text);
    for (size_t len = 0; len < form.len; len++) {
        uint8_t room[256];
        it.line = (int)len;
        memset(room, UNTOUCHED, sizeof room);
        mysql_params_form cut = mysql_params_form_in(room, len);
        expect(!append_lists(&cut, 3) && cut.needed == form.needed && cut.len <= len, &it, "another need is wanted");
        expect(is_untouched(room, cut.written, sizeof room), &it, "the room is written after what fits");
        number = mysql_params_bind_fragments_form(query, sizeof query - 1, &cut, false, &text, &report);
        expect(number == MYSQL_PARAMS_OUT_OF_MEMORY && text == NULL, &it, "a cut form is bound");
    }
    number = mysql_params_bind_fragments_anywhere_form(query, sizeof query - 1, &form, &text, &report);
    expect(number == MYSQL_PARAMS_DONE && strcmp(text, "0, 1, 2; (0.5), (0.5), (0.5)") == 0, &it, "another steady text");
    free(text);
    mysql_params_form_free(&form);
    append_lists(&form, 40000);
    number = mysql_params_bind_fragments_form(query, sizeof query - 1, &form, false, &text, &report);
    expect(number == MYSQL_PARAMS_DONE && strncmp(text, "0, 1, 2, 3", 10) == 0, &it, "a long list is wanted");
    free(text);
    mysql_params_form_free(&form);
    form = mysql_params_form_growing();
    mysql_params_append_identifier(&form, "ids", "a\0b");
    mysql_params_append_keyword(&form, "rows", "LOCK IN SHARE MODE");
    number = mysql_params_bind_fragments_form(query, sizeof query - 1, &form, false, &text, &report);
    expect(number == MYSQL_PARAMS_DONE && strcmp(text, "`a`; LOCK IN SHARE MODE") == 0, &it, "a keyword is wanted");
    free(text);
    /* Such a form isn't one of values. */
    number = mysql_params_bind_form(query, sizeof query - 1, &form, false, &text, &report);
    expect(number == MYSQL_PARAMS_FORM_TYPE && report.byte == 131, &it, "an identifier is a value");
    mysql_params_form_free(&form);
}

/* Tries a call of the query `(?)` with a form, which is bound as a text, or refused for a type if there is none. */
static void try_type(const uint8_t *form, size_t form_len, const char *text, uint8_t type)
{
    test_case it = {0};
    it.line = form[1];
    append_bytes(&it.query, "IN (?)", 6);
    append_bytes(&it.form, form, form_len);
    append_bytes(&it.answer, text, strlen(text));
    it.report.len = it.answer.len;
    if (it.answer.len == 0) {
        it.number = MYSQL_PARAMS_FORM_TYPE;
        it.report.byte = type;
    }
    try_rooms(&it);
    clear_bytes(&it.query);
    clear_bytes(&it.form);
    clear_bytes(&it.answer);
}

/* The types of implicit lists and rows, in forms written by hand from mysql_params.h: calls of values take neither, and no list
 * has one in it. */
static void implicit_types(void)
{
    static const uint8_t list[] = {0, 136, 0, 2, 0, 0, 0, 6, 0, 6, 0}; /* two times NULL */
    static const uint8_t rows[] = {0, 137, 255, 1, 0, 0, 0, 1, 0, 0, 0, 6, 0};
    static const uint8_t list_in_list[] = {0, 129, 0, 1, 0, 0, 0, 136, 0, 1, 0, 0, 0, 6, 0};
    static const uint8_t rows_in_list[] = {0, 136, 0, 1, 0, 0, 0, 137, 0, 1, 0, 0, 0, 1, 0, 0, 0, 6, 0};
    static const uint8_t next_type[] = {0, 138, 0, 1, 0, 0, 0, 6, 0};
    tried = BIND;
    try_type(list, sizeof list, "", 136);
    try_type(rows, sizeof rows, "", 137);
    tried = BIND_FRAGMENTS;
    try_type(list, sizeof list, "IN (NULL, NULL)", 0);
    try_type(rows, sizeof rows, "IN ((NULL))", 0);
    try_type(list_in_list, sizeof list_in_list, "", 136);
    try_type(rows_in_list, sizeof rows_in_list, "", 137);
    try_type(next_type, sizeof next_type, "", 138);
}

/* Identifiers and assignments in their form, of which some columns have a table; written by hand from mysql_params.h. */
static const uint8_t columns_form[] = {
    7, 'c', 'o', 'l', 'u', 'm', 'n', 's', 134, 0, 2, 0, 0, 0, /* two identifiers */
    1, 0, 0, 0, 1, 'a',                                       /* a */
    2, 0, 0, 0, 1, 't', 1, 'b',                               /* t.b */
    3, 's', 'e', 't', 135, 0, 3, 0, 0, 0,                     /* three assignments */
    1, 0, 0, 0, 1, 'a', 8, 0, 1, 0, 0, 0, 0, 0, 0, 0,         /* a: the number 1 in 8 bytes */
    2, 0, 0, 0, 1, 't', 1, 'b', 253, 0, 1, 'x',               /* t.b: a string */
    1, 0, 0, 0, 1, 'c', 128, 0, 5, '-', '1', '.', '5', '0'};  /* c: an exact number */
enum { COLUMNS_END = 28 };                                    /* where the second parameter begins */

/* Appends them. */
static bool append_columns(mysql_params_form *form)
{
    static const char *const column_b[] = {"t", "b"};
    mysql_params_begin_identifiers(form, "columns");
    mysql_params_append_identifier(form, "no name of an identifier", "a");
    mysql_params_append_qualified(form, NULL, column_b, 2);
    mysql_params_end_identifiers(form);
    mysql_params_begin_assignments(form, "set");
    mysql_params_append_int(form, "a", 1);
    mysql_params_begin_assignment(form, column_b, 2);
    mysql_params_append_text(form, "no name beside the column's", "x");
    mysql_params_append_decimal(form, "c", "-1.50");
    return mysql_params_end_assignments(form);
}

/* They have the form that is written by hand, in room enough; in each shorter room they aren't bound. A form that is cut ends
 * within a parameter. */
static void forms_of_assignments(void)
{
    static const uint8_t query[] = ":columns; :set";
    static const char *const wanted = "`a`, `t`.`b`; `a` = 1, `t`.`b` = 'x', `c` = -1.50";
    enum { LEN = sizeof columns_form };
    test_case it = {0};
    char *text = NULL;
    mysql_params_report report = {0};
    mysql_params_form form = mysql_params_form_growing();
    expect(append_columns(&form) && form.len == LEN && form.needed == LEN, &it, "another length is wanted");
    expect(memcmp(form.room, columns_form, LEN) == 0, &it, "another form is wanted");
    int32_t number = mysql_params_bind_fragments_form(query, sizeof query - 1, &form, false, &text, &report);
    expect(number == MYSQL_PARAMS_DONE && strcmp(text, wanted) == 0, &it, "another text is wanted");
    free(text);
    for (size_t len = 0; len < LEN; len++) {
        uint8_t room[LEN], answer[128];
        it.line = (int)len;
        memset(room, UNTOUCHED, sizeof room);
        mysql_params_form cut = mysql_params_form_in(room, len);
        expect(!append_columns(&cut) && cut.needed == LEN && cut.len <= len, &it, "another need is wanted");
        expect(is_untouched(room, cut.written, sizeof room), &it, "the room is written after what fits");
        expect(cut.len == (len < COLUMNS_END ? 0 : COLUMNS_END), &it, "a part of a parameter is in the form");
        number = mysql_params_bind_fragments_form(query, sizeof query - 1, &cut, false, &text, &report);
        expect(number == MYSQL_PARAMS_OUT_OF_MEMORY && text == NULL, &it, "a cut form is bound");
        uint8_t *exact = exact_copy((bytes){(uint8_t *)columns_form, len});
        memset(answer, UNTOUCHED, sizeof answer);
        number = mysql_params_bind_fragments(query, sizeof query - 1, exact, len, false, answer, sizeof answer, &report);
        free(exact);
        size_t place = len < COLUMNS_END ? 0 : 1, position = place * COLUMNS_END;
        bool ends = len != 0 && len != COLUMNS_END;
        expect(number == (ends ? MYSQL_PARAMS_FORM_END : len == 0 ? MYSQL_PARAMS_POSITIONAL_FOR_NAMED : MYSQL_PARAMS_MISSING),
               &it, "another refusal is wanted");
        expect(!ends || (report.place == place && report.position == position), &it, "another parameter is wanted");
        expect(is_untouched(answer, 0, sizeof answer), &it, "a refusal writes");
    }
    number = mysql_params_bind_form(query, sizeof query - 1, &form, false, &text, &report);
    expect(number == MYSQL_PARAMS_FORM_TYPE && report.byte == 134, &it, "identifiers are a value");
    mysql_params_form_free(&form);
}

/* Appends what can't stand in identifiers, assignments or a list, by its number; false if there is no more. */
static bool append_misplaced(mysql_params_form *form, int which)
{
    static const char *const column_b[] = {"t", "b"};
    if (which < 6)
        mysql_params_begin_identifiers(form, NULL);
    else if (which < 14 || which > 17)
        mysql_params_begin_assignments(form, NULL);
    else if (which > 14)
        mysql_params_begin_list(form, NULL);
    switch (which) {
    case 0: return mysql_params_append_int(form, NULL, 1), true;
    case 1: return mysql_params_append_text(form, NULL, "x"), true;
    case 2: return mysql_params_append_keyword(form, NULL, "DEFAULT"), true;
    case 3: return mysql_params_begin_list(form, NULL), true;
    case 4: return mysql_params_begin_identifiers(form, NULL), true;
    case 5: return mysql_params_begin_assignment(form, column_b, 2), true;
    case 6: return mysql_params_append_identifier(form, "a", "b"), true;
    case 7: return mysql_params_append_qualified(form, "a", column_b, 2), true;
    case 8: return mysql_params_append_keyword(form, "a", "DEFAULT"), true;
    case 9: return mysql_params_begin_list(form, "a"), true;
    case 10: return mysql_params_begin_rows(form, "a"), true;
    case 11: return mysql_params_begin_assignments(form, "a"), true;
    case 12: /* a column without an item, and another */
        mysql_params_begin_assignment(form, column_b, 2);
        return mysql_params_begin_assignment(form, column_b, 2), true;
    case 13: return mysql_params_begin_assignment(form, column_b, 2), true;
    case 14: return mysql_params_begin_assignment(form, column_b, 2), true;
    case 15: return mysql_params_begin_list(form, NULL), true;
    case 16: return mysql_params_begin_identifiers(form, NULL), true;
    case 17: return mysql_params_begin_rows(form, NULL), true;
    default: return false;
    }
}

/* What can't stand there makes a form that isn't bound, whatever is appended after it. */
static void misplaced_parameters(void)
{
    test_case it = {0};
    for (int which = 0;; which++) {
        char *text = NULL;
        mysql_params_report report = {0};
        mysql_params_form form = mysql_params_form_growing();
        it.line = which;
        bool is_any = append_misplaced(&form, which);
        bool ends = mysql_params_end_assignments(&form);
        expect(ends == !is_any && (form.needed == SIZE_MAX) == is_any, &it, "it is appended");
        expect(!is_any || !mysql_params_append_null(&form, NULL), &it, "something is appended after it");
        int32_t number = mysql_params_bind_fragments_form((const uint8_t *)"?", 1, &form, false, &text, &report);
        expect(number == (is_any ? MYSQL_PARAMS_OUT_OF_MEMORY : MYSQL_PARAMS_FAULT), &it, "it is bound");
        mysql_params_form_free(&form);
        if (!is_any)
            break;
    }
}

/* Appends assignments that can't be written, by their number, and what they are refused for; false if there is no more. */
static bool append_faulty(mysql_params_form *form, int which, mysql_params_report *wanted)
{
    static const char *const names[] = {"t", "b", ""};
    mysql_params_begin_assignments(form, NULL);
    mysql_params_append_decimal(form, "a", which == 3 ? "1e5" : "1.5");
    wanted->byte = MYSQL_PARAMS_FAULT_NUMBER;
    switch (which) {
    case 0: /* the second number has two points */
        mysql_params_begin_assignment(form, names, 2);
        mysql_params_append_decimal(form, NULL, "1.2.3");
        wanted->values = 1;
        break;
    case 1: /* the column goes before its item */
        mysql_params_begin_assignment(form, names, 3);
        mysql_params_append_decimal(form, NULL, "");
        wanted->byte = MYSQL_PARAMS_FAULT_EMPTY_NAME;
        wanted->values = 3;
        break;
    case 2: /* a column without names, and before it two */
        mysql_params_append_null(form, "b");
        mysql_params_begin_assignment(form, names, 0);
        mysql_params_append_null(form, NULL);
        wanted->byte = MYSQL_PARAMS_FAULT_EMPTY;
        break;
    case 3: /* an item goes before the next column */
        mysql_params_append_null(form, NULL);
        wanted->values = 0;
        break;
    default:
        return false;
    }
    return mysql_params_end_assignments(form);
}

/* Faults of assignments that the cases of all languages don't have. */
static void faults_of_assignments(void)
{
    test_case it = {0};
    for (int which = 0;; which++) {
        char *text = NULL;
        mysql_params_report report = {9, 9, 9, 9, 9, 9}, wanted = {0};
        mysql_params_form form = mysql_params_form_growing();
        it.line = which;
        bool is_any = append_faulty(&form, which, &wanted);
        if (is_any) {
            int32_t number = mysql_params_bind_fragments_form((const uint8_t *)"?", 1, &form, false, &text, &report);
            expect(number == MYSQL_PARAMS_FAULT && same_report(&report, &wanted), &it, "another refusal is wanted");
        }
        mysql_params_form_free(&form);
        if (!is_any)
            break;
    }
}

/* A query, and the table that RULES gives it. */
static const uint8_t tabled_query[] = "SELECT :id, :name, x:id";
static const mysql_params_table_head tabled_head = {3, 0, 1, 2, 20, 12};
static const mysql_params_place tabled_places[] = {{7, 3}, {2, 5}, {3, 3}};
enum { TABLED_LEN = sizeof tabled_query - 1, TABLED_PLACES = 3 };

/* The table of a query stands in a room that is long enough; a shorter one is told how many places there are, and is as
 * before. */
static void tables(void)
{
    test_case it = {0};
    for (size_t room_len = 0; room_len <= TABLED_PLACES + 1; room_len++) {
        mysql_params_place room[TABLED_PLACES + 1], untouched = {9, 9};
        mysql_params_table_head head = {9, 9, 9, 9, 9, 9}, before = head;
        mysql_params_report report = {9, 9, 9, 9, 9, 9}, wanted = {TABLED_PLACES, 0, 0, 0, 0, 0};
        it.line = (int)room_len;
        for (size_t i = 0; i <= TABLED_PLACES; i++)
            room[i] = untouched;
        int32_t number = mysql_params_table(tabled_query, TABLED_LEN, false, &head, room, room_len, &report);
        bool fits = room_len >= TABLED_PLACES;
        expect(number == (fits ? MYSQL_PARAMS_DONE : MYSQL_PARAMS_ROOM), &it, "another number is wanted");
        expect(same_report(&report, &wanted), &it, "the number of places is wanted");
        expect(memcmp(&head, fits ? &tabled_head : &before, sizeof head) == 0, &it, "another head is wanted");
        for (size_t i = 0; i <= TABLED_PLACES; i++)
            expect(memcmp(&room[i], fits && i < TABLED_PLACES ? &tabled_places[i] : &untouched, sizeof untouched) == 0, &it,
                   "another place is wanted");
    }
}

/* Binds by a table in blocks of exactly their length. */
static outcome bind_by_table(const uint8_t *query, size_t query_len, const mysql_params_table_head *head,
                             const mysql_params_place *places, size_t places_len, size_t room_len)
{
    static const uint8_t form[] = {2, 'i', 'd', 8, 0, 1, 0, 0, 0, 0, 0, 0, 0, 4, 'n', 'a', 'm', 'e', 253, 0, 1, 'x'};
    outcome is = {-1, {9, 9, 9, 9, 9, 9}, malloc(room_len > 0 ? room_len : 1), room_len};
    uint8_t *copy = exact_copy((bytes){(uint8_t *)query, query_len});
    mysql_params_place *table = malloc(places_len > 0 ? places_len * sizeof *table : 1);
    if (is.room == NULL || table == NULL)
        exit(2);
    memset(is.room, UNTOUCHED, room_len > 0 ? room_len : 1);
    if (places_len > 0)
        memcpy(table, places, places_len * sizeof *table);
    is.number = mysql_params_bind_template(copy, query_len, head, table, places_len, form, sizeof form, false, is.room,
                                           room_len, &is.report);
    free(copy);
    free(table);
    return is;
}

/* Tables that the query can't have are told, and those that it could have give something within the room. */
static void other_tables(void)
{
    static const uint8_t alone[] = "SELECT :id, :name, x :id";
    static const char *const text = "SELECT 1, 'x', x 1";
    mysql_params_table_head head = {3, 0, 0, 0, 0, 13}, others[5];
    mysql_params_place places[] = {{7, 3}, {2, 5}, {4, 3}};
    test_case it = {0};
    outcome is = bind_by_table(alone, sizeof alone - 1, &head, places, 3, 18);
    expect(is.number == MYSQL_PARAMS_DONE && is.report.len == 18 && memcmp(is.room, text, 18) == 0, &it, "a text is wanted");
    free(is.room);
    for (size_t i = 0; i < 5; i++)
        others[i] = head;
    others[0].names = 2;
    others[1].marks = 1;
    others[2].piece_bytes = 12;
    others[3].names = SIZE_MAX;
    others[4].marks = SIZE_MAX - 2;
    for (size_t i = 0; i < 5; i++) {
        is = bind_by_table(alone, sizeof alone - 1, &others[i], places, 3, 64);
        it.line = (int)i;
        expect(is.number == MYSQL_PARAMS_OTHER_TABLE && is.report.len == 0, &it, "another table's head is bound by");
        expect(is_untouched(is.room, 0, 64), &it, "the room is written");
        free(is.room);
    }
    static const size_t numbers[] = {0, 1, 2, 3, 5, 7, 23, 24, 25, SIZE_MAX, SIZE_MAX - 1, SIZE_MAX / 2};
    for (size_t i = 0; i < 6 * 12 * 12; i++) {
        mysql_params_place table[3] = {{7, 3}, {2, 5}, {4, 3}};
        size_t *numbered = i % 2 == 0 ? &table[i / 2 % 3].before : &table[i / 2 % 3].len;
        *numbered = numbers[i / 6 % 12];
        table[2].len = i / 72 < 3 ? table[2].len : numbers[i / 72 % 12];
        it.line = (int)i;
        is = bind_by_table(alone, sizeof alone - 1, &head, table, 3, 18);
        bool same = memcmp(table, places, sizeof table) == 0;
        expect(!same || is.number == MYSQL_PARAMS_DONE, &it, "the own table is refused");
        expect(is.number == MYSQL_PARAMS_DONE || is_untouched(is.room, 0, 18), &it, "a refusal writes");
        free(is.room);
    }
    /* A table of as many places and bytes, of which one isn't a name of the query. */
    mysql_params_place shifted[] = {{6, 3}, {3, 5}, {4, 3}};
    is = bind_by_table(alone, sizeof alone - 1, &head, shifted, 3, 64);
    expect(is.number == MYSQL_PARAMS_OTHER_TABLE, &it, "a name that the query doesn't have is told");
    free(is.room);
}

/* A template that gets no memory, and one whose text stands in memory of malloc. */
static void templates_in_memory(void)
{
    static const uint8_t query[] = "SELECT :id, :a";
    test_case it = {0};
    long before = blocks;
    for (long allowed = 0;; allowed++) {
        allocations_left = allowed;
        allocation_refused = false;
        mysql_params_template *made = mysql_params_template_new(query, sizeof query - 1, false);
        allocations_left = ALL;
        expect((made == NULL) == allocation_refused, &it, "memory is refused, or there is a template");
        if (made == NULL) {
            expect(blocks == before, &it, "memory is kept");
            continue;
        }
        size_t query_len = 0;
        const uint8_t *owned = mysql_params_template_query(made, &query_len);
        expect(owned != query && query_len == sizeof query - 1 && memcmp(owned, query, query_len) == 0, &it,
               "it doesn't own the query");
        for (int round = 0; round < 2; round++) {
            char *text = NULL;
            mysql_params_report report = {9, 9, 9, 9, 9, 9};
            mysql_params_form form = mysql_params_form_growing();
            mysql_params_append_int(&form, "id", 42);
            mysql_params_append_text(&form, "a", round == 0 ? "x" : "it's");
            const char *wanted = round == 0 ? "SELECT 42, 'x'" : "SELECT 42, 'it\\'s'";
            int32_t number = mysql_params_template_bind_form(made, &form, &text, &report);
            expect(number == MYSQL_PARAMS_DONE && report.len == strlen(wanted) && strcmp(text, wanted) == 0, &it,
                   "another text is wanted");
            free(text);
            mysql_params_form_free(&form);
        }
        mysql_params_template_free(made);
        break;
    }
    mysql_params_template_free(NULL);
    expect(blocks == before, &it, "memory is kept");
}

/* Answers that end within a string, or begin with no length. */
static void broken_answers(void)
{
    static const uint8_t broken[][4] = {{2, 'a'}, {0xFB, 0}, {0xFF, 0}, {0xFC, 1}, {0xFD, 0}, {0xFE, 0}, {0xFC, 1, 0}};
    static const size_t lengths[] = {2, 2, 2, 2, 2, 2, 3};
    for (size_t i = 0; i < sizeof lengths / sizeof lengths[0]; i++) {
        const uint8_t *answer = broken[i];
        size_t left = lengths[i];
        mysql_params_string string = {NULL, 0};
        test_case it = {0};
        it.line = (int)i;
        expect(!mysql_params_next_string(&answer, &left, &string), &it, "a broken answer is taken apart");
        expect(answer == broken[i] && left == lengths[i] && string.bytes == NULL, &it, "a refusal changes something");
    }
}

/* A message is cut to the line, with a zero byte at its end. */
static void cut_messages(void)
{
    const char *whole = "Float at place 7";
    mysql_params_report report = {0};
    report.place = 7;
    for (size_t line_len = 0; line_len < 20; line_len++) {
        char line[20];
        test_case it = {0};
        it.line = (int)line_len;
        memset(line, UNTOUCHED, sizeof line);
        size_t len = mysql_params_message(MYSQL_PARAMS_FLOAT, &report, NULL, 0, line, line_len);
        size_t shown = line_len == 0 ? 0 : len < line_len ? len : line_len - 1;
        expect(len == strlen(whole), &it, "another length is wanted");
        expect(memcmp(line, whole, shown) == 0 && (line_len == 0 || line[shown] == '\0'), &it, "another line is wanted");
        for (size_t i = line_len; i < sizeof line; i++)
            expect((uint8_t)line[i] == UNTOUCHED, &it, "the memory after the line is written");
    }
}

/* Messages of numbers that no case has, and of a name that isn't in what it is said to stand in. */
static void other_messages(void)
{
    static const struct {
        int32_t number;
        const char *message;
    } wanted[] = {
        {MYSQL_PARAMS_DONE, "done: 7 bytes"},
        {MYSQL_PARAMS_OUT_OF_MEMORY, "out of memory"},
        {MYSQL_PARAMS_ROOM, "The answer needs room for 7 bytes"},
        {MYSQL_PARAMS_MISSING, "Missing named parameter `` for statement"},
        {MYSQL_PARAMS_UNPORTABLE, "Not portable at byte 0 of the query: unknown construct"},
        {MYSQL_PARAMS_FAULT, "Fragment at place 0 can't be written: unknown fault"},
        {MYSQL_PARAMS_BACKSLASH, "Backslash in a string at byte 0 of the query"},
        {MYSQL_PARAMS_UNSTEADY_FRAGMENT, "Fragment at place 0 has a name with a backslash or a byte that is not ASCII"},
        {MYSQL_PARAMS_OTHER_TABLE, "The table is that of another query"},
        {MYSQL_PARAMS_UNBRACKETED, "`:a` is one value here, and was given a list: write it alone in brackets, as "
                                   "`IN (:a)`, or say by type 129 or 130 that several are meant"},
        {MYSQL_PARAMS_UNBRACKETED + 1, "Unknown number 22"},
        {-1, "Unknown number -1"},
    };
    mysql_params_report report = {0};
    report.len = 7;
    for (size_t i = 0; i < sizeof wanted / sizeof wanted[0]; i++) {
        char line[160];
        test_case it = {0};
        it.line = (int)i;
        mysql_params_message(wanted[i].number, &report, (const uint8_t *)":a", 2, line, sizeof line);
        expect(strcmp(line, wanted[i].message) == 0, &it, line);
    }
    test_case it = {0};
    char line[160];
    mysql_params_message(MYSQL_PARAMS_UNBRACKETED, &report, NULL, 0, line, sizeof line);
    expect(strncmp(line, "`?` at byte 0 is one value here", 31) == 0, &it, line);
}

/* What is said of a place that doesn't stand alone: of one beside a point what to write instead. */
static void messages_of_neighbours(void)
{
    static const struct {
        const char *query;
        size_t position;
        const char *more; /* after the first words */
    } wanted[] = {
        {"b.:c", 2, ": for a name with a point write one place, and give an identifier of two names"},
        {":b.c", 0, ": for a name with a point write one place, and give an identifier of two names"},
        {"?.c", 0, ": for a name with a point write one place, and give an identifier of two names"},
        {"b.:Ab", 2, ": names are of a to z, 0 to 9 and _, so `:Ab` is none"},
        {"1?", 1, ""},
        {". :a", 2, ""},
        {":a .", 0, ""},
        {"?", 0, ""},
    };
    for (size_t i = 0; i < sizeof wanted / sizeof wanted[0]; i++) {
        size_t len = strlen(wanted[i].query);
        uint8_t *query = exact_copy((bytes){(uint8_t *)wanted[i].query, len});
        char line[160];
        char whole[160];
        test_case it = {0};
        it.line = (int)i;
        mysql_params_report report = {0};
        report.position = wanted[i].position;
        snprintf(whole, sizeof whole, "Place 0 at byte %zu does not stand alone%s", report.position, wanted[i].more);
        mysql_params_message(MYSQL_PARAMS_NOT_ALONE, &report, query, len, line, sizeof line);
        expect(strcmp(line, whole) == 0, &it, line);
        free(query);
    }
}

/* What is said of a letter beside a name reads no byte outside the query, wherever the report points. */
static void words_of_cut_queries(void)
{
    static const size_t positions[] = {0, 1, 2, 3, 4, SIZE_MAX - 1, SIZE_MAX};
    static const int32_t numbers[] = {MYSQL_PARAMS_MISSING, MYSQL_PARAMS_NOT_ALONE, MYSQL_PARAMS_NAMED_FOR_POSITIONAL,
                                      MYSQL_PARAMS_UNBRACKETED};
    for (size_t len = 0; len <= 3; len++) {
        uint8_t *query = exact_copy((bytes){(uint8_t *)":aB", len});
        for (size_t i = 0; i < 7 * 4; i++) {
            char line[128];
            int32_t number = numbers[i % 4];
            test_case it = {0};
            it.line = (int)(100 * len + i);
            mysql_params_report report = {0};
            report.position = positions[i / 4];
            mysql_params_message(number, &report, query, len, line, sizeof line);
            bool of_place = number == MYSQL_PARAMS_NOT_ALONE && report.position == 0;
            bool of_name = number == MYSQL_PARAMS_MISSING && (report.position == 1 || report.position == 2);
            bool wanted = len == 3 && (of_place || of_name);
            expect((strstr(line, "names are of") != NULL) == wanted, &it, line);
            /* A wide name has the capital. */
            mysql_params_message_wide(number, &report, query, len, line, sizeof line);
            expect(strstr(line, "names are of") == NULL, &it, line);
        }
        free(query);
    }
}

static void the_processor(void)
{
    test_case it = {0};
    expect(mysql_params_processor_suffices(), &it, "it runs the archive, and doesn't suffice");
}

/* Each allocation of a call is refused once: then the answer is out of memory, and the room is as before. */
static void try_without_memory(const test_case *it)
{
    bool refused = true;
    for (long allocations = 0; refused; allocations++) {
        outcome is = call(it, it->answer.len + 7, allocations);
        refused = allocation_refused;
        if (is.number == MYSQL_PARAMS_OUT_OF_MEMORY) {
            mysql_params_report none = {0};
            expect(refused, it, "out of memory where none was refused");
            expect(same_report(&is.report, &none), it, "the report of out of memory isn't 0");
            expect(is_untouched(is.room, 0, is.room_len), it, "the room is written without memory");
        } else {
            expect(!refused, it, "a refused allocation is hidden");
            expect_outcome(it, &is);
        }
        free(is.room);
    }
}

/* All cases, with memory refused. */
static void without_memory(void)
{
    tried = BIND;
    each_of_all("bind.txt", try_without_memory);
    each_of_all("forms.txt", try_without_memory);
    tried = BIND_TEMPLATE;
    each_of_all("bind.txt", try_without_memory);
    each_of_all("forms.txt", try_without_memory);
    tried = BIND_FRAGMENTS;
    each_of_all("fragments.txt", try_without_memory);
    tried = BIND_FRAGMENTS_ANYWHERE;
    each_of_all("fragments_anywhere.txt", try_without_memory);
    tried = BIND_ANYWHERE;
    each_of_all("anywhere.txt", try_without_memory);
    tried = BIND_ANYWHERE_BY_TEMPLATE;
    each_of_all("anywhere.txt", try_without_memory);
    tried = BIND_IN_BOTH_MODES;
    each_of_all("both_modes.txt", try_without_memory);
    tried = NAMES;
    each_of_all("names.txt", try_without_memory);
}

static void out_of_memory(void)
{
    without_memory();
    by = &by_wide_names;
    without_memory();
    tried = BIND_ANYWHERE_BY_TABLE;
    each_of_all("anywhere.txt", try_without_memory);
    by = &by_grammar;
    /* No text is written without any memory. */
    uint8_t form[] = {0, 0xFD, 0, 1, 'x'}, query[] = {'?'};
    test_case it = {0};
    it.query = (bytes){query, sizeof query};
    it.form = (bytes){form, sizeof form};
    tried = BIND;
    outcome is = call(&it, 16, 0);
    expect(is.number == MYSQL_PARAMS_OUT_OF_MEMORY, &it, "a text is bound without memory");
    free(is.room);
}

static bool passed(const char *name, void (*test)(void))
{
    failures = 0;
    test();
    printf("test %s ... %s\n", name, failures == 0 ? "ok" : "FAILED");
    fflush(stdout);
    return failures == 0;
}

/* A backslash in either mode, as "Guarded binding" of docs/RULES.md has it. */
static void guarded_fragments(void)
{
    test_case it = {0};
    const uint8_t query[] = "= :Ab", form[] = "\2Ab\375\0\1\\";
    const char *const texts[] = {"= '\\\\'", "= _utf8mb4 0x5C"};
    for (int mode = 0; mode < 2; mode++) {
        uint8_t room[32];
        mysql_params_report report;
        const int32_t number = mysql_params_bind_fragments_guarded_wide(query, sizeof query - 1, form, sizeof form - 1, mode,
                                                                        room, sizeof room, &report);
        expect(number == MYSQL_PARAMS_DONE && report.len == strlen(texts[mode]) &&
               memcmp(room, texts[mode], report.len) == 0, &it, "another guarded text is wanted");
    }
}

/* A query, a form, and for each mode the number and text that a connection of it is sent. */
typedef struct sent_case {
    const char *query;
    const char *form;
    size_t form_len;
    bool has_fragments;
    int32_t numbers[2];
    const char *texts[2];
} sent_case;

#define FORM(bytes) bytes, sizeof(bytes) - 1

/* "Guarded binding" of docs/RULES.md, and "Binding" where a query or a name isn't ASCII without a backslash. */
static const sent_case sent_cases[] = {
    {"= :Ab", FORM("\2Ab\375\0\4it's"), false, {0, 0}, {"= 'it''s'", "= 'it''s'"}},
    {"= :Ab", FORM("\2Ab\375\0\1\\"), false, {0, 0}, {"= '\\\\'", "= _utf8mb4 0x5C"}},
    {"= ?", FORM("\0\375\0\3\303\251\\"), false, {0, 0}, {"= '\303\251' '\\\\'", "= _utf8mb4 0xC3A95C"}},
    {"'\303\251' = ?", FORM("\0\375\0\4it's"), false, {0, 0}, {"'\303\251' = 'it\\'s'", "'\303\251' = 'it''s'"}},
    {"'\\' = ?", FORM("\0\6\0"), false, {MYSQL_PARAMS_MARK_COUNT, 0}, {NULL, "'\\' = NULL"}},
    {"? = ?", FORM("\0\203\0\2\303\251\0\375\0\1'"), true, {0, 0}, {"`\303\251` = '\\''", "`\303\251` = ''''"}},
    {"? = ?", FORM("\0\203\0\1t\0\375\0\1'"), true, {0, 0}, {"`t` = ''''", "`t` = ''''"}},
    {"/*+ :a */", FORM("\1a\6\0"), false, {MYSQL_PARAMS_UNPORTABLE, MYSQL_PARAMS_UNPORTABLE}, {NULL, NULL}},
    {"'\303\251' /*+ :a */", FORM("\1a\6\0"), false, {MYSQL_PARAMS_UNPORTABLE, MYSQL_PARAMS_UNPORTABLE}, {NULL, NULL}},
    {":a", FORM("\1b\6\0"), false, {MYSQL_PARAMS_MISSING, MYSQL_PARAMS_MISSING}, {NULL, NULL}},
    {":a, 1:b", FORM("\1c\6\0"), false, {MYSQL_PARAMS_MISSING, MYSQL_PARAMS_MISSING}, {NULL, NULL}},
    {":a", FORM(""), false, {MYSQL_PARAMS_MISSING, MYSQL_PARAMS_MISSING}, {NULL, NULL}},
    {":a '\303\251'", FORM(""), false, {MYSQL_PARAMS_MISSING, MYSQL_PARAMS_MISSING}, {NULL, NULL}},
    {":a", FORM("\0\6\0"), false, {MYSQL_PARAMS_POSITIONAL_FOR_NAMED, MYSQL_PARAMS_POSITIONAL_FOR_NAMED}, {NULL, NULL}},
};

static void expect_sent(const test_case *it, const sent_case *sent, int mode, int32_t number, uint8_t *room,
                        const mysql_params_report *report)
{
    const char *text = sent->texts[mode];
    mysql_params_report own = {9, 9, 9, 9, 9, 9};
    expect(number == sent->numbers[mode], it, "another number is wanted");
    if (text != NULL)
        expect(report->len == strlen(text) && memcmp(room, text, report->len) == 0, it, "another text is wanted");
    else if (number != MYSQL_PARAMS_UNPORTABLE)
        expect(mysql_params_bind_wide((const uint8_t *)sent->query, strlen(sent->query), (const uint8_t *)sent->form,
                                      sent->form_len, mode, room, 64, &own) == number &&
                   same_report(report, &own),
               it, "the refusal of values is wanted");
    else
        expect(report->byte == MYSQL_PARAMS_HINT && report->position == (size_t)(strchr(sent->query, '/') - sent->query), it,
               "the hint is wanted");
}

/* What is sent over a connection, by the query and by templates made in either mode. */
static void texts_for_connections(void)
{
    for (size_t i = 0; i < sizeof sent_cases / sizeof *sent_cases; i++) {
        const sent_case *sent = &sent_cases[i];
        const uint8_t *query = (const uint8_t *)sent->query, *form = (const uint8_t *)sent->form;
        size_t len = strlen(sent->query);
        test_case it = {0};
        it.line = (int)i;
        for (int mode = 0; mode < 4; mode++) {
            uint8_t room[64] = {0};
            mysql_params_report report = {9, 9, 9, 9, 9, 9};
            mysql_params_template *made = mysql_params_template_new_wide(query, len, mode > 1);
            expect_sent(&it, sent, mode % 2,
                        mysql_params_bind_for_connection_wide(query, len, form, sent->form_len, sent->has_fragments, mode % 2,
                                                              room, sizeof room, &report),
                        room, &report);
            report = (mysql_params_report){9, 9, 9, 9, 9, 9};
            memset(room, 0, sizeof room);
            expect_sent(&it, sent, mode % 2,
                        mysql_params_template_bind_for_connection(made, form, sent->form_len, sent->has_fragments, mode % 2,
                                                                  room, sizeof room, &report),
                        room, &report);
            mysql_params_template_free(made);
        }
    }
}

/* Binding for a connection where memory is refused, and by a template of other names. */
static void refused_for_connections(void)
{
    static const uint8_t query[] = "'\303\251' /* */ = :Ab, :Ab", form[] = "\2Ab\375\0\4it's";
    static const char text[] = "'\303\251' /* */ = 'it\\'s', 'it\\'s'";
    test_case it = {0};
    long before = blocks;
    allocation_refused = true;
    for (long allowed = 0; allocation_refused; allowed++) {
        uint8_t room[sizeof text] = {0};
        mysql_params_report report = {9, 9, 9, 9, 9, 9};
        it.line = (int)allowed;
        allocations_left = allowed;
        allocation_refused = false;
        int32_t number = mysql_params_bind_for_connection_wide(query, sizeof query - 1, form, sizeof form - 1, false, false,
                                                               room, sizeof text - 1, &report);
        allocations_left = ALL;
        expect(blocks == before, &it, "memory isn't given back");
        expect(number == (allocation_refused ? MYSQL_PARAMS_OUT_OF_MEMORY : MYSQL_PARAMS_DONE), &it, "another number is wanted");
        expect(allocation_refused || (report.len == sizeof text - 1 && memcmp(room, text, sizeof text) == 0), &it,
               "another text is wanted");
    }
    uint8_t room[sizeof text] = {0};
    mysql_params_report report = {9, 9, 9, 9, 9, 9};
    mysql_params_template *made = mysql_params_template_new(query, sizeof query - 1, false);
    int32_t number = mysql_params_template_bind_for_connection(made, form, sizeof form - 1, false, false, room, sizeof room,
                                                               &report);
    expect(number == MYSQL_PARAMS_OTHER_TABLE && report.len == 0 && report.byte == 0, &it, "another template is bound");
    mysql_params_template_free(made);
}

int main(int count, char **words)
{
    if (count != 2) {
        fprintf(stderr, "usage: test CASES\n");
        return 2;
    }
    folder = words[1];
    bool all = passed("table_of_binding", table_of_binding);
    all &= passed("table_of_steady_binding", table_of_steady_binding);
    all &= passed("flat_forms", flat_forms);
    all &= passed("templates", templates);
    all &= passed("tables", tables);
    all &= passed("other_tables", other_tables);
    all &= passed("templates_in_memory", templates_in_memory);
    all &= passed("table_of_fragments", table_of_fragments);
    all &= passed("table_of_steady_fragments", table_of_steady_fragments);
    all &= passed("guarded_fragments", guarded_fragments);
    all &= passed("texts_for_connections", texts_for_connections);
    all &= passed("refused_for_connections", refused_for_connections);
    all &= passed("forms_of_lists", forms_of_lists);
    all &= passed("implicit_types", implicit_types);
    all &= passed("forms_of_assignments", forms_of_assignments);
    all &= passed("misplaced_parameters", misplaced_parameters);
    all &= passed("faults_of_assignments", faults_of_assignments);
    all &= passed("floats", floats);
    all &= passed("names_of_queries", names_of_queries);
    all &= passed("rows_of_queries", rows_of_queries);
    all &= passed("rows_of_templates", rows_of_templates);
    all &= passed("rows_in_growing_memory", rows_in_growing_memory);
    all &= passed("rows_that_are_cut", rows_that_are_cut);
    all &= passed("portable_queries", portable_queries);
    all &= passed("other_constructs", other_constructs);
    all &= passed("wide_names", wide_names);
    all &= passed("tables_by_wide_names", tables_by_wide_names);
    all &= passed("anywhere_by_a_table", anywhere_by_a_table);
    all &= passed("guarded_by_a_table", guarded_by_a_table);
    all &= passed("templates_without_a_test", templates_without_a_test);
    all &= passed("names_of_long_queries", names_of_long_queries);
    all &= passed("each_value_of_one_byte", each_value_of_one_byte);
    all &= passed("values_of_each_length", values_of_each_length);
    all &= passed("rooms_of_forms", rooms_of_forms);
    all &= passed("forms_without_memory", forms_without_memory);
    all &= passed("forms_that_grow", forms_that_grow);
    all &= passed("texts_that_are_refused", texts_that_are_refused);
    all &= passed("broken_answers", broken_answers);
    all &= passed("cut_messages", cut_messages);
    all &= passed("other_messages", other_messages);
    all &= passed("messages_of_neighbours", messages_of_neighbours);
    all &= passed("words_of_cut_queries", words_of_cut_queries);
    all &= passed("the_processor", the_processor);
    all &= passed("out_of_memory", out_of_memory);
    return all ? 0 : 1;
}
