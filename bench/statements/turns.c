/* Times the calls of two libraries by turns: turns OLD.so NEW.so CALLS. `calls` says what the file CALLS is.
 *
 * First each call is compared: its number, its report and what it wrote; it ends with 1 if one differs. Then all calls of a
 * function are made one after another, by one library and by the other, TURNS times; the medians count. Then some are
 * repeated, each by itself, for which the processor foresees every branch; the best of TURNS counts. */
#define _POSIX_C_SOURCE 199309L
#include "../../bindings/c/mysql_params.h"

#include <dlfcn.h>
#include <stdio.h>
#include <stdlib.h>
#include <string.h>
#include <time.h>

enum { TURNS = 9, REPEATED = 3000, FUNCTIONS = 10, TABLE = 1, ROWS = 9, HEAD = 10, ROOM = 8 << 20, PLACES = 1 << 19 };

static const char *const NAMES[FUNCTIONS] = {
    "names", "table", "first_unportable", "first_unportable_in_client", "bind", "bind_fragments", "bind_anywhere",
    "bind_in_both_modes", "bind_fragments_anywhere", "bind_rows"};

/* A function of the library, by its type. */
typedef union function {
    int32_t (*names)(const uint8_t *, size_t, bool, uint8_t *, size_t, mysql_params_report *);
    int32_t (*table)(const uint8_t *, size_t, bool, mysql_params_table_head *, mysql_params_place *, size_t,
                     mysql_params_report *);
    int32_t (*find)(const uint8_t *, size_t, bool, mysql_params_report *);
    int32_t (*bind)(const uint8_t *, size_t, const uint8_t *, size_t, bool, uint8_t *, size_t, mysql_params_report *);
    int32_t (*anywhere)(const uint8_t *, size_t, const uint8_t *, size_t, uint8_t *, size_t, mysql_params_report *);
    int32_t (*rows)(const uint8_t *, size_t, const uint8_t *, size_t, bool, uint8_t *, size_t, mysql_params_rows *,
                    mysql_params_report *);
    void *symbol;
} function;

typedef struct library {
    function functions[FUNCTIONS];
} library;

typedef struct call {
    uint8_t function;
    bool no_backslash_escape;
    const uint8_t *query, *form;
    uint32_t query_len, form_len;
} call;

/* What a call answers, beside what it writes into the room. */
typedef struct answer {
    int32_t number;
    mysql_params_report report;
    mysql_params_table_head head;
    mysql_params_rows rows;
} answer;

static uint8_t room[ROOM], other_room[ROOM];
static mysql_params_place places[PLACES];

static void stop(const char *what)
{
    fprintf(stderr, "turns: %s\n", what);
    exit(2);
}

static library load(const char *path)
{
    library it;
    void *opened = dlopen(path, RTLD_NOW | RTLD_LOCAL);
    if (opened == NULL)
        stop(dlerror());
    for (int i = 0; i < FUNCTIONS; i++) {
        char name[64];
        snprintf(name, sizeof name, "mysql_params_%s", NAMES[i]);
        it.functions[i].symbol = dlsym(opened, name);
        if (it.functions[i].symbol == NULL)
            stop(name);
    }
    return it;
}

/* Makes a call. */
static void run(const library *of, const call *it, answer *to)
{
    const function *by = &of->functions[it->function];
    bool mode = it->no_backslash_escape;
    switch (it->function) {
    case 0:
        to->number = by->names(it->query, it->query_len, mode, room, ROOM, &to->report);
        break;
    case TABLE:
        to->number = by->table(it->query, it->query_len, mode, &to->head, places, PLACES, &to->report);
        break;
    case 2:
    case 3:
        to->number = by->find(it->query, it->query_len, mode, &to->report);
        break;
    case 4:
    case 5:
        to->number = by->bind(it->query, it->query_len, it->form, it->form_len, mode, room, ROOM, &to->report);
        break;
    case ROWS:
        to->number = by->rows(it->query, it->query_len, it->form, it->form_len, mode, room, ROOM, &to->rows, &to->report);
        break;
    default:
        to->number = by->anywhere(it->query, it->query_len, it->form, it->form_len, room, ROOM, &to->report);
    }
}

/* How many bytes a call wrote. */
static size_t written_by(const call *it, const answer *answered)
{
    bool is_done = answered->number == MYSQL_PARAMS_DONE;
    switch (it->function) {
    case TABLE:
        return is_done ? (answered->head.names + answered->head.marks) * sizeof *places : 0;
    case 2:
    case 3:
        return 0;
    case ROWS:
        return answered->rows.written;
    default:
        return is_done ? answered->report.len : 0;
    }
}

/* Whether both libraries answer a call alike. What the first wrote is changed before the other writes, so that a byte which
 * that one leaves out differs. */
static bool is_equal(const library *sides, const call *it)
{
    answer one, other;
    memset(&one, 0, sizeof one);
    memset(&other, 0, sizeof other);
    uint8_t *to = it->function == TABLE ? (uint8_t *)places : room;
    run(&sides[0], it, &one);
    size_t written = written_by(it, &one);
    for (size_t i = 0; i < written; i++) {
        other_room[i] = to[i];
        to[i] ^= 0xFF;
    }
    run(&sides[1], it, &other);
    return memcmp(&one, &other, sizeof one) == 0 && memcmp(other_room, to, written) == 0;
}

static double seconds(void)
{
    struct timespec now;
    clock_gettime(CLOCK_MONOTONIC, &now);
    return (double)now.tv_sec + 1e-9 * (double)now.tv_nsec;
}

static double seconds_of(const library *of, const call *calls, size_t count, size_t times)
{
    answer ignored;
    double began = seconds();
    for (size_t turn = 0; turn < times; turn++)
        for (size_t i = 0; i < count; i++)
            run(of, &calls[i], &ignored);
    return seconds() - began;
}

static int compared(const void *one, const void *other)
{
    double left = *(const double *)one, right = *(const double *)other;
    return (left > right) - (left < right);
}

/* Times calls by turns, and leaves the times of both sides in order. */
static void take(const library *sides, const call *calls, size_t count, size_t times, double took[2][TURNS])
{
    for (int turn = 0; turn < TURNS; turn++)
        for (int i = 0; i < 2; i++) {
            int side = (i + turn) % 2;
            took[side][turn] = seconds_of(&sides[side], calls, count, times);
        }
    qsort(took[0], TURNS, sizeof(double), compared);
    qsort(took[1], TURNS, sizeof(double), compared);
}

/* How often calls are made for a time that a clock tells well. */
static size_t times_of(const library *sides, const call *calls, size_t count, double wanted)
{
    size_t times = 1;
    while (seconds_of(&sides[0], calls, count, times) < wanted)
        times *= 2;
    return times;
}

/* Prints a call that takes longer, if the environment asks for them: how its query begins and how its form ends. */
static void print_longer(const char *name, const call *it, double ratio)
{
    enum { SHOWN = 40 };
    uint32_t query = it->query_len < SHOWN ? it->query_len : SHOWN, form = it->form_len < SHOWN ? it->form_len : SHOWN;
    if (getenv("LONGER") != NULL)
        fprintf(stderr, "%.2f %s %u %u %.*s %.*s\n", ratio, name, it->query_len, it->form_len, (int)query, (const char *)it->query,
                (int)form, (const char *)it->form + (it->form_len - form));
}

/* Prints the row of a function: its calls, the ratio, and how many of those that are repeated take longer. */
static void print_row(const library *sides, const char *name, const call *calls, size_t count)
{
    double took[2][TURNS];
    take(sides, calls, count, times_of(sides, calls, count, 0.02), took);
    double ratio = took[0][TURNS / 2] / took[1][TURNS / 2];
    size_t step = (count + REPEATED - 1) / REPEATED, longer = 0, tried = 0;
    for (size_t i = 0; i < count; i += step, tried++) {
        take(sides, &calls[i], 1, times_of(sides, &calls[i], 1, 20e-6), took);
        if (took[1][0] > 1.3 * took[0][0]) {
            longer++;
            print_longer(name, &calls[i], took[1][0] / took[0][0]);
        }
    }
    printf("| `%s` | %zu | %.2f | %zu of %zu |\n", name, count, ratio, longer, tried);
}

/* Reads the next call. */
static call read_call(const uint8_t *at)
{
    call it = {.function = at[0], .no_backslash_escape = at[1] != 0, .query = at + HEAD};
    memcpy(&it.query_len, at + 2, 4);
    memcpy(&it.form_len, at + 6, 4);
    it.form = it.query + it.query_len;
    return it;
}

static uint8_t *read_file(const char *path, size_t *len)
{
    FILE *file = fopen(path, "rb");
    if (file == NULL || fseek(file, 0, SEEK_END) != 0)
        stop("the calls can't be read");
    *len = (size_t)ftell(file);
    rewind(file);
    uint8_t *bytes = malloc(*len + 1);
    if (bytes == NULL || fread(bytes, 1, *len, file) != *len)
        stop("the calls can't be read");
    fclose(file);
    return bytes;
}

int main(int count, char **words)
{
    if (count != 4)
        stop("usage: turns OLD.so NEW.so CALLS");
    const library sides[2] = {load(words[1]), load(words[2])};
    size_t len, calls = 0, differences = 0;
    uint8_t *bytes = read_file(words[3], &len);
    call *of_function = malloc((len / HEAD + 1) * sizeof(call));
    if (of_function == NULL)
        stop("out of memory");
    printf("| call | calls | start over now | repeated: over 1.3 of the start's time |\n|---|---:|---:|---:|\n");
    for (int function = 0; function < FUNCTIONS; function++) {
        size_t found = 0;
        for (size_t at = 0; at < len;) {
            call it = read_call(bytes + at);
            at += HEAD + (size_t)it.query_len + it.form_len;
            if (it.function == function)
                of_function[found++] = it;
        }
        for (size_t i = 0; i < found; i++)
            differences += !is_equal(sides, &of_function[i]);
        calls += found;
        if (found > 0)
            print_row(sides, NAMES[function], of_function, found);
        fflush(stdout);
    }
    printf("%zu calls compared, %zu differences\n", calls, differences);
    return differences > 0;
}
