/* Tests of where a part of a form may stand, by mysql_params_form.h.
 *
 * A call is a letter, and calls one after another are a word of letters. Whether such a word is well formed is told here by a
 * grammar over the word, which shares nothing with the functions under test, and what a form holds by a reader of its own. */
#include "mysql_params_form.h"

#include <stdio.h>
#include <stdlib.h>
#include <string.h>

/* The letters of values and exact numbers, of all that stands in a list, and of the names of identifiers. */
#define VALUES "nibdft"
#define ITEMS VALUES "eqk"
#define NAMES "eq"

/* All letters: a list, rows, a row, identifiers and assignments begin by a capital and end by the small letter, identifiers by
 * `y`; `c` begins an assignment, `F` appends a row to forms. */
static const char letters[] = ITEMS "LlRrWwIyAacF";

/* Room for each word, with the zero byte after it. */
enum { WORD_ROOM = 32 };

static int failures; /* of the test that runs */

static void expect(bool holds, const char *word, const char *what)
{
    if (holds)
        return;
    printf("    after %s: %s\n", word, what);
    failures++;
}

/* Bytes that are a parameter themselves: by position, a string of 4 bytes. */
static const uint8_t like_a_parameter[] = {0, 253, 0, 4, 'E', 'V', 'I', 'L'};

static const char *const column[] = {"t", "b"};

/* Makes the call of a letter that appends something single. */
static bool append_single(mysql_params_form *form, char letter)
{
    const mysql_params_time time = {false, 1, 2, 3, 4, 5};
    switch (letter) {
    case 'n':
        return mysql_params_append_null(form, "a");
    case 'i':
        return mysql_params_append_int(form, "a", 42);
    case 'b':
        return mysql_params_append_bytes(form, "a", like_a_parameter, sizeof like_a_parameter);
    case 'd':
        return mysql_params_append_decimal(form, "a", "0.5");
    case 'f':
        return mysql_params_append_double(form, "a", 1.5);
    case 't':
        return mysql_params_append_time(form, "a", time);
    case 'e':
        return mysql_params_append_identifier(form, "a", "b");
    case 'q':
        return mysql_params_append_qualified(form, "a", column, 2);
    default:
        return mysql_params_append_keyword(form, "a", "DESC");
    }
}

/* Makes the call of a letter. */
static bool call(mysql_params_form *form, char letter)
{
    static uint8_t room[8];
    mysql_params_form row = mysql_params_form_in(room, sizeof room);
    switch (letter) {
    case 'L':
        return mysql_params_begin_list(form, "a");
    case 'l':
        return mysql_params_end_list(form);
    case 'R':
        return mysql_params_begin_rows(form, "a");
    case 'r':
        return mysql_params_end_rows(form);
    case 'W':
        return mysql_params_begin_row(form);
    case 'w':
        return mysql_params_end_row(form);
    case 'I':
        return mysql_params_begin_identifiers(form, "a");
    case 'y':
        return mysql_params_end_identifiers(form);
    case 'A':
        return mysql_params_begin_assignments(form, "a");
    case 'a':
        return mysql_params_end_assignments(form);
    case 'c':
        return mysql_params_begin_assignment(form, column, 2);
    case 'F':
        mysql_params_append_null(&row, NULL);
        return mysql_params_append_row(form, &row);
    default:
        return append_single(form, letter);
    }
}

/* What a word is: a form, the beginning of a form, or neither. */
typedef enum kind { WHOLE, OPEN, MISUSED } kind;

/* Steps over a letter, if it stands next. */
static bool steps_over(const char **at, char letter)
{
    bool is_next = **at == letter;
    *at += is_next ? 1 : 0;
    return is_next;
}

static bool is_one_of(char letter, const char *set)
{
    return letter != '\0' && strchr(set, letter) != NULL;
}

/* Steps over assignments up to their end. */
static bool steps_over_assignments(const char **at)
{
    for (;;) {
        bool has_column = steps_over(at, 'c');
        if (is_one_of(**at, VALUES))
            (*at)++;
        else
            return !has_column && steps_over(at, 'a');
    }
}

/* Steps over rows up to their end. */
static bool steps_over_rows(const char **at)
{
    while (steps_over(at, 'W')) {
        *at += strspn(*at, ITEMS);
        if (!steps_over(at, 'w'))
            return false;
    }
    return steps_over(at, 'r');
}

/* Steps over a parameter. If that is no whole one, it stands where the rest is lacking. */
static bool steps_over_parameter(const char **at)
{
    if (is_one_of(**at, ITEMS)) {
        (*at)++;
        return true;
    }
    if (steps_over(at, 'L')) {
        *at += strspn(*at, ITEMS);
        return steps_over(at, 'l');
    }
    if (steps_over(at, 'I')) {
        *at += strspn(*at, NAMES);
        return steps_over(at, 'y');
    }
    if (steps_over(at, 'R'))
        return steps_over_rows(at);
    return steps_over(at, 'A') && steps_over_assignments(at);
}

static kind kind_of(const char *word)
{
    const char *at = word + strspn(word, "F");
    if (at > word)
        return *at == '\0' ? WHOLE : MISUSED;
    while (*at != '\0')
        if (!steps_over_parameter(&at))
            return *at == '\0' ? OPEN : MISUSED;
    return WHOLE;
}

/* The flat form that is read, and the word that it is of. */
typedef struct reading {
    const uint8_t *at;
    size_t len;
    bool failed;
    char word[WORD_ROOM];
    size_t word_len;
} reading;

static void read_letter(reading *it, char letter)
{
    if (it->word_len < sizeof it->word)
        it->word[it->word_len++] = letter;
}

/* Steps over bytes that have to stand next. */
static void read_bytes(reading *it, const void *bytes, size_t len)
{
    if (it->failed || it->len < len || memcmp(it->at, bytes, len) != 0) {
        it->failed = true;
        return;
    }
    it->at += len;
    it->len -= len;
}

static void read_text(reading *it, const char *text)
{
    uint8_t len = (uint8_t)strlen(text);
    read_bytes(it, &len, 1);
    read_bytes(it, text, len);
}

static uint8_t read_byte(reading *it)
{
    uint8_t byte = it->len > 0 ? it->at[0] : 0;
    read_bytes(it, &byte, 1);
    return byte;
}

static uint32_t read_count(reading *it)
{
    uint32_t count = 0;
    for (int i = 0; i < 4; i++)
        count |= (uint32_t)read_byte(it) << (8 * i);
    return count;
}

/* Reads the names of `column`, or one name. Returns whether they are those of `column`. */
static bool read_names(reading *it, const char *one)
{
    uint32_t count = read_count(it);
    it->failed |= count != 1 && count != 2;
    if (count == 2) {
        read_text(it, column[0]);
        read_text(it, column[1]);
    } else {
        read_text(it, one);
    }
    return count == 2;
}

/* Reads a value in binary form, or what stands for one, of a type. */
static void read_single(reading *it, uint8_t type)
{
    static const uint8_t number[] = {42, 0, 0, 0, 0, 0, 0, 0}, one_and_a_half[] = {0, 0, 0, 0, 0, 0, 0xF8, 0x3F};
    static const uint8_t time[] = {12, 0, 1, 0, 0, 0, 2, 3, 4, 5, 0, 0, 0}, eight = sizeof like_a_parameter;
    static const struct {
        uint8_t type;
        char letter;
        const void *bytes;
        size_t len;
    } singles[] = {
        {6, 'n', "", 0},           {8, 'i', number, 8},        {253, 'b', &eight, 1},       {128, 'd', "\3" "0.5", 4},
        {5, 'f', one_and_a_half, 8}, {11, 't', time, sizeof time}, {131, 'e', "\1b", 2}, {133, 'k', "\4" "DESC", 5},
        {132, 'q', "", 0},
    };
    for (size_t i = 0; i < sizeof singles / sizeof singles[0]; i++)
        if (singles[i].type == type) {
            read_letter(it, singles[i].letter);
            read_bytes(it, singles[i].bytes, singles[i].len);
            if (type == 253)
                read_bytes(it, like_a_parameter, sizeof like_a_parameter);
            it->failed |= type == 132 && !read_names(it, "");
            return;
        }
    it->failed = true;
}

/* Reads type, flags and value of an item. */
static void read_item(reading *it)
{
    uint8_t type = read_byte(it);
    read_bytes(it, "", 1);
    read_single(it, type);
}

/* A type that begins something, with the letters of its beginning and its end. */
typedef struct begun {
    uint8_t type;
    char begins;
    char ends;
} begun;

static const begun lists = {129, 'L', 'l'}, rows = {130, 'R', 'r'}, identifiers = {134, 'I', 'y'}, assignments = {135, 'A', 'a'};
static const begun a_row = {129, 'W', 'w'}; /* which has no type of its own */

/* Reads what is begun, from its count on. */
static void read_begun(reading *it, const begun *of)
{
    uint32_t count = read_count(it);
    read_letter(it, of->begins);
    for (uint32_t i = 0; i < count && !it->failed; i++) {
        if (of == &rows) {
            read_begun(it, &a_row);
        } else if (of == &identifiers) {
            read_letter(it, read_names(it, "b") ? 'q' : 'e');
        } else {
            if (of == &assignments && read_names(it, "a"))
                read_letter(it, 'c');
            read_item(it);
        }
    }
    read_letter(it, of->ends);
}

/* Reads a parameter. */
static void read_parameter(reading *it)
{
    static const begun *const all[] = {&lists, &rows, &identifiers, &assignments};
    read_text(it, "a");
    uint8_t type = read_byte(it);
    read_bytes(it, "", 1);
    for (size_t i = 0; i < sizeof all / sizeof all[0]; i++)
        if (all[i]->type == type) {
            read_begun(it, all[i]);
            return;
        }
    read_single(it, type);
}

/* Whether the form holds what a word appends, and nothing else. */
static bool holds(const mysql_params_form *form, const char *word, size_t len)
{
    reading it = {form->room, form->len, false, "", 0};
    while (it.len > 0 && !it.failed) {
        if (word[0] != 'F') {
            read_parameter(&it);
            continue;
        }
        read_bytes(&it, "\3\0\6", 4);
        read_letter(&it, 'F');
    }
    return !it.failed && it.word_len == len && memcmp(it.word, word, len) == 0;
}

/* Whether each call that takes a form refuses it, and without reading it. */
static bool is_refused(const mysql_params_form *form)
{
    static const uint8_t query[] = "SELECT 1";
    enum { LEN = sizeof query - 1, CALLS = 7 };
    uint8_t byte = 0;
    mysql_params_report report = {0};
    mysql_params_form unread = *form;
    unread.room = &byte + 1; /* a byte that is read is one too far */
    char *texts[CALLS] = {NULL};
    mysql_params_template *made = mysql_params_template_new(query, LEN, false);
    const int32_t numbers[CALLS] = {
        mysql_params_bind_form(query, LEN, &unread, false, &texts[0], &report),
        mysql_params_bind_form_wide(query, LEN, &unread, false, &texts[1], &report),
        mysql_params_bind_fragments_form(query, LEN, &unread, false, &texts[2], &report),
        mysql_params_bind_fragments_form_wide(query, LEN, &unread, false, &texts[3], &report),
        mysql_params_bind_fragments_anywhere_form(query, LEN, &unread, &texts[4], &report),
        mysql_params_bind_fragments_anywhere_form_wide(query, LEN, &unread, &texts[5], &report),
        mysql_params_template_bind_form(made, &unread, &texts[6], &report),
    };
    mysql_params_template_free(made);
    mysql_params_form forms = mysql_params_form_in(NULL, 0);
    bool refused = !mysql_params_append_row(&forms, &unread) && forms.needed == SIZE_MAX;
    for (int i = 0; i < CALLS; i++)
        refused = refused && numbers[i] == MYSQL_PARAMS_OUT_OF_MEMORY && texts[i] == NULL;
    return refused;
}

/* Makes the calls of a word. Returns what the last one does. */
static bool call_all(mysql_params_form *form, const char *word)
{
    bool fits = true;
    for (; *word != '\0'; word++)
        fits = call(form, *word);
    return fits;
}

/* What is begun is no part of the form before it is ended, and such a form isn't bound. */
static void open_forms(void)
{
    static const char *const words[] = {"L",  "Lb",  "Lbn", "R",  "RW",  "RWb",    "RWbw", "RWbwW", "I",
                                        "Ie", "Ieq", "A",   "Ai", "Ac",  "Aci",    "Acic", "bL",    "RWbwrLi"};
    for (size_t i = 0; i < sizeof words / sizeof words[0]; i++) {
        const char *word = words[i];
        size_t whole = strcmp(word, "bL") == 0 ? 1 : strcmp(word, "RWbwrLi") == 0 ? 5 : 0;
        mysql_params_form form = mysql_params_form_growing();
        expect(call_all(&form, word), word, "it doesn't fit");
        expect(form.needed > form.len && form.needed < SIZE_MAX, word, "it counts as whole");
        expect(holds(&form, word, whole), word, "a part of what is open is in the form");
        expect(is_refused(&form), word, "it is bound");
        mysql_params_form_free(&form);
    }
}

/* What can't stand where it is appended makes a form that isn't bound, whatever is appended after it. */
static void misused_forms(void)
{
    static const char *const words[] = {
        "W", "w", "l", "r", "y", "a", "c",                               /* in nothing that was begun */
        "RWW", "LW", "IW", "AW", "bW",                                   /* a row in no rows */
        "Rb", "Re", "Rq", "Rk", "RWbwb", "Rc",                           /* an item between rows */
        "Rw", "RWww", "Lw", "Iw", "Aw",                                  /* an end of no row */
        "LL", "LR", "LI", "LA", "RL", "RR", "RI", "RA", "RWL", "RWR",    /* something begun in another */
        "RWI", "RWA", "IL", "IR", "II", "IA", "AL", "AR", "AI", "AA",    /* */
        "Lr", "Ly", "La", "Rl", "Ry", "Ra", "RWr", "RWl", "RWy", "RWa",  /* the end of another */
        "Il", "Ir", "Ia", "Al", "Ar", "Ay",                              /* */
        "Ii", "Ib", "Id", "If", "Ik", "Ic",                              /* no identifier */
        "Ae", "Aq", "Ak", "Ace", "Acq", "Ack",                           /* no value */
        "Acc", "Aca", "AcL", "Acw", "Lc", "RWc",                         /* a column without a value, or in no assignments */
        "Fb", "FL", "FW", "FFl", "bF", "LF", "RF", "RWF", "IF", "AF",    /* a parameter among forms, and a form among these */
    };
    for (size_t i = 0; i < sizeof words / sizeof words[0]; i++) {
        const char *word = words[i];
        size_t len = strlen(word);
        mysql_params_form form = mysql_params_form_growing();
        for (size_t j = 0; j + 1 < len; j++)
            expect(call(&form, word[j]) && form.needed < SIZE_MAX, word, "it is misused before its last call");
        size_t whole = form.len;
        expect(!call(&form, word[len - 1]) && form.needed == SIZE_MAX, word, "it isn't misused");
        for (size_t j = 0; letters[j] != '\0'; j++)
            expect(!call(&form, letters[j]) && form.needed == SIZE_MAX && form.len == whole, word, "it is written on");
        expect(is_refused(&form), word, "it is bound");
        mysql_params_form_free(&form);
    }
}

/* Forms of rows are none of parameters. */
static void forms_of_rows(void)
{
    mysql_params_form forms = mysql_params_form_growing();
    expect(call_all(&forms, "FF") && forms.len == 8 && forms.needed == 8, "FF", "another length is wanted");
    expect(is_refused(&forms), "FF", "it is bound");
    mysql_params_form_free(&forms);
}

/* The bytes of a value in a list without an end are no parameters for a program that looks neither at what the functions
 * return nor at what is needed. */
static void values_in_open_lists(void)
{
    static const uint8_t query[] = "SELECT ?";
    uint8_t room[64] = {0};
    mysql_params_report report = {0};
    mysql_params_form form = mysql_params_form_growing();
    call_all(&form, "Lb");
    int32_t number = mysql_params_bind_fragments(query, sizeof query - 1, form.room, form.len, false, room, sizeof room, &report);
    expect(number == MYSQL_PARAMS_MARK_COUNT && report.values == 0, "Lb", "a value's bytes are a parameter");
    mysql_params_form_free(&form);
    form = mysql_params_form_growing();
    call_all(&form, "Rbr");
    number = mysql_params_bind_fragments(query, sizeof query - 1, form.room, form.len, false, room, sizeof room, &report);
    expect(number == MYSQL_PARAMS_MARK_COUNT && report.values == 0, "Rbr", "an item between rows is a parameter");
    mysql_params_form_free(&form);
}

/* The greatest count is written, and none above it. */
static void greatest_counts(void)
{
    static const char *const words[] = {"Ln", "RWn", "Ie", "Iq", "An", "Acn", "RW"};
    for (size_t i = 0; i < sizeof words / sizeof words[0]; i++) {
        const char *word = words[i];
        mysql_params_form form = mysql_params_form_growing();
        call_all(&form, word);
        form.items = UINT32_MAX - 1; /* as after so many more */
        if (strcmp(word, "RW") == 0) {
            call(&form, 'w');
            form.rows = UINT32_MAX - 1;
        }
        const char *more = strcmp(word, "RW") == 0 ? "W" : strcmp(word, "Acn") == 0 ? "cn" : word + strlen(word) - 1;
        expect(call_all(&form, more) && form.needed < SIZE_MAX, word, "the greatest count is refused");
        if (more[0] == 'W')
            call(&form, 'w');
        expect(!call_all(&form, more) && form.needed == SIZE_MAX && form.len == 0, word, "a count is too great");
        mysql_params_form_free(&form);
    }
}

/* The next number of a generator, by Marsaglia's "Xorshift RNGs". */
static uint64_t next_number(uint64_t *state)
{
    *state ^= *state << 13;
    *state ^= *state >> 7;
    *state ^= *state << 17;
    return *state;
}

/* Any letter, but far more often one after which the word isn't misused. */
static char next_letter(const char *word, size_t len, uint64_t *state)
{
    char longer[WORD_ROOM];
    bool is_misused = kind_of(word) == MISUSED;
    memcpy(longer, word, len);
    longer[len + 1] = '\0';
    do
        longer[len] = letters[next_number(state) % (sizeof letters - 1)];
    while (!is_misused && kind_of(longer) == MISUSED && next_number(state) % 64 != 0);
    return longer[len];
}

/* Whether a form after the calls of a word is as the header says, whose whole parameters were `whole_len` bytes before the last
 * call. */
static bool is_as_said(const mysql_params_form *form, const char *word, kind is, size_t whole_len)
{
    switch (is) {
    case WHOLE:
        return form->needed == form->len && holds(form, word, strlen(word));
    case OPEN:
        return form->needed > form->len && form->needed < SIZE_MAX && form->len == whole_len;
    default:
        return form->needed == SIZE_MAX && form->len == whole_len;
    }
}

/* Makes the calls of a random word to a form with room for all, and to one with less. */
static void walk(uint64_t *state)
{
    uint8_t room[512], less[160];
    char word[WORD_ROOM] = "";
    size_t less_len = next_number(state) % 128;
    memset(less, 0xA5, sizeof less);
    mysql_params_form form = mysql_params_form_in(room, sizeof room);
    mysql_params_form cut = mysql_params_form_in(less, less_len);
    for (size_t len = 0, end = next_number(state) % 16; len < end; len++) {
        size_t whole_len = form.len;
        word[len] = next_letter(word, len, state);
        bool fits = call(&form, word[len]), fits_less = call(&cut, word[len]);
        kind is = kind_of(word);
        expect(fits == (is != MISUSED), word, "another answer is wanted");
        expect(is_as_said(&form, word, is, whole_len), word, "another form is wanted");
        expect(cut.needed == form.needed, word, "another need is wanted with less room");
        expect(fits_less == (fits && form.needed <= less_len), word, "another answer is wanted with less room");
        expect(cut.len <= form.len && memcmp(less, room, cut.len) == 0, word, "another form is wanted with less room");
        expect(!fits_less || cut.len == form.len, word, "less is whole with less room");
    }
    for (size_t i = less_len; i < sizeof less; i++)
        expect(less[i] == 0xA5, word, "the memory after the room is written");
}

/* A million random words. */
static void random_walks(void)
{
    uint64_t state = 0x9E3779B97F4A7C15;
    for (int i = 0; i < 1000000 && failures < 10; i++)
        walk(&state);
}

static bool passed(const char *name, void (*test)(void))
{
    failures = 0;
    test();
    printf("test %s ... %s\n", name, failures == 0 ? "ok" : "FAILED");
    fflush(stdout);
    return failures == 0;
}

int main(void)
{
    bool all = passed("open_forms", open_forms);
    all &= passed("misused_forms", misused_forms);
    all &= passed("forms_of_rows", forms_of_rows);
    all &= passed("values_in_open_lists", values_in_open_lists);
    all &= passed("greatest_counts", greatest_counts);
    all &= passed("random_walks", random_walks);
    return all ? 0 : 1;
}
