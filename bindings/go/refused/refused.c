/* Memory that is refused, and answers that the archive doesn't give, for refused_test.go: the linker wraps these calls. */
#include "refused.h"

#include "mysql_params.h"

static __thread long left = -1;
static __thread long taken = 0;
static __thread int32_t told = 0;
static __thread size_t told_len = 0;

void refuse_after(long count)
{
    left = count;
}

void tell(int32_t number, size_t len)
{
    told = number;
    told_len = len;
}

static bool refuses(void)
{
    if (left > 0)
        left--;
    else if (left == 0)
        return true;
    return false;
}

void *__real_malloc(size_t len);
void *__real_calloc(size_t count, size_t len);
void *__real_realloc(void *at, size_t len);
void __real_free(void *at);

/* Counts a block that is taken. */
static void *counted(void *at)
{
    taken += at != NULL;
    return at;
}

void *__wrap_malloc(size_t len)
{
    return refuses() ? NULL : counted(__real_malloc(len));
}

void *__wrap_calloc(size_t count, size_t len)
{
    return refuses() ? NULL : counted(__real_calloc(count, len));
}

void *__wrap_realloc(void *at, size_t len)
{
    if (refuses())
        return NULL;
    void *made = __real_realloc(at, len);
    return at == NULL ? counted(made) : made;
}

void __wrap_free(void *at)
{
    taken -= at != NULL;
    __real_free(at);
}

long blocks(void)
{
    return taken;
}

/* Returns what is told; a number above 999 is DONE. */
static int32_t tells(mysql_params_report *report)
{
    const mysql_params_report says = {.len = told_len};
    *report = says;
    return told > 999 ? MYSQL_PARAMS_DONE : told;
}

int32_t __real_mysql_params_bind_wide(const uint8_t *, size_t, const uint8_t *, size_t, bool, uint8_t *, size_t,
                                      mysql_params_report *);
int32_t __real_mysql_params_bind_template_wide(const uint8_t *, size_t, const mysql_params_table_head *,
                                               const mysql_params_place *, size_t, const uint8_t *, size_t, bool, uint8_t *,
                                               size_t, mysql_params_report *);
int32_t __real_mysql_params_bind_template_guarded_wide(const uint8_t *, size_t, const mysql_params_anywhere_head *,
                                                       const mysql_params_place *, size_t, const uint8_t *, size_t, bool,
                                                       uint8_t *, size_t, mysql_params_report *);
int32_t __real_mysql_params_bind_fragments_guarded_wide(const uint8_t *, size_t, const uint8_t *, size_t, bool, uint8_t *,
                                                        size_t, mysql_params_report *);
int32_t __real_mysql_params_names_wide(const uint8_t *, size_t, bool, uint8_t *, size_t, mysql_params_report *);
int32_t __real_mysql_params_first_unportable_wide(const uint8_t *, size_t, bool, mysql_params_report *);
int32_t __real_mysql_params_bind_rows_wide(const uint8_t *, size_t, const uint8_t *, size_t, bool, uint8_t *, size_t,
                                           mysql_params_rows *, mysql_params_report *);

int32_t __wrap_mysql_params_bind_wide(const uint8_t *query, size_t query_len, const uint8_t *form, size_t form_len, bool mode,
                                      uint8_t *room, size_t room_len, mysql_params_report *report)
{
    return told != 0 ? tells(report)
                     : __real_mysql_params_bind_wide(query, query_len, form, form_len, mode, room, room_len, report);
}

int32_t __wrap_mysql_params_bind_template_wide(const uint8_t *query, size_t query_len, const mysql_params_table_head *head,
                                               const mysql_params_place *places, size_t places_len, const uint8_t *form,
                                               size_t form_len, bool mode, uint8_t *room, size_t room_len,
                                               mysql_params_report *report)
{
    return told != 0 ? tells(report)
                     : __real_mysql_params_bind_template_wide(query, query_len, head, places, places_len, form, form_len,
                                                              mode, room, room_len, report);
}

int32_t __wrap_mysql_params_bind_template_guarded_wide(const uint8_t *query, size_t query_len,
                                                       const mysql_params_anywhere_head *head,
                                                       const mysql_params_place *places, size_t places_len,
                                                       const uint8_t *form, size_t form_len, bool mode, uint8_t *room,
                                                       size_t room_len, mysql_params_report *report)
{
    return told != 0 ? tells(report)
                     : __real_mysql_params_bind_template_guarded_wide(query, query_len, head, places, places_len, form,
                                                                      form_len, mode, room, room_len, report);
}

int32_t __wrap_mysql_params_bind_fragments_guarded_wide(const uint8_t *query, size_t query_len, const uint8_t *form,
                                                        size_t form_len, bool mode, uint8_t *room, size_t room_len,
                                                        mysql_params_report *report)
{
    return told != 0 ? tells(report)
                     : __real_mysql_params_bind_fragments_guarded_wide(query, query_len, form, form_len, mode, room,
                                                                       room_len, report);
}

int32_t __wrap_mysql_params_names_wide(const uint8_t *query, size_t query_len, bool mode, uint8_t *room, size_t room_len,
                                       mysql_params_report *report)
{
    if (told == 0)
        return __real_mysql_params_names_wide(query, query_len, mode, room, room_len, report);
    if (room_len > 0)
        room[0] = 0xFF; /* No length begins so. What else the room has is of the call before. */
    return tells(report);
}

int32_t __wrap_mysql_params_first_unportable_wide(const uint8_t *query, size_t query_len, bool mode, mysql_params_report *report)
{
    return told != 0 ? tells(report) : __real_mysql_params_first_unportable_wide(query, query_len, mode, report);
}

int32_t __wrap_mysql_params_bind_rows_wide(const uint8_t *query, size_t query_len, const uint8_t *forms, size_t forms_len,
                                           bool mode, uint8_t *room, size_t room_len, mysql_params_rows *rows,
                                           mysql_params_report *report)
{
    if (told == 0)
        return __real_mysql_params_bind_rows_wide(query, query_len, forms, forms_len, mode, room, room_len, rows, report);
    const mysql_params_rows says = {.count = told_len, .read = told_len, .written = told_len};
    *rows = says;
    return tells(report);
}
