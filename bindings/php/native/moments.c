/* moments.c: dates with their time of day, and spans of time. */
#include "php_mysql_params.h"

#include "Zend/zend_exceptions.h"
#include "ext/date/php_date.h"

/* The forms of both: type, flags, a length, and 11 or 12 bytes. */
enum { FORM_OF_DATE = 2 + 1 + 11, FORM_OF_TIME = 2 + 1 + 12 };

/* The years that a date has. */
enum { FIRST_YEAR = 1, LAST_YEAR = 9999 };

/* The most days of a span. */
enum { MOST_DAYS = 999999999 };

enum { MICROSECONDS = 1000000, SECONDS_OF_DAY = 86400 };

/* Throws for an object of a subclass whose constructor didn't call its parent's. */
static bool refuse_empty(const zend_object *object)
{
    zend_throw_error(NULL, "The %s object has not been correctly initialized by its constructor",
                     ZSTR_VAL(object->ce->name));
    return false;
}

/* Appends the fields that the object's own clock and calendar show. */
bool write_date(const writer *writer, zend_object *value)
{
    const timelib_time *time = php_date_obj_from_obj(value)->time;
    if (time == NULL)
        return refuse_empty(value);
    if (time->y < FIRST_YEAR || time->y > LAST_YEAR)
        return refuse_value(writer, zend_ce_value_error, "is a date of the year %lld, and years are 1 to 9999",
                            (long long)time->y);
    uint8_t *at = form_more(writer->form, FORM_OF_DATE);
    at[0] = TYPE_DATETIME;
    at[1] = 0;
    at[2] = 11;
    fill_number(at + 3, 2, (uint64_t)time->y);
    at[5] = (uint8_t)time->m;
    at[6] = (uint8_t)time->d;
    at[7] = (uint8_t)time->h;
    at[8] = (uint8_t)time->i;
    at[9] = (uint8_t)time->s;
    fill_number(at + 10, 4, (uint64_t)time->us);
    return true;
}

/* An interval that has a length, in microseconds, less than zero or not: five products of 64 and 37 bits fit. */
static __int128 microseconds_of(const timelib_rel_time *interval)
{
    bool has_days = interval->days != TIMELIB_UNSET;
    __int128 seconds = (__int128)(has_days ? interval->days : interval->d) * SECONDS_OF_DAY;
    seconds += (__int128)interval->h * 3600 + (__int128)interval->i * 60 + interval->s;
    return seconds * MICROSECONDS + interval->us;
}

/* Whether it is known how long an interval is: it has neither years nor months, or the days between two dates. */
static bool has_length(const timelib_rel_time *interval)
{
    if (interval->have_weekday_relative || interval->have_special_relative || interval->first_last_day_of)
        return false;
    return interval->days != TIMELIB_UNSET || (interval->y == 0 && interval->m == 0);
}

/* Appends a span by its sign and its magnitude. */
static void append_span(form *form, bool is_negative, unsigned __int128 microseconds)
{
    uint64_t seconds = (uint64_t)(microseconds / MICROSECONDS);
    uint8_t *at = form_more(form, FORM_OF_TIME);
    at[0] = TYPE_TIME;
    at[1] = 0;
    at[2] = 12;
    at[3] = is_negative;
    fill_number(at + 4, 4, seconds / SECONDS_OF_DAY);
    at[8] = (uint8_t)(seconds % SECONDS_OF_DAY / 3600);
    at[9] = (uint8_t)(seconds / 60 % 60);
    at[10] = (uint8_t)(seconds % 60);
    fill_number(at + 11, 4, (uint64_t)(microseconds % MICROSECONDS));
}

bool write_interval(const writer *writer, zend_object *value)
{
    const php_interval_obj *object = php_interval_obj_from_obj(value);
    if (!object->initialized || object->diff == NULL)
        return refuse_empty(value);
    if (!has_length(object->diff))
        return refuse_value(writer, zend_ce_value_error,
                            "is a DateInterval with years, months or weekdays, whose length isn't known: give days");
    __int128 sum = microseconds_of(object->diff);
    unsigned __int128 size = sum < 0 ? -sum : sum;
    if (size / MICROSECONDS / SECONDS_OF_DAY > MOST_DAYS)
        return refuse_value(writer, zend_ce_value_error, "is a DateInterval of more than 999999999 days");
    append_span(writer->form, object->diff->invert ? sum > 0 : sum < 0, size);
    return true;
}
