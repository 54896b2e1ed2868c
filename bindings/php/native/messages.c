/* messages.c: what refusals say. They show names, places and what stands beside these, and no value. */
#include "php_mysql_params.h"

#include "Zend/zend_smart_str.h"

/* The length of a message of C that needs no other room. */
enum { USUAL_MESSAGE = 256 };

/* What stands directly before a place without touching it. */
static const char may_stand_before[] = "\t\n\v\f\r (,=<>+-*/%&|^~";

/* Appends what stands for a place, as it is called within a message: its name, or its number. */
static void append_place(smart_str *to, size_t place, const zend_string *name)
{
    if (name == NULL) {
        smart_str_append_printf(to, "place %zu", place);
        return;
    }
    smart_str_append_printf(to, "`:");
    append_shown(to, bytes_of(name));
    smart_str_append_printf(to, "`");
}

/* Appends what is given for a place, as the first words of a message. */
static void append_value(smart_str *to, size_t place, const zend_string *name)
{
    smart_str_append_printf(to, name == NULL ? "The value for " : "The value of ");
    append_place(to, place, name);
}

/* What is wrong with a name of an Identifier, or null if a fault is of something else. */
static const char *fault_of_name(size_t fault)
{
    switch (fault) {
    case MYSQL_PARAMS_FAULT_EMPTY_NAME:
        return "is empty";
    case MYSQL_PARAMS_FAULT_ZERO_BYTE:
        return "has a byte 0";
    case MYSQL_PARAMS_FAULT_LONG_NAME:
        return "has more than 64 characters";
    case MYSQL_PARAMS_FAULT_TRAILING_SPACE:
        return "ends in a space";
    case MYSQL_PARAMS_FAULT_BACKSLASH:
        return "has a backslash before a backquote or at its end";
    default:
        return NULL;
    }
}

/* Appends what is wrong with a list, rows, an exact number, a name or a keyword. Returns whether the fault is known. */
static bool append_fault(smart_str *to, const mysql_params_report *report, const zend_string *name)
{
    const char *of_name = fault_of_name(report->byte);
    if (of_name != NULL) {
        smart_str_append_printf(to, "Name %zu for ", report->values);
        append_place(to, report->place, name);
        smart_str_append_printf(to, " %s", of_name);
        return true;
    }
    switch (report->byte) {
    case MYSQL_PARAMS_FAULT_EMPTY:
        smart_str_append_printf(to, "The list for ");
        append_place(to, report->place, name);
        smart_str_append_printf(to, " is empty");
        return true;
    case MYSQL_PARAMS_FAULT_EMPTY_ROW:
    case MYSQL_PARAMS_FAULT_ROW_LENGTH:
        smart_str_append_printf(to, "Row %zu for ", report->position);
        append_place(to, report->place, name);
        smart_str_append_printf(to, report->byte == MYSQL_PARAMS_FAULT_EMPTY_ROW ? " is empty" : " is not as long as the first");
        return true;
    case MYSQL_PARAMS_FAULT_NUMBER:
        if (report->values == 0 && report->position == 0)
            smart_str_append_printf(to, "The Decimal for ");
        else
            smart_str_append_printf(to, "Item %zu of row %zu for ", report->values, report->position);
        append_place(to, report->place, name);
        smart_str_append_printf(to, " is no exact number: at most one `-`, then at most 65 digits, with at most one point between");
        return true;
    case MYSQL_PARAMS_FAULT_KEYWORD:
        append_value(to, report->place, name);
        smart_str_append_printf(to, " is none of the keywords that the class Keyword lists: for another word choose among queries");
        return true;
    default:
        return false;
    }
}

/* Appends which byte a place touches, and what to write. Returns whether the place stands in the query. */
static bool append_touching(smart_str *to, size_t at, bytes query)
{
    if (at >= query.len)
        return false;
    size_t end = at + 1;
    while (query.at[at] == ':' && end < query.len && is_of_names(query.at[end]))
        end++;
    bool is_before = at > 0 && memchr(may_stand_before, query.at[at - 1], sizeof may_stand_before - 1) == NULL;
    bytes touched = is_before ? (bytes){query.at + at - 1, 1} : (bytes){query.at + end, end < query.len};
    bool is_point = touched.len > 0 && *touched.at == '.';
    smart_str_append_printf(to, "`");
    append_shown(to, (bytes){query.at + at, end - at});
    smart_str_append_printf(to, "` at byte %zu touches `", at);
    append_shown(to, touched);
    smart_str_append_printf(to, "`: %s", is_point ? "for a name with a point write one place, and give an Identifier of two names"
                                                  : "put a space between");
    return true;
}

/* Appends which place takes one value and was given an array, and what to write. */
static void append_unbracketed(smart_str *to, size_t at, const zend_string *name)
{
    const char *begin = name == NULL ? "?" : ":", *rest = name == NULL ? "" : ZSTR_VAL(name);
    smart_str_append_printf(to, "`%s%s`", begin, rest);
    if (name == NULL)
        smart_str_append_printf(to, " at byte %zu", at);
    smart_str_append_printf(to, " is one value here, and was given a list: write it alone in brackets, as `IN (%s%s)`, "
                                "or give new In([..])",
                            begin, rest);
}

/* Appends the message of a number in words of PHP. Returns whether there is one; else C's says it. */
static bool append_own(smart_str *to, const question *question, int32_t number, const mysql_params_report *report,
                       const zend_string *name)
{
    switch (number) {
    case MYSQL_PARAMS_NAMED_FOR_POSITIONAL:
        smart_str_append_printf(to, "The values have names, and the query has no `:name` outside of strings and comments");
        return true;
    case MYSQL_PARAMS_POSITIONAL_FOR_NAMED:
        smart_str_append_printf(to, "The query has names: give the values by name, as ['id' => 42]");
        return true;
    case MYSQL_PARAMS_MARK_COUNT:
        smart_str_append_printf(to, "The query has %zu of `?` outside of strings and comments, and %zu values are given",
                                report->marks, report->values);
        return true;
    case MYSQL_PARAMS_NOT_ALONE:
        return append_touching(to, report->position, question->query);
    case MYSQL_PARAMS_UNBRACKETED:
        append_unbracketed(to, report->position, name);
        return true;
    case MYSQL_PARAMS_FLOAT:
        append_value(to, report->place, name);
        smart_str_append_printf(to, " is a float that isn't written: give null for NaN and infinities, else a text");
        return true;
    case MYSQL_PARAMS_FAULT:
        return append_fault(to, report, name);
    case MYSQL_PARAMS_UNSTEADY_FRAGMENT:
        append_value(to, report->place, name);
        smart_str_append_printf(to, " has a name with a backslash or a letter outside ASCII: bind takes it");
        return true;
    default:
        return false;
    }
}

/* The message of a number, by the function of C. */
static zend_string *message_of_c(const question *question, int32_t number, const mysql_params_report *report)
{
    char usual[USUAL_MESSAGE];
    bytes source = number == MYSQL_PARAMS_FORM_REPEATED ? question->form : question->query;
    size_t len = mysql_params_message_wide(number, report, source.at, source.len, usual, sizeof usual);
    if (len < sizeof usual)
        return zend_string_init(usual, len, 0);
    zend_string *message = zend_string_alloc(len, 0);
    mysql_params_message_wide(number, report, source.at, source.len, ZSTR_VAL(message), len + 1);
    return message;
}

zend_string *message_of(const question *question, int32_t number, const mysql_params_report *report,
                        const zend_string *name, bool has_word)
{
    smart_str own = {0};
    /* C says which letters names are of, where a word of the query has others. */
    if (!has_word && append_own(&own, question, number, report, name))
        return smart_str_extract(&own);
    smart_str_free(&own);
    return message_of_c(question, number, report);
}
