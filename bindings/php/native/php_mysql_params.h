/* php_mysql_params.h: PHP's extension mysql_params, over the archive libmysql_params_c.a.
 *
 * It writes parameters as the flat form, calls the archive, and hands its answers out. It is tested, not proved.
 *
 * Memory and exceptions:
 * - A form and a text are of PHP's own memory. If that has none, PHP ends the request by its own error, and gives all of
 *   it back. Nothing here is of `malloc` except a template, which its object gives back, or is kept for later requests.
 * - A zval and a string that is handed in is borrowed: its caller holds it until the call returns.
 * - A function that returns bool returns false with an exception thrown, unless its comment says otherwise.
 * - While parameters are written no code of a user runs. While rows are iterated over it may.
 */
#ifndef PHP_MYSQL_PARAMS_H
#define PHP_MYSQL_PARAMS_H

#ifdef HAVE_CONFIG_H
#include "config.h"
#endif
#include "php.h"
#include "Zend/zend_smart_str_public.h"

#include "mysql_params_form.h"

#define PHP_MYSQL_PARAMS_VERSION "0.1.0"

/* How long the room is that is kept for answers. */
enum { KEPT_ROOM = 1 << 16 };

/* How many queries have a template that is kept. */
enum { KEPT_QUERIES = 256 };

/* A slot for the queries whose hashes end alike. */
typedef struct kept_query {
    zend_ulong hash;             /* of the last query that was given without a template */
    uint32_t times;              /* how often it was given so, one time after another */
    mysql_params_template *made; /* owned; of a query that was given often enough, or null */
} kept_query;

ZEND_BEGIN_MODULE_GLOBALS(mysql_params)
    uint8_t *room;  /* owned, KEPT_ROOM bytes that have a value; not used across code of a user */
    kept_query kept[KEPT_QUERIES]; /* see kept.c */
    HashTable told;  /* what connections answered, by their objects; see sending.c */
    HashTable texts; /* what refusals of rows tell by texts(), by their objects: no property, so that nothing shows them */
ZEND_END_MODULE_GLOBALS(mysql_params)

ZEND_EXTERN_MODULE_GLOBALS(mysql_params)
#define MYSQL_PARAMS_G(field) ZEND_MODULE_GLOBALS_ACCESSOR(mysql_params, field)

/* Bytes that something else holds. */
typedef struct bytes {
    const uint8_t *at;
    size_t len;
} bytes;

static inline bytes bytes_of(const zend_string *string)
{
    return (bytes){(const uint8_t *)ZSTR_VAL(string), ZSTR_LEN(string)};
}

/* A flat form that is being written. */
typedef struct form {
    uint8_t *bytes;    /* `first`, or of emalloc */
    size_t len;        /* bytes of the form so far */
    size_t room;       /* bytes that there is room for */
    size_t values;     /* values in it so far, items of lists too */
    bool is_fragments; /* whether it is for the calls that bind fragments */
    uint8_t first[1000];
} form;

void form_begin(form *form);
void form_free(form *form);

/* Makes room for so many bytes more. */
void form_grow(form *form, size_t more);

/* Where so many bytes more are to be written. */
static zend_always_inline uint8_t *form_more(form *form, size_t more)
{
    if (UNEXPECTED(more > form->room - form->len))
        form_grow(form, more);
    uint8_t *at = form->bytes + form->len;
    form->len += more;
    return at;
}

/* Appends a length-encoded string. */
void form_string(form *form, const void *bytes, size_t len);

/* Makes what stands behind the byte at `begin` a length-encoded string, whose length has that byte's place. */
void form_enclose(form *form, size_t begin);

/* Writes a number into `count` bytes, least byte first. */
static inline void fill_number(uint8_t *at, size_t count, uint64_t number)
{
    for (size_t i = 0; i < count; i++)
        at[i] = (uint8_t)(number >> (8 * i));
}

/* Numbers of column types in the protocol, and of the types that the calls that bind fragments alone take. */
enum {
    TYPE_DOUBLE = 5,
    TYPE_NULL = 6,
    TYPE_LONGLONG = 8,
    TYPE_TIME = 11,
    TYPE_DATETIME = 12,
    TYPE_NUMBER = 128,
    TYPE_LIST = 129,
    TYPE_ROWS = 130,
    TYPE_IDENTIFIER = 131,
    TYPE_QUALIFIED = 132,
    TYPE_KEYWORD = 133,
    TYPE_IDENTIFIERS = 134,
    TYPE_ASSIGNMENTS = 135,
    TYPE_IMPLICIT_LIST = 136,
    TYPE_IMPLICIT_ROWS = 137,
    TYPE_VAR_STRING = 253
};

/* Bit of the flags that says unsigned. */
enum { FLAG_UNSIGNED = 128 };

/* Where a value goes: where places take values alone, to a place that takes more, or to an item of a list or a row. */
enum level { LEVEL_VALUES, LEVEL_PLACES, LEVEL_ITEMS };

/* What values are written by. */
typedef struct writer {
    form *form; /* borrowed */
    enum level level;
    const zend_string *name; /* borrowed; the name of the place, as messages tell it; null by position */
    zend_long number;        /* which place by position */
    zend_long row;           /* which row of many the parameters are; -1 if there is one */
} writer;

/* Appends type, flags and value of what stands in a place or in a list. */
bool write_value(const writer *writer, zval *value);

/* Appends a DateTimeInterface, and a DateInterval. */
bool write_date(const writer *writer, zend_object *value);
bool write_interval(const writer *writer, zend_object *value);

/* Appends bytes as messages show them: one that isn't printable ASCII, `"` or `\` as `\x` and two digits. */
void append_shown(smart_str *to, bytes shown);

/* Appends all parameters. */
bool write_params(writer *writer, HashTable *params);

/* Throws a TypeError or a ValueError about the value of the writer's place: `format` goes on after `the value of :a`. */
bool refuse_value(const writer *writer, zend_class_entry *kind, const char *format, ...)
    ZEND_ATTRIBUTE_FORMAT(printf, 3, 4);

/* What is asked of the archive. CALL_CONNECTION is the text to send over a connection in a mode. */
enum call { CALL_NAMES, CALL_BIND, CALL_ANYWHERE, CALL_BOTH_MODES, CALL_CONNECTION };

typedef struct question {
    enum call call;
    bytes query;
    const mysql_params_template *made; /* borrowed; the query's, in this mode for CALL_BIND, or null */
    zend_string *again;                /* borrowed; the query, if a template of it may be kept, or null */
    bytes form;
    size_t values;     /* values in the form, as far as they are known: they tell how long the text may get */
    bool is_fragments;
    bool mode; /* without backslash escapes */
} question;

/* The whole answer to a question; null with an exception thrown. */
zend_string *answer(const question *question);

/* The same, by the kept template of the query if it has one. */
zend_string *answer_again(question *question);

/* Throws what a number of the archive that isn't done says. `row` is the row of many, or -1. */
void refuse(const question *question, int32_t number, const mysql_params_report *report, zend_long row);

/* Has a refusal tell an array of texts. */
void keep_texts(zend_object *refusal, zval *texts);

/* Ends the request as PHP does where it has no memory. */
ZEND_NORETURN void refuse_memory(void);

/* What a refusal says. `name` is that of the place whose value is refused, or null; `has_word` says whether a word of the query has
 * letters that names don't have. */
zend_string *message_of(const question *question, int32_t number, const mysql_params_report *report,
                        const zend_string *name, bool has_word);

/* Whether a name may have a byte. */
static inline bool is_of_names(uint8_t byte)
{
    return (byte >= 'a' && byte <= 'z') || (byte >= 'A' && byte <= 'Z') || (byte >= '0' && byte <= '9') || byte == '_';
}

/* A BindException with a code and a message, whose fields are null. The caller sets them and throws it. */
zend_object *new_refusal(zend_long code, const char *format, ...) ZEND_ATTRIBUTE_FORMAT(printf, 2, 3);

/* Codes of refusals that are none of the archive's. */
enum { REFUSED_SESSION = -1, REFUSED_PACKET = -2 };

/* Takes a mode, which is true or false and nothing else; the argument of a number. */
bool take_mode(zval *given, uint32_t argument, bool *mode);

/* The text of parameters that were handed in, by a call and at a level; null with an exception thrown. */
zend_string *bound(question *question, HashTable *params, enum level level);

/* The texts of rows, as a new array in `texts`. */
bool bind_all_rows(bytes query, bool mode, zval *rows, zval *texts);

extern zend_class_entry *template_ce, *decimal_ce, *in_ce, *identifier_ce, *assignments_ce, *keyword_ce, *exception_ce,
    *construct_ce, *fault_ce, *unportable_ce, *names_ce;

/* The first property of an object of the classes Decimal, In, Identifier, Assignments and Keyword, which is what is written
 * of it. */
#define FIRST_PROPERTY(object) OBJ_PROP_NUM(object, 0)

void register_classes(void);
void register_refusals(void);

/* The functions. */
PHP_FUNCTION(MysqlParams_bind_anywhere);
PHP_FUNCTION(MysqlParams_bind);
PHP_FUNCTION(MysqlParams_bind_in_both_modes);
PHP_FUNCTION(MysqlParams_bind_rows);
PHP_FUNCTION(MysqlParams_bind_form);
PHP_FUNCTION(MysqlParams_bind_form_anywhere);
PHP_FUNCTION(MysqlParams_bind_form_in_both_modes);
PHP_FUNCTION(MysqlParams_names);
PHP_FUNCTION(MysqlParams_first_unportable);
PHP_FUNCTION(MysqlParams_first_unportable_in_client);
PHP_FUNCTION(MysqlParams_query);
PHP_FUNCTION(MysqlParams_execute);
PHP_FUNCTION(MysqlParams_ask_again);

/* Gives the templates back that are kept. */
void kept_end(kept_query kept[KEPT_QUERIES]);

/* The template that is kept of a query, or null. It is made in the mode with backslash escapes, and kept until the next call. */
const mysql_params_template *kept_template(zend_string *query);

/* Frees what a connection answered, of MYSQL_PARAMS_G(told). */
void told_free(zval *kept);

/* Takes the arguments out of the traces of the exception that was thrown, and of those before it, from within the call that
 * sent a text. */
void hide_sent_text(void);

#endif
