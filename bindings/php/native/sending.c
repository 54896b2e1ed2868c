/* sending.c: bound texts sent by PDO and mysqli. */
#include "php_mysql_params.h"

#include "Zend/zend_exceptions.h"
#include "Zend/zend_interfaces.h"
#include "Zend/zend_weakrefs.h"

/* What is asked of a connection. */
static const char question_text[] =
    "SELECT @@sql_mode, @@character_set_client, @@character_set_connection, @@max_allowed_packet";

/* PDO's constants. */
enum { PDO_ATTR_DRIVER_NAME = 16, PDO_ATTR_EMULATE_PREPARES = 20, PDO_FETCH_NUM = 3 };

/* How much shorter a text has to be than max_allowed_packet says: the packet has a byte before it, and is shorter. */
enum { BESIDE_TEXT = 4 };

enum driver { DRIVER_PDO, DRIVER_MYSQLI };

typedef struct connection {
    enum driver driver;
    zend_class_entry *kind; /* the driver's own class */
    zend_object *object;    /* of it, or of a class that extends it */
} connection;

/* A driver's own idea of the mode, and what changes if it connects anew. Nothing is sent to know it. */
typedef struct signs {
    bool are_known; /* never while the driver has results that it hasn't read, since those tell of later modes */
    bool mode;
    zend_long thread;  /* mysqli's number of the connection; 0 of PDO, whose object is one connection */
    zend_string *charset; /* owned; mysqli's character set; null of PDO */
} signs;

/* What a connection answered. */
typedef struct told {
    bool mode; /* without backslash escapes */
    size_t most; /* how long a text may be */
    bool is_kept; /* whether it holds as long as the signs stay: never once the driver had another idea of the mode */
    bool is_asked_again; /* whether it was forgotten */
    signs signs;
} told;

static void signs_free(signs *signs)
{
    if (signs->charset != NULL)
        zend_string_release(signs->charset);
    signs->charset = NULL;
}

void told_free(zval *kept)
{
    told *gone = Z_PTR_P(kept);
    signs_free(&gone->signs);
    efree(gone);
}

/* Calls a method of an object with up to two arguments. Returns false with an exception thrown. */
static bool call(zend_object *object, const char *name, zval *returned, zval *first, zval *second)
{
    uint32_t count = (first != NULL) + (second != NULL);
    ZVAL_UNDEF(returned);
    zend_call_method(object, object->ce, NULL, name, strlen(name), returned, count, first, second);
    if (EG(exception) == NULL)
        return true;
    zval_ptr_dtor(returned);
    ZVAL_UNDEF(returned);
    return false;
}

/* The class of a driver by its name in lower case, if an object is of it, or null. The driver may not be loaded, and then a
 * program may have a class of that name. */
static zend_class_entry *driver_of(const zend_object *object, const char *name)
{
    zend_class_entry *kind = zend_hash_str_find_ptr(EG(class_table), name, strlen(name));
    bool is_driver = kind != NULL && kind->type == ZEND_INTERNAL_CLASS && instanceof_function(object->ce, kind);
    return is_driver ? kind : NULL;
}

/* Whether a PDO is of MySQL. */
static bool is_of_mysql(zend_object *pdo)
{
    zval attribute, name;
    ZVAL_LONG(&attribute, PDO_ATTR_DRIVER_NAME);
    if (!call(pdo, "getAttribute", &name, &attribute, NULL))
        return false;
    bool is = Z_TYPE(name) == IS_STRING && zend_string_equals_literal(Z_STR(name), "mysql");
    if (!is)
        zend_argument_type_error(1, "must be a PDO of the driver mysql");
    zval_ptr_dtor(&name);
    return is;
}

/* Takes a connection that was handed in. */
static bool take_connection(zval *given, connection *connection)
{
    zend_object *object = Z_TYPE_P(given) == IS_OBJECT ? Z_OBJ_P(given) : NULL;
    *connection = (struct connection){.driver = DRIVER_PDO, .object = object};
    if (object != NULL && (connection->kind = driver_of(object, "pdo")) != NULL)
        return is_of_mysql(object);
    connection->driver = DRIVER_MYSQLI;
    if (object != NULL && (connection->kind = driver_of(object, "mysqli")) != NULL)
        return true;
    zend_argument_type_error(1, "must be of type PDO|mysqli, %s given", zend_zval_type_name(given));
    return false;
}

/* Calls the driver's own method, which sends nothing, and none of a class that extends it: that might say anything. Returns
 * false without an exception if there is no answer, as of an object whose constructor wasn't called. */
static bool ask_driver(const connection *connection, const char *name, zval *answer, zval *argument)
{
    zend_function *method = zend_hash_str_find_ptr(&connection->kind->function_table, name, strlen(name));
    ZVAL_UNDEF(answer);
    zend_call_known_function(method, connection->object, connection->object->ce, answer, argument != NULL, argument, NULL);
    if (EG(exception) == NULL)
        return true;
    zend_clear_exception();
    return false;
}

/* Whether the driver escapes a backslash by nothing: its own idea of the mode, by what the server said last. Returns whether
 * it has one. */
static bool mode_of_driver(const connection *connection, bool *mode)
{
    bool is_pdo = connection->driver == DRIVER_PDO;
    zval backslash, escaped;
    ZVAL_STRINGL(&backslash, "\\", 1);
    bool is_known = ask_driver(connection, is_pdo ? "quote" : "real_escape_string", &escaped, &backslash);
    zval_ptr_dtor(&backslash);
    if (!is_known)
        return false;
    size_t backslashes = 0;
    for (size_t i = 0; Z_TYPE(escaped) == IS_STRING && i < Z_STRLEN(escaped); i++)
        backslashes += Z_STRVAL(escaped)[i] == '\\';
    *mode = backslashes == 1;
    zval_ptr_dtor(&escaped);
    return backslashes > 0;
}

/* Whether the driver has all results of what was sent by it before. PDO doesn't say so, and sends nothing until it has. */
static bool has_all_results(const connection *connection)
{
    zval has_more;
    if (connection->driver == DRIVER_PDO)
        return true;
    return ask_driver(connection, "more_results", &has_more, NULL) && Z_TYPE(has_more) == IS_FALSE;
}

/* Sets what mysqli tells of its connection. Returns whether it does, and whether the character set is one that a text may go
 * out in: else `change_user` sets the server's back to it, after a SET NAMES, and changes nothing that mysqli tells. */
static bool take_connected(const connection *connection, signs *signs)
{
    zval charset, held;
    signs->thread = zval_get_long(zend_read_property(connection->object->ce, connection->object, "thread_id",
                                                     sizeof "thread_id" - 1, 1, &held));
    if (!ask_driver(connection, "character_set_name", &charset, NULL))
        return false;
    signs->charset = zval_get_string(&charset);
    zval_ptr_dtor(&charset);
    return zend_string_equals_literal(signs->charset, "utf8mb4");
}

/* Asks the driver, and not the server. */
static signs signs_of(const connection *connection)
{
    signs signs = {0};
    signs.are_known = has_all_results(connection) && mode_of_driver(connection, &signs.mode) &&
                      (connection->driver == DRIVER_PDO || take_connected(connection, &signs));
    return signs;
}

/* Whether both are known and the same. */
static bool are_equal(const signs *a, const signs *b)
{
    bool have = a->charset != NULL && b->charset != NULL;
    return a->are_known && b->are_known && a->mode == b->mode && a->thread == b->thread &&
           (have ? zend_string_equals(a->charset, b->charset) : a->charset == b->charset);
}

/* Throws a refusal of the connection, of which this takes the only reference. */
static bool throw_session(zend_object *refusal, const char *variable)
{
    zval thrown;
    if (variable != NULL)
        zend_update_property_string(exception_ce, refusal, "name", sizeof "name" - 1, variable);
    ZVAL_OBJ(&thrown, refusal);
    zend_throw_exception_object(&thrown);
    return false;
}

/* Refuses a connection that answers nothing, as one whose driver says errors by false. */
static bool refuse_silence(void)
{
    return throw_session(new_refusal(REFUSED_SESSION, "The connection gave no answer to %s", question_text), NULL);
}

/* Refuses a character set other than utf8mb4. */
static bool judge_charset(const connection *connection, const char *variable, zval *cell)
{
    zend_string *value = zval_get_string(cell);
    bool is_right = zend_string_equals_literal(value, "utf8mb4");
    if (!is_right)
        throw_session(new_refusal(REFUSED_SESSION,
                                  "The connection's %s is %s, and has to be utf8mb4: %s", variable, ZSTR_VAL(value),
                                  connection->driver == DRIVER_PDO ? "connect with charset=utf8mb4"
                                                                   : "call set_charset('utf8mb4')"),
                      variable);
    zend_string_release(value);
    return is_right;
}

/* Whether a word stands in a list with commas, in letters of any case. */
static bool has_word(const zend_string *list, const char *word)
{
    size_t len = strlen(word);
    const char *at = ZSTR_VAL(list), *end = at + ZSTR_LEN(list);
    while (at < end) {
        const char *comma = memchr(at, ',', (size_t)(end - at));
        size_t part = (size_t)((comma == NULL ? end : comma) - at);
        if (part == len && zend_binary_strcasecmp(at, part, word, len) == 0)
            return true;
        at += part + 1;
    }
    return false;
}

/* Takes the cells of the answer. */
static bool take_answer(const connection *connection, HashTable *row, told *told)
{
    zval *cells[4];
    for (zend_ulong i = 0; i < 4; i++) {
        cells[i] = zend_hash_index_find(row, i);
        if (cells[i] == NULL)
            return refuse_silence();
    }
    if (!judge_charset(connection, "character_set_client", cells[1]) ||
        !judge_charset(connection, "character_set_connection", cells[2]))
        return false;
    zend_string *sql_mode = zval_get_string(cells[0]);
    told->mode = has_word(sql_mode, "NO_BACKSLASH_ESCAPES");
    zend_string_release(sql_mode);
    told->most = (size_t)zval_get_long(cells[3]) - BESIDE_TEXT;
    return true;
}

/* Sets PDO's attribute for prepared statements. An exception that was thrown stays. */
static void set_emulates(zend_object *pdo, bool emulates)
{
    zval attribute, value, returned;
    zend_object *held = EG(exception);
    if (held != NULL) {
        GC_ADDREF(held);
        zend_clear_exception();
    }
    ZVAL_LONG(&attribute, PDO_ATTR_EMULATE_PREPARES);
    ZVAL_BOOL(&value, emulates);
    call(pdo, "setAttribute", &returned, &attribute, &value);
    zval_ptr_dtor(&returned);
    if (held != NULL && EG(exception) == NULL)
        zend_throw_exception_internal(held);
    else if (held != NULL)
        OBJ_RELEASE(held);
}

/* Sends a text by PDO's query. Without emulation it would look for places in the text, and have the server prepare it.
 * So that is on meanwhile, and then the text goes out as it is. */
static bool query_by_pdo(zend_object *pdo, zval *text, zval *returned)
{
    zval attribute, emulates;
    ZVAL_LONG(&attribute, PDO_ATTR_EMULATE_PREPARES);
    if (!call(pdo, "getAttribute", &emulates, &attribute, NULL))
        return false;
    bool is_on = zend_is_true(&emulates);
    zval_ptr_dtor(&emulates);
    if (!is_on)
        set_emulates(pdo, true);
    bool is_sent = EG(exception) == NULL && call(pdo, "query", returned, text, NULL);
    if (!is_on)
        set_emulates(pdo, false);
    return is_sent && EG(exception) == NULL;
}

/* Sends a text, and returns what the driver's query returns. */
static bool send_query(const connection *connection, zval *text, zval *returned)
{
    ZVAL_UNDEF(returned);
    if (connection->driver == DRIVER_PDO)
        return query_by_pdo(connection->object, text, returned);
    return call(connection->object, "query", returned, text, NULL);
}

/* Takes the first row of a result, and lets go of the result. */
static bool take_row(const connection *connection, zval *result, told *told)
{
    bool is_pdo = connection->driver == DRIVER_PDO;
    zval row, mode, returned;
    ZVAL_LONG(&mode, PDO_FETCH_NUM);
    if (!call(Z_OBJ_P(result), is_pdo ? "fetch" : "fetch_row", &row, is_pdo ? &mode : NULL, NULL))
        return false;
    bool is_taken = call(Z_OBJ_P(result), is_pdo ? "closeCursor" : "free", &returned, NULL, NULL);
    zval_ptr_dtor(&returned);
    if (is_taken)
        is_taken = Z_TYPE(row) == IS_ARRAY ? take_answer(connection, Z_ARRVAL(row), told) : refuse_silence();
    zval_ptr_dtor(&row);
    return is_taken;
}

/* Asks a connection. */
static bool ask_connection(const connection *connection, told *told)
{
    zval text, result;
    ZVAL_STRINGL(&text, question_text, sizeof question_text - 1);
    bool is_asked = send_query(connection, &text, &result);
    zval_ptr_dtor(&text);
    if (is_asked)
        is_asked = Z_TYPE(result) == IS_OBJECT ? take_row(connection, &result, told) : refuse_silence();
    zval_ptr_dtor(&result);
    return is_asked;
}

/* What is kept of a connection, or null. */
static told *kept_of(const connection *connection)
{
    return zend_hash_index_find_ptr(&MYSQL_PARAMS_G(told), zend_object_to_weakref_key(connection->object));
}

/* Keeps what a connection answered, with the signs that the driver has then. */
static void keep(const connection *connection, told *told)
{
    struct told *kept = kept_of(connection);
    told->signs = signs_of(connection);
    told->is_kept = told->signs.are_known && told->signs.mode == told->mode && (kept == NULL || kept->is_kept);
    told->is_asked_again = false;
    if (kept == NULL) {
        kept = ecalloc(1, sizeof *kept);
        zend_weakrefs_hash_add_ptr(&MYSQL_PARAMS_G(told), connection->object, kept);
    }
    signs_free(&kept->signs);
    *kept = *told;
}

/* Has a connection be asked before the next text. */
static void forget(const connection *connection)
{
    told *kept = kept_of(connection);
    if (kept != NULL)
        kept->is_asked_again = true;
}

/* Whether what a connection answered before holds still, as far as its driver knows. */
static bool holds(const connection *connection, const told *kept)
{
    if (kept == NULL || !kept->is_kept || kept->is_asked_again)
        return false;
    signs now = signs_of(connection);
    bool holds = are_equal(&now, &kept->signs);
    signs_free(&now);
    return holds;
}

/* What a connection answered, now or before. */
static bool told_by(const connection *connection, bool always_ask, told *told)
{
    const struct told *kept = kept_of(connection);
    if (!always_ask && holds(connection, kept)) {
        *told = *kept;
        return true;
    }
    if (!ask_connection(connection, told))
        return false;
    keep(connection, told);
    return true;
}

/* The text to send over a connection, whose answer tells the mode and how long it may be. The query's template is looked for
 * after that, since asking may run code of a user, for which another takes its place. */
static zend_string *text_for(const connection *connection, question *question, bool always_ask)
{
    told told;
    if (!told_by(connection, always_ask, &told))
        return NULL;
    question->mode = told.mode;
    zend_string *text = answer_again(question);
    if (text == NULL || ZSTR_LEN(text) <= told.most)
        return text;
    throw_session(new_refusal(REFUSED_PACKET,
                              "The text has %zu bytes, and the connection's max_allowed_packet lets %zu through",
                              ZSTR_LEN(text), told.most),
                  NULL);
    zend_string_release(text);
    return NULL;
}

/* What a call that sends takes. */
typedef struct sending {
    connection connection;
    zend_string *query;
    HashTable *params; /* or null */
    bool always_ask;
    bool steady; /* whether the text is that of bind_anywhere */
} sending;

static bool take_sending(INTERNAL_FUNCTION_PARAMETERS, sending *sending)
{
    zval *given;
    (void)return_value;
    sending->params = NULL;
    sending->always_ask = sending->steady = false;
    ZEND_PARSE_PARAMETERS_START_EX(ZEND_PARSE_PARAMS_THROW, 2, 5)
        Z_PARAM_ZVAL(given)
        Z_PARAM_STR(sending->query)
        Z_PARAM_OPTIONAL
        Z_PARAM_ARRAY_HT(sending->params)
        Z_PARAM_BOOL(sending->always_ask)
        Z_PARAM_BOOL(sending->steady)
    ZEND_PARSE_PARAMETERS_END_EX(return false);
    return take_connection(given, &sending->connection);
}

/* The text that a call sends. The parameters are written before the connection is asked. */
static bool text_of(const sending *sending, zval *text)
{
    form form;
    zend_string *made = NULL;
    form_begin(&form);
    writer writer = {&form, LEVEL_PLACES, NULL, 0, -1};
    if (sending->params == NULL || write_params(&writer, sending->params)) {
        question question = {.call = sending->steady ? CALL_ANYWHERE : CALL_CONNECTION, .query = bytes_of(sending->query),
                             .again = sending->query, .form = {form.bytes, form.len}, .values = form.values,
                             .is_fragments = form.is_fragments};
        made = text_for(&sending->connection, &question, sending->always_ask);
    }
    form_free(&form);
    if (made != NULL)
        ZVAL_STR(text, made);
    return made != NULL;
}

/* Whether a query is one SELECT, INSERT, UPDATE, DELETE or REPLACE: these leave the session as it is. Of a query that may
 * be so, as one with a `;` in a string, it is said that it isn't. */
static bool leaves_session(const zend_string *query)
{
    static const char *const words[] = {"select", "insert", "update", "delete", "replace"};
    const char *at = ZSTR_VAL(query), *end = at + ZSTR_LEN(query);
    while (at < end && isspace((unsigned char)*at))
        at++;
    while (at < end && (isspace((unsigned char)end[-1]) || end[-1] == ';'))
        end--;
    size_t len = 0;
    while (at + len < end && isalpha((unsigned char)at[len]))
        len++;
    for (size_t i = 0; i < sizeof words / sizeof *words; i++) {
        if (len == strlen(words[i]) && zend_binary_strcasecmp(at, len, words[i], len) == 0)
            return memchr(at, ';', (size_t)(end - at)) == NULL;
    }
    return false;
}

/* Sends a text by the driver's `query`, or by its `exec`. */
typedef bool sender(const connection *connection, zval *text, zval *returned);

/* Sends the text of a call. What its connection answered is forgotten if the text may change it: before, since a method of
 * a user may send another text meanwhile, and after, since that one asked before the change. */
static bool send_by(sender *send, const sending *sending, zval *returned)
{
    zval text;
    bool leaves = leaves_session(sending->query);
    ZVAL_UNDEF(returned);
    if (!text_of(sending, &text))
        return false;
    if (!leaves)
        forget(&sending->connection);
    bool is_sent = send(&sending->connection, &text, returned);
    zval_ptr_dtor(&text);
    if (!leaves)
        forget(&sending->connection);
    if (EG(exception) != NULL)
        hide_sent_text();
    return is_sent;
}

PHP_FUNCTION(MysqlParams_query)
{
    sending sending;
    if (!take_sending(INTERNAL_FUNCTION_PARAM_PASSTHRU, &sending) || !send_by(send_query, &sending, return_value))
        RETURN_THROWS();
}

/* Sends a text for which PDO returns how many rows it changed. */
static bool send_change(const connection *connection, zval *text, zval *returned)
{
    if (connection->driver == DRIVER_PDO)
        return call(connection->object, "exec", returned, text, NULL);
    return send_query(connection, text, returned);
}

/* Returns how many rows a text of mysqli changed, after its result, if it has one, was let go of. */
static void return_changed(zend_object *mysqli, zval *result, zval *return_value)
{
    zval returned, held;
    if (Z_TYPE_P(result) == IS_OBJECT && call(Z_OBJ_P(result), "free", &returned, NULL, NULL))
        zval_ptr_dtor(&returned);
    if (Z_TYPE_P(result) == IS_FALSE)
        RETURN_FALSE;
    zval *changed = zend_read_property(mysqli->ce, mysqli, "affected_rows", sizeof "affected_rows" - 1, 1, &held);
    if (changed == &held)
        RETURN_COPY_VALUE(changed);
    RETURN_COPY(changed);
}

PHP_FUNCTION(MysqlParams_execute)
{
    sending sending;
    zval result;
    if (!take_sending(INTERNAL_FUNCTION_PARAM_PASSTHRU, &sending) || !send_by(send_change, &sending, &result))
        RETURN_THROWS();
    if (sending.connection.driver == DRIVER_PDO)
        RETURN_COPY_VALUE(&result);
    return_changed(sending.connection.object, &result, return_value);
    zval_ptr_dtor(&result);
}

PHP_FUNCTION(MysqlParams_ask_again)
{
    zval *given;
    connection connection;
    ZEND_PARSE_PARAMETERS_START(1, 1)
        Z_PARAM_ZVAL(given)
    ZEND_PARSE_PARAMETERS_END();
    if (!take_connection(given, &connection))
        RETURN_THROWS();
    forget(&connection);
}
