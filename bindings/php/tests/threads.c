/* threads.c: requests in several threads of a PHP with threads (ZTS): threads SETTINGS
 *
 * PHP's own program has one thread; this one has PHP as a library, as FrankenPHP and mod_php with a threaded server do. SETTINGS
 * is a php.ini that loads the extension. It writes what differs from the text that is wanted, and its status is 1 then. */
#include "sapi/embed/php_embed.h"

#include <pthread.h>
#include <stdio.h>

enum { THREADS = 4, REQUESTS = 25 };

/* What a request runs. It returns the text of a value of its thread, bound again and again. */
static const char program[] =
    "(function () {"
    "    try { MysqlParams\\bind_rows('SELECT :a', [['a' => %d], ['b' => 1]]); } catch (MysqlParams\\BindException) { }"
    "    try { MysqlParams\\bind('SELECT ?', [new MysqlParams\\In([])]); } catch (MysqlParams\\BindException $refusal) { }"
    "    if ($refusal->fault !== MysqlParams\\Fault::Empty) { return 'no fault'; }"
    "    for ($i = 0; $i < 20; $i++) { $text = MysqlParams\\bind('SELECT ?, ?', [%d, \"it's\"]); }"
    "    return $text;"
    "})()";

/* Runs a request, and returns whether its text is the wanted one. */
static bool is_right(int number)
{
    char code[sizeof program + 32], wanted[64];
    zval text;
    volatile bool is = false; /* a fatal error of PHP comes back here by longjmp */
    snprintf(code, sizeof code, program, number, number);
    snprintf(wanted, sizeof wanted, "SELECT %d, 'it\\'s'", number);
    if (php_request_startup() == FAILURE)
        return false;
    zend_first_try {
        if (zend_eval_string_ex(code, &text, "threads", true) == SUCCESS) {
            is = Z_TYPE(text) == IS_STRING && strcmp(Z_STRVAL(text), wanted) == 0;
            if (!is)
                fprintf(stderr, "wanted %s, found %s\n", wanted, Z_TYPE(text) == IS_STRING ? Z_STRVAL(text) : "no text");
            zval_ptr_dtor(&text);
        }
    } zend_end_try();
    php_request_shutdown(NULL);
    return is;
}

/* Runs the requests of a thread, of which this is given the number, and returns null if all are right. */
static void *run(void *given)
{
    int *number = given;
    bool are_right = true;
    ts_resource(0);
    for (int i = 0; i < REQUESTS; i++)
        are_right &= is_right(1000 * *number + i);
    ts_free_thread();
    return are_right ? NULL : given;
}

int main(int argc, char **argv)
{
    pthread_t threads[THREADS];
    int numbers[THREADS], wrong = 0;
    if (argc != 2)
        return 2;
    php_embed_module.php_ini_path_override = argv[1];
    if (php_embed_init(argc, argv) == FAILURE)
        return 2;
    for (int i = 0; i < THREADS; i++) {
        numbers[i] = i;
        if (pthread_create(&threads[i], NULL, run, &numbers[i]) != 0)
            return 2;
    }
    for (int i = 0; i < THREADS; i++) {
        void *found;
        wrong += pthread_join(threads[i], &found) != 0 || found != NULL;
    }
    php_embed_shutdown();
    return wrong > 0;
}
