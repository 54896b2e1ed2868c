/* module.c: the addon, and the state of an environment. */
#include "native.h"

#include <stdlib.h>

static void give_state_back(napi_env env, void *data, void *hint)
{
    native_state *state = data;
    (void)env;
    (void)hint;
    free(state->query);
    free(state->room);
    free(state);
}

/* Keeps the state of an environment. */
static bool set_up(napi_env env)
{
    native_state *state = calloc(1, sizeof *state);
    if (state == NULL)
        return false;
    state->query = calloc(KEPT_ROOM, 1);
    state->room = calloc(KEPT_ROOM, 1);
    if (state->query != NULL && state->room != NULL &&
        napi_set_instance_data(env, state, give_state_back, NULL) == napi_ok)
        return true;
    give_state_back(env, state, NULL);
    return false;
}

static bool export_function(napi_env env, napi_value exports, const char *name, napi_callback function)
{
    napi_value made;
    return napi_create_function(env, name, NAPI_AUTO_LENGTH, function, NULL, &made) == napi_ok &&
           napi_set_named_property(env, exports, name, made) == napi_ok;
}

NAPI_MODULE_INIT()
{
    static const struct {
        const char *name;
        napi_callback function;
    } functions[] = {
        {"bind", native_bind},
        {"bindRows", native_bind_rows},
        {"names", native_names},
        {"firstUnportable", native_first_unportable},
        {"constructMessage", native_construct_message},
        {"template", native_template},
        {"bindTemplate", native_bind_template},
    };
    if (!mysql_params_processor_suffices()) {
        napi_throw_error(env, NULL,
                         "mysql-params: the processor lacks a feature of x86-64-v2 (SSSE3, SSE4.2, POPCNT and others), for"
                         " which the library is compiled");
        return NULL;
    }
    if (!set_up(env))
        return throw_range(env, "no memory for the addon of mysql-params");
    for (size_t i = 0; i < sizeof functions / sizeof *functions; i++)
        if (!export_function(env, exports, functions[i].name, functions[i].function))
            return throw_range(env, "no memory for the addon of mysql-params");
    return exports;
}
