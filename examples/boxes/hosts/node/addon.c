/* An add-on for Node.js. open(FILE) returns a function that unpacks a text, or throws. host.js says how it is built. */
#include "../unpacker.h"

#include <node_api.h>

#define TEXT_MAX 4096

/* Throws an error, which JavaScript sees once the call of C has returned. */
static napi_value fail(napi_env env, const char *why) {
    (void)napi_throw_error(env, NULL, why); /* it fails only if another exception is pending, which then is thrown */
    return NULL;
}

/* The only argument of a call, as a text, and the data of the function. Whether it is a text, and not too long. */
static int argument(napi_env env, napi_callback_info info, char text[TEXT_MAX], void **data) {
    napi_value value;
    size_t count = 1, len;
    return napi_get_cb_info(env, info, &count, &value, NULL, data) == napi_ok && count == 1 &&
           napi_get_value_string_utf8(env, value, text, TEXT_MAX, &len) == napi_ok && len < TEXT_MAX - 1;
}

static napi_value unpack(napi_env env, napi_callback_info info) {
    char packed[TEXT_MAX], text[UNPACKED_MAX + 1];
    napi_value made;
    void *unpacker;
    const char *wrong = argument(env, info, packed, &unpacker) ? unpacker_unpack(unpacker, packed, text) : "a short text is wanted";
    if (wrong == NULL && napi_create_string_latin1(env, text, NAPI_AUTO_LENGTH, &made) == napi_ok) {
        return made;
    }
    return fail(env, wrong != NULL ? wrong : "the text can't be made");
}

static napi_value open(napi_env env, napi_callback_info info) {
    char path[TEXT_MAX];
    const char *why = "a short path is wanted";
    napi_value made;
    Unpacker *unpacker = argument(env, info, path, NULL) ? unpacker_new(path, &why) : NULL;
    if (unpacker == NULL) {
        return fail(env, why);
    }
    if (napi_create_function(env, "unpack", NAPI_AUTO_LENGTH, unpack, unpacker, &made) != napi_ok) {
        return fail(env, "the function can't be made");
    }
    return made;
}

NAPI_MODULE_INIT() {
    napi_value function;
    if (napi_create_function(env, "open", NAPI_AUTO_LENGTH, open, NULL, &function) != napi_ok ||
        napi_set_named_property(env, exports, "open", function) != napi_ok) {
        return fail(env, "the add-on can't be made");
    }
    return exports;
}
