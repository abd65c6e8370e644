/* An addon for Node.js by Node-API, which show.js uses. nextItem(octets, from) returns the item of a recording that begins at bit from, or null
   if there is none. The item is an object: its members are those of the struct p25_item but fixes and text_length, and text is its line.

   cc -shared -fPIC -I /usr/include/node -I bindings -o p25.node bindings/languages/show_node.c out/libp25.a */
#include "p25.h"

#include <node_api.h>

/* Adds a member to an object: a number, exact up to 2^53. */
static void add(napi_env env, napi_value object, const char *name, uint64_t number) {
    napi_value value;
    napi_create_double(env, (double)number, &value);
    napi_set_named_property(env, object, name, value);
}

static napi_value next_item(napi_env env, napi_callback_info info) {
    napi_value words[2], found, line;
    size_t count = 2, n = 0;
    void *octets = NULL;
    int64_t from = 0;
    p25_item item = {0};
    char text[P25_TEXT_ROOM] = {0};
    napi_get_cb_info(env, info, &count, words, NULL, NULL);
    if (napi_get_buffer_info(env, words[0], &octets, &n) != napi_ok || napi_get_value_int64(env, words[1], &from) != napi_ok) {
        napi_throw_type_error(env, NULL, "nextItem takes a Buffer and a number");
        return NULL;
    }
    if (p25_next_item(octets, n, 0, (uint64_t)from, true, &item, text, sizeof text) != P25_ITEM) {
        napi_get_null(env, &found);
        return found;
    }
    napi_create_object(env, &found);
    add(env, found, "place", item.place);
    add(env, found, "bits", item.bits);
    add(env, found, "kind", item.kind);
    add(env, found, "nac", item.nac);
    add(env, found, "duid", item.duid);
    napi_create_string_latin1(env, text, item.text_length, &line);
    napi_set_named_property(env, found, "text", line);
    return found;
}

NAPI_MODULE_INIT() {
    napi_value function;
    napi_create_function(env, "nextItem", NAPI_AUTO_LENGTH, next_item, NULL, &function);
    napi_set_named_property(env, exports, "nextItem", function);
    return exports;
}
