/* Duktape: runs work.js. */
#include <stdio.h>

#include "duktape.h"
#include "embed.h"

EMBED(text, "work.js");

static duk_ret_t print(duk_context *js) {
    duk_push_string(js, " ");
    duk_insert(js, 0);
    duk_join(js, duk_get_top(js) - 1);
    puts(duk_safe_to_string(js, -1));
    return 0;
}

int main(void) {
    duk_context *js = duk_create_heap_default();
    if (!js) {
        puts("out of memory");
        return 1;
    }
    duk_push_c_function(js, print, DUK_VARARGS);
    duk_put_global_string(js, "print");
    if (duk_peval_lstring(js, text, LENGTH(text)) != 0) {
        puts(duk_safe_to_string(js, -1));
        return 1;
    }
    duk_destroy_heap(js);
    return 0;
}
