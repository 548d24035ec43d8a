/* MuJS: runs work.js. */
#include <stdio.h>

#include "embed.h"
#include "mujs.h"

EMBED(text, "work.js");

static void print(js_State *J) {
    for (int i = 1; i < js_gettop(J); i++) {
        printf(i > 1 ? " %s" : "%s", js_tostring(J, i));
    }
    putchar('\n');
    js_pushundefined(J);
}

int main(void) {
    js_State *J = js_newstate(NULL, NULL, JS_STRICT);
    if (!J) {
        puts("out of memory");
        return 1;
    }
    js_newcfunction(J, print, "print", 0);
    js_setglobal(J, "print");
    if (js_dostring(J, text)) {
        return 1;
    }
    js_freestate(J);
    return 0;
}
