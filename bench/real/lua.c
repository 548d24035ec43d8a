/* Lua: runs work.lua. */
#include <stdio.h>

#include "embed.h"
#include "lauxlib.h"
#include "lua.h"
#include "lualib.h"

/* The libraries that make sense on a node, which has no processes, no files and no shared objects. */
static const luaL_Reg libraries[] = {
    {LUA_GNAME, luaopen_base},
    {LUA_TABLIBNAME, luaopen_table},
    {LUA_STRLIBNAME, luaopen_string},
    {LUA_MATHLIBNAME, luaopen_math},
    {LUA_COLIBNAME, luaopen_coroutine},
    {LUA_UTF8LIBNAME, luaopen_utf8},
};

EMBED(text, "work.lua");

int main(void) {
    lua_State *L = luaL_newstate();
    if (!L) {
        puts("out of memory");
        return 1;
    }
    for (unsigned i = 0; i < sizeof libraries / sizeof *libraries; i++) {
        luaL_requiref(L, libraries[i].name, libraries[i].func, 1);
        lua_pop(L, 1);
    }
    if (luaL_loadbuffer(L, text, LENGTH(text), "=work.lua") != LUA_OK || lua_pcall(L, 0, 0, 0) != LUA_OK) {
        puts(lua_tostring(L, -1));
        return 1;
    }
    lua_close(L);
    return 0;
}
