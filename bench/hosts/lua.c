/* The same calls in Lua 5.4, by lua_pcall with a hook that counts instructions and stops a function which takes too many. */
#define _POSIX_C_SOURCE 200809L
#include "measure.h"

#include <lauxlib.h>
#include <lua.h>
#include <lualib.h>

static const char text[] = "function add(a, b) return a + b end\n"
                           "function power(a, b) local r = 1 while b > 0 do r = r * a & 0xffffffff b = b - 1 end return r end\n"
                           "function ten() local r = 0 for i = 1, 10 do r = host() end return r end\n"
                           "function divides() return 1 // 0 end\n"
                           "function endless() while true do end end\n";
static lua_State *l;
static const char *function;
static int a, b, limit = 2000;

static void stop(lua_State *state, lua_Debug *ar) {
    (void)ar;
    luaL_error(state, "too many");
}

static int host(lua_State *state) {
    lua_pushinteger(state, 7);
    return 1;
}

static void call_once(void) {
    lua_sethook(l, stop, LUA_MASKCOUNT, limit);
    lua_getglobal(l, function);
    lua_pushinteger(l, a);
    lua_pushinteger(l, b);
    lua_pcall(l, 2, 1, 0);
    lua_settop(l, 0);
}

static void load_once(void) {
    luaL_loadstring(l, text);
    lua_settop(l, 0);
}

static void call(const char *what, const char *name, int first, int second, int many) {
    function = name;
    a = first;
    b = second;
    measure(what, call_once, many);
}

static int bytes(void) {
    lua_gc(l, LUA_GCCOLLECT);
    return lua_gc(l, LUA_GCCOUNT) * 1024 + lua_gc(l, LUA_GCCOUNTB);
}

int main(void) {
    l = luaL_newstate();
    luaL_openlibs(l);
    lua_register(l, "host", host);
    int before = bytes();
    if (luaL_dostring(l, text)) return 1;
    printf("Lua 5.4: bytes for each plug-in\t%d\t0\n", bytes() - before);
    call("Lua 5.4: an empty call", "add", 2, 3, 5000);
    call("Lua 5.4: 199 turns of a loop (999 instructions)", "power", 3, 199, 1000);
    call("Lua 5.4: ten calls of the host", "ten", 0, 0, 1000);
    call("Lua 5.4: a dropped call", "divides", 0, 0, 1000);
    limit = 1000;
    call("Lua 5.4: an endless call, dropped at 1,000", "endless", 0, 0, 1000);
    measure("Lua 5.4: load", load_once, 100);
    lua_close(l);
    return 0;
}
