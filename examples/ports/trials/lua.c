/* Lua: floating point, strings, tables, errors caught, coroutines, code that is loaded. */
#include <stdio.h>
#include "lauxlib.h"
#include "lua.h"
#include "lualib.h"

static const char *const SCRIPT =
    "local function fib(n) if n < 2 then return n end return fib(n - 1) + fib(n - 2) end print('fib', fib(26))\n"
    "local s = 0 for i = 1, 1000 do s = s + 1 / i end print(string.format('%.12f', s))\n"
    "print(math.sqrt(2), math.pi, math.sin(1), 2 ^ 0.5, 7 // 2, -7 // 2, 7.5 % 2, -7 % 3, 1e300 * 1e10, 0 / 0 ~= 0 / 0)\n"
    "local t = {} for i = 1, 200 do t[i] = (i * 7919) % 211 end table.sort(t, function(a, b) return a > b end) print(t[1], t[100], t[200], #t)\n"
    "print(('hello world'):gsub('o', '0'), ('x'):rep(5, ','), ('%5.2f|%d|%q'):format(3.14159, 42, 'a\\nb'))\n"
    "print(pcall(function() error({code = 42}, 0) end) == false, select(2, pcall(function() local x; return x.y end)))\n"
    "local co = coroutine.wrap(function(a) for i = 1, 3 do a = coroutine.yield(a * 2 + i) end return 'done' end) print(co(10), co(20), co(30), co(1))\n"
    "local mt = setmetatable({}, {__index = function(_, k) return k .. '!' end, __add = function() return 'sum' end}) print(mt.foo, mt + 1)\n"
    "goto done; print('no') ::done:: print(math.tointeger(3.0), 3 | 4, ~0, 1 << 62, 5 // 0.0, 0x7fffffffffffffff + 1)\n"
    "print(tostring(1e15), tostring(2 ^ 53), tonumber('0x1p4'), tonumber('1e1'), 10 / 2, 0.1 + 0.2, 1e-310 / 3)\n"
    "print(load('return 1 +'), load('return 6 * 7')())\n";

int main(void) {
    lua_State *state = luaL_newstate();
    luaL_openlibs(state);
    if (luaL_dostring(state, SCRIPT)) printf("error: %s\n", lua_tostring(state, -1));
    lua_close(state);
    return 0;
}
