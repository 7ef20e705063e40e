/* Lua: a script with floating point, strings, sorted tables, errors that are caught, coroutines and code that is loaded. */
#include <stdio.h>

#include "lauxlib.h"
#include "lua.h"
#include "lualib.h"
#include "port.h"

static const char SCRIPT[] =
    "local seen = {}\n"
    "local function see(...) for k = 1, select('#', ...) do seen[#seen + 1] = tostring((select(k, ...))) end end\n"
    "local function fib(n) if n < 2 then return n end return fib(n - 1) + fib(n - 2) end\n"
    "local sum = 0 for k = 1, 2000 do sum = sum + math.sin(k) / k + k ^ -1.5 end\n"
    "see(fib(18), string.format('%.12f %a', sum, sum), math.sqrt(2), 2 ^ 0.5, 7 // 2, -7 // 2, 7.5 % 2, -7 % 3, 1e300 * 1e10, 3 / 0.1)\n"
    "local list = {} for k = 1, 500 do list[k] = (k * 7919) % 521 end table.sort(list, function(a, b) return a > b end)\n"
    "see(list[1], list[100], list[500], #list, table.concat(list, ',', 1, 20))\n"
    "see(('hello world'):gsub('o', '0'), ('x'):rep(5, ','), ('%5.2f|%d|%q'):format(3.14159, 42, 'a\\nb'))\n"
    "see(('k=v, a=b'):match('(%w+)=(%w+)'))\n"
    "see(pcall(function() error({code = 42}, 0) end) == false, select(2, pcall(function() local x; return x.y end)))\n"
    "local each = coroutine.wrap(function(a) for k = 1, 3 do a = coroutine.yield(a * 2 + k) end return 'done' end)\n"
    "see(each(10), each(20), each(30), each(1))\n"
    "local other = setmetatable({}, {__index = function(_, k) return k .. '!' end, __add = function() return 'sum' end, __close = print})\n"
    "see(other.foo, other + 1, math.tointeger(3.0), 3 | 4, ~0, 1 << 62, 5 // 0.0, 0x7fffffffffffffff + 1, math.ult(1, -1))\n"
    "see(1e15, 2 ^ 53, tonumber('0x1p4'), tonumber('1e1'), 10 / 2, 0.1 + 0.2, 1e-310 / 3, load('return 1 +'), load('return 6 * 7')())\n"
    "see(string.pack('>I3d', 5, 0.1):byte(1, -1))\n"
    "for k = 1, 300 do local text = ('%d:%s'):format(k, ('ab'):rep(k % 7)) list[text] = #text end\n"
    "collectgarbage() see(utf8.char(233, 8364), utf8.len('\\u{e9}x'), os.date('!%c', 1e9))\n"
    "return table.concat(seen, ' ')\n";

/* What the script gives in a state of its own, as a checksum behind others. */
static unsigned work(unsigned sum, int shows) {
    lua_State *state = luaL_newstate();
    luaL_openlibs(state);
    if (luaL_dostring(state, SCRIPT)) printf("error: ");
    size_t length = 0;
    const char *text = lua_tolstring(state, -1, &length);
    if (shows) printf("%s\n", text);
    sum = sum_of(sum, text, length);
    lua_close(state);
    return sum;
}

int main(int argc, char **argv) {
    unsigned sum = 0;
    for (int k = rounds_of(argc, argv); k > 0; k--) sum = work(sum, k == 1);
    printf("%08x\n", sum);
    return 0;
}
