/* Lua: a script over integers and strings, and one that computes with floating-point numbers. */
#include "unit.h"

#include "lauxlib.h"
#include "lua.h"
#include "lualib.h"

static const char INTEGERS[] = "local words, n = {}, 0\n"
                               "for w in TEXT:gmatch('%a+') do words[w] = (words[w] or 0) + 1 n = n + 1 end\n"
                               "local list = {}\n"
                               "for w in pairs(words) do list[#list + 1] = w end\n"
                               "table.sort(list)\n"
                               "local s = 0\n"
                               "for i = 1, #list do s = (s * 31 + words[list[i]] + #list[i]) & 0xffffff end\n"
                               "local sieve, c = {}, 0\n"
                               "for i = 2, 60000 do\n"
                               "  if not sieve[i] then c = c + 1 for j = i * i, 60000, i do sieve[j] = true end end\n"
                               "end\n"
                               "local function fib(k) if k < 2 then return k end return fib(k - 1) + fib(k - 2) end\n"
                               "return s + n + c + fib(22)\n";
static const char FLOATS[] = "local s = 0.0\n"
                             "for y = -16, 15 do\n"
                             "  for x = -20, 11 do\n"
                             "    local cr, ci, zr, zi, k = x / 16, y / 16, 0.0, 0.0, 0\n"
                             "    while k < 60 and zr * zr + zi * zi < 4.0 do\n"
                             "      zr, zi, k = zr * zr - zi * zi + cr, 2 * zr * zi + ci, k + 1\n"
                             "    end\n"
                             "    s = s + k / 3\n"
                             "  end\n"
                             "end\n"
                             "return math.floor(s * 100)\n";
/* clang-format off */
static const luaL_Reg LIBRARIES[] = {
    {"_G", luaopen_base}, {LUA_STRLIBNAME, luaopen_string}, {LUA_TABLIBNAME, luaopen_table}, {LUA_MATHLIBNAME, luaopen_math},
};
/* clang-format on */
static lua_State *state;

static void run(const char *script) {
    lua_settop(state, 0);
    need(luaL_loadstring(state, script) == LUA_OK);
    lua_call(state, 0, 1);
    need(lua_isinteger(state, -1));
    made_number((uint32_t)lua_tointeger(state, -1));
}

static void run_integers(void) {
    run(INTEGERS);
}

static void run_floats(void) {
    run(FLOATS);
}

void unit_prepare(void) {
    size_t k;
    state = luaL_newstate();
    need(state != NULL);
    for (k = 0; k < sizeof LIBRARIES / sizeof *LIBRARIES; k++) {
        luaL_requiref(state, LIBRARIES[k].name, LIBRARIES[k].func, 1);
    }
    lua_pushlstring(state, (char *)in, in_len / 2);
    lua_setglobal(state, "TEXT");
}

UNIT_OPERATIONS(run_integers, run_floats)
