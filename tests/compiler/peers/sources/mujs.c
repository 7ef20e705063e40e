/* MuJS: a script with strings, regular expressions, objects and calls, whose numbers are all floating-point. */
#include "unit.h"

#include "mujs.h"

enum { TEXT_LEN = 40000 };
static const char SCRIPT[] = "var words = {}, n = 0, m, re = /[a-z]+/gi, t = TEXT;\n"
                             "while ((m = re.exec(t)) && n < 3000) { var w = m[0]; words['_' + w] = (words['_' + w] | 0) + 1; n++; }\n"
                             "var s = 0;\n"
                             "for (var k in words) s = (s * 31 + words[k] + k.length) % 16777216;\n"
                             "var a = [];\n"
                             "for (var i = 0; i < 2000; i++) a[i] = (i * 7919) % 2003;\n"
                             "a.sort(function (x, y) { return x - y; });\n"
                             "function fib(k) { return k < 2 ? k : fib(k - 1) + fib(k - 2); }\n"
                             "RESULT = s + n + a[77] + fib(18);\n";
static js_State *state;

static void run(void) {
    need(js_dostring(state, SCRIPT) == 0);
    js_getglobal(state, "RESULT");
    made_number((uint32_t)js_tonumber(state, -1));
    js_pop(state, 1);
}

void unit_prepare(void) {
    char *text = room_for(TEXT_LEN + 1);
    need(in_len >= TEXT_LEN);
    memcpy(text, in, TEXT_LEN);
    text[TEXT_LEN] = 0;
    state = js_newstate(NULL, NULL, 0);
    need(state != NULL);
    js_pushstring(state, text);
    js_setglobal(state, "TEXT");
    free(text);
}

UNIT_OPERATIONS(run)
