/* mujs: a script with closures, exceptions, regular expressions, dates, JSON and numbers of floating point. */
#include <stdio.h>

#include "mujs.h"
#include "port.h"

static const char SCRIPT[] =
    "function Shape(name) { this.name = name; }\n"
    "Shape.prototype.text = function () { return '<' + this.name + '>'; };\n"
    "function fib(n) { return n < 2 ? n : fib(n - 1) + fib(n - 2); }\n"
    "function caught(f) { try { return f(); } catch (e) { return e.name + ': ' + e.message; } finally { seen.push('f'); } }\n"
    "var seen = [], k, sum = 0, words = {};\n"
    "seen.push(fib(15), new Shape('box').text(), caught(function () { return null.x; }));\n"
    "seen.push(caught(function () { throw new RangeError('r'); }));\n"
    "for (k = 1; k <= 300; ++k) sum += Math.sin(k) / k + Math.pow(k, -1.5) + Math.atan2(k, 3);\n"
    "seen.push(sum, sum.toFixed(8), sum.toExponential(5), sum.toString(16), 1e21 + 1, 0.1 + 0.2, 5e-324);\n"
    "seen.push(parseFloat('3.25e-7x'), -7 % 3, 1 / 3, new Date(86400000 * 365.25).toISOString());\n"
    "seen.push('one two  three'.replace(/(\\w+)\\s+(\\w+)/g, '$2 $1').toUpperCase(), 'a1b22c333'.match(/\\d+/g).join('|'));\n"
    "seen.push('x,y,z'.split(','), JSON.stringify(JSON.parse('{\"a\": [1, 2.5, {\"b\": null}], \"c\": \"\\\\u00e9\"}')));\n"
    "'the quick brown the lazy the dog brown'.split(' ').forEach(function (word) { words[word] = (words[word] || 0) + 1; });\n"
    "seen.push(Object.keys(words).sort().map(function (word) { return word + words[word]; }).join(' '));\n"
    "var list = []; for (k = 0; k < 200; ++k) list.push((k * 7919) % 211); list.sort(function (a, b) { return b - a; });\n"
    "seen.push(list.slice(0, 5), list.reduce(function (a, b) { return a * 31 + b | 0; }, 7), 1 << 31 >>> 3, ~5 ^ 12);\n"
    "seen.join('\\n');\n";

static void report(js_State *state, const char *message) {
    printf("%s (%d)\n", message, js_gettop(state));
}

/* What the script gives in a state of its own, as a checksum behind others. */
static unsigned work(unsigned sum, int shows) {
    js_State *state = js_newstate(NULL, NULL, JS_STRICT);
    js_setreport(state, report);
    if (js_ploadstring(state, "script", SCRIPT) == 0) js_pushundefined(state);
    if (js_gettop(state) < 2 || js_pcall(state, 0) != 0) report(state, js_trystring(state, -1, "?"));
    const char *text = js_trystring(state, -1, "?");
    for (const char *at = text; *at != 0; at++) sum = sum_of(sum, at, 1);
    if (shows) printf("%s\n", text);
    js_dostring(state, "var x = ;");
    js_gc(state, 0);
    js_freestate(state);
    return sum;
}

int main(int argc, char **argv) {
    unsigned sum = 0;
    for (int k = rounds_of(argc, argv); k > 0; k--) sum = work(sum, k == 1);
    printf("%08x\n", sum);
    return 0;
}
