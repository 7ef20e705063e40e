/*
 * A Forth that compiles each word to machine code in its box, while it runs: forth < SCRIPT.
 *
 *     nc-cc -O2 examples/forth/forth.c examples/forth/compile.c -o forth.elf
 *     nc-run --live-code 1M forth.elf < examples/forth/demo.fs
 *
 * Each definition becomes a chunk. `is` patches a deferred word, and `forget` deletes chunks. Where there is no room for code, as without
 * --live-code, a word is interpreted, with the same results. So does a native build with -DINTERPRETED, which has no compiler.
 *
 * Status 0: all of the script was run. 1: a line was wrong, which standard error says, or standard output can't be written.
 */
#include "forth.h"

#include <stdio.h>
#include <stdlib.h>
#include <string.h>

#define OPEN 64u /* `if`, `begin` and `do` within each other */
#define LINE 1024u

Word words[WORDS];
Token tokens[TOKENS];
Cell cells[CELLS];
uint32_t word_count, token_count;

static Cell stack[DEPTH + 2 * SPARE];
static Cell *now = stack + DEPTH; /* the top; with a cell below it for an empty stack */
static uint32_t cell_count, open[OPEN], open_count, calls;
static int compiling, wrong;
static char *line;

static void fail(const char *what, const char *word) {
    if (!wrong) {
        fprintf(stderr, "forth: %s%s\n", what, word);
    }
    wrong = 1;
}

/* ---- Words of C, which get the stack with its top in memory, and return it */

static Cell *divide(Cell *s) {
    s[1] = s[0] == 0 ? 0 : (Cell)((int64_t)s[1] / s[0]);
    return s + 1;
}

static Cell *modulo(Cell *s) {
    s[1] = s[0] == 0 ? 0 : (Cell)((int64_t)s[1] % s[0]);
    return s + 1;
}

static Cell *print(Cell *s) {
    printf("%d ", (int)s[0]);
    return s + 1;
}

static Cell *emit(Cell *s) {
    putchar(s[0]);
    return s + 1;
}

#define AS_ENTRY(name, function) {name, function},
const CalledWord called_words[] = {CALLED(AS_ENTRY)};
#define CALLED_COUNT (sizeof called_words / sizeof *called_words)

/* ---- The interpreter */

#define AS_NUMBER(number, name, statement, code) number,
/* clang-format off */
#define AS_CASE(number, name, statement, code) case number: statement; break;
/* clang-format on */
enum { PRIMITIVES(AS_NUMBER) };

static Cell *primitive(uint32_t number, Cell *s, const Cell *loop) {
    Cell top = *s++, t;
    switch (number) { PRIMITIVES(AS_CASE) }
    *--s = top;
    return s;
}

/* Steps of a word until its end. The indices and limits of its loops are its own. */
static Cell *interpret(uint32_t at, Cell *s) {
    Cell own[2 * OPEN], *loop = own + 2 * OPEN;
    if (++calls > DEPTH) {
        fail("too many calls within each other", "");
    }
    for (; !wrong && tokens[at].kind != RETURN; at++) {
        const Token *token = &tokens[at];
        switch (token->kind) {
        case PRIMITIVE: s = primitive((uint32_t)token->value, s, loop); break;
        case C_WORD: s = called_words[token->value].function(s); break;
        case LITERAL: *--s = token->value; break;
        case CALL: s = execute((uint32_t)token->value, s); break;
        case BRANCH: at = (uint32_t)token->value - 1; break;
        case UNLESS: at = *s++ == 0 ? (uint32_t)token->value - 1 : at; break;
        case DO:
            loop -= 2;
            loop[0] = s[0];
            loop[1] = s[1];
            s += 2;
            break;
        case LOOP:
            at = ++loop[0] < loop[1] ? (uint32_t)token->value - 1 : at;
            loop += at == (uint32_t)(token - tokens) ? 2 : 0;
            break;
        default: break;
        }
        if (s < stack + SPARE || s > stack + DEPTH + SPARE / 2) {
            fail("the stack has no room, or nothing on it", "");
        }
    }
    calls--;
    return s;
}

Cell *execute(uint32_t word, Cell *s) {
    while (words[word].is_deferred && words[word].code == NULL) {
        if (words[word].target == NONE) {
            return s;
        }
        word = words[word].target;
    }
    return words[word].code != NULL ? run_code(words[word].code, s) : interpret(words[word].from, s);
}

/* ---- Definitions */

static void add(uint8_t kind, Cell value) {
    if (token_count + 1 >= TOKENS) {
        fail("there is no room for a word so long", "");
        return;
    }
    tokens[token_count++] = (Token){kind, value};
}

static void push_open(uint32_t at) {
    if (open_count == OPEN) {
        fail("too many structures within each other", "");
        return;
    }
    open[open_count++] = at;
}

static uint32_t pop_open(void) {
    if (open_count == 0) {
        fail("a structure ends that hasn't begun", "");
        return 0;
    }
    return open[--open_count];
}

static void to_here(uint32_t at) {
    tokens[at].value = (Cell)token_count;
}

static void c_if(void) {
    push_open(token_count);
    add(UNLESS, 0);
}
static void c_then(void) {
    to_here(pop_open());
}
static void c_begin(void) {
    push_open(token_count);
}
static void c_until(void) {
    add(UNLESS, (Cell)pop_open());
}
static void c_while(void) {
    c_if();
}
static void c_do(void) {
    add(DO, 0);
    push_open(token_count);
}
static void c_loop(void) {
    add(LOOP, (Cell)pop_open());
}
static void c_recurse(void) {
    add(CALL, (Cell)word_count);
}

static void c_else(void) {
    uint32_t before = pop_open();
    push_open(token_count);
    add(BRANCH, 0);
    to_here(before);
}

static void c_repeat(void) {
    uint32_t exit = pop_open();
    add(BRANCH, (Cell)pop_open());
    to_here(exit);
}

static const struct {
    const char *name;
    void (*compile)(void);
} structures[] = {{"if", c_if},       {"else", c_else},     {"then", c_then}, {"begin", c_begin}, {"until", c_until},
                  {"while", c_while}, {"repeat", c_repeat}, {"do", c_do},     {"loop", c_loop},   {"recurse", c_recurse}};

/* The next word of the line, or NULL. */
static char *next(void) {
    return strtok(NULL, " \t\r\n");
}

static uint32_t find(const char *name) {
    uint32_t k = word_count;
    while (k != 0 && strcmp(words[k - 1].name, name) != 0) {
        k--;
    }
    return k != 0 ? k - 1 : NONE;
}

static void begin_word(void) {
    const char *name = next();
    Word *word = &words[word_count];
    if (name == NULL || word_count + 1 == WORDS || strlen(name) >= sizeof word->name) {
        fail("no name, one too long, or too many", "");
        return;
    }
    memset(word, 0, sizeof *word);
    strcpy(word->name, name);
    word->from = token_count;
    word->target = NONE;
}

/* With its tokens complete it becomes a chunk, if there is room. */
static void end_word(void) {
    if (open_count != 0) {
        fail("a structure isn't ended", "");
    }
    add(RETURN, 0);
    if (!wrong) {
        words[word_count].code = compile_word(&words[word_count], token_count);
        word_count++;
    }
}

static void d_colon(void) {
    begin_word();
    compiling = !wrong;
    open_count = 0;
}

static void d_variable(void) {
    begin_word();
    add(LITERAL, (Cell)(cell_count++ % CELLS));
    end_word();
}

static void d_constant(void) {
    begin_word();
    add(LITERAL, *now++);
    end_word();
}

static void d_defer(void) {
    begin_word();
    words[word_count].is_deferred = 1;
    end_word();
}

static uint32_t named(void) {
    const char *name = next();
    uint32_t word = name != NULL ? find(name) : NONE;
    if (word == NONE) {
        fail("no such word: ", name != NULL ? name : "");
    }
    return word;
}

/* is NAME, with the word that `'` has left. The deferred word's jump is patched. */
static void d_is(void) {
    uint32_t word = named(), target = (uint32_t)*now++;
    if (word == NONE || !words[word].is_deferred || target >= word_count) {
        fail("only a deferred word can become another one", "");
        return;
    }
    words[word].target = target;
    if (!redirect(&words[word])) {
        fail("there is no room for the code of ", words[target].name);
    }
}

static void d_tick(void) {
    uint32_t word = named();
    *--now = (Cell)word;
}

/* forget NAME: it, and all that came later. Deferred words that led there lead nowhere. */
static void d_forget(void) {
    uint32_t word = named(), k;
    if (word == NONE) {
        return;
    }
    for (k = 0; k < word; k++) {
        if (words[k].is_deferred && words[k].target != NONE && words[k].target >= word) {
            words[k].target = NONE;
            (void)redirect(&words[k]);
        }
    }
    while (word_count > word) {
        forget_code(&words[--word_count]);
    }
    token_count = words[word].from;
}

static const struct {
    const char *name;
    void (*define)(void);
} definers[] = {{":", d_colon}, {"variable", d_variable}, {"constant", d_constant}, {"defer", d_defer}, {"is", d_is},
                {"'", d_tick},  {"forget", d_forget}};

/* ---- Lines */

static int is_structure(const char *word) {
    size_t k;
    for (k = 0; k < sizeof structures / sizeof *structures; k++) {
        if (strcmp(word, structures[k].name) == 0) {
            structures[k].compile();
            return 1;
        }
    }
    return 0;
}

static int is_definer(const char *word) {
    size_t k;
    for (k = 0; k < sizeof definers / sizeof *definers; k++) {
        if (strcmp(word, definers[k].name) == 0) {
            definers[k].define();
            return 1;
        }
    }
    return 0;
}

/* What a word means within a definition: a token, or kind RETURN for nothing. */
static Token meaning(const char *word) {
#define AS_NAME(number, name, statement, code) name,
    static const char *const names[] = {PRIMITIVES(AS_NAME)};
    uint32_t k = find(word);
    char *end;
    long number = strtol(word, &end, 10);
    if (k != NONE) {
        return (Token){CALL, (Cell)k};
    }
    for (k = 0; k < sizeof names / sizeof *names; k++) {
        if (strcmp(word, names[k]) == 0) {
            return (Token){PRIMITIVE, (Cell)k};
        }
    }
    for (k = 0; k < CALLED_COUNT; k++) {
        if (strcmp(word, called_words[k].name) == 0) {
            return (Token){C_WORD, (Cell)k};
        }
    }
    return (Token){*end == 0 ? LITERAL : RETURN, (Cell)number};
}

/* Runs one token outside of a definition. */
static void run_token(Token token) {
    tokens[token_count] = token;
    tokens[token_count + 1].kind = RETURN;
    now = interpret(token_count, now);
}

static void take(const char *word) {
    Token token;
    if (compiling && strcmp(word, ";") == 0) {
        compiling = 0;
        end_word();
    } else if (compiling ? !is_structure(word) : !is_definer(word)) {
        token = meaning(word);
        if (token.kind == RETURN) {
            fail("no such word: ", word);
        } else if (compiling) {
            add(token.kind, token.value);
        } else {
            run_token(token);
        }
    }
}

/* After a line that is wrong the stack is empty, and the definition is given up. */
static void recover(void) {
    token_count = compiling ? words[word_count].from : token_count;
    compiling = 0;
    calls = 0;
    now = stack + DEPTH;
}

int main(void) {
    static char buffer[LINE];
    int status = 0;
    while ((line = fgets(buffer, sizeof buffer, stdin)) != NULL) {
        char *word;
        wrong = 0;
        for (word = strtok(line, " \t\r\n"); word != NULL && strcmp(word, "\\") != 0 && !wrong; word = next()) {
            take(word);
        }
        if (wrong) {
            recover();
            status = 1;
        }
    }
    return fflush(stdout) != 0 ? 1 : status;
}
