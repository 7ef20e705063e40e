/* What the interpreter and the compiler share. */
#ifndef FORTH_H
#define FORTH_H

#include "words.h"

#define WORDS 1024u
#define TOKENS 65536u
#define SPARE 32u /* cells on both sides of the stack */
#define NONE (~(uint32_t)0)

enum { RETURN, PRIMITIVE, C_WORD, LITERAL, CALL, BRANCH, UNLESS, DO, LOOP };

/* A step of a word: a number of a table or of a word, a literal, or where to go on. */
typedef struct Token {
    uint8_t kind;
    Cell value;
} Token;

typedef struct Word {
    char name[32];
    uint32_t from;   /* its tokens, up to RETURN */
    void *code;      /* its chunk, or NULL: it is interpreted */
    uint32_t target; /* of a deferred word: another one, or NONE */
    int is_deferred;
} Word;

typedef struct CalledWord {
    const char *name;
    Cell *(*function)(Cell *s);
} CalledWord;

extern Word words[WORDS];
extern Token tokens[TOKENS];
extern Cell cells[CELLS];
extern const CalledWord called_words[];
extern uint32_t word_count, token_count;

Cell *execute(uint32_t word, Cell *s); /* the stack has its top in memory */

/* ---- compile.c */

#ifdef INTERPRETED
#define compile_word(word, end) ((void)(end), NULL)
#define run_code(code, s) ((void)(code), s)
#define redirect(word) ((void)(word), 1)
#define forget_code(word) ((void)(word))
#else
void *compile_word(const Word *word, uint32_t end); /* NULL if there is no room */
Cell *run_code(void *code, Cell *s);
int redirect(Word *word); /* a deferred word goes to its target; 0 if that has no chunk */
void forget_code(Word *word);
#endif

#endif
