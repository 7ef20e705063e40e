/* The words of this Forth: a cell has 32 bits, and true is -1. Each primitive stands here twice: as C for the interpreter, and as
   instructions for the compiler. There EAX is the top of the stack, ESI points to the cell below it, the stack grows down, and EDI and EBX
   are the index and the limit of the innermost loop. */
#ifndef WORDS_H
#define WORDS_H

#include <stdint.h>

typedef int32_t Cell;

#define CELLS 4096u /* of variables; an address is taken modulo this */
#define DEPTH 1024u /* cells of the stack */

/* A number, the name, what it does in C, and the instructions. `top` is the top of the stack, `s[0]` the cell below it, `t` a free one, and
   `loop[0]` the index. */
#define PRIMITIVES(X) \
    X(DUP, "dup", (s[-1] = top, s--), "\x8D\x76\xFC\x89\x06") \
    X(DROP_ONE, "drop", (top = s[0], s += 1), "\x8B\x06\x8D\x76\x04") \
    X(SWAP, "swap", (t = s[0], s[0] = top, top = t), "\x8B\x0E\x89\x06\x89\xC8") \
    X(OVER, "over", (t = s[0], s[-1] = top, top = t, s--), "\x8D\x76\xFC\x89\x06\x8B\x46\x04") \
    X(ROT, "rot", (t = s[1], s[1] = s[0], s[0] = top, top = t), "\x8B\x4E\x04\x8B\x16\x89\x56\x04\x89\x06\x89\xC8") \
    X(ADD, "+", (top = (Cell)((uint32_t)s[0] + (uint32_t)top), s += 1), "\x03\x06\x8D\x76\x04") \
    X(SUB, "-", (top = (Cell)((uint32_t)s[0] - (uint32_t)top), s += 1), "\x8B\x0E\x29\xC1\x89\xC8\x8D\x76\x04") \
    X(MUL, "*", (top = (Cell)((uint32_t)s[0] * (uint32_t)top), s += 1), "\x0F\xAF\x06\x8D\x76\x04") \
    X(AND, "and", (top &= s[0], s += 1), "\x23\x06\x8D\x76\x04") \
    X(OR, "or", (top |= s[0], s += 1), "\x0B\x06\x8D\x76\x04") \
    X(XOR, "xor", (top ^= s[0], s += 1), "\x33\x06\x8D\x76\x04") \
    X(INVERT, "invert", (top = ~top), "\xF7\xD0") \
    X(NEGATE, "negate", (top = (Cell)(0 - (uint32_t)top)), "\xF7\xD8") \
    X(LSHIFT, "lshift", (top = (Cell)((uint32_t)s[0] << (top & 31)), s += 1), "\x89\xC1\x8B\x06\xD3\xE0\x8D\x76\x04") \
    X(RSHIFT, "rshift", (top = (Cell)((uint32_t)s[0] >> (top & 31)), s += 1), "\x89\xC1\x8B\x06\xD3\xE8\x8D\x76\x04") \
    X(EQUAL, "=", (top = -(s[0] == top), s += 1), "\x3B\x06\x0F\x94\xC0\x0F\xB6\xC0\xF7\xD8\x8D\x76\x04") \
    X(LESS, "<", (top = -(s[0] < top), s += 1), "\x39\x06\x0F\x9C\xC0\x0F\xB6\xC0\xF7\xD8\x8D\x76\x04") \
    X(GREATER, ">", (top = -(s[0] > top), s += 1), "\x39\x06\x0F\x9F\xC0\x0F\xB6\xC0\xF7\xD8\x8D\x76\x04") \
    X(ZERO, "0=", (top = -(top == 0)), "\x83\xF8\x01\x19\xC0") \
    X(INC, "1+", (top = (Cell)((uint32_t)top + 1)), "\x40") \
    X(DEC, "1-", (top = (Cell)((uint32_t)top - 1)), "\x48") \
    X(FETCH, "@", (top = cells[(uint32_t)top % CELLS]), "\x25\xFF\x0F\x00\x00\x8B\x04\x85" ADDRESS) \
    X(STORE, "!", (cells[(uint32_t)top % CELLS] = s[0], top = s[1], s += 2), \
      "\x25\xFF\x0F\x00\x00\x8B\x0E\x89\x0C\x85" ADDRESS "\x8B\x46\x04\x8D\x76\x08") \
    X(INDEX, "i", (s[-1] = top, s--, top = loop[0]), "\x8D\x76\xFC\x89\x06\x89\xF8")

#define ADDRESS "CELL" /* of the variables, which the compiler puts there */

/* Words of C that both call. */
#define CALLED(X) X("/", divide) X("mod", modulo) X(".", print) X("emit", emit)

#endif
