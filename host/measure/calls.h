/* The library's calls, read from lines as `src/deep.rs` writes them. A line is a call's name and its arguments in C's
   order, each a number or, behind an x, a buffer's bytes in hex digits. */
#ifndef CALLS_H
#define CALLS_H
#include <stdbool.h>
#include <stdint.h>

/* The most arguments that a call has, each in a word. */
enum { WORDS = 8 };

struct call {
    const char *name;
    void *function;
    uint64_t words[WORDS];
    int count;
};

/* Reads the next line of standard input; false if there is none. */
bool next_call(struct call *call);

#endif
