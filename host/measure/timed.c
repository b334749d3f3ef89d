/* Makes each call that it reads again and again and prints its name and its nanoseconds, without those of the copy of
   the position that each turn is given. */
#define _GNU_SOURCE
#include "calls.h"
#include <stdio.h>
#include <stdlib.h>
#include <string.h>
#include <time.h>

enum { LASTING = 50 * 1000 * 1000 };

typedef uint64_t (*function)(uint64_t, uint64_t, uint64_t, uint64_t, uint64_t, uint64_t, uint64_t, uint64_t);

/* Words that a call does not have are left unread by it. */
static void make(const struct call *call) {
    const uint64_t *w = call->words;
    ((function)call->function)(w[0], w[1], w[2], w[3], w[4], w[5], w[6], w[7]);
}

static uint64_t now(void) {
    struct timespec time;
    clock_gettime(CLOCK_MONOTONIC, &time);
    return (uint64_t)time.tv_sec * 1000000000 + (uint64_t)time.tv_nsec;
}

/* Nanoseconds of a turn, which copies the position and then makes the call or does not, over enough turns to last a
   twentieth of a second. A call's first two words are its position. */
static uint64_t turn(const struct call *call, const void *position, bool calls) {
    uint64_t start = now(), turns = 0, passed;
    do {
        memcpy((void *)call->words[0], position, call->words[1]);
        if (calls) {
            make(call);
        }
        turns++;
        passed = now() - start;
    } while (passed < LASTING);
    return passed / turns;
}

int main(void) {
    struct call call;
    while (next_call(&call)) {
        void *position = malloc(call.words[1]);
        memcpy(position, (void *)call.words[0], call.words[1]);
        uint64_t whole = turn(&call, position, true), copy = turn(&call, position, false);
        printf("%s %llu\n", call.name, (unsigned long long)(whole > copy ? whole - copy : 0));
        free(position);
    }
    return 0;
}
