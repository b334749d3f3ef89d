#define _GNU_SOURCE
#include "calls.h"
#include "referee.h"
#include <stdio.h>
#include <stdlib.h>
#include <string.h>

enum { PAGE = 4096 };

static const struct {
    const char *name;
    void *function;
} calls[] = {
    {"supply", ia_supply},   {"move", ia_move},     {"end", ia_end_phase},     {"attack", ia_attack},
    {"retreat", ia_retreat}, {"losses", ia_losses}, {"advance", ia_advance}, {"close", ia_close},
};

static void find(struct call *call, const char *name) {
    for (size_t i = 0; i < sizeof calls / sizeof *calls; i++) {
        if (strcmp(calls[i].name, name) == 0) {
            call->name = calls[i].name;
            call->function = calls[i].function;
            return;
        }
    }
    fprintf(stderr, "calls: no call is named %s\n", name);
    exit(2);
}

static unsigned digit(char c) { return c <= '9' ? (unsigned)(c - '0') : (unsigned)(c - 'a') + 10; }

/* A buffer from its hex digits. It begins a page, so that a call takes the same instructions each time; the calls are few,
   so it is never freed. */
static uint64_t buffer(const char *digits) {
    size_t bytes = strlen(digits) / 2;
    unsigned char *made = aligned_alloc(PAGE, (bytes / PAGE + 1) * PAGE);
    for (size_t i = 0; i < bytes; i++) {
        made[i] = (unsigned char)(16 * digit(digits[2 * i]) + digit(digits[2 * i + 1]));
    }
    return (uint64_t)made;
}

bool next_call(struct call *call) {
    static char *line = NULL;
    static size_t room = 0;
    if (getline(&line, &room, stdin) <= 0) {
        return false;
    }
    memset(call, 0, sizeof *call);
    find(call, strtok(line, " \n"));
    for (char *word; call->count < WORDS && (word = strtok(NULL, " \n")) != NULL; call->count++) {
        call->words[call->count] = *word == 'x' ? buffer(word + 1) : strtoull(word, NULL, 10);
    }
    return true;
}
