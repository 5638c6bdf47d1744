/* Document 01's whole case through the C library: each call's answer as the line that the runner prints.
   In order: the register's memory; one answer as a line; a listing written and read back; the case.
   Build: gcc -Iinclude examples/c/whole_case.c target/staticlib/libffi.a */
#include <stdio.h>
#include <string.h>

#include "ravencrumb.h"

/* ---- the register's memory is the caller's */
static uint32_t nodes[RC_NODE_WORDS], entries[RC_ENTRY_WORDS], words[RC_WORDS], answer[RC_ANSWER_WORDS];

/* ---- one answer as a line */
static void say(uint32_t who) {
    static const char *name[] = {"refused", "started", "working", "waiting", "key",
                                 "inserted", "removed", "present", "absent", "end"};
    switch (answer[0]) {
    case RC_REFUSED:
        printf("refused=%u\n", answer[1]);
        break;
    case RC_KEY:
    case RC_END:
        printf("%s=%u,%u,%u\n", name[answer[0]], who, answer[1], answer[2]);
        break;
    case RC_INSERTED:
    case RC_REMOVED:
        printf("%s=%u,%u\n", name[answer[0]], who, answer[1]);
        break;
    default:
        printf("%s=%u\n", name[answer[0]], who);
    }
}

static void start(uint32_t who, uint32_t kind, uint32_t first, uint32_t second) {
    ravencrumb_start(nodes, RC_NODE_WORDS, entries, RC_ENTRY_WORDS, words, RC_WORDS, answer, RC_ANSWER_WORDS, who, kind,
                     first, second);
    say(who);
}

static void step(uint32_t who, int times) {
    for (int i = 0; i < times; i++) {
        ravencrumb_step(nodes, RC_NODE_WORDS, entries, RC_ENTRY_WORDS, words, RC_WORDS, answer, RC_ANSWER_WORDS, who);
        say(who);
    }
}

/* ---- the keys that a range over all keys hands out, in one call while no other session has a step; written as a
   listing and read into another register */
static int copied(void) {
    static uint32_t pairs[2 * RC_MOST_KEYS], keys[RC_MOST_KEYS], values[RC_MOST_KEYS], told[RC_STEPS_ANSWER_WORDS];
    static uint32_t more_nodes[RC_NODE_WORDS], more_entries[RC_ENTRY_WORDS], more_words[RC_WORDS];
    static uint8_t listing[RC_LISTING_BYTES];
    ravencrumb_start(nodes, RC_NODE_WORDS, entries, RC_ENTRY_WORDS, words, RC_WORDS, answer, RC_ANSWER_WORDS, 2,
                     RC_RANGE, 1, UINT32_MAX - 1);
    ravencrumb_steps(nodes, RC_NODE_WORDS, entries, RC_ENTRY_WORDS, words, RC_WORDS, pairs, 2 * RC_MOST_KEYS, told,
                     RC_STEPS_ANSWER_WORDS, 2, UINT32_MAX);
    if (told[0] != RC_END) return 1;
    uint32_t n = told[RC_PAIRS_FILLED];
    for (uint32_t i = 0; i < n; i++) {
        keys[i] = pairs[2 * i];
        values[i] = pairs[2 * i + 1];
    }
    if (ravencrumb_write(told[1], keys, n, values, n, listing, RC_LISTING_BYTES, answer, RC_ANSWER_WORDS)) return 1;
    uint32_t length = answer[1];
    fwrite(listing, 1, length, stdout);
    if (ravencrumb_read(listing, length, more_nodes, RC_NODE_WORDS, more_entries, RC_ENTRY_WORDS, more_words, RC_WORDS,
                        answer, RC_ANSWER_WORDS))
        return 1;
    return memcmp(nodes, more_nodes, sizeof nodes) || memcmp(entries, more_entries, sizeof entries);
}

int main(void) {
    if (ravencrumb_fresh(nodes, RC_NODE_WORDS, entries, RC_ENTRY_WORDS, words, RC_WORDS) != 0) return 1;
    /* ---- the case: a range before the update's Number ends empty, one after it waits for the update */
    start(0, RC_INSERT, 20, 7);
    step(0, 4);
    start(1, RC_RANGE, 1, 100);
    step(1, 3);
    step(0, 1);
    start(1, RC_RANGE, 1, 100);
    step(1, 3);
    step(0, 2);
    step(1, 3);
    return copied();
}
