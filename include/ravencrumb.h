/* Ravencrumb for C: an ordered register of keys and values for sixteen sessions, one small step at a time.
   In order: sizes; the words; numbers of kinds, phases, answers and refusals; the calls.
   Every function is proved to meet its contract (crates/ffi/specs/Ffi.antt); this file only declares them, and nothing
   but the tests compares it with the source.

   All memory is the caller's. Each slice goes in as a pointer and a length in elements; slices that a call writes may
   not overlap with any other slice of that call. A call of another length than below is refused 7, any content is
   taken. Every call returns 0 or the number of the refusal. A refusal changes nothing but the answer; RC_FULL differs:
   it frees the lock and makes the session idle. Where the answer's length is not RC_ANSWER_WORDS (ravencrumb_steps:
   RC_STEPS_ANSWER_WORDS) the call returns RC_BAD_TABLE and writes nothing at all. */
#ifndef RAVENCRUMB_H
#define RAVENCRUMB_H

#include <stddef.h>
#include <stdint.h>

#ifdef __cplusplus
extern "C" {
#endif

/* ---- sizes, in elements */
#define RC_NODE_WORDS 3072    /* 512 nodes of 6 words: key, value, next, lock, removed, newest */
#define RC_ENTRY_WORDS 8192   /* 2,048 entries of 4 words: target, stamp, pending, older */
#define RC_WORDS 147          /* 3 counters and 16 records of RC_RECORD_WORDS */
#define RC_RECORD_WORDS 9
#define RC_ANSWER_WORDS 3
#define RC_STEPS_ANSWER_WORDS 5 /* of ravencrumb_steps */
#define RC_SESSIONS 16
#define RC_MOST_KEYS 510
#define RC_LISTING_BYTES 16357 /* the longest listing */

/* ---- the words: word 0 nodes used, 1 entries used, 2 stamp; session s has words 3 + 9 s and on, in this order */
#define RC_NODES_USED 0
#define RC_ENTRIES_USED 1
#define RC_STAMP 2
#define RC_RECORD(s) (3 + RC_RECORD_WORDS * (s))
#define RC_RECORD_KIND 0   /* which operation: a kind */
#define RC_RECORD_FIRST 1  /* its key; a range's low */
#define RC_RECORD_SECOND 2 /* an insert's value; a range's high */
#define RC_RECORD_PHASE 3  /* which phase, and from word 4 on its own numbers; unused words are 0 */

/* ---- kinds */
#define RC_NONE 0
#define RC_INSERT 1 /* key, value */
#define RC_REMOVE 2 /* key */
#define RC_HAS 3    /* key */
#define RC_RANGE 4  /* low, high */

/* ---- phases, each with its numbers */
#define RC_PHASE_IDLE 0
#define RC_PHASE_WALK 1      /* pred, curr */
#define RC_PHASE_LOCK 2      /* pred, curr */
#define RC_PHASE_LOCK_CURR 3 /* pred, curr */
#define RC_PHASE_CHECK 4     /* pred, curr */
#define RC_PHASE_PREPARE 5   /* pred, curr */
#define RC_PHASE_NUMBER 6    /* pred, node, lower, upper: the new or the removed node, and the two entries laid */
#define RC_PHASE_LINK 7      /* pred, node, lower, upper, number */
#define RC_PHASE_FINISH 8    /* pred, node, lower, upper, number */
#define RC_PHASE_NEWEST 9    /* at: has follows the newest links */
#define RC_PHASE_FIX 10      /* pred */
#define RC_PHASE_FOLLOW 11   /* at, snapshot, handed out */
#define RC_PHASE_HAND 12     /* at, snapshot, handed out */

/* ---- answers: word 0 the name, words 1 and 2 its values, unused ones 0 */
#define RC_REFUSED 0  /* the number; RC_BAD_LISTING: the offset too */
#define RC_STARTED 1
#define RC_WORKING 2
#define RC_WAITING 3
#define RC_KEY 4      /* key, value */
#define RC_INSERTED 5 /* the update's number */
#define RC_REMOVED 6  /* the update's number */
#define RC_PRESENT 7
#define RC_ABSENT 8
#define RC_END 9      /* snapshot, keys handed out */
#define RC_WRITTEN 10 /* the length */
#define RC_LOADED 11  /* the stamp: one update for each key */

/* ---- behind the answer of ravencrumb_steps: word 3 how many pairs are filled, word 4 how many steps were made */
#define RC_PAIRS_FILLED 3
#define RC_STEPS_MADE 4

/* ---- refusals */
#define RC_BAD_SESSION 1
#define RC_BUSY 2
#define RC_BAD_KEY 3
#define RC_BAD_RANGE 4
#define RC_IDLE 5
#define RC_FULL 6
#define RC_BAD_TABLE 7
#define RC_DAMAGED 8 /* a step's own check, and words that are no record's */
#define RC_BAD_LISTING 9
#define RC_TOO_MANY 10
#define RC_NO_ROOM 11
#define RC_BAD_PAIRS 12

/* Makes the tables and words those of a fresh register: no key, stamp 0, all sessions idle. Refuses 7. */
uint32_t ravencrumb_fresh(uint32_t *nodes, size_t nodes_len, uint32_t *entries, size_t entries_len, uint32_t *words,
                          size_t words_len);

/* Starts an operation of session `who`; no step of it is made. `second` is not looked at for remove and has.
   Refuses 7, 1, 8 (the session's words are no record's), 2, 3 (also for a kind that is none of 1 to 4), 4. */
uint32_t ravencrumb_start(const uint32_t *nodes, size_t nodes_len, const uint32_t *entries, size_t entries_len,
                          uint32_t *words, size_t words_len, uint32_t *answer, size_t answer_len, uint32_t who,
                          uint32_t kind, uint32_t first, uint32_t second);

/* One step of session `who`. Refuses 7, 1, 8 (the session's words are no record's), 5, 8 (damaged); 6 (full). */
uint32_t ravencrumb_step(uint32_t *nodes, size_t nodes_len, uint32_t *entries, size_t entries_len, uint32_t *words,
                         size_t words_len, uint32_t *answer, size_t answer_len, uint32_t who);

/* Steps of session `who` in one call, the same as ravencrumb_step again and again: until an answer that is neither
   working nor a key, or a key that leaves no room for another in `pairs`, or `limit` steps; one at least. Key i handed
   out is pairs[2 i], its value pairs[2 i + 1]; `pairs` may have any length, 0 too: then a key ends the call and is in
   the answer alone, where the last key always is. answer[RC_PAIRS_FILLED] pairs are filled, answer[RC_STEPS_MADE] steps
   were made, the last of them answered. Refuses as ravencrumb_step does; a refusal of a later step leaves what the steps
   before it did. With the others' steps in mind: a call of k steps is k steps of this session in a row. */
uint32_t ravencrumb_steps(uint32_t *nodes, size_t nodes_len, uint32_t *entries, size_t entries_len, uint32_t *words,
                          size_t words_len, uint32_t *pairs, size_t pairs_len, uint32_t *answer, size_t answer_len,
                          uint32_t who, uint32_t limit);

/* Writes a listing of a stamp, keys and values (as many values as keys) and answers its length; no byte past it changes.
   Refuses 12, 11. */
uint32_t ravencrumb_write(uint32_t stamp, const uint32_t *keys, size_t keys_len, const uint32_t *values,
                          size_t values_len, uint8_t *out, size_t out_len, uint32_t *answer, size_t answer_len);

/* Reads a listing into the tables and words: the register that a fresh one becomes after inserting the keys in order,
   all sessions idle. Refuses 7, then 9 (answer word 2 is the offset of the first line not allowed there) or 10. */
uint32_t ravencrumb_read(const uint8_t *input, size_t input_len, uint32_t *nodes, size_t nodes_len, uint32_t *entries,
                         size_t entries_len, uint32_t *words, size_t words_len, uint32_t *answer, size_t answer_len);

#ifdef __cplusplus
}
#endif

#endif
