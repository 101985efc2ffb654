/*
 * lawqendo.h: the balance chair's dispatcher, for a controller in C.
 *
 * Link with libboard.a (`.ci/archive` writes target/archive/libboard.a, for x86-64-v2 and the C calling convention).
 * Five calls: a check of a task table, a start, two events, and a timing verdict. Each answers for every argument of its
 * types, whatever the numbers are; docs/BOARD.md says what is proved of them.
 *
 * Nothing is kept between calls: no global, no thread's own data. Nothing is allocated and no system call is made; of other
 * functions the archive calls memcpy, memmove and memset alone. Two threads may call at once on arrays of their own. An event
 * uses some 20 KB of the stack.
 *
 * The caller owns every array. An array must be there for the whole call, aligned as its type asks, and no two arrays of
 * one call may overlap. `words` is only read. NULL is allowed nowhere, except that `words` may be any aligned pointer that is
 * not NULL where `words_length` is 0.
 */
#ifndef LAWQENDO_H
#define LAWQENDO_H

#include <stddef.h>
#include <stdint.h>

#ifdef __cplusplus
extern "C" {
#endif

/* The state travels as an image: so many uint64_t (4,528 bytes). */
#define LAWQENDO_IMAGE 566

/* An answer: so many uint64_t. Every call writes all of them; what a call has nothing to say of is 0. */
#define LAWQENDO_ANSWER 5

/* The longest table that passes the check, in words. */
#define LAWQENDO_ROOM 834

/* The most tasks, resources, steps of a plan, and sections held at once. */
#define LAWQENDO_TASKS 16
#define LAWQENDO_RESOURCES 16
#define LAWQENDO_STEPS 16
#define LAWQENDO_SECTIONS 4

/*
 * answer[LAWQENDO_NUMBER]    what is answered, by the numbers below; the call returns it too
 * answer[LAWQENDO_VALUE]     with refusals 1 to 5 and 14 the place, a word index; with LATE the least t; with FINISHED the
 *                            lateness, to be read as (int64_t)answer[LAWQENDO_VALUE]
 * answer[LAWQENDO_RUNS]      1 if a job runs now, 0 if the processor is idle (an accepted event; else 0)
 * answer[LAWQENDO_TASK]      the running job's task
 * answer[LAWQENDO_DEADLINE]  its active deadline, in ticks
 */
enum {
    LAWQENDO_NUMBER = 0,
    LAWQENDO_VALUE = 1,
    LAWQENDO_RUNS = 2,
    LAWQENDO_TASK = 3,
    LAWQENDO_DEADLINE = 4
};

/* What is answered. */
enum {
    LAWQENDO_ACCEPTED = 0, /* the table is sound; the state is started; the event is accepted */
    LAWQENDO_SHORT = 1,    /* the check, a start or a verdict: a wanted word isn't there, or words remain */
    LAWQENDO_COUNT = 2,    /* a number of tasks, resources or steps is outside its limits */
    LAWQENDO_RANGE = 3,    /* a T, D or C is outside its limits */
    LAWQENDO_STEP = 4,     /* a step is none: its kind, its resource, its length, or an unlock's words */
    LAWQENDO_NEST = 5,     /* a plan's sections don't nest */
    LAWQENDO_TORN = 6,     /* an event: the state's own ranges fail */
    LAWQENDO_BACK = 7,     /* the time is before the clock */
    LAWQENDO_END = 8,      /* the time is 2^40 or more */
    LAWQENDO_NOBODY = 9,   /* a release: no such task. A step: no job is ready */
    LAWQENDO_ACTIVE = 10,  /* a release: the task's job is still ready */
    LAWQENDO_EARLY = 11,   /* a release: less than T after the task's last accepted release */
    LAWQENDO_HELD = 12,    /* a step: it locks what another ready job holds; never from a fresh start */
    LAWQENDO_CROWDED = 14, /* the check, a start or a verdict: a plan's sections claim more ticks than C, or than the section around them */
    LAWQENDO_FITS = 20,    /* the verdict: demand and blocking stay within t, for every t without end */
    LAWQENDO_LATE = 21,    /* the least t whose demand and blocking are above t stands in the answer */
    LAWQENDO_HEAVY = 22,   /* more work than time */
    LAWQENDO_LONG = 23,    /* the common multiple of the periods is above 1,000,000: left open */
    LAWQENDO_FINISHED = 64 /* an accepted step that ended its job, whose lateness stands in the answer */
};

/*
 * Where the image keeps what (the numbers of document 01; times in ticks). It is the caller's to copy, to store and to send:
 * 566 numbers of 64 bits in the machine's byte order. Read it as you like; who writes it makes up a state, and gets a defined
 * answer to every event on it, TORN where document 01 says so.
 *
 *   0 .. 416                   the table's words, two in each: word 2k in the low half of number k, word 2k + 1 in its high half
 *   LAWQENDO_AT_LENGTH         how many words the table has
 *   LAWQENDO_AT_CLOCK          the time of the last accepted event
 *   LAWQENDO_AT_COUNT          how many releases were accepted
 *   LAWQENDO_AT_READY          which tasks have a ready job: bit i for task i
 *   LAWQENDO_AT_HAD            which tasks have had a release: bit i for task i
 *   LAWQENDO_AT_ROW(i) ..      task i, nine numbers: base deadline, active deadline, release number, place in the plan, four saved
 *                              deadlines, last accepted release
 *
 * Ready, had and the places have 32 bits: of a number there the low half is read, and an accepted event clears the high half.
 */
#define LAWQENDO_AT_LENGTH 417
#define LAWQENDO_AT_CLOCK 418
#define LAWQENDO_AT_COUNT 419
#define LAWQENDO_AT_READY 420
#define LAWQENDO_AT_HAD 421
#define LAWQENDO_AT_ROW(i) (422 + 9 * (i))

/* The check. Answers ACCEPTED, or a refusal 1 to 5 or 14 with its place. */
uint64_t lawqendo_check(const uint32_t *words, size_t words_length, uint64_t answer[LAWQENDO_ANSWER]);

/* A start. Answers as the check does. ACCEPTED leaves the image of a fresh state; a refusal leaves zeros, on which every event is TORN.
   What the image held before is not read. */
uint64_t lawqendo_start(const uint32_t *words, size_t words_length, uint64_t image[LAWQENDO_IMAGE],
                        uint64_t answer[LAWQENDO_ANSWER]);

/* A release of a task at a time. Answers ACCEPTED and who runs, and leaves the new state's image; or a refusal 6 to 11, and leaves the
   image as it was, number for number. */
uint64_t lawqendo_release(uint64_t image[LAWQENDO_IMAGE], uint32_t task, uint64_t time, uint64_t answer[LAWQENDO_ANSWER]);

/* The running job's next step at a time: its next lock or unlock, or its finish. Answers ACCEPTED and who runs; or FINISHED, the lateness and
   who runs; either leaves the new state's image. Or a refusal 6, 7, 8, 9 or 12, and leaves the image as it was, number for number. */
uint64_t lawqendo_step(uint64_t image[LAWQENDO_IMAGE], uint64_t time, uint64_t answer[LAWQENDO_ANSWER]);

/* The timing verdict. Answers FITS, LATE with its t, HEAVY or LONG; or a refusal 1 to 5 or 14 with its place. It may take long: some
   2,000,000 values of t may be tried. */
uint64_t lawqendo_verdict(const uint32_t *words, size_t words_length, uint64_t answer[LAWQENDO_ANSWER]);

#ifdef __cplusplus
}
#endif

#endif
