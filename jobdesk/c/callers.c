/* Calls the proved code from C as jobdesk.h says, and holds what it gives to what must come.
 * Prints each difference, and ends with status 1 if there is one. */
#include <stdio.h>
#include <string.h>

#include "jobdesk.h"

/* A host cell that holds 7 and whose key is name 2; the job reads it. Byte 16 has the rights. */
#define RIGHTS 16
static const uint8_t example[] = {
    0x01, 1,                               /* name 2, a host name below the top */
    0x10, 0,                               /* type 0: number */
    0x12, 2, 0, 0,                         /* type 1: cell of type 0, with key 2 */
    0x20, 1, 0, 7, 0, 0, 0,                /* variable 0: a host value of type 1 */
    0x21, 4, 0, 0, 0, 0, 0, 0, 0,          /* rights: name 2 */
    0x32, 0,                               /* expression 0: variable 0 */
    0x39, 0, 0,                            /* expression 1: what it holds */
    0xFF,
};

static struct jobdesk_tables tables;
static int differences;

static void same(const char *what, uint64_t got, uint64_t wanted)
{
    if (got != wanted) {
        printf("%s: got %llu, not %llu\n", what, (unsigned long long)got,
               (unsigned long long)wanted);
        differences++;
    }
}

/* Whether every byte of the tables is `byte`. */
static int all_bytes(int byte)
{
    const unsigned char *at = (const unsigned char *)&tables;
    for (size_t i = 0; i < sizeof tables; i++)
        if (at[i] != byte)
            return 0;
    return 1;
}

/* Makes the tables dirty. */
static void soil(void) { memset(&tables, 0xA5, sizeof tables); }

/* The words of an answer: its number, the thread, and the steps of threads 0 and 1; no other has any. */
static void same_answer(const char *what, const uint64_t *answer, const uint64_t wanted[4])
{
    for (size_t i = 0; i < JOBDESK_ANSWER; i++)
        same(what, answer[i], i < 4 ? wanted[i] : 0);
}

static void accepted(void)
{
    uint64_t out[JOBDESK_OUT];
    soil();
    same("example", jobdesk_check_in(&tables, example, sizeof example, out), JOBDESK_OK);
    same("example, entry", out[0], 0);
    same("example, effect", out[1], 1u << 2);
    same("name 2", tables.names[2], 1 + 256);
    same("name 3", tables.names[3], 0);
    same("kind of type 0", JOBDESK_KIND_OF(tables.types[0]), JOBDESK_NUMBER);
    same("kind of type 1", JOBDESK_KIND_OF(tables.types[1]), JOBDESK_CELL);
    same("key of type 1", tables.types[1] >> 8, 2);
    same("type 2", tables.types[2], 0);
    same("value 0", tables.values[0], 0x20 + 256 + 16777216 * 7);
    same("head 1", tables.heads[1], 0x39);
    same("entry of expression 0", tables.entries[0], 1);
    same("entry of expression 1", tables.entries[1], 0);
    same("effect of expression 1", tables.effects[1], 4);
    same("last effect", tables.effects[JOBDESK_EFFECTS - 1], 0);
}

static void refused(void)
{
    uint8_t job[sizeof example];
    uint64_t out[JOBDESK_OUT];
    memcpy(job, example, sizeof example);
    job[RIGHTS] = 0;
    soil();
    same("no rights", jobdesk_check_in(&tables, job, sizeof job, out), JOBDESK_BEYOND_RIGHTS);
    same("no rights, place", out[0], 1);
    same("no rights, second word", out[1], 0);
    same("no rights, tables zero", (uint64_t)all_bytes(0), 1);
    soil();
    same("no end", jobdesk_check_in(&tables, job, sizeof job - 1, out), JOBDESK_CUT_OFF);
    same("no end, place", out[0], sizeof job - 1);
    same("no end, tables zero", (uint64_t)all_bytes(0), 1);
    same("no bytes", jobdesk_check_in(&tables, job, 0, out), JOBDESK_CUT_OFF);
}

static void runs(void)
{
    const uint64_t calls[] = { JOBDESK_STEP, JOBDESK_RUN_EACH(0), JOBDESK_RUN_EACH(100000), JOBDESK_STEP };
    const uint64_t wanted[][4] = { { JOBDESK_TAKEN, 0, 1 }, { JOBDESK_SPENT }, { JOBDESK_DONE, 0, 2 },
                                   { JOBDESK_DONE } };
    /* One cell, three keys, two bindings, one thread. */
    const uint64_t in_use[JOBDESK_ROOMS] = { 1, 3, 0, 0, 0, 2, 1 };
    uint64_t answers[4 * JOBDESK_ANSWER], rooms[JOBDESK_ROOMS];
    soil();
    same("run", jobdesk_run_in(&tables, example, sizeof example, calls, 4, answers, rooms), JOBDESK_OK);
    for (size_t i = 0; i < 4; i++)
        same_answer("answers of a run", answers + JOBDESK_ANSWER * i, wanted[i]);
    for (size_t i = 0; i < JOBDESK_ROOMS; i++)
        same("rooms of a run", rooms[i], in_use[i]);
    same("entries not lent to a run", tables.entries[0], 0xA5A5);
}

/* A start is no verdict: the job without rights starts, and is denied. One that is cut off does not. */
static void runs_refused(void)
{
    const uint64_t calls[] = { JOBDESK_RUN_EACH(100000) }, denied[4] = { JOBDESK_DENIED, 0, 2 };
    uint8_t job[sizeof example];
    uint64_t answers[JOBDESK_ANSWER], rooms[JOBDESK_ROOMS];
    memcpy(job, example, sizeof example);
    job[RIGHTS] = 0;
    same("no rights, run", jobdesk_run_in(&tables, job, sizeof job, calls, 1, answers, rooms), JOBDESK_OK);
    same_answer("no rights, answer", answers, denied);
    answers[0] = 99;
    same("no end, run", jobdesk_run_in(&tables, job, 20, calls, 1, answers, rooms), JOBDESK_CUT_OFF);
    same("no end, run, place", rooms[0], 15);
    same("no end, no answer", answers[0], 99);
}

/* The check of the example with tables of these lengths. */
static uint64_t check_with(const size_t lengths[8], uint64_t out[JOBDESK_OUT])
{
    return jobdesk_check(example, sizeof example, tables.names, lengths[0], tables.types, lengths[1],
                         tables.sets, lengths[2], tables.values, lengths[3], tables.heads, lengths[4],
                         tables.slots, lengths[5], tables.entries, lengths[6], tables.effects,
                         lengths[7], out, JOBDESK_OUT);
}

/* A run of the example with tables of these lengths. */
static uint64_t run_with(const size_t lengths[6], uint64_t answers[JOBDESK_ANSWER],
                         uint64_t rooms[JOBDESK_ROOMS])
{
    const uint64_t calls[] = { JOBDESK_STEP };
    return jobdesk_run(example, sizeof example, tables.names, lengths[0], tables.types, lengths[1],
                       tables.sets, lengths[2], tables.values, lengths[3], tables.heads, lengths[4],
                       tables.slots, lengths[5], calls, JOBDESK_CALL, answers, JOBDESK_ANSWER, rooms,
                       JOBDESK_ROOMS);
}

/* Each table in turn is one entry too short: 1, and nothing is written. */
static void short_tables(void)
{
    size_t lengths[8] = { JOBDESK_NAMES, JOBDESK_TYPES, JOBDESK_SETS, JOBDESK_VALUES, JOBDESK_HEADS,
                          JOBDESK_SLOTS, JOBDESK_ENTRIES, JOBDESK_EFFECTS };
    for (size_t table = 0; table < 8; table++) {
        uint64_t out[JOBDESK_OUT] = { 99, 99 }, answers[JOBDESK_ANSWER] = { 99, 99 }, rooms[JOBDESK_ROOMS];
        lengths[table]--;
        soil();
        same("short table", check_with(lengths, out), JOBDESK_SHORT_TABLE);
        same("short table, place", out[0] | out[1], 0);
        if (table < 6) {
            same("short table, run", run_with(lengths, answers, rooms), JOBDESK_SHORT_TABLE);
            same("short table, run, place", rooms[0], 0);
            same("short table, no answer", answers[0] & answers[1], 99);
        }
        same("short table, nothing written", (uint64_t)all_bytes(0xA5), 1);
        lengths[table]++;
    }
}

static void sessions(void)
{
    const uint64_t calls[] = { JOBDESK_RUN_EACH(2), JOBDESK_RUN_EACH(100000) };
    const uint64_t wanted[][4] = { { JOBDESK_SPENT, 0, 2 }, { JOBDESK_DONE, 0, 1 } };
    uint64_t answers[2 * JOBDESK_ANSWER], value[JOBDESK_VALUE], cells[JOBDESK_CELLS], out[JOBDESK_OUT];
    soil();
    same("session", jobdesk_session_in(&tables, example, sizeof example, calls, 2, answers, value,
                                       cells, out), JOBDESK_OK);
    for (size_t i = 0; i < 2; i++)
        same_answer("answers of a session", answers + JOBDESK_ANSWER * i, wanted[i]);
    same("effect of a session", out[1], 1u << 2);
    same("kind of the value", value[0], JOBDESK_NUMBER);
    same("value", value[1], 7);
    same("kind in cell 0", cells[0], JOBDESK_NUMBER);
    same("number in cell 0", cells[1], 7);
    same("no cell 1", cells[2] | cells[3], JOBDESK_NO_VALUE);
    same("no cell 255", cells[JOBDESK_CELLS - 2], JOBDESK_NO_VALUE);
    same("type 1 after a session", JOBDESK_KIND_OF(tables.types[1]), JOBDESK_CELL);
    same("a session not ended", jobdesk_session_in(&tables, example, sizeof example, calls, 1, answers,
                                                   value, cells, out), JOBDESK_OK);
    same("no value", value[0] | value[1], JOBDESK_NO_VALUE);
}

/* A job that asks for key 2: the number in its cell where the key is enabled, else 5. Both are accepted
 * with no effect. Byte 26 has the rights. */
#define ASKING_RIGHTS 26
static const uint8_t asking[] = {
    0x01, 1, 0x10, 0, 0x12, 2, 0, 0,       /* name 2; type 0: number; type 1: cell with key 2 */
    0x14, 0, 2,                            /* type 2: limit key of name 2 */
    0x20, 1, 0, 7, 0, 0, 0,                /* variable 0: the cell */
    0x20, 2, 0, 0, 0, 0, 0,                /* variable 1: the limit key */
    0x21, 4, 0, 0, 0, 0, 0, 0, 0,          /* rights: name 2 */
    0x32, 1, 0x32, 0, 0x39, 1, 0,          /* expressions 0 to 2: the key, the cell, what it holds */
    0x30, 5, 0, 0, 0,                      /* expression 3: 5 */
    0x40, 0, 0, 2, 0, 3, 0, 0, 0, 0xFF,    /* expression 4: 2 if key 0 is enabled, else 3; type 0 */
};

static void asks(void)
{
    const uint64_t calls[] = { JOBDESK_RUN_EACH(100000) };
    uint64_t answers[JOBDESK_ANSWER], value[JOBDESK_VALUE], cells[JOBDESK_CELLS], out[JOBDESK_OUT];
    uint8_t job[sizeof asking];
    memcpy(job, asking, sizeof asking);
    for (uint64_t lent = 0; lent < 2; lent++) {
        job[ASKING_RIGHTS] = lent ? 4 : 0;
        same("asking", jobdesk_session_in(&tables, job, sizeof job, calls, 1, answers, value, cells, out),
             JOBDESK_OK);
        same("asking, effect", out[1], 0);
        same_answer("asking, answer", answers, (const uint64_t[4]){ JOBDESK_DONE, 0, lent ? 6 : 4 });
        same("asking, value", value[1], lent ? 7 : 5);
    }
}

/* 4294967295 and 1 is 4294967295; 3 less 5 is 0. */
static void stops(void)
{
    static const uint8_t sum[] = {
        0x21, 0, 0, 0, 0, 0, 0, 0, 0,    /* no rights */
        0x30, 0xFF, 0xFF, 0xFF, 0xFF,    /* expression 0 */
        0x30, 1, 0, 0, 0,                /* expression 1 */
        0x3A, 0, 0, 0, 1, 0, 0xFF,       /* their sum */
    };
    static const uint8_t difference[] = {
        0x21, 0, 0, 0, 0, 0, 0, 0, 0,
        0x30, 3, 0, 0, 0,
        0x30, 5, 0, 0, 0,
        0x3A, 1, 0, 0, 1, 0, 0xFF,
    };
    const uint64_t calls[] = { JOBDESK_RUN_EACH(100000) };
    uint64_t answers[JOBDESK_ANSWER], value[JOBDESK_VALUE], cells[JOBDESK_CELLS], out[JOBDESK_OUT];
    same("sum", jobdesk_session_in(&tables, sum, sizeof sum, calls, 1, answers, value, cells, out), JOBDESK_OK);
    same("sum, kind", value[0], JOBDESK_NUMBER);
    same("sum, value", value[1], UINT32_MAX);
    same("difference",
         jobdesk_session_in(&tables, difference, sizeof difference, calls, 1, answers, value, cells, out),
         JOBDESK_OK);
    same("difference, kind", value[0], JOBDESK_NUMBER);
    same("difference, value", value[1], 0);
}

/* 1979 over 7 is 282, and 5 are left over; over 0 it is 0, and all are left over. Byte 15 has the
 * divisor, byte 27 the part. A division makes two types: a number, and the pair of it and itself. */
#define DIVISOR 15
#define PART 27
static void divides(void)
{
    uint8_t job[] = {
        0x21, 0, 0, 0, 0, 0, 0, 0, 0,    /* no rights */
        0x30, 0xBB, 7, 0, 0,             /* expression 0: 1979 */
        0x30, 7, 0, 0, 0,                /* expression 1: 7 */
        0x41, 0, 0, 1, 0,                /* expression 2: the first divided by the second */
        0x34, 2, 0, 1, 0xFF,             /* expression 3: part 1 */
    };
    const uint64_t calls[] = { JOBDESK_RUN_EACH(100000) }, done[4] = { JOBDESK_DONE, 0, 7 };
    const uint64_t wanted[] = { 282, 5, 0, 1979 };
    uint64_t answers[JOBDESK_ANSWER], value[JOBDESK_VALUE], cells[JOBDESK_CELLS], out[JOBDESK_OUT];
    for (size_t i = 0; i < 4; i++) {
        job[DIVISOR] = i < 2 ? 7 : 0;
        job[PART] = (uint8_t)(1 + i % 2);
        same("division", jobdesk_session_in(&tables, job, sizeof job, calls, 1, answers, value, cells, out),
             JOBDESK_OK);
        same_answer("division, answer", answers, done);
        same("division, kind", value[0], JOBDESK_NUMBER);
        same("division, value", value[1], wanted[i]);
    }
    same("division, its number", tables.types[2], 0x10);
    same("division, its pair", tables.types[3], 0x11 + (UINT64_C(2) << 16) + (UINT64_C(2) << 32));
    same("division, entry", tables.entries[2], 3);
    same("division, entry of a part", tables.entries[3], 2);
    same("division, no more types", tables.types[4], 0);
}

/* A thread for the sum of 5 and 6, while thread 0 adds its number, which is 0, to 7. Each takes five steps;
 * the second of thread 0 starts thread 1. */
static const uint8_t threads[] = {
    0x21, 0, 0, 0, 0, 0, 0, 0, 0,    /* no rights */
    0x30, 5, 0, 0, 0,                /* expression 0: 5 */
    0x30, 6, 0, 0, 0,                /* expression 1: 6 */
    0x3A, 0, 0, 0, 1, 0,             /* expression 2: their sum */
    0x42, 2, 0,                      /* expression 3: 0, and a thread for expression 2 */
    0x30, 7, 0, 0, 0,                /* expression 4: 7 */
    0x3A, 0, 3, 0, 4, 0, 0xFF,       /* expression 5: the sum of 3 and 4 */
};

/* A run that allows threads 0 and 1 so much, and the others nothing. */
#define RUN_TWO(first, second) JOBDESK_RUN(first, second, 0, 0, 0, 0, 0, 0)

/* Thread 1 has its first turn in the fourth step; each call goes on where the last one left off. */
static void spawns(void)
{
    const uint64_t calls[] = { RUN_TWO(3, 0), JOBDESK_STEP, RUN_TWO(1, 1), JOBDESK_RUN_EACH(100),
                               JOBDESK_RUN_EACH(9) };
    const uint64_t wanted[][4] = { { JOBDESK_SPENT, 0, 3, 0 }, { JOBDESK_TAKEN, 1, 0, 1 },
                                   { JOBDESK_SPENT, 0, 1, 1 }, { JOBDESK_DONE, 0, 1, 3 }, { JOBDESK_DONE } };
    /* For each count of calls: frames, threads. */
    const uint64_t after[][2] = { { 0, 1 }, { 1, 2 }, { 2, 2 }, { 2, 2 }, { 0, 2 }, { 0, 2 } };
    uint64_t answers[5 * JOBDESK_ANSWER], rooms[JOBDESK_ROOMS];
    for (size_t made = 0; made <= 5; made++) {
        same("threads", jobdesk_run_in(&tables, threads, sizeof threads, calls, made, answers, rooms), JOBDESK_OK);
        for (size_t i = 0; i < made; i++)
            same_answer("threads, answers", answers + JOBDESK_ANSWER * i, wanted[i]);
        same("threads, frames", rooms[4], after[made][0]);
        same("threads started", rooms[6], after[made][1]);
    }
}

/* A run of the two threads, how it ends, the thread of the turn after it, and whether there is a value. */
static void allows(const char *what, const uint64_t run[JOBDESK_CALL], const uint64_t wanted[4], uint64_t next)
{
    const uint64_t turn[JOBDESK_CALL] = { JOBDESK_STEP };
    uint64_t calls[2 * JOBDESK_CALL], answers[2 * JOBDESK_ANSWER];
    uint64_t value[JOBDESK_VALUE], cells[JOBDESK_CELLS], out[JOBDESK_OUT];
    int done = wanted[0] == JOBDESK_DONE;
    memcpy(calls, run, sizeof turn);
    memcpy(calls + JOBDESK_CALL, turn, sizeof turn);
    same(what, jobdesk_session_in(&tables, threads, sizeof threads, calls, 2, answers, value, cells, out),
         JOBDESK_OK);
    same_answer(what, answers, wanted);
    same(what, answers[JOBDESK_ANSWER], done ? JOBDESK_DONE : JOBDESK_TAKEN);
    same(what, answers[JOBDESK_ANSWER + 1], next);
    same(what, value[0], done ? JOBDESK_NUMBER : JOBDESK_NO_VALUE);
}

/* Each thread has an allowance of its own, and is passed over when it has used it. */
static void allowances(void)
{
    static const struct {
        const char *what;
        uint64_t run[JOBDESK_CALL], wanted[4], next;
    } cases[] = {
        { "nothing allowed", { JOBDESK_RUN_EACH(0) }, { JOBDESK_SPENT }, 0 },
        { "allowed to no thread", { JOBDESK_RUN(0, 1, 2, 3, 4, 5, 6, 7) }, { JOBDESK_SPENT }, 0 },
        { "nothing to the started", { RUN_TWO(2, 0) }, { JOBDESK_SPENT, 0, 2, 0 }, 0 },
        { "more to the started", { RUN_TWO(2, UINT64_MAX) }, { JOBDESK_SPENT, 0, 2, 5 }, 0 },
        { "passed over, with its turn kept", { RUN_TWO(4, 1) }, { JOBDESK_SPENT, 0, 4, 1 }, 1 },
        { "thread 0 ended", { RUN_TWO(100, 2) }, { JOBDESK_SPENT, 0, 5, 2 }, 1 },
        { "to the last step of each", { RUN_TWO(5, 5) }, { JOBDESK_DONE, 0, 5, 5 }, 0 },
        { "one left to thread 0", { RUN_TWO(2 + 4, 5) }, { JOBDESK_DONE, 0, 5, 5 }, 0 },
        { "no end", { JOBDESK_RUN_EACH(UINT64_MAX) }, { JOBDESK_DONE, 0, 5, 5 }, 0 },
        /* Any number but 0 is a run. */
        { "another number", { UINT64_MAX, 4, 1 }, { JOBDESK_SPENT, 0, 4, 1 }, 1 },
        /* A turn looks at no allowance. */
        { "a turn with other words", { 0, 0, 9, 9, 9, 9, 9, 9, UINT64_MAX }, { JOBDESK_TAKEN, 0, 1 }, 0 },
    };
    for (size_t i = 0; i < sizeof cases / sizeof cases[0]; i++)
        allows(cases[i].what, cases[i].run, cases[i].wanted, cases[i].next);
}

/* A thread has no keys: its body must need none, whatever the rights; where it is run all the same, it is
 * denied, and asked again, but where it is passed over. */
static void spawns_refused(void)
{
    uint8_t job[sizeof example + 3];
    const uint64_t calls[] = { JOBDESK_RUN_EACH(100), JOBDESK_STEP, RUN_TWO(100, 0), JOBDESK_RUN_EACH(1) };
    const uint64_t wanted[][4] = { { JOBDESK_DENIED, 1, 1, 2 }, { JOBDESK_DENIED, 1 }, { JOBDESK_SPENT },
                                   { JOBDESK_DENIED, 1 } };
    uint64_t answers[4 * JOBDESK_ANSWER], rooms[JOBDESK_ROOMS], out[JOBDESK_OUT];
    memcpy(job, example, sizeof example - 1);
    memcpy(job + sizeof example - 1, (const uint8_t[]){ 0x42, 1, 0, 0xFF }, 4);
    soil();
    same("effect of a thread", jobdesk_check_in(&tables, job, sizeof job, out), JOBDESK_SPAWN_EFFECT);
    same("effect of a thread, place", out[0], 2);
    same("effect of a thread, tables zero", (uint64_t)all_bytes(0), 1);
    same("effect of a thread, run", jobdesk_run_in(&tables, job, sizeof job, calls, 4, answers, rooms), JOBDESK_OK);
    for (size_t i = 0; i < 4; i++)
        same_answer("thread denied", answers + JOBDESK_ANSWER * i, wanted[i]);
}

/* A refused job is not run. */
static void sessions_refused(void)
{
    const uint64_t calls[] = { JOBDESK_STEP };
    uint8_t job[sizeof example];
    uint64_t answers[JOBDESK_ANSWER] = { 99, 99 }, value[JOBDESK_VALUE], cells[JOBDESK_CELLS];
    uint64_t out[JOBDESK_OUT];
    memcpy(job, example, sizeof example);
    job[RIGHTS] = 0;
    soil();
    value[0] = value[1] = cells[0] = cells[1] = 99;
    same("no rights, session", jobdesk_session_in(&tables, job, sizeof job, calls, 1, answers, value,
                                                  cells, out), JOBDESK_BEYOND_RIGHTS);
    same("no rights, session, place", out[0], 1);
    same("no rights, no answer", answers[0] & answers[1], 99);
    same("no rights, no value", value[0] | value[1], 0);
    same("no rights, no cell", cells[0] | cells[1], 0);
    same("no rights, session, tables zero", (uint64_t)all_bytes(0), 1);
}

#define DIRTY UINT64_C(0xA5A5A5A5A5A5A5A5)
#define RESULTS (JOBDESK_ANSWER + JOBDESK_VALUE + JOBDESK_CELLS + JOBDESK_OUT)

/* A session of the example with slices of these lengths: calls, answers, value, cells, out. */
static uint64_t session_with(const size_t lengths[5], uint64_t results[RESULTS])
{
    const uint64_t calls[] = { JOBDESK_STEP, JOBDESK_STEP };
    uint64_t *value = results + JOBDESK_ANSWER, *cells = value + JOBDESK_VALUE, *out = cells + JOBDESK_CELLS;
    return jobdesk_session(example, sizeof example, tables.names, JOBDESK_NAMES, tables.types,
                           JOBDESK_TYPES, tables.sets, JOBDESK_SETS, tables.values, JOBDESK_VALUES,
                           tables.heads, JOBDESK_HEADS, tables.slots, JOBDESK_SLOTS, tables.entries,
                           JOBDESK_ENTRIES, tables.effects, JOBDESK_EFFECTS, calls, lengths[0], results,
                           lengths[1], value, lengths[2], cells, lengths[3], out, lengths[4]);
}

/* Each slice in turn is one word too short, and then the calls one too long: 1, and nothing is written. */
static void short_sessions(void)
{
    size_t lengths[5] = { JOBDESK_CALL, JOBDESK_ANSWER, JOBDESK_VALUE, JOBDESK_CELLS, JOBDESK_OUT };
    static uint64_t results[RESULTS];
    for (size_t slice = 0; slice < 6; slice++) {
        size_t *length = &lengths[slice % 5], whole = *length;
        soil();
        memset(results, 0xA5, sizeof results);
        *length = slice < 5 ? whole - 1 : whole + 1;
        same("short session", session_with(lengths, results), JOBDESK_SHORT_TABLE);
        *length = whole;
        same("short session, tables not written", (uint64_t)all_bytes(0xA5), 1);
        for (size_t i = 0; i < RESULTS; i++)
            same("short session, nothing written", results[i], DIRTY);
    }
    same("slices just long enough", session_with(lengths, results), JOBDESK_OK);
}

/* A run of a job of two threads with so many words of calls, answers and rooms, of which there are two
 * calls, two answers and the rooms. */
static uint64_t run_lent(const size_t lengths[3], uint64_t *answers, uint64_t *rooms)
{
    const uint64_t calls[] = { RUN_TWO(4, 1), JOBDESK_STEP };
    return jobdesk_run(threads, sizeof threads, tables.names, JOBDESK_NAMES, tables.types, JOBDESK_TYPES,
                       tables.sets, JOBDESK_SETS, tables.values, JOBDESK_VALUES, tables.heads,
                       JOBDESK_HEADS, tables.slots, JOBDESK_SLOTS, calls, lengths[0], answers, lengths[1],
                       rooms, lengths[2]);
}

/* Calls that are cut short, and answers that are too few: 1, and the tables stay. */
static void short_runs(void)
{
    const size_t lengths[][3] = {
        { 1, 20, JOBDESK_ROOMS },  { 8, 20, JOBDESK_ROOMS }, { 10, 20, JOBDESK_ROOMS },
        { 17, 20, JOBDESK_ROOMS }, { 9, 9, JOBDESK_ROOMS },  { 18, 19, JOBDESK_ROOMS },
        { 18, 0, JOBDESK_ROOMS },  { 17, 0, JOBDESK_ROOMS },
    };
    for (size_t i = 0; i < sizeof lengths / sizeof lengths[0]; i++) {
        uint64_t answers[2 * JOBDESK_ANSWER], rooms[JOBDESK_ROOMS];
        memset(answers, 0xA5, sizeof answers);
        memset(rooms, 0xA5, sizeof rooms);
        soil();
        same("short run", run_lent(lengths[i], answers, rooms), JOBDESK_SHORT_TABLE);
        same("short run, place", rooms[0], 0);
        for (size_t word = 1; word < JOBDESK_ROOMS; word++)
            same("short run, other rooms", rooms[word], DIRTY);
        for (size_t word = 0; word < 2 * JOBDESK_ANSWER; word++)
            same("short run, no answer", answers[word], DIRTY);
        same("short run, nothing written", (uint64_t)all_bytes(0xA5), 1);
    }
}

/* A run with so many words of `rooms`. */
static void short_rooms(size_t length)
{
    const size_t lengths[3] = { JOBDESK_CALL, JOBDESK_ANSWER, length };
    const uint64_t in_use[JOBDESK_ROOMS] = { 0, 2, 0, 0, 2, 0, 2 }, spent[4] = { JOBDESK_SPENT, 0, 4, 1 };
    uint64_t answers[JOBDESK_ANSWER], rooms[JOBDESK_ROOMS];
    memset(rooms, 0xA5, sizeof rooms);
    same("short rooms", run_lent(lengths, answers, rooms), JOBDESK_OK);
    same_answer("short rooms, answer", answers, spent);
    for (size_t i = 0; i < JOBDESK_ROOMS; i++)
        same("short rooms, words", rooms[i], i < length ? in_use[i] : DIRTY);
}

/* `out` and `rooms` get no more entries than they have. */
static void short_results(void)
{
    uint64_t out[JOBDESK_OUT] = { 99, 99 };
    same("short out", jobdesk_check(example, sizeof example, tables.names, JOBDESK_NAMES, tables.types,
                                    JOBDESK_TYPES, tables.sets, JOBDESK_SETS, tables.values,
                                    JOBDESK_VALUES, tables.heads, JOBDESK_HEADS, tables.slots,
                                    JOBDESK_SLOTS, tables.entries, JOBDESK_ENTRIES, tables.effects,
                                    JOBDESK_EFFECTS, out, 1), JOBDESK_OK);
    same("short out, first word", out[0], 0);
    same("short out, second word", out[1], 99);
    for (size_t length = 0; length <= JOBDESK_ROOMS; length++)
        short_rooms(length);
}

static const uint64_t example_counts[JOBDESK_COUNTS] = { 1, 2, 1, 2, 1u << 2 };

static void reads(void)
{
    uint64_t counts[JOBDESK_COUNTS];
    soil();
    same("read", jobdesk_read_in(&tables, example, sizeof example, counts), JOBDESK_OK);
    for (size_t i = 0; i < JOBDESK_COUNTS; i++)
        same("counts", counts[i], example_counts[i]);
    same("name 2, read", tables.names[2], 1 + 256);
    same("type 1, read", tables.types[1], 0x12 + 256 * 2);
    same("type 2, read", tables.types[2], 0);
    same("entries not lent to a read", tables.entries[0], 0xA5A5);
    same("no end, read", jobdesk_read_in(&tables, example, sizeof example - 1, counts), JOBDESK_CUT_OFF);
    same("no end, read, place", counts[0], sizeof example - 1);
    same("no end, read, other counts", counts[1], example_counts[1]);
    same("no end, read, tables zero", tables.names[2] | tables.types[1] | tables.heads[1], 0);
}

/* What is written of the tables must be the example, and nothing past it. */
static void same_example(const char *what, const uint64_t counts[JOBDESK_COUNTS])
{
    uint8_t buffer[JOBDESK_BYTES];
    uint64_t out[1];
    memset(buffer, 0xA5, sizeof buffer);
    same(what, jobdesk_write_in(&tables, counts, buffer, sizeof buffer, out), JOBDESK_OK);
    same(what, out[0], sizeof example);
    same(what, (uint64_t)memcmp(buffer, example, sizeof example), 0);
    for (size_t i = sizeof example; i < sizeof buffer; i++)
        same(what, buffer[i], 0xA5);
}

/* A job is passed on: read, checked, written, whatever stands in what it does not use. */
static void writes(void)
{
    uint64_t counts[JOBDESK_COUNTS], out[JOBDESK_OUT];
    same("read to pass on", jobdesk_read_in(&tables, example, sizeof example, counts), JOBDESK_OK);
    same_example("written after a read", counts);
    same("check to pass on", jobdesk_check_in(&tables, example, sizeof example, out), JOBDESK_OK);
    same_example("written after a check", counts);
    tables.names[0] = tables.names[1] = tables.names[3] = UINT16_MAX;
    tables.types[0] |= ~UINT64_C(0) << 16;
    tables.types[1] |= ~UINT64_C(0) << 32;
    tables.types[2] = tables.sets[0] = tables.sets[1] = tables.values[1] = tables.heads[2] = UINT64_MAX;
    tables.heads[1] |= ~UINT64_C(0) << 8;
    for (size_t i = 0; i < JOBDESK_SLOTS; i++)
        if (i != 5)
            tables.slots[i] = UINT16_MAX;
    same_example("written, unused entries and fields", counts);
}

/* Tables that hold no job are refused at a place, and nothing is written, to them or the buffer. */
static void not_written(const char *what, const uint64_t counts[JOBDESK_COUNTS], uint64_t number,
                        uint64_t place)
{
    static struct jobdesk_tables before;
    uint8_t buffer[JOBDESK_BYTES];
    uint64_t out[1] = { 99 };
    memset(buffer, 0xA5, sizeof buffer);
    before = tables;
    same(what, jobdesk_write_in(&tables, counts, buffer, sizeof buffer, out), number);
    same(what, out[0], place);
    for (size_t i = 0; i < sizeof buffer; i++)
        same(what, buffer[i], 0xA5);
    same(what, (uint64_t)(memcmp(&before, &tables, sizeof tables) == 0), 1);
}

/* A word of the tables, or of the counts, for the time of one call. */
static void damaged(const char *what, uint64_t *word, uint64_t by, const uint64_t *counts, uint64_t number,
                    uint64_t place)
{
    uint64_t whole = *word;
    *word = by;
    not_written(what, counts, number, place);
    *word = whole;
}

static void writes_refused(void)
{
    uint64_t counts[JOBDESK_COUNTS];
    same("read to damage", jobdesk_read_in(&tables, example, sizeof example, counts), JOBDESK_OK);
    damaged("no command", &tables.types[1], 0, counts, JOBDESK_NO_COMMAND, 4);
    damaged("foreign command", &tables.values[0], 0x30, counts, JOBDESK_WRONG_SECTION, 8);
    damaged("no expression", &counts[3], 0, counts, JOBDESK_WRONG_SECTION, 24);
    damaged("bit 0 of the rights", &counts[4], 1, counts, JOBDESK_BAD_OPERAND, 15);
    damaged("variable 256", &tables.heads[0], 0x32 + 256 * 256, counts, JOBDESK_BAD_OPERAND, 24);
    damaged("number 2^32", &tables.values[0], 0x20 + 256 + (UINT64_C(1) << 56), counts,
            JOBDESK_BAD_OPERAND, 8);
    tables.slots[5] = 1;
    not_written("no earlier expression", counts, JOBDESK_BAD_OPERAND, 26);
    for (size_t i = 2; i < JOBDESK_NAMES; i++)
        tables.names[i] = 1 + 256;
    damaged("63 names", &counts[0], 63, counts, JOBDESK_TOO_MANY, 124);
    damaged("no end of names", &counts[0], UINT64_MAX, counts, JOBDESK_TOO_MANY, 124);
}

/* Writing the example, as it was read, with slices of these lengths: tables, counts, buffer, out. */
static uint64_t write_with(const size_t lengths[9], uint8_t *buffer, uint64_t *out)
{
    return jobdesk_write(tables.names, lengths[0], tables.types, lengths[1], tables.sets, lengths[2],
                         tables.values, lengths[3], tables.heads, lengths[4], tables.slots, lengths[5],
                         example_counts, lengths[6], buffer, lengths[7], out, lengths[8]);
}

/* Each table, the counts and the buffer in turn is one entry too short, then `out`. */
static void short_writes(void)
{
    size_t lengths[9] = { JOBDESK_NAMES, JOBDESK_TYPES, JOBDESK_SETS, JOBDESK_VALUES, JOBDESK_HEADS,
                          JOBDESK_SLOTS, JOBDESK_COUNTS, sizeof example, 1 };
    uint8_t buffer[sizeof example];
    uint64_t counts[JOBDESK_COUNTS], out[1];
    same("read to write", jobdesk_read_in(&tables, example, sizeof example, counts), JOBDESK_OK);
    memset(buffer, 0xA5, sizeof buffer);
    for (size_t slice = 0; slice < 8; slice++) {
        out[0] = 99;
        lengths[slice]--;
        same("short slice", write_with(lengths, buffer, out),
             slice < 7 ? JOBDESK_SHORT_TABLE : JOBDESK_SHORT_BUFFER);
        lengths[slice]++;
        same("short slice, place", out[0], 0);
        for (size_t i = 0; i < sizeof buffer; i++)
            same("short slice, nothing written", buffer[i], 0xA5);
    }
    lengths[8] = 0;
    out[0] = 99;
    same("no out", write_with(lengths, buffer, out), JOBDESK_OK);
    same("no out, nothing told", out[0], 99);
    same("no out, written", (uint64_t)memcmp(buffer, example, sizeof example), 0);
}

/* Reading with a table, or counts, that are too short: 1, and the tables stay. */
static void short_reads(void)
{
    uint64_t counts[JOBDESK_COUNTS] = { 99, 99, 99, 99, 99 };
    for (size_t missing = 0; missing < 2; missing++) {
        soil();
        counts[0] = 99;
        same("short read", jobdesk_read(example, sizeof example, tables.names, JOBDESK_NAMES, tables.types,
                                        JOBDESK_TYPES, tables.sets, JOBDESK_SETS, tables.values,
                                        JOBDESK_VALUES, tables.heads, JOBDESK_HEADS, tables.slots,
                                        JOBDESK_SLOTS - missing, counts, JOBDESK_COUNTS - 1 + missing),
             JOBDESK_SHORT_TABLE);
        same("short read, place", counts[0], 0);
        same("short read, other counts", counts[1] & counts[4], 99);
        same("short read, nothing written", (uint64_t)all_bytes(0xA5), 1);
    }
}

/* The text for a job: what is wanted, how many bytes that has, the place, and nothing past it. */
static void same_sheet(const char *what, const uint8_t *job, size_t length, const char *wanted,
                       uint64_t number, uint64_t place)
{
    uint8_t text[JOBDESK_SHEET_BYTES + 1];
    uint64_t out[JOBDESK_OUT] = { 99, 99 };
    size_t bytes = strlen(wanted);
    memset(text, 0xA5, sizeof text);
    same(what, jobdesk_sheet(job, length, text, sizeof text, out, JOBDESK_OUT), number);
    same(what, out[0], bytes);
    same(what, out[1], place);
    same(what, (uint64_t)(memcmp(text, wanted, bytes) == 0), 1);
    for (size_t i = bytes; i < sizeof text; i++)
        same(what, text[i], 0xA5);
}

/* A name below one of the effect, a local name, two cells of one name, a cell of another, and one
 * without a key. */
static void sheets(void)
{
    static const uint8_t tree[] = {
        0x01, 1, 0x02, 1, 0x01, 2, 0x01, 2,    /* host name 2, local name 3, host names 4 and 5 below 2 */
        0x10, 0, 0x12, 0, 0, 0,                /* type 0: number; type 1: cell without a key */
        0x12, 2, 0, 0, 0x12, 4, 0, 0,          /* types 2 and 3: cells with keys 2 and 4 */
        0x14, 5, 4,                            /* type 4: limit key of name 4, with key 5 */
        0x20, 2, 0, 7, 0, 0, 0,                /* variable 0, a cell of name 2 */
        0x20, 3, 0, 7, 0, 0, 0,                /* variables 1 and 2, cells of name 4 */
        0x20, 3, 0, 7, 0, 0, 0,
        0x20, 1, 0, 7, 0, 0, 0,                /* variable 3, a cell without a key */
        0x20, 4, 0, 0, 0, 0, 0,                /* variable 4, a limit key: not counted */
        0x21, 4, 0, 0, 0, 0, 0, 0, 0,          /* rights: name 2 */
        0x32, 1, 0x39, 0, 0, 0xFF,             /* what variable 1 holds */
    };
    same_sheet("sheet", example, sizeof example, " 2  1 yes   1\n", JOBDESK_OK, 0);
    same_sheet("sheet of a tree", tree, sizeof tree,
               " 2  1 no    1\n 4  2 yes   2\n 5  2 no    0\n", JOBDESK_OK, 0);
    /* The rights lend the key that it asks for, so the cell is read. */
    same_sheet("sheet, asking", asking, sizeof asking, " 2  1 no    1\n", JOBDESK_OK, 0);
}

static void sheets_without_lines(void)
{
    static const uint8_t bare[] = { 0x21, 0, 0, 0, 0, 0, 0, 0, 0, 0x31, 0xFF };
    uint8_t job[sizeof example];
    memcpy(job, example, sizeof example);
    job[RIGHTS] = 0;
    same_sheet("sheet, no host names", bare, sizeof bare, "", JOBDESK_OK, 0);
    same_sheet("sheet, no rights", job, sizeof job, "refused 14 at 1\n", JOBDESK_BEYOND_RIGHTS, 1);
    same_sheet("sheet, no end", job, sizeof job - 1, "refused 4 at 29\n", JOBDESK_CUT_OFF, 29);
    same_sheet("sheet, no bytes", job, 0, "refused 4 at 0\n", JOBDESK_CUT_OFF, 0);
}

/* The text one byte too short: 1, and nothing is written. `out` gets no more entries than it has. */
static void short_sheets(void)
{
    uint8_t text[JOBDESK_SHEET_BYTES];
    uint64_t out[JOBDESK_OUT] = { 99, 99 };
    memset(text, 0xA5, sizeof text);
    same("short sheet", jobdesk_sheet(example, sizeof example, text, sizeof text - 1, out, JOBDESK_OUT),
         JOBDESK_SHORT_TABLE);
    same("short sheet, out", out[0] | out[1], 0);
    same("short sheet, refused", jobdesk_sheet(example, 0, text, 0, out, JOBDESK_OUT), JOBDESK_SHORT_TABLE);
    for (size_t i = 0; i < sizeof text; i++)
        same("short sheet, nothing written", text[i], 0xA5);
    out[0] = out[1] = 99;
    same("sheet, one word", jobdesk_sheet(example, sizeof example, text, sizeof text, out, 1), JOBDESK_OK);
    same("sheet, one word, bytes", out[0], 14);
    same("sheet, one word, no other", out[1], 99);
    out[0] = 99;
    same("sheet, no word", jobdesk_sheet(example, 0, text, sizeof text, out, 0), JOBDESK_CUT_OFF);
    same("sheet, no word, nothing told", out[0] & out[1], 99);
}

int main(void)
{
    accepted();
    refused();
    runs();
    runs_refused();
    short_tables();
    sessions();
    asks();
    stops();
    divides();
    spawns();
    allowances();
    spawns_refused();
    sessions_refused();
    short_sessions();
    short_runs();
    short_results();
    reads();
    writes();
    writes_refused();
    short_writes();
    short_reads();
    sheets();
    sheets_without_lines();
    short_sheets();
    printf("jobdesk.h: %d differences\n", differences);
    return differences > 0;
}
