/* The proved check and machine for keyed jobs, for C and C++.
 *
 * Link with target/staticlib/libcapi.a, which jobdesk/library makes.
 *
 * A slice is two arguments: a pointer to its first entry, and how many entries it has. The caller
 * sees to it that
 *   - every pointer is not null, is aligned for its entries, and has as many entries behind it as
 *     its length says (of an empty slice any such pointer will do);
 *   - no slice that is written to overlaps another one of the same call.
 * Nothing else is asked: any bytes may be given as a job, tables may hold anything before a call,
 * and a slice may be longer than it needs to be. The functions keep nothing between calls, so
 * several threads of a program may call them at once, each with slices of its own. (The threads of a job
 * are none of these: a call takes their steps one after another.) The functions allocate nothing; a call
 * takes up to about 300 KB of stack.
 */
#ifndef JOBDESK_H
#define JOBDESK_H

#include <stddef.h>
#include <stdint.h>

#ifdef __cplusplus
extern "C" {
#endif

/* The least length of each work table, in entries. */
#define JOBDESK_NAMES 64
#define JOBDESK_TYPES 2304
#define JOBDESK_SETS 2304
#define JOBDESK_VALUES 64
#define JOBDESK_HEADS 512
#define JOBDESK_SLOTS 2560
#define JOBDESK_ENTRIES 512
#define JOBDESK_EFFECTS 512

/* The most threads that a job can have, with thread 0: a command 42 (hexadecimal) starts one more. */
#define JOBDESK_THREADS 8

/* How many words there are of what is told of a verdict, of a job that is read, of room in use, of a call
 * and of the answer to it (both have one for each of JOBDESK_THREADS threads), of a value, and of what the
 * cells hold: a value for each of 256 cells. */
#define JOBDESK_OUT 2
#define JOBDESK_COUNTS 5
#define JOBDESK_ROOMS 7
#define JOBDESK_CALL 9
#define JOBDESK_ANSWER 10
#define JOBDESK_VALUE 2
#define JOBDESK_CELLS 512

/* The most bytes of a job; and of a sheet, which has a line of 14 bytes for each of at most 62 names. */
#define JOBDESK_BYTES 10310
#define JOBDESK_SHEET_BYTES 868

/* What a function returns: 0, or the number of a refusal. The place of 1 and of 15 is 0, that of 2 to 7
 * an offset in the job's bytes, that of 8 to 14 and of 16 the number of an expression. */
#define JOBDESK_OK 0
#define JOBDESK_SHORT_TABLE 1       /* a lent table or other slice is too short, or a call is cut short */
#define JOBDESK_NO_COMMAND 2        /* a byte is no command */
#define JOBDESK_WRONG_SECTION 3     /* a command stands outside its section */
#define JOBDESK_CUT_OFF 4           /* the input ends too soon */
#define JOBDESK_TOO_MANY 5          /* one entry more than a limit */
#define JOBDESK_BAD_OPERAND 6       /* an operand breaks a condition */
#define JOBDESK_TRAILING 7          /* a byte follows the end */
#define JOBDESK_WRONG_USE 8         /* an expression is used twice, or not at all */
#define JOBDESK_BOUND_TWICE 9       /* a variable or a name is bound twice */
#define JOBDESK_OUT_OF_SCOPE 10     /* a variable or a name is out of scope */
#define JOBDESK_WRONG_KIND 11       /* an operand is of the wrong kind */
#define JOBDESK_NO_SUBTYPE 12       /* an operand's type is not a subtype of the one needed */
#define JOBDESK_BEYOND_LIMIT 13     /* a limit's body uses keys outside the limit */
#define JOBDESK_BEYOND_RIGHTS 14    /* the job uses keys beyond its rights */
#define JOBDESK_SHORT_BUFFER 15     /* the buffer is too short for the job's bytes */
#define JOBDESK_SPAWN_EFFECT 16     /* a thread's body has an effect */

/* Calls: one turn, or a run with an allowance for each thread number, each of up to 2^64 - 1 steps. The
 * JOBDESK_CALL words of a call are 0 for a turn and any other number for a run, then the allowances of
 * threads 0 to 7, at which a turn does not look. JOBDESK_STEP is a turn, JOBDESK_RUN a run with these
 * allowances, and JOBDESK_RUN_EACH one that allows every thread n, an expression that is written eight
 * times. They stand in the initializer of an array of uint64_t:
 *
 *     const uint64_t calls[] = { JOBDESK_STEP, JOBDESK_RUN_EACH(100000) };
 *
 * A turn is a step of the thread whose turn it is. In a round each thread that was there when the round
 * began and has not ended takes one step, by ascending number; a thread that is started has its first turn
 * in the next round. Each call goes on where the last one left the round. A job without threads has one,
 * thread 0, and a turn is a step of it.
 *
 * A run takes turns until every thread has ended or has used its allowance to the last step, or one fails.
 * A thread at its allowance is passed over like one that has ended, and the others go on; a thread that is
 * started in the run has the allowance of its number. The round and who stepped last change by steps alone:
 * after the run a thread that was passed over still has its turn in the round, unless one with a higher
 * number has stepped since. Allowances are of one run. Nothing of them carries over, and a turn has none. */
#define JOBDESK_STEP UINT64_C(0), 0, 0, 0, 0, 0, 0, 0, 0
#define JOBDESK_RUN(a0, a1, a2, a3, a4, a5, a6, a7) \
    UINT64_C(1), (uint64_t)(a0), (uint64_t)(a1), (uint64_t)(a2), (uint64_t)(a3), \
        (uint64_t)(a4), (uint64_t)(a5), (uint64_t)(a6), (uint64_t)(a7)
#define JOBDESK_RUN_EACH(n) JOBDESK_RUN(n, n, n, n, n, n, n, n)

/* Answers to calls. The JOBDESK_ANSWER words of an answer are its number; the thread that took the step of a
 * turn or that failed, 0 where none did; then how many steps each of threads 0 to 7 took in the call, 0
 * where there is no such thread.
 *
 * The next step is that of the thread whose turn it is. Where it cannot be taken, that thread fails: the
 * call ends, no other thread steps in its place, and nothing is changed, the round neither. So the next call
 * asks the same thread again, unless it passes over that thread, or does not pass over one that this call
 * has passed over. */
#define JOBDESK_TAKEN 0     /* the step of a turn is taken */
#define JOBDESK_DONE 1      /* every thread has ended; the job's value is that of thread 0 */
#define JOBDESK_SPENT 2     /* every thread that has not ended has used its allowance, and there is one */
#define JOBDESK_NO_ROOM 3   /* the next step needs a place that is not there */
#define JOBDESK_STUCK 4     /* an operand is of a kind that the next step cannot use */
#define JOBDESK_DENIED 5    /* the next step needs a key that is not enabled */

/* The kinds of values: the first word of a value. Its second word is the number itself; the number
 * of the pair, cell or function; or the key that a limit key or a grant key stands for. A number is at
 * most 4294967295: a job's difference below zero is 0 and its sum above 4294967295 is 4294967295, and
 * nothing tells such an end, or a number that comes of one, from a true result. What a pair holds is not
 * told: a job that divides (command 41, hexadecimal) gives one part, and puts the other into a cell. */
#define JOBDESK_NO_VALUE 0
#define JOBDESK_NUMBER 1
#define JOBDESK_PAIR 2
#define JOBDESK_CELL 3
#define JOBDESK_FUNCTION 4
#define JOBDESK_LIMIT 5
#define JOBDESK_GRANT 6

/* The kind of the values of a type, by its entry of the type table. */
#define JOBDESK_KIND_OF(entry) (((entry) & 0xFF) - 0x0F)

/* Checks a job.
 *
 * Returns 0 if the job is accepted. Then
 *   out[0]   is the entry of the job's type in the type table,
 *   out[1]   is its effect: the names whose keys it must be lent, bit i for name i. Beside these it can
 *            use what a grant key lent to it opens and, where its rights lend a key that a command 40
 *            (hexadecimal) asks for, what lies below that one;
 *   names    holds for each name from 2 on its upper name, and above it (from bit 8 on) 1 for a
 *            host name, 2 for a local one,
 *   types    holds the type table: the declared types, for each new key the types of its limit key,
 *            its grant key and their pair, then the types that expressions make: at most one each, but
 *            of a command 41 (hexadecimal) two, a number and then the pair whose parts are both that
 *            number, and of a command 42 a number, whatever its thread comes to; in an entry the command
 *            byte, from bit 8 on the name of the key, from bit 16 and bit 32 on the parts,
 *   sets     holds for each entry the effect of a function, or 0,
 *   values   holds for each host value 20 (hexadecimal), from bit 8 on its type, from bit 24 on its
 *            number,
 *   heads    holds for each expression its command byte and from bit 8 on its operands of one byte
 *            or four,
 *   slots    holds for each expression five operands of two bytes: expressions, then the type; of a
 *            limit four keys, then the body,
 *   entries  holds for each expression the entry of its type,
 *   effects  holds for each expression its effect,
 * and each table holds zeros from there to its end.
 *
 * Returns 1 if a table is shorter than its least length. Then out[0] and out[1] are 0, and no table
 * is written to.
 *
 * Returns 2 to 14 or 16, the number of the refusal, if the job is refused. Then out[0] is its place,
 * out[1] is 0, and all tables are zero to their ends.
 *
 * Where `out` has fewer than JOBDESK_OUT entries, it gets those that it has.
 */
uint64_t jobdesk_check(
    const uint8_t *job, size_t job_length,
    uint16_t *names, size_t names_length,
    uint64_t *types, size_t types_length,
    uint64_t *sets, size_t sets_length,
    uint64_t *values, size_t values_length,
    uint64_t *heads, size_t heads_length,
    uint16_t *slots, size_t slots_length,
    uint16_t *entries, size_t entries_length,
    uint64_t *effects, size_t effects_length,
    uint64_t *out, size_t out_length);

/* Checks a job and, where it is accepted, starts it and makes calls on it, each on the machine that
 * the last one left. This is the safe way to run a job.
 *
 * Returns 0 if the job is accepted. Then `out` and the tables are as after jobdesk_check, and of
 * call i (from 0)
 *   answers[10 * i]          is the answer, never JOBDESK_STUCK or JOBDESK_DENIED, in whichever thread,
 *   answers[10 * i + 1]      is the thread that took the step of a turn or that has no room, else 0,
 *   answers[10 * i + 2 + t]  is how many steps thread t took in it.
 * `value` is the job's value, that of thread 0, where every thread has ended, and JOBDESK_NO_VALUE and 0
 * where one has not; cells[2 * i] and cells[2 * i + 1] are the value that cell i holds, and
 * JOBDESK_NO_VALUE and 0 where there is no cell i. The host values that are cells have the first numbers,
 * in their order.
 *
 * Returns 1 to 14 or 16, the number of the refusal, if the job is refused. Then `out` and the tables are as
 * after jobdesk_check, no answer is written, and `value` and `cells` are zero.
 *
 * Returns 1 too where the words of `calls` are no whole number of calls, where `answers` has fewer than
 * JOBDESK_ANSWER words for each, or `value`, `cells` or `out` is shorter than JOBDESK_VALUE, JOBDESK_CELLS
 * or JOBDESK_OUT. Then nothing at all is written.
 */
uint64_t jobdesk_session(
    const uint8_t *job, size_t job_length,
    uint16_t *names, size_t names_length,
    uint64_t *types, size_t types_length,
    uint64_t *sets, size_t sets_length,
    uint64_t *values, size_t values_length,
    uint64_t *heads, size_t heads_length,
    uint16_t *slots, size_t slots_length,
    uint16_t *entries, size_t entries_length,
    uint64_t *effects, size_t effects_length,
    const uint64_t *calls, size_t calls_length,
    uint64_t *answers, size_t answers_length,
    uint64_t *value, size_t value_length,
    uint64_t *cells, size_t cells_length,
    uint64_t *out, size_t out_length);

/* Starts a job without a check and makes calls on it, each on the machine that the last one left.
 *
 * 0 IS NO VERDICT: every job that is free of 1 to 10 is started, also one that the check refuses
 * with 11 to 14 or 16. Only of a job that jobdesk_check accepts is it proved that no answer is
 * JOBDESK_STUCK or JOBDESK_DENIED. So check first, and run only what is accepted.
 *
 * Returns 0 if the job is started. Then of call i (from 0)
 *   answers[10 * i]          is the answer,
 *   answers[10 * i + 1]      is the thread that took the step of a turn or that failed, else 0,
 *   answers[10 * i + 2 + t]  is how many steps thread t took in it;
 * of what is in use after the last call
 *   rooms[0] to rooms[3]  are the cells (of 256), keys (of 128, with 0 and 1), pairs (of 512) and
 *                         functions (of 512), which all threads share,
 *   rooms[4]              is the frames of all threads together, of 256 for each,
 *   rooms[5]              is the bindings (of 1,024), which are shared too,
 *   rooms[6]              is the threads, of JOBDESK_THREADS: thread 0, and each that was started, also
 *                         one that has ended;
 * and the six tables hold the job as after a check, `types` and `sets` the declared types alone.
 *
 * Returns 1 to 10, the number of the refusal, if it is not started. Then rooms[0] is its place and
 * no answer is written; after 1 no table is written to, after 2 to 10 the six tables are zero to
 * their ends.
 *
 * Returns 1 too where the words of `calls` are no whole number of calls, or `answers` has fewer than
 * JOBDESK_ANSWER words for each. Then rooms[0] is 0, and nothing else is written.
 *
 * Where `rooms` has fewer than JOBDESK_ROOMS entries, it gets those that it has.
 */
uint64_t jobdesk_run(
    const uint8_t *job, size_t job_length,
    uint16_t *names, size_t names_length,
    uint64_t *types, size_t types_length,
    uint64_t *sets, size_t sets_length,
    uint64_t *values, size_t values_length,
    uint64_t *heads, size_t heads_length,
    uint16_t *slots, size_t slots_length,
    const uint64_t *calls, size_t calls_length,
    uint64_t *answers, size_t answers_length,
    uint64_t *rooms, size_t rooms_length);

/* Reads a job into tables: refusals 1 to 7 alone.
 *
 * 0 IS NO VERDICT: a job that the check refuses with 8 to 14 or 16 is read too.
 *
 * Returns 0 if the job is read. Then
 *   counts[0]   is how many names it declares (0 and 1 are not among them),
 *   counts[1]   how many types,
 *   counts[2]   how many host values,
 *   counts[3]   how many expressions,
 *   counts[4]   is its rights, bit i for name i,
 * and the six tables hold the job as after a check, `types` and `sets` the declared types alone.
 *
 * Returns 1 to 7, the number of the refusal, if it is not read. Then counts[0] is its place and the
 * other words of `counts` stay as they were; after 1 no table is written to, after 2 to 7 the six
 * tables are zero to their ends.
 *
 * Returns 1 too where `counts` has fewer than JOBDESK_COUNTS words. Then counts[0], where there is one,
 * is 0, and nothing else is written.
 */
uint64_t jobdesk_read(
    const uint8_t *job, size_t job_length,
    uint16_t *names, size_t names_length,
    uint64_t *types, size_t types_length,
    uint64_t *sets, size_t sets_length,
    uint64_t *values, size_t values_length,
    uint64_t *heads, size_t heads_length,
    uint16_t *slots, size_t slots_length,
    uint64_t *counts, size_t counts_length);

/* Writes the bytes of the job that the tables hold into a buffer. `counts` says how much of the tables
 * is the job's, and its rights, as jobdesk_read tells them. Read, checked, run or made by hand, tables
 * are written alike: jobdesk_check, jobdesk_session and jobdesk_run leave a job that they do not refuse
 * in the tables, so that the counts of jobdesk_read of the same job still hold. What is written of a job
 * that was read is that job, byte for byte.
 *
 * 0 IS NO VERDICT: a job that the check refuses with 8 to 14 or 16 is written too.
 *
 * The fields (numbers of commands are hexadecimal), each from its bit to the next field or the end of
 * the word:
 *   names[i + 2]  of name i of those declared: its upper name; from bit 8 on the command, 01 or 02;
 *   types[i]      the command, 10 to 15; from bit 8 on the key's name; from bit 16 on the first part: of
 *                 11, 12 and 13 a type, of 14 and 15 a name; from bit 32 on the second part, of 11 and 13;
 *   sets[i]       the set of 13;
 *   values[i]     the command, 20; from bit 8 on the type; from bit 24 on the number;
 *   heads[i]      the command, 30 to 42; from bit 8 on the number of 30, the variable of 32 and 35, the
 *                 part of 34, the operation of 3A, the count of keys of 3C; of 3E the variable and, from
 *                 bit 16 on, the local name;
 *   slots[5 * i]  and the four after it: the operands of two bytes, expressions in their order, then the
 *                 type; of 3C four keys, those that are not used FFFF, then the body.
 * Not looked at are names[0] and names[1], every entry that `counts` does not count, and every field that
 * is neither the command nor an operand of that command. So the types past counts[1], which a check adds,
 * are not written.
 *
 * Returns 0 if the job is written. Then out[0] is how many bytes it has, at most JOBDESK_BYTES, and they
 * stand at the start of `buffer`. Bytes past them stay as they were.
 *
 * Returns the number of a refusal if it is not written. Then out[0] is its place, and no byte of
 * `buffer` is written:
 *   1   a table is shorter than its least length, or `counts` has fewer than JOBDESK_COUNTS words;
 *       tested first;
 *   2   an entry's command is no command,
 *   3   an entry's command is foreign to its table; or there is no expression, with the place of the
 *       end (FF),
 *   5   a count is above its limit (62 names, 256 types, 64 host values, 512 expressions), with the
 *       place of the entry past the limit, whatever that entry holds,
 *   6   an operand breaks a condition of reading, or does not fit into the bytes that it has in a job:
 *       nothing is cut off;
 *       of 2, 3, 5 and 6 the first in the order of the job, at the offset that the entry's command
 *       would have in the bytes of the job, as reading them would refuse it;
 *   15  the buffer is too short; tested last. One of exactly the job's length is long enough.
 *
 * The tables and `counts` are never written to. Where `out` has no entry, the number alone is told.
 */
uint64_t jobdesk_write(
    const uint16_t *names, size_t names_length,
    const uint64_t *types, size_t types_length,
    const uint64_t *sets, size_t sets_length,
    const uint64_t *values, size_t values_length,
    const uint64_t *heads, size_t heads_length,
    const uint16_t *slots, size_t slots_length,
    const uint64_t *counts, size_t counts_length,
    uint8_t *buffer, size_t buffer_length,
    uint64_t *out, size_t out_length);

/* The sheet of a job for the wall file: what the program `sheet` prints for these bytes. No work tables
 * are lent.
 *
 * Returns 0 if the job is accepted. Then `text` begins with the sheet, which has a line of 14 bytes for
 * each host name, by ascending number (none for names 0 and 1 and for local names):
 *   columns 1 and 2   the name's number,
 *   columns 4 and 5   the number of its upper name,
 *   columns 7 to 9    "yes" if the name is below a name of the job's effect, or is one, else "no ",
 *   columns 11 to 13  how many host cells carry exactly this name: cells of a name below it, and limit
 *                     and grant keys, do not count. Cells without a key or with the top's are in no line.
 * Numbers are decimal and stand at the right end of their columns; columns 3, 6 and 10 are spaces, and
 * byte 0A (hexadecimal) follows column 13. out[0] is how many bytes the sheet has, 0 for a job without
 * host names, and out[1] is 0.
 *
 * "no " IS NO PROMISE that such a cell stays closed. It says that the job need not be lent the name. A
 * grant key among the host values, or a command 40 (hexadecimal) with a key that the rights lend, can
 * open the cell all the same.
 *
 * Returns 2 to 14 or 16, the number of the refusal, if the job is refused. Then `text` begins with the desk
 * program's line, "refused N at P" and byte 0A; out[0] is how many bytes the line has, and out[1] is the
 * place P.
 *
 * Bytes of `text` past these stay as they were: no byte 0 ends it.
 *
 * Returns 1 if `text` has fewer than JOBDESK_SHEET_BYTES bytes, whatever the job. Then out[0] and out[1]
 * are 0, and no byte of `text` is written.
 *
 * Where `out` has fewer than JOBDESK_OUT entries, it gets those that it has.
 */
uint64_t jobdesk_sheet(
    const uint8_t *job, size_t job_length,
    uint8_t *text, size_t text_length,
    uint64_t *out, size_t out_length);

/* Work tables of the least lengths, and the functions that use them. The tables can be used for any
 * number of jobs, one after the other. */
struct jobdesk_tables {
    uint64_t types[JOBDESK_TYPES];
    uint64_t sets[JOBDESK_SETS];
    uint64_t values[JOBDESK_VALUES];
    uint64_t heads[JOBDESK_HEADS];
    uint64_t effects[JOBDESK_EFFECTS];
    uint16_t names[JOBDESK_NAMES];
    uint16_t slots[JOBDESK_SLOTS];
    uint16_t entries[JOBDESK_ENTRIES];
};

/* jobdesk_check with tables of the least lengths; it never returns 1. */
static inline uint64_t jobdesk_check_in(
    struct jobdesk_tables *t, const uint8_t *job, size_t job_length, uint64_t out[JOBDESK_OUT])
{
    return jobdesk_check(
        job, job_length, t->names, JOBDESK_NAMES, t->types, JOBDESK_TYPES, t->sets, JOBDESK_SETS,
        t->values, JOBDESK_VALUES, t->heads, JOBDESK_HEADS, t->slots, JOBDESK_SLOTS, t->entries,
        JOBDESK_ENTRIES, t->effects, JOBDESK_EFFECTS, out, JOBDESK_OUT);
}

/* jobdesk_session with tables of the least lengths; `calls` has JOBDESK_CALL entries and `answers` has
 * JOBDESK_ANSWER for each of `count` calls. It never returns 1. */
static inline uint64_t jobdesk_session_in(
    struct jobdesk_tables *t, const uint8_t *job, size_t job_length, const uint64_t *calls,
    size_t count, uint64_t *answers, uint64_t value[JOBDESK_VALUE], uint64_t cells[JOBDESK_CELLS],
    uint64_t out[JOBDESK_OUT])
{
    return jobdesk_session(
        job, job_length, t->names, JOBDESK_NAMES, t->types, JOBDESK_TYPES, t->sets, JOBDESK_SETS,
        t->values, JOBDESK_VALUES, t->heads, JOBDESK_HEADS, t->slots, JOBDESK_SLOTS, t->entries,
        JOBDESK_ENTRIES, t->effects, JOBDESK_EFFECTS, calls, JOBDESK_CALL * count, answers,
        JOBDESK_ANSWER * count, value, JOBDESK_VALUE, cells, JOBDESK_CELLS, out, JOBDESK_OUT);
}

/* jobdesk_run with tables of the least lengths; `calls` has JOBDESK_CALL entries and `answers` has
 * JOBDESK_ANSWER for each of `count` calls. It never returns 1. */
static inline uint64_t jobdesk_run_in(
    struct jobdesk_tables *t, const uint8_t *job, size_t job_length, const uint64_t *calls,
    size_t count, uint64_t *answers, uint64_t rooms[JOBDESK_ROOMS])
{
    return jobdesk_run(
        job, job_length, t->names, JOBDESK_NAMES, t->types, JOBDESK_TYPES, t->sets, JOBDESK_SETS,
        t->values, JOBDESK_VALUES, t->heads, JOBDESK_HEADS, t->slots, JOBDESK_SLOTS, calls,
        JOBDESK_CALL * count, answers, JOBDESK_ANSWER * count, rooms, JOBDESK_ROOMS);
}

/* jobdesk_read with tables of the least lengths; it never returns 1. */
static inline uint64_t jobdesk_read_in(
    struct jobdesk_tables *t, const uint8_t *job, size_t job_length, uint64_t counts[JOBDESK_COUNTS])
{
    return jobdesk_read(
        job, job_length, t->names, JOBDESK_NAMES, t->types, JOBDESK_TYPES, t->sets, JOBDESK_SETS,
        t->values, JOBDESK_VALUES, t->heads, JOBDESK_HEADS, t->slots, JOBDESK_SLOTS, counts,
        JOBDESK_COUNTS);
}

/* jobdesk_write from tables of the least lengths, with one word of `out`; it never returns 1. */
static inline uint64_t jobdesk_write_in(
    const struct jobdesk_tables *t, const uint64_t counts[JOBDESK_COUNTS], uint8_t *buffer,
    size_t buffer_length, uint64_t out[1])
{
    return jobdesk_write(
        t->names, JOBDESK_NAMES, t->types, JOBDESK_TYPES, t->sets, JOBDESK_SETS, t->values,
        JOBDESK_VALUES, t->heads, JOBDESK_HEADS, t->slots, JOBDESK_SLOTS, counts, JOBDESK_COUNTS,
        buffer, buffer_length, out, 1);
}

#ifdef __cplusplus
}
#endif

#endif
