/* Damsonyet: monitor files checked, their wake-up tables placed, and traces run on two machines or made.
 *
 * Every call is proved to return what docs/REFERENCE.md says of it, for every input; this header is not, and the assertions at its end
 * hold its structs to the archive's. Link with -ldamsonyet; nothing else is needed but memcpy and memset.
 *
 * What a caller owes, in all calls:
 *   - Pointers are not null, also where the length is 0. Each points to as many elements as the length behind it says, or the array's
 *     brackets, and is aligned for them.
 *   - A buffer that a call writes overlaps nothing else that is passed to it, and nobody else writes the memory during the call.
 *   - DAMSONYET_STACK bytes of stack are left.
 * Nothing else: any bytes are a file and a trace, any number is a start state. No call allocates, keeps anything or ends the program; calls
 * may be made from many threads at once. Bytes between the fields of a result mean nothing, so compare results by their fields. */
#ifndef DAMSONYET_H
#define DAMSONYET_H

#include <stdbool.h>
#include <stddef.h>
#include <stdint.h>

#ifdef __cplusplus
extern "C" {
#endif

/* Limits: variables, tries, methods, regions (and so guards), threads, states; bytes of a file; bytes of a line of a table and of a trace. */
#define DAMSONYET_VARIABLES 6
#define DAMSONYET_TRIES 16
#define DAMSONYET_METHODS 8
#define DAMSONYET_REGIONS 16
#define DAMSONYET_THREADS 16
#define DAMSONYET_STATES 4096
#define DAMSONYET_FILE_BYTES 8192
#define DAMSONYET_LINE_BYTES 9
#define DAMSONYET_FRAME_BYTES 7
/* A buffer with room for any table, and for all that the programs print; the bytes of one point. */
#define DAMSONYET_OUTPUT_BYTES 4096
#define DAMSONYET_POINT_BYTES 49
/* A buffer with room for the points of a trace of so many bytes, and for a load of so many frames, which must be at most
 * SIZE_MAX / DAMSONYET_FRAME_BYTES. */
#define DAMSONYET_POINTS_BYTES(trace_len) (DAMSONYET_POINT_BYTES * ((size_t)(trace_len) / DAMSONYET_FRAME_BYTES + 1))
#define DAMSONYET_LOAD_BYTES(wanted) (DAMSONYET_FRAME_BYTES * (size_t)(wanted))
/* The stack that a call may need: 618,672 bytes were measured, by a condition of 998 marks `!`, and 250,000 for most files. */
#define DAMSONYET_STACK 655360
/* Values cross with 128 added. */
#define DAMSONYET_VALUE(held) ((int)(held) - 128)
/* In `after`: the region's body assigns outside a range or meets a remainder without a value; or it does not run at the state. */
#define DAMSONYET_FAULT 65534
#define DAMSONYET_NEVER 65535

/* An answer: 0 for accepted, or the number of a refusal, and its places, 0 where unused (docs/GUIDE.md has a table of them). A file's refusals
 * are 1 to 9 and 15, which comes between 7 and 8: the byte of the first `mod` in keep, a try or a guard that has no value in some state, as
 * its divisor is below 1 there. 10 is a lent buffer that is too short, 11 to 14 are those of a run, and 16 is a load's: a count of threads that
 * is not 1 to DAMSONYET_THREADS. */
typedef struct {
    uint8_t number;
    size_t first;
    size_t second;
} damsonyet_answer;

/* What placing answers, and where it is placed the table's length in bytes; the chosen tries as bits, the first `try` lowest; and how many
 * pairs of region and guard are touched: the region's body assigns, anywhere in its text and reached or not, a variable that the guard names.
 * A region's own guard counts like any other. Only the states of touched pairs are gone through for an entry; every other pair has none by
 * the text alone. Beside a refusal all three are 0, 10 included. */
typedef struct {
    damsonyet_answer answer;
    size_t length;
    uint16_t chosen;
    uint16_t pairs;
} damsonyet_placing;

/* What a machine answers to a trace. Where the answer is 0, its last point: the values of `vars` variables, each with 128 added (128 in the
 * slots behind), each thread's place as a byte (255 idle; r waits at region r; 16 + r due at region r), who is notified (bit t for thread
 * t) and how many they are. `turns`: of each thread that waits, how many of all who wait, on whichever guard, began to wait before it, so 0
 * for the earliest; 0 of one that does not wait. Those who wait on a guard, by their turns, are its line, and the first of them is its
 * first waiter. Beside a refusal: no variables, all idle, none notified, all turns 0. `of_file`: the refusal is the file's, not the run's. */
typedef struct {
    damsonyet_answer answer;
    size_t vars;
    uint16_t values[DAMSONYET_VARIABLES];
    uint8_t places[DAMSONYET_THREADS];
    uint16_t notified;
    uint32_t how_many;
    bool of_file;
    uint8_t turns[DAMSONYET_THREADS];
} damsonyet_running;

typedef struct {
    damsonyet_running plain;
    damsonyet_running table;
} damsonyet_both;

/* Both machines' answers, and how many points are written. */
typedef struct {
    damsonyet_answer plain;
    damsonyet_answer table;
    size_t count;
} damsonyet_pointing;

/* What making a load answers, and how many frames are made; beside a refusal none. */
typedef struct {
    damsonyet_answer answer;
    size_t count;
} damsonyet_made;

/* Where something stands in a file: its first byte, and the byte behind its last. */
typedef struct {
    size_t from;
    size_t to;
} damsonyet_span;

/* A variable: its name, its start value and its bounds, each with 128 added. */
typedef struct {
    damsonyet_span name;
    uint16_t start;
    uint16_t low;
    uint16_t high;
} damsonyet_variable;

/* A method: its name, and the number of its first region. */
typedef struct {
    damsonyet_span name;
    size_t first;
} damsonyet_method;

/* A region: what stands between the brackets behind its `waituntil`, blanks included, and between the braces behind them; and the number
 * of its guard. */
typedef struct {
    damsonyet_span guard;
    damsonyet_span body;
    size_t number;
} damsonyet_region;

/* What a file has, and where. It is told of every file that the checks 1 to 7 and 15 pass, so beside 0, 8 and 9; else all is 0 but the
 * answer. `start` is the number of the state at the start values; `title` is the monitor's name; `keep` is what stands between `keep` and
 * its semicolon, and `tried[k]` what stands between the k-th `try` and its own. Slots behind the counts are 0. */
typedef struct {
    damsonyet_answer answer;
    size_t vars;
    size_t tries;
    size_t methods;
    size_t regions;
    size_t guards;
    size_t states;
    size_t start;
    damsonyet_span title;
    damsonyet_span keep;
    damsonyet_variable variable[DAMSONYET_VARIABLES];
    damsonyet_span tried[DAMSONYET_TRIES];
    damsonyet_method method[DAMSONYET_METHODS];
    damsonyet_region region[DAMSONYET_REGIONS];
} damsonyet_outline;

/* What becomes of the tries. It is told of every file that the checks 1 to 8 and 15 pass, so beside 0 and 9 (`known`); else all is 0 but
 * the answer. Try i is chosen where bit i of `chosen` is set: the kept condition is keep and the chosen tries together. Any other is false
 * at the start values where `passes[i]` is 0; else it is broken, in pass `passes[i]` (1 to 16), by the body of region `regions[i]` from
 * state `states[i]`. The passes begin with all tries that hold at the start values. In a pass every try is dropped that some region's body
 * makes false from some state where keep and all tries that no earlier pass dropped hold, with the guard true and the body without a fault
 * (DAMSONYET_FAULT); told are the lowest region and then the lowest state that do so. Passes go on until one drops nothing. Slots of tries
 * that are not broken, and those behind the count, are 0. */
typedef struct {
    damsonyet_answer answer;
    bool known;
    size_t tries;
    uint16_t chosen;
    uint8_t passes[DAMSONYET_TRIES];
    uint8_t regions[DAMSONYET_TRIES];
    uint16_t states[DAMSONYET_TRIES];
} damsonyet_fates;

/* A state, by its number. It is told beside 0 and 9. `known`: there is a state with this number; where there is none, and beside other
 * answers, it is false and all that follows is 0. `kept`: the kept condition (keep and the chosen tries) holds there. Values as in
 * damsonyet_running; `holds`: bit g where guard g holds; `after`: for each region the number of the state after its body; DAMSONYET_FAULT
 * where the body assigns outside a range or meets a `mod` with a divisor below 1; DAMSONYET_NEVER where it does not run (the state is not
 * kept, or the guard does not hold) and in the slots behind the regions. */
typedef struct {
    damsonyet_answer answer;
    bool known;
    bool kept;
    size_t vars;
    uint16_t values[DAMSONYET_VARIABLES];
    uint16_t holds;
    uint16_t after[DAMSONYET_REGIONS];
} damsonyet_state;

/* The values of a state, each with 128 added. */
typedef struct {
    uint16_t held[DAMSONYET_VARIABLES];
} damsonyet_values;

/* A state's number by its values. It is told beside 0, 8 and 9. `known`: each value is in its variable's range; where one is not, and
 * beside other answers, it is false and the number 0. */
typedef struct {
    damsonyet_answer answer;
    bool known;
    size_t number;
} damsonyet_numbered;

/* The verdict of a file: 0, or a refusal, 1 to 9 or 15, with its places. */
damsonyet_answer damsonyet_check(const uint8_t *file, size_t file_len);

/* The table of a file from byte 0 of a buffer, 9 bytes a line, its chosen tries and the count of its touched pairs; refused (1 to 9, 15, or
 * 10 where the buffer is too short), not a byte of the buffer changes. DAMSONYET_OUTPUT_BYTES are always enough. */
damsonyet_placing damsonyet_place(const uint8_t *file, size_t file_len, uint8_t *table, size_t table_len);

/* A run of a trace from a start state on the plain machine or, where `table` is true, on the table's: the file's refusals, 11 to 14, or 0. */
damsonyet_running damsonyet_run(const uint8_t *file, size_t file_len, const uint8_t *trace, size_t trace_len, size_t start, bool table);

/* Both machines on one trace, from one start state; and from the start values. */
damsonyet_both damsonyet_run_both(const uint8_t *file, size_t file_len, const uint8_t *trace, size_t trace_len, size_t start);
damsonyet_both damsonyet_run_both_from_start(const uint8_t *file, size_t file_len, const uint8_t *trace, size_t trace_len);

/* The number of the state at the start values of an accepted file; 0 of a refused one. */
size_t damsonyet_start_state(const uint8_t *file, size_t file_len);

/* What the programs print, from byte 0 of a buffer; the bytes behind are kept. Returned is how many bytes they are. */
size_t damsonyet_placer_lines(const uint8_t *file, size_t file_len, uint8_t out[DAMSONYET_OUTPUT_BYTES]);
size_t damsonyet_runner_lines(const uint8_t *file, size_t file_len, const uint8_t *trace, size_t trace_len,
                              uint8_t out[DAMSONYET_OUTPUT_BYTES]);

/* Every point of both machines' runs from byte 0 of a buffer of DAMSONYET_POINTS_BYTES(trace_len) bytes, up to where the plain machine stops:
 * point 0 is the start, point k is behind frame k - 1. Refused (1 to 9, 15, 10 where the buffer is too short, 11, 12), not a byte of the
 * buffer changes; at 13 and 14 the points before the refused frame are there. The bytes of a point:
 *    0   6  values, each with 128 added
 *    6  16  places, as in damsonyet_running
 *   22   2  which guards hold (two bytes of a set: low byte first)
 *   24   2  plain machine: who is notified      26   2  and who of them was not at the point before
 *   28   1  1 where the table's machine is still there, else 0, and 29 to 32 too
 *   29   2  table's machine: who is notified    31   2  and who of them was not at the point before
 *   33  16  turns, as in damsonyet_running */
damsonyet_pointing damsonyet_points(const uint8_t *file, size_t file_len, const uint8_t *trace, size_t trace_len, size_t start,
                                    uint8_t *out, size_t out_len);

/* A repeatable load: up to `wanted` frames that the plain machine allows, rechecks left out, of the threads 0 to `threads` - 1, from the
 * start values. Their lines stand from byte 0 of a buffer of DAMSONYET_LOAD_BYTES(wanted) bytes, DAMSONYET_FRAME_BYTES each; the bytes behind
 * are kept. For each frame the allowed ones are ordered by thread and then region; `seed` is replaced by seed * 1664525 + 1013904223, kept to
 * 32 bits, and the frame at its upper sixteen bits modulo their count is taken. So the same file, seed and threads give the same bytes
 * everywhere, and a longer load begins with the shorter one. Fewer than `wanted` are made only where none is allowed any more: nobody can move
 * but by a recheck. Both machines accept the trace. Refused (16 before any other, 1 to 9, 15, or 10 where the buffer is too short for
 * `wanted`, however many would be made), not a byte of the buffer changes. */
damsonyet_made damsonyet_load(const uint8_t *file, size_t file_len, uint32_t seed, size_t threads, size_t wanted, uint8_t *out,
                              size_t out_len);

/* What a tool needs to show a file without reading it again. */
damsonyet_outline damsonyet_outline_of(const uint8_t *file, size_t file_len);

/* What becomes of each try of a file. */
damsonyet_fates damsonyet_fates_of(const uint8_t *file, size_t file_len);

/* A state by its number, and a state's number by its values (slots behind the variables are not read). */
damsonyet_state damsonyet_state_at(const uint8_t *file, size_t file_len, size_t number);
damsonyet_numbered damsonyet_number_of(const uint8_t *file, size_t file_len, damsonyet_values values);

#ifdef __cplusplus
}
#define DAMSONYET_ASSERT static_assert
#else
#define DAMSONYET_ASSERT _Static_assert
#endif

#define DAMSONYET_SIZE(type, size) DAMSONYET_ASSERT(sizeof(type) == (size), #type " has " #size " bytes")
#define DAMSONYET_AT(type, field, at) DAMSONYET_ASSERT(offsetof(type, field) == (at), #type "." #field " is at byte " #at)

DAMSONYET_SIZE(damsonyet_answer, 24);
DAMSONYET_AT(damsonyet_answer, first, 8);
DAMSONYET_AT(damsonyet_answer, second, 16);
DAMSONYET_SIZE(damsonyet_placing, 40);
DAMSONYET_AT(damsonyet_placing, length, 24);
DAMSONYET_AT(damsonyet_placing, chosen, 32);
DAMSONYET_AT(damsonyet_placing, pairs, 34);
DAMSONYET_SIZE(damsonyet_running, 88);
DAMSONYET_AT(damsonyet_running, vars, 24);
DAMSONYET_AT(damsonyet_running, values, 32);
DAMSONYET_AT(damsonyet_running, places, 44);
DAMSONYET_AT(damsonyet_running, notified, 60);
DAMSONYET_AT(damsonyet_running, how_many, 64);
DAMSONYET_AT(damsonyet_running, of_file, 68);
DAMSONYET_AT(damsonyet_running, turns, 69);
DAMSONYET_SIZE(damsonyet_both, 176);
DAMSONYET_AT(damsonyet_both, table, 88);
DAMSONYET_SIZE(damsonyet_pointing, 56);
DAMSONYET_AT(damsonyet_pointing, table, 24);
DAMSONYET_AT(damsonyet_pointing, count, 48);
DAMSONYET_SIZE(damsonyet_made, 32);
DAMSONYET_AT(damsonyet_made, count, 24);
DAMSONYET_SIZE(damsonyet_span, 16);
DAMSONYET_AT(damsonyet_span, to, 8);
DAMSONYET_SIZE(damsonyet_variable, 24);
DAMSONYET_AT(damsonyet_variable, start, 16);
DAMSONYET_AT(damsonyet_variable, high, 20);
DAMSONYET_SIZE(damsonyet_method, 24);
DAMSONYET_AT(damsonyet_method, first, 16);
DAMSONYET_SIZE(damsonyet_region, 40);
DAMSONYET_AT(damsonyet_region, body, 16);
DAMSONYET_AT(damsonyet_region, number, 32);
DAMSONYET_SIZE(damsonyet_outline, 1344);
DAMSONYET_AT(damsonyet_outline, vars, 24);
DAMSONYET_AT(damsonyet_outline, tries, 32);
DAMSONYET_AT(damsonyet_outline, methods, 40);
DAMSONYET_AT(damsonyet_outline, start, 72);
DAMSONYET_AT(damsonyet_outline, title, 80);
DAMSONYET_AT(damsonyet_outline, keep, 96);
DAMSONYET_AT(damsonyet_outline, variable, 112);
DAMSONYET_AT(damsonyet_outline, tried, 256);
DAMSONYET_AT(damsonyet_outline, method, 512);
DAMSONYET_AT(damsonyet_outline, region, 704);
DAMSONYET_SIZE(damsonyet_fates, 112);
DAMSONYET_AT(damsonyet_fates, known, 24);
DAMSONYET_AT(damsonyet_fates, tries, 32);
DAMSONYET_AT(damsonyet_fates, chosen, 40);
DAMSONYET_AT(damsonyet_fates, passes, 42);
DAMSONYET_AT(damsonyet_fates, regions, 58);
DAMSONYET_AT(damsonyet_fates, states, 74);
DAMSONYET_SIZE(damsonyet_state, 88);
DAMSONYET_AT(damsonyet_state, known, 24);
DAMSONYET_AT(damsonyet_state, kept, 25);
DAMSONYET_AT(damsonyet_state, vars, 32);
DAMSONYET_AT(damsonyet_state, values, 40);
DAMSONYET_AT(damsonyet_state, holds, 52);
DAMSONYET_AT(damsonyet_state, after, 54);
DAMSONYET_SIZE(damsonyet_values, 12);
DAMSONYET_SIZE(damsonyet_numbered, 40);
DAMSONYET_AT(damsonyet_numbered, known, 24);
DAMSONYET_AT(damsonyet_numbered, number, 32);

#undef DAMSONYET_AT
#undef DAMSONYET_SIZE
#undef DAMSONYET_ASSERT

#endif
