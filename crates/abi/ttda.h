/* The functions of target/staticlib/libabi.a, which `tools/library` makes. Numbers and records are little-endian; docs/FORMATS.md
   gives the formats and the refusals.

   A buffer is lent: its owner is the caller, and no function keeps a pointer. Each function may be called from any thread. The
   caller sees to it that
     - no pointer is NULL, even with length 0;
     - each length is that of the buffer, so that no address behind it wraps around, as a length near SIZE_MAX would make it;
     - a buffer that is written, *records too, overlaps no other buffer of the same call.
   Nothing is checked of these three: whoever breaks one has no promise of what happens. All else is checked, and refused by a number.
   Where a row below names what is written, all other bytes lent stay as they were.

   Stack: ttda_run_ranges takes at most 166 KB, ttda_run and ttda_run_logged 31, ttda_carry_on and ttda_held 32, ttda_profile 27, ttda_replay 22,
   ttda_list 17, the others below 8. */
#ifndef TTDA_H
#define TTDA_H

#include <stddef.h>
#include <stdint.h>

#ifdef __cplusplus
extern "C" {
#endif

/* Operations. Those from TTDA_ADD on have a form with a constant on the right, whose code is TTDA_WITH_CONSTANT more. */
enum {
    TTDA_COPY = 1,
    TTDA_SINK = 2,
    TTDA_OUT = 3,
    TTDA_CONST = 4,
    TTDA_SWITCH = 5,
    TTDA_GATE = 6,
    TTDA_NEXT = 7,
    TTDA_ENTER = 8,
    TTDA_LEAVE = 9,
    TTDA_FETCH = 10,
    TTDA_STORE = 11,
    TTDA_ADD = 16,
    TTDA_SUB = 17,
    TTDA_MUL = 18,
    TTDA_DIV = 19,
    TTDA_REM = 20,
    TTDA_LT = 21,
    TTDA_LE = 22,
    TTDA_EQ = 23,
    TTDA_WITH_CONSTANT = 16
};

/* The word of an answer. Any other is the number of a refusal. */
enum { TTDA_COMPLETED = 0, TTDA_SPENT = 100, TTDA_HUNG = 101 };

/* The state byte of a token, and that of a cell. */
enum { TTDA_TOKEN_LIVE = 0, TTDA_TOKEN_SPENT = 1, TTDA_TOKEN_DEFERRED = 2 };
enum { TTDA_CELL_ABSENT = 0, TTDA_CELL_WAITING = 1, TTDA_CELL_PRESENT = 2 };

/* Bytes of a record. */
enum {
    TTDA_INSTRUCTION_BYTES = 16,
    TTDA_TOKEN_BYTES = 28,
    TTDA_OLD_TOKEN_BYTES = 20,
    TTDA_CELL_BYTES = 8,
    TTDA_RANGE_TOKEN_BYTES = 32,
    TTDA_RANGE_CELL_BYTES = 12,
    TTDA_ARRAY_BYTES = 4,
    TTDA_PICK_BYTES = 2,
    TTDA_LOG_BYTES = 20,
    TTDA_OLD_LOG_BYTES = 12,
    TTDA_STEP_BYTES = 4,
    TTDA_EXPRESSION_BYTES = 8,
    TTDA_VALUE_BYTES = 4
};

/* Where the fields of a record begin. An instruction has the ports and the targets of two destinations side by side, a target 16 bits; a
   high value is that of a range run. */
enum {
    TTDA_INSTRUCTION_CODE = 0,
    TTDA_INSTRUCTION_FAN_OUT = 1,
    TTDA_INSTRUCTION_PORTS = 2,
    TTDA_INSTRUCTION_TARGETS = 4,
    TTDA_INSTRUCTION_CONSTANT = 8
};
enum {
    TTDA_TOKEN_PATH = 0,
    TTDA_TOKEN_ITERATION = 16,
    TTDA_TOKEN_PORT = 17,
    TTDA_TOKEN_INSTRUCTION = 18,
    TTDA_TOKEN_VALUE = 20,
    TTDA_TOKEN_STATE = 24,
    TTDA_TOKEN_HIGH = 28
};
enum { TTDA_CELL_VALUE = 0, TTDA_CELL_STATE = 4, TTDA_CELL_HIGH = 8 };
enum { TTDA_LOG_PATH = 0, TTDA_LOG_ITERATION = 16, TTDA_LOG_INSTRUCTION = 18 };

/* Most records: instructions of a graph; tokens of a ledger, and so inputs, picks, firings and steps; cells; named arrays; an
   expression. And most levels of calls. */
enum {
    TTDA_MOST_INSTRUCTIONS = 256,
    TTDA_MOST_RECORDS = 2048,
    TTDA_MOST_CELLS = 1024,
    TTDA_MOST_ARRAYS = 64,
    TTDA_MOST_EXPRESSION = 100,
    TTDA_MOST_LEVELS = 8
};

/* The four numbers of an answer, the value in an answer of ttda_expression_value, and the two counts in one of ttda_held. */
static inline uint16_t ttda_word(uint64_t answer) { return (uint16_t)answer; }
static inline uint16_t ttda_firings(uint64_t answer) { return (uint16_t)(answer >> 16); }
static inline uint16_t ttda_tokens(uint64_t answer) { return (uint16_t)(answer >> 32); }
static inline uint16_t ttda_place(uint64_t answer) { return (uint16_t)(answer >> 48); }
static inline int32_t ttda_value(uint64_t answer) { return (int32_t)(uint32_t)(answer >> 16); }
static inline uint16_t ttda_held_back(uint64_t answer) { return ttda_firings(answer); }
static inline uint16_t ttda_enabled(uint64_t answer) { return ttda_tokens(answer); }

/* Runs a graph. arrays is a table of named arrays, first cell and length of each, 16 bits each: the constant of a FETCH or a STORE
   names one, counted from 1, and its operand is an index, counted from 1; constant 0 is the whole store. A table of no bytes has no
   array. The answer has 16 bits each, lowest first: the word (TTDA_COMPLETED, TTDA_HUNG, TTDA_SPENT, or 1 to 14, 17 and 22
   refused), firings, tokens, place.
   Writes: the cells, and as many records of the ledger as there are tokens. Refused before any firing, nothing: ledger and cells are
   then as lent, and a program that prints such cells prints what they held before. A refused firing leaves both as it found them.
   7: inputs, picks, ledger or cells are not whole records, or too many. 22: arrays is not whole records, or too many, or one ends past
   the cells (place 0), or else a constant of a FETCH or a STORE that names none (its place).
   bound: 0 for none, or 2 to 256; anything else is refused by 21. Then a NEXT that would make iteration m is held back while its path has,
   at iteration m - bound or less, a live token that is no result or a deferred one, or such a token stands in a path entered from there.
   Picks count without what is held back; where nothing else is enabled, the answer is hung. A run with a bound that completes, or hangs
   with nothing held back, ends as every run without one does at a budget of 2,048; ttda_held tells the two hangs apart. */
uint64_t ttda_run(const uint8_t *graph, size_t graph_len,
                  const uint8_t *arrays, size_t arrays_len,
                  const uint8_t *inputs, size_t inputs_len,
                  const uint8_t *picks, size_t picks_len,
                  uint16_t budget, uint16_t bound,
                  uint8_t *ledger, size_t ledger_len,
                  uint8_t *cells, size_t cells_len);

/* Runs a graph whose inputs are known only between limits. Each token and cell record has a low value, in the field of a plain one, and a
   high value in 4 further bytes at its end: TTDA_RANGE_TOKEN_BYTES and TTDA_RANGE_CELL_BYTES. A deferred token has its cell number in both.
   ADD, SUB, MUL, DIV and the comparisons send the smallest range that holds every outcome; REM of two single values is exact, and otherwise goes by the
   divisor's largest magnitude m: from 1 - m, or 0 if the dividend cannot be negative, to m - 1, or 0 if it cannot be positive. The answer,
   the table, picks, budget and bound are those of ttda_run, with 12 if an outcome is out of range or a divisor may be 0, and with 23, after 17
   and before 8, for a SWITCH control that may be zero or not, or a cell number or index that is not a single value; 23 is also, after 6 of all
   inputs, an input whose low value exceeds its high one.
   A range run that completes or hangs promises of every plain run whose inputs lie in the ranges, with as many records in ledger and cells and all
   else equal, that it ends alike, with as many firings and the same tokens place by place but for their values, each of which lies in its range.
   Writes: as ttda_run.
   7 and 22: as ttda_run, by the bytes of these records. */
uint64_t ttda_run_ranges(const uint8_t *graph, size_t graph_len,
                         const uint8_t *arrays, size_t arrays_len,
                         const uint8_t *inputs, size_t inputs_len,
                         const uint8_t *picks, size_t picks_len,
                         uint16_t budget, uint16_t bound,
                         uint8_t *ledger, size_t ledger_len,
                         uint8_t *cells, size_t cells_len);

/* Goes on from a saved state: the first `tokens` records of the ledger, all cells, and the firings and tokens of the answer that came with
   them. Budget and picks are those of this part; the answer counts all firings. A state is taken exactly if it meets the conditions that
   docs/RULES.md lists, whether or not a run left it. Any other is refused by 24.
   Writes: as ttda_run; if it is refused by 24, nothing.
   7 and 22: as ttda_run; the table is lent again, and is no part of the state. */
uint64_t ttda_carry_on(const uint8_t *graph, size_t graph_len,
                       const uint8_t *arrays, size_t arrays_len,
                       const uint8_t *picks, size_t picks_len,
                       uint16_t budget, uint16_t bound, uint16_t firings, uint16_t tokens,
                       uint8_t *ledger, size_t ledger_len,
                       uint8_t *cells, size_t cells_len);

/* The same run as ttda_run, which also writes a log.
   Writes: as ttda_run, and a record for each firing from the start of log.
   7: as ttda_run, or the log is not whole records, or has fewer than the budget and fewer than TTDA_MOST_RECORDS. */
uint64_t ttda_run_logged(const uint8_t *graph, size_t graph_len,
                         const uint8_t *arrays, size_t arrays_len,
                         const uint8_t *inputs, size_t inputs_len,
                         const uint8_t *picks, size_t picks_len,
                         uint16_t budget, uint16_t bound,
                         uint8_t *ledger, size_t ledger_len,
                         uint8_t *cells, size_t cells_len,
                         uint8_t *log, size_t log_len);

/* Replays a log: fires the activities that its records name, in turn, and answers as ttda_run does. The log of a run is its first
   records, as many as the run's answer has firings. A record that names no enabled activity, lacks its zero byte or is not whole is
   refused by 20, with the record's number as the place.
   Writes: as ttda_run; a log that is refused by 20 at its first record leaves the inputs written.
   7: inputs, ledger or cells are not whole records, or too many. */
uint64_t ttda_replay(const uint8_t *graph, size_t graph_len,
                     const uint8_t *arrays, size_t arrays_len,
                     const uint8_t *inputs, size_t inputs_len,
                     const uint8_t *log, size_t log_len,
                     uint8_t *ledger, size_t ledger_len,
                     uint8_t *cells, size_t cells_len);

/* Runs a graph in ideal steps, each of which fires every activity that is enabled at its start, and answers as ttda_run does. 18 if
   a step has no record left; 2,048 records are always enough.
   Writes: as ttda_run; a record for each whole step (its firings, and the live plus deferred tokens after it) from the start of
   profile; and the number of these records to *records, also where the call is refused.
   7: inputs, ledger or cells are not whole records, or too many, or the profile is not whole records. */
uint64_t ttda_profile(const uint8_t *graph, size_t graph_len,
                      const uint8_t *arrays, size_t arrays_len,
                      const uint8_t *inputs, size_t inputs_len,
                      uint8_t *ledger, size_t ledger_len,
                      uint8_t *cells, size_t cells_len,
                      uint8_t *profile, size_t profile_len,
                      uint64_t *records);

/* What a graph will need, before it runs: no run from these inputs has more firings or tokens. The answer has 16 bits each, lowest
   first: the word (0, or 1 to 7 or 19 refused), firings, tokens, place. 19 is a graph with NEXT, ENTER or LEAVE, at the first such
   record. It takes no named arrays, and any constant of a FETCH or a STORE is let by.
   Writes: nothing. 7: inputs are not whole records, or too many. */
uint64_t ttda_bounds(const uint8_t *graph, size_t graph_len,
                     const uint8_t *inputs, size_t inputs_len);

/* Makes the graph of an expression: 1 to TTDA_MOST_EXPRESSION records, each a variable (8 zeros) or an operation (its code, the
   numbers of its left and right record, 5 zeros). The answer has 16 bits each, lowest first: the word (0, or 25 or 26 refused), the
   records of the graph (ttda_firings has them), 0, place.
   Writes: an instruction for each record, and one for OUT, from the start of graph; if refused, nothing. */
uint64_t ttda_expression(const uint8_t *expression, size_t expression_len,
                         uint8_t *graph, size_t graph_len);

/* The value of an expression, of the values of its variables in record order: what OUT receives in a run of its graph. The answer
   has, lowest first: 16 bits of the word (0, or refused: 25; 12 if an operation is out of range), 32 of the value (ttda_value has
   it), 16 of the place.
   Writes: nothing. 7: there are more or fewer values than variables. */
uint64_t ttda_expression_value(const uint8_t *expression, size_t expression_len,
                               const uint8_t *values, size_t values_len);

/* Sorts the used records of a ledger, as many as the answer has tokens, into out.
   Writes: all of out. 7: the two lengths differ, or are not whole records, or are too many; then nothing is written. */
uint64_t ttda_list(const uint8_t *ledger, size_t ledger_len,
                   uint8_t *out, size_t out_len);

/* Makes token records of TTDA_OLD_TOKEN_BYTES, as inputs and listings had them before paths of eight levels, records of
   TTDA_TOKEN_BYTES: the new bytes are zero.
   Writes: all of out. 7: old is not whole records, or too many, or out has not the length of as many; then nothing is written. */
uint64_t ttda_convert(const uint8_t *old, size_t old_len,
                      uint8_t *out, size_t out_len);

/* The same for logs: records of 12 bytes a firing become records of 20. */
uint64_t ttda_convert_log(const uint8_t *old, size_t old_len,
                          uint8_t *out, size_t out_len);

/* Which hang it was: how many activities a bound holds back in a saved state, as ttda_carry_on takes one. The answer has 16 bits each, lowest
   first: the word (0, or 1 to 5, 7, 21 or 24 refused), the activities held back (ttda_held_back has them), all that are enabled
   (ttda_enabled has them), place. In what a run left that completed or hung with this bound, all that are enabled are held back; it ends
   as every run without a bound exactly if there are none.
   Writes: nothing. 7: ledger or cells are not whole records, or too many. 21: as ttda_run. 24: as ttda_carry_on. */
uint64_t ttda_held(const uint8_t *graph, size_t graph_len,
                   uint16_t bound, uint16_t firings, uint16_t tokens,
                   const uint8_t *ledger, size_t ledger_len,
                   const uint8_t *cells, size_t cells_len);

/* What a run is given beside graph, named arrays, inputs and picks: its budget, its bound, and the lengths in bytes of the ledger and the
   cells that it is lent. */
struct ttda_limits {
    uint64_t budget, bound, ledger_len, cells_len;
};

/* Whether what was kept of one run (its answer, listing and cells, and the profile of its graph) serves for a run that is asked for: 1, or 0.
   kept_answer is what ttda_run answered, and kept_held, of a hang, how many activities ttda_held finds held back in what it left; of
   another answer it is not looked at. 1 if graph, arrays, inputs and both lengths are equal, and either picks, budget and bound are equal too, or
   the kept run completed, or hung with none held back, the bound asked for is 0, the picks asked for are whole records, 2,048 at
   most, and the budget asked for is no less than the kept firings. Then the run asked for has that answer and that listing and, unless it
   is refused before any firing, those cells, and ttda_profile writes the same records. */
uint64_t ttda_serves(const uint8_t *kept_graph, size_t kept_graph_len,
                     const uint8_t *kept_arrays, size_t kept_arrays_len,
                     const uint8_t *kept_inputs, size_t kept_inputs_len,
                     const uint8_t *kept_picks, size_t kept_picks_len,
                     const struct ttda_limits *kept_limits,
                     uint64_t kept_answer, uint64_t kept_held,
                     const uint8_t *graph, size_t graph_len,
                     const uint8_t *arrays, size_t arrays_len,
                     const uint8_t *inputs, size_t inputs_len,
                     const uint8_t *picks, size_t picks_len,
                     const struct ttda_limits *limits);

/* What ttda_print answers where it writes nothing. A text has 11 bytes at least, so neither is a length. */
#define TTDA_TOO_SMALL 0
#define TTDA_NO_ANSWER 1

/* Room enough for what ttda_print writes of these tokens and cells. */
#define TTDA_PRINTED_BYTES(tokens, cells) (74 + 75 * (size_t)(tokens) + 46 * (size_t)(cells))

/* Prints the answer of ttda_run, ttda_carry_on, ttda_run_logged, ttda_replay or ttda_profile, a listing of ttda_list and the cells, as the
   program ttda does, and answers the number of bytes. The number of bounds or of an expression is no run's answer: it would be printed as
   one. TTDA_TOO_SMALL if the text does not fit, TTDA_NO_ANSWER if the number is no answer's (another word, or a place
   though nothing is refused). Bytes past the last whole record are passed over. A token's state byte past 2 prints as deferred, a
   cell's as absent: there is no line for it.
   Writes: the text from the start of out; if it answers one of the two above, nothing. */
uint64_t ttda_print(uint64_t answer,
                    const uint8_t *listing, size_t listing_len,
                    const uint8_t *cells, size_t cells_len,
                    uint8_t *out, size_t out_len);

#ifdef __cplusplus
}
#endif

#endif
