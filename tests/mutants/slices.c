/* The C functions of ttda.h over the engine as an unproved build has it, whose functions take a slice as C does, its start and its
   length; tests/mutants/run gives the engine's own functions the names below. A trap, which is how the build says that
   an assumption of the compiler is broken (an index out of range, a cast that loses bits), is reported with the number of
   the call that it came in. */
#include <signal.h>
#include <stddef.h>
#include <stdint.h>
#include <stdio.h>
#include <unistd.h>

uint64_t unproved_run(const uint8_t *graph, size_t graph_len, const uint8_t *arrays, size_t arrays_len,
                      const uint8_t *inputs, size_t inputs_len, const uint8_t *picks, size_t picks_len,
                      uint16_t budget, uint16_t bound, uint8_t *ledger, size_t ledger_len, uint8_t *cells,
                      size_t cells_len);
uint64_t unproved_run_ranges(const uint8_t *graph, size_t graph_len, const uint8_t *arrays, size_t arrays_len,
                             const uint8_t *inputs, size_t inputs_len, const uint8_t *picks, size_t picks_len,
                             uint16_t budget, uint16_t bound, uint8_t *ledger, size_t ledger_len, uint8_t *cells,
                             size_t cells_len);
uint64_t unproved_profile(const uint8_t *graph, size_t graph_len, const uint8_t *arrays, size_t arrays_len,
                          const uint8_t *inputs, size_t inputs_len, uint8_t *ledger, size_t ledger_len,
                          uint8_t *cells, size_t cells_len, uint8_t *profile, size_t profile_len, uint64_t *records);
uint64_t unproved_run_logged(const uint8_t *graph, size_t graph_len, const uint8_t *arrays, size_t arrays_len,
                             const uint8_t *inputs, size_t inputs_len, const uint8_t *picks, size_t picks_len,
                             uint16_t budget, uint16_t bound, uint8_t *ledger, size_t ledger_len, uint8_t *cells,
                             size_t cells_len, uint8_t *log, size_t log_len);
uint64_t unproved_replay(const uint8_t *graph, size_t graph_len, const uint8_t *arrays, size_t arrays_len,
                         const uint8_t *inputs, size_t inputs_len, const uint8_t *log, size_t log_len,
                         uint8_t *ledger, size_t ledger_len, uint8_t *cells, size_t cells_len);
uint64_t unproved_bounds(const uint8_t *graph, size_t graph_len, const uint8_t *inputs, size_t inputs_len);
uint64_t unproved_carry_on(const uint8_t *graph, size_t graph_len, const uint8_t *arrays, size_t arrays_len,
                           const uint8_t *picks, size_t picks_len, uint16_t budget, uint16_t bound, uint16_t firings,
                           uint16_t tokens, uint8_t *ledger, size_t ledger_len, uint8_t *cells, size_t cells_len);
uint64_t unproved_expression(const uint8_t *expression, size_t expression_len, uint8_t *graph, size_t graph_len);
uint64_t unproved_expression_value(const uint8_t *expression, size_t expression_len, const uint8_t *values,
                                   size_t values_len);
uint64_t unproved_held(const uint8_t *graph, size_t graph_len, uint16_t bound, uint16_t firings, uint16_t tokens,
                       const uint8_t *ledger, size_t ledger_len, const uint8_t *cells, size_t cells_len);
uint64_t unproved_serves(const uint8_t *kept_graph, size_t kept_graph_len, const uint8_t *kept_arrays,
                         size_t kept_arrays_len, const uint8_t *kept_inputs, size_t kept_inputs_len,
                         const uint8_t *kept_picks, size_t kept_picks_len, const uint64_t *kept_limits,
                         uint64_t kept_answer, uint64_t kept_held, const uint8_t *graph, size_t graph_len,
                         const uint8_t *arrays, size_t arrays_len, const uint8_t *inputs, size_t inputs_len,
                         const uint8_t *picks, size_t picks_len, const uint64_t *limits);
uint64_t unproved_list(const uint8_t *ledger, size_t ledger_len, uint8_t *out, size_t out_len);
uint64_t unproved_convert(const uint8_t *old, size_t old_len, uint8_t *out, size_t out_len);
uint64_t unproved_convert_log(const uint8_t *old, size_t old_len, uint8_t *out, size_t out_len);
uint64_t unproved_print(uint64_t answer, const uint8_t *listing, size_t listing_len, const uint8_t *cells,
                        size_t cells_len, uint8_t *out, size_t out_len);

static unsigned long calls;

static void trapped(int number) {
    (void)number;
    dprintf(1, "seed -, group -, run %lu, -:\n  trap: an assumption of the compiler is broken\n", calls);
    _exit(1);
}

/* Counts a call of the random tests; from the first one on a trap is reported. */
static void count(void) {
    if (calls++ == 0) {
        signal(SIGILL, trapped);
        signal(SIGTRAP, trapped);
        signal(SIGSEGV, trapped);
    }
}

uint64_t ttda_run(const uint8_t *graph, size_t graph_len, const uint8_t *arrays, size_t arrays_len,
                  const uint8_t *inputs, size_t inputs_len, const uint8_t *picks, size_t picks_len, uint16_t budget,
                  uint16_t bound, uint8_t *ledger, size_t ledger_len, uint8_t *cells, size_t cells_len) {
    count();
    return unproved_run(graph, graph_len, arrays, arrays_len, inputs, inputs_len, picks, picks_len, budget, bound,
                        ledger, ledger_len, cells, cells_len);
}

uint64_t ttda_run_ranges(const uint8_t *graph, size_t graph_len, const uint8_t *arrays, size_t arrays_len,
                         const uint8_t *inputs, size_t inputs_len, const uint8_t *picks, size_t picks_len,
                         uint16_t budget, uint16_t bound, uint8_t *ledger, size_t ledger_len, uint8_t *cells,
                         size_t cells_len) {
    count();
    return unproved_run_ranges(graph, graph_len, arrays, arrays_len, inputs, inputs_len, picks, picks_len, budget,
                               bound, ledger, ledger_len, cells, cells_len);
}

uint64_t ttda_profile(const uint8_t *graph, size_t graph_len, const uint8_t *arrays, size_t arrays_len,
                      const uint8_t *inputs, size_t inputs_len, uint8_t *ledger, size_t ledger_len, uint8_t *cells,
                      size_t cells_len, uint8_t *profile, size_t profile_len, uint64_t *records) {
    count();
    return unproved_profile(graph, graph_len, arrays, arrays_len, inputs, inputs_len, ledger, ledger_len, cells,
                            cells_len, profile, profile_len, records);
}

uint64_t ttda_run_logged(const uint8_t *graph, size_t graph_len, const uint8_t *arrays, size_t arrays_len,
                         const uint8_t *inputs, size_t inputs_len, const uint8_t *picks, size_t picks_len,
                         uint16_t budget, uint16_t bound, uint8_t *ledger, size_t ledger_len, uint8_t *cells,
                         size_t cells_len, uint8_t *log, size_t log_len) {
    count();
    return unproved_run_logged(graph, graph_len, arrays, arrays_len, inputs, inputs_len, picks, picks_len, budget,
                               bound, ledger, ledger_len, cells, cells_len, log, log_len);
}

uint64_t ttda_replay(const uint8_t *graph, size_t graph_len, const uint8_t *arrays, size_t arrays_len,
                     const uint8_t *inputs, size_t inputs_len, const uint8_t *log, size_t log_len, uint8_t *ledger,
                     size_t ledger_len, uint8_t *cells, size_t cells_len) {
    count();
    return unproved_replay(graph, graph_len, arrays, arrays_len, inputs, inputs_len, log, log_len, ledger, ledger_len,
                           cells, cells_len);
}

uint64_t ttda_bounds(const uint8_t *graph, size_t graph_len, const uint8_t *inputs, size_t inputs_len) {
    count();
    return unproved_bounds(graph, graph_len, inputs, inputs_len);
}

uint64_t ttda_carry_on(const uint8_t *graph, size_t graph_len, const uint8_t *arrays, size_t arrays_len,
                       const uint8_t *picks, size_t picks_len, uint16_t budget, uint16_t bound, uint16_t firings,
                       uint16_t tokens, uint8_t *ledger, size_t ledger_len, uint8_t *cells, size_t cells_len) {
    count();
    return unproved_carry_on(graph, graph_len, arrays, arrays_len, picks, picks_len, budget, bound, firings, tokens,
                             ledger, ledger_len, cells, cells_len);
}

uint64_t ttda_expression(const uint8_t *expression, size_t expression_len, uint8_t *graph, size_t graph_len) {
    count();
    return unproved_expression(expression, expression_len, graph, graph_len);
}

uint64_t ttda_expression_value(const uint8_t *expression, size_t expression_len, const uint8_t *values,
                               size_t values_len) {
    return unproved_expression_value(expression, expression_len, values, values_len);
}

uint64_t ttda_held(const uint8_t *graph, size_t graph_len, uint16_t bound, uint16_t firings, uint16_t tokens,
                   const uint8_t *ledger, size_t ledger_len, const uint8_t *cells, size_t cells_len) {
    count();
    return unproved_held(graph, graph_len, bound, firings, tokens, ledger, ledger_len, cells, cells_len);
}

uint64_t ttda_serves(const uint8_t *kept_graph, size_t kept_graph_len, const uint8_t *kept_arrays,
                     size_t kept_arrays_len, const uint8_t *kept_inputs, size_t kept_inputs_len,
                     const uint8_t *kept_picks, size_t kept_picks_len, const uint64_t *kept_limits,
                     uint64_t kept_answer, uint64_t kept_held, const uint8_t *graph, size_t graph_len,
                     const uint8_t *arrays, size_t arrays_len, const uint8_t *inputs, size_t inputs_len,
                     const uint8_t *picks, size_t picks_len, const uint64_t *limits) {
    return unproved_serves(kept_graph, kept_graph_len, kept_arrays, kept_arrays_len, kept_inputs, kept_inputs_len,
                           kept_picks, kept_picks_len, kept_limits, kept_answer, kept_held, graph, graph_len, arrays,
                           arrays_len, inputs, inputs_len, picks, picks_len, limits);
}

uint64_t ttda_list(const uint8_t *ledger, size_t ledger_len, uint8_t *out, size_t out_len) {
    return unproved_list(ledger, ledger_len, out, out_len);
}

uint64_t ttda_convert(const uint8_t *old, size_t old_len, uint8_t *out, size_t out_len) {
    return unproved_convert(old, old_len, out, out_len);
}

uint64_t ttda_convert_log(const uint8_t *old, size_t old_len, uint8_t *out, size_t out_len) {
    return unproved_convert_log(old, old_len, out, out_len);
}

uint64_t ttda_print(uint64_t answer, const uint8_t *listing, size_t listing_len, const uint8_t *cells,
                    size_t cells_len, uint8_t *out, size_t out_len) {
    return unproved_print(answer, listing, listing_len, cells, cells_len, out, out_len);
}
