/* Runs, lists and prints 01's example, as C or C++: gcc -I crates/abi crates/abi/example.c target/staticlib/libabi.a */
#include <stdio.h>
#include "ttda.h"

/* 0 is ADD to port 0 of 1; 1 is OUT. */
static const uint8_t graph[2 * TTDA_INSTRUCTION_BYTES] = {
    TTDA_ADD, 1, 0, 0, 1, 0, 0, 0, 0, 0, 0, 0, 0, 0, 0, 0,
    TTDA_OUT,
};

/* 7 and -9 on ports 0 and 1 of 0: path, iteration, port, instruction, value, state. */
static const uint8_t inputs[2 * TTDA_TOKEN_BYTES] = {
    0, 0, 0, 0, 0, 0, 0, 0, 0, 0, 0, 0, 0, 0, 0, 0, /**/ 0, 0, 0, 0, /**/ 7, 0, 0, 0, /**/ 0, 0, 0, 0,
    0, 0, 0, 0, 0, 0, 0, 0, 0, 0, 0, 0, 0, 0, 0, 0, /**/ 0, 1, 0, 0, /**/ 0xf7, 0xff, 0xff, 0xff,
};

static uint8_t ledger[TTDA_TOKEN_BYTES * TTDA_MOST_RECORDS];
static uint8_t cells[TTDA_CELL_BYTES * TTDA_MOST_CELLS];
static uint8_t listing[sizeof ledger];
static uint8_t text[TTDA_PRINTED_BYTES(TTDA_MOST_RECORDS, TTDA_MOST_CELLS)];

int main(void) {
    /* No named arrays, no picks, no bound. */
    uint8_t none[1] = {0};
    uint64_t answer = ttda_run(graph, sizeof graph, none, 0, inputs, sizeof inputs, none, 0, TTDA_MOST_RECORDS, 0,
                               ledger, sizeof ledger, cells, sizeof cells);
    /* The bytes of the ledger that have tokens. */
    size_t used = TTDA_TOKEN_BYTES * (size_t)ttda_tokens(answer);
    ttda_list(ledger, used, listing, used);
    size_t written = ttda_print(answer, listing, used, cells, sizeof cells, text, sizeof text);
    if (fwrite(text, 1, written, stdout) != written) {
        return 2;
    }
    return ttda_word(answer) == TTDA_COMPLETED ? 0 : 1;
}
