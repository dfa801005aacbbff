/*
 * How evenly a head serves its boards, by nothing but gambyre.h and libgambyre.a. A press with two boards and two heads runs
 * four frames. What head 0 answers is recorded slot by slot, and measured: the least and the most services of each board
 * in any so many slots, where they first occur, and what is promised. It is the plan of docs/two_cells.svg.
 *
 *     bash build.sh gambyre
 *     gcc -std=c99 -Wall -Wextra -O2 -I include examples/meter.c target/staticlib/libgambyre.a -o target/meter
 *     target/meter
 *
 * examples/meter.txt has what it prints. It compiles as C++, too.
 */
#include "gambyre.h"

#include <stdio.h>
#include <stdlib.h>

enum { N = 2, T = 9, Q = 4, HEAD = 0, FRAMES = 4, SLOTS = FRAMES * T };

/* Board 0 has 3 slots of each frame for head 0, board 1 has 5 of them; so head 0 is idle in one. */
static const uint16_t rates[N * N] = {3, 4, 5, 2};

/* The host keeps all three; the library keeps nothing between two calls. */
static gambyre_switch state;
static uint32_t store[N * N * Q];
static uint16_t record[SLOTS];

/* Stops at a verdict that this host did not count on. */
static void expect(const char *call, gambyre_verdict verdict, gambyre_verdict expected) {
    if (verdict != expected) {
        printf("%s: %s; expected: %s\n", call, gambyre_verdict_text(verdict), gambyre_verdict_text(expected));
        exit(EXIT_FAILURE);
    }
}

static void start(void) {
    if (gambyre_version() != GAMBYRE_VERSION_NUMBER) {
        printf("libgambyre.a is not of the header's version, %s\n", GAMBYRE_VERSION);
        exit(EXIT_FAILURE);
    }
    gambyre_reply reply = gambyre_start(N, T, rates, N * N, Q, store, N * N * Q);
    expect("start", reply.verdict, GAMBYRE_ACCEPTED);
    state = reply.state;
}

/* The promise holds from a frame's first slot on, as long as one plan runs. A start is such a slot. */
static void run(void) {
    for (int slot = 0; slot < SLOTS; slot++) {
        gambyre_slot_reply reply = gambyre_step(state, store, N * N * Q);
        expect("step", reply.verdict, GAMBYRE_ACCEPTED);
        gambyre_port head = reply.sends[HEAD];
        record[slot] = GAMBYRE_IDLE_SLOT;
        if (head.kind != GAMBYRE_IDLE) {
            record[slot] = (uint16_t)head.other;
        }
        state = reply.state;
    }
}

static gambyre_cover_reply measure(uint16_t flow, size_t l) {
    gambyre_cover_reply reply = gambyre_cover(record, SLOTS, flow, l);
    expect("cover", reply.verdict, GAMBYRE_ACCEPTED);
    return reply;
}

/* Prints one line; answers whether the promise is kept. */
static int print_board(uint16_t board, size_t l) {
    const size_t a = rates[board * N + HEAD];
    const size_t fewest = (l + 1) * a / T, at_least = fewest > 0 ? fewest - 1 : 0;
    const size_t at_most = ((l - 1) * a + T - 1) / T + 1;
    const gambyre_cover_reply reply = measure(board, l);
    printf("%5d  %4d  %5d", (int)board, (int)a, (int)l);
    printf("  %8d  %9d  %8d", (int)reply.least.services, (int)reply.least.place, (int)at_least);
    printf("  %7d  %9d  %8d\n", (int)reply.most.services, (int)reply.most.place, (int)at_most);
    return at_least <= reply.least.services && reply.most.services <= at_most;
}

int main(void) {
    static const size_t lengths[5] = {1, 3, 5, T, 2 * T};
    int kept = 1;
    start();
    run();
    printf("board  rate  slots  at least  from slot  promised  at most  from slot  promised\n");
    for (uint16_t board = 0; board < N; board++) {
        for (int place = 0; place < 5; place++) {
            kept &= print_board(board, lengths[place]);
        }
    }
    gambyre_cover_reply idle = measure(GAMBYRE_IDLE_SLOT, T);
    printf("idle slots in any %d: %d to %d\n", T, (int)idle.least.services, (int)idle.most.services);
    /* There are not so many slots: the meter refuses it. */
    gambyre_cover_reply refused = gambyre_cover(record, SLOTS, 0, SLOTS + 1);
    expect("cover", refused.verdict, GAMBYRE_RECORD_LENGTH);
    printf("in any %d: %s\n", SLOTS + 1, gambyre_verdict_text(refused.verdict));
    return kept ? EXIT_SUCCESS : EXIT_FAILURE;
}
