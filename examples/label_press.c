/*
 * One frame of a press with two boards and two heads, by nothing but gambyre.h and libgambyre.a. It reads the plan below
 * and follows its flow (0, 0), which has 3 of the frame's 9 slots: what its board and its head do, slot by slot, and how
 * many cells stand at its crosspoint. It is the flow of docs/two_cells.svg.
 *
 *     bash build.sh gambyre
 *     gcc -std=c99 -Wall -Wextra -O2 -I include examples/label_press.c target/staticlib/libgambyre.a -o target/label_press
 *     target/label_press
 *
 * examples/label_press.txt has what it prints. It compiles as C++, too.
 */
#include "gambyre.h"

#include <stdio.h>
#include <stdlib.h>

enum { N = 2, T = 9, Q = 4, BOARD = 0, HEAD = 0, FLOW = BOARD * N + HEAD };

/* The plan as a spreadsheet saves it: a line for each board, the slots that it has for each head. */
static const char plan[] = "3,4\r\n"
                           "5,2\r\n";

/* The host keeps both; the library keeps nothing between two calls. */
static gambyre_switch state;
static uint32_t store[N * N * Q];

/* Stops at a verdict that this host did not count on. */
static void expect(const char *call, gambyre_verdict verdict, gambyre_verdict expected) {
    if (verdict != expected) {
        printf("%s: %s; expected: %s\n", call, gambyre_verdict_text(verdict), gambyre_verdict_text(expected));
        exit(EXIT_FAILURE);
    }
}

static void start(void) {
    if (gambyre_version() != GAMBYRE_VERSION_NUMBER) {
        printf("libgambyre.a is not of the header's version, %s\n", GAMBYRE_VERSION);
        exit(EXIT_FAILURE);
    }
    uint16_t rates[N * N];
    gambyre_verdict verdict = gambyre_read_text(N, T, (const uint8_t *)plan, sizeof plan - 1, rates, N * N);
    expect("read_text", verdict, GAMBYRE_ACCEPTED);
    gambyre_reply reply = gambyre_start(N, T, rates, N * N, Q, store, N * N * Q);
    expect("start", reply.verdict, GAMBYRE_ACCEPTED);
    state = reply.state;
}

/* A refused arrival returns the state that it was given, so the host goes on with what comes back in either case. */
static gambyre_verdict arrive(uint32_t cell) {
    gambyre_reply reply = gambyre_arrive(state, store, N * N * Q, BOARD, HEAD, cell);
    state = reply.state;
    printf("cell %u: %s\n", (unsigned)cell, gambyre_verdict_text(reply.verdict));
    return reply.verdict;
}

/* What a port did for the flow, whose other port is given. */
static void print_port(gambyre_port port, size_t other) {
    if (port.kind == GAMBYRE_IDLE || port.other != other) {
        printf("  %-7s", "-");
    } else if (port.kind == GAMBYRE_EMPTY) {
        printf("  %-7s", "empty");
    } else {
        printf("  %-7u", (unsigned)port.cell);
    }
}

static void step(void) {
    gambyre_slot_reply reply = gambyre_step(state, store, N * N * Q);
    expect("step", reply.verdict, GAMBYRE_ACCEPTED);
    printf("%4u", (unsigned)state.slot);
    print_port(reply.moves[BOARD], HEAD);
    print_port(reply.sends[HEAD], BOARD);
    printf("  %d\n", reply.state.crosspoints[FLOW].count);
    state = reply.state;
}

int main(void) {
    start();
    for (uint32_t cell = 101; cell <= 100 + Q; cell++) {
        expect("arrive", arrive(cell), GAMBYRE_ACCEPTED);
    }
    /* The queue holds Q cells now: this one is refused, and the host has to keep it. */
    expect("arrive", arrive(101 + Q), GAMBYRE_QUEUE_FULL);

    printf("slot  board %d  head %d   cells at (%d, %d)\n", BOARD, HEAD, BOARD, HEAD);
    for (int slot = 0; slot < T; slot++) {
        step();
    }
    /* Three cells left the queue, and two of them the crosspoint. */
    printf("still queued: %d\n", state.queues[FLOW].count);
    return state.queues[FLOW].count == Q - 3 && state.crosspoints[FLOW].count == 1 ? EXIT_SUCCESS : EXIT_FAILURE;
}
