/*
 * Four periods of a press with three boards and three heads, by nothing but gambyre.h and libgambyre.a. The demands stay the
 * same. In each period they are scaled to a plan, and the slots that it leaves over are given out from another diagonal on,
 * so that no flow has the first turn for ever. It prints the plan that runs in each period, a row for each board.
 *
 *     bash build.sh gambyre
 *     gcc -std=c99 -Wall -Wextra -O2 -I include examples/periods.c target/staticlib/libgambyre.a -o target/periods
 *     target/periods
 *
 * examples/periods.txt has what it prints. It compiles as C++, too.
 */
#include "gambyre.h"

#include <stdio.h>
#include <stdlib.h>

enum { N = 3, T = 10, Q = 4, PERIODS = 4 };

/* How many cells each board has for each head; any numbers will do. */
static const uint16_t demands[N * N] = {4, 5, 6, 3, 5, 5, 2, 1, 6};

/* The host keeps both; the library keeps nothing between two calls. */
static gambyre_switch state;
static uint32_t store[N * N * Q];

/* Stops at a refusal: this host hands over nothing that is refused. */
static void expect(const char *call, gambyre_verdict verdict) {
    if (verdict != GAMBYRE_ACCEPTED) {
        printf("%s: %s\n", call, gambyre_verdict_text(verdict));
        exit(EXIT_FAILURE);
    }
}

static void print_rates(const char *what, const uint16_t *rates) {
    printf("%-8s", what);
    for (int flow = 0; flow < N * N; flow++) {
        printf("%s%d", flow % N == 0 ? "   " : " ", rates[flow]);
    }
    printf("\n");
}

/* The plan of a period: every row and every column of it adds up to T. */
static void make_plan(uint32_t period, uint16_t *rates) {
    uint16_t scaled[N * N];
    expect("scale", gambyre_scale(N, T, demands, N * N, scaled, N * N));
    expect("boost", gambyre_boost(N, T, period, scaled, N * N, rates, N * N));
}

/* A switch starts with its first plan, and takes over each later one in the next slot 0. */
static void hand_over(uint32_t period, const uint16_t *rates) {
    gambyre_reply reply = period == 0 ? gambyre_start(N, T, rates, N * N, Q, store, N * N * Q)
                                      : gambyre_load(state, N, T, rates, N * N);
    expect(period == 0 ? "start" : "load", reply.verdict);
    state = reply.state;
}

/* One frame, though a period will have many. */
static void run_period(void) {
    for (int slot = 0; slot < T; slot++) {
        gambyre_slot_reply reply = gambyre_step(state, store, N * N * Q);
        expect("step", reply.verdict);
        state = reply.state;
    }
}

int main(void) {
    if (gambyre_version() != GAMBYRE_VERSION_NUMBER) {
        printf("libgambyre.a is not of the header's version, %s\n", GAMBYRE_VERSION);
        return EXIT_FAILURE;
    }
    print_rates("demands", demands);
    for (uint32_t period = 0; period < PERIODS; period++) {
        uint16_t rates[N * N];
        char name[16];
        make_plan(period, rates);
        hand_over(period, rates);
        run_period();
        snprintf(name, sizeof name, "period %u", (unsigned)period);
        print_rates(name, state.running.rates);
    }
    return EXIT_SUCCESS;
}
