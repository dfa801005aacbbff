/*
 * Gambyre: the cell switch of a digital label press. Header of libgambyre.a for C99, C++11 and later, on x86-64 Linux.
 *
 * N boards (inputs) feed N print heads (outputs), both numbered from 0. A flow is a pair (board i, head j). A
 * cell is any 32-bit number; the switch carries it and never looks at it. Time goes in slots, T of them to a frame. A
 * plan has a rate for each flow: so many of the frame's T slots are the flow's. Each flow has a queue of up to Q
 * cells, and a crosspoint of up to two cells between its board and its head.
 *
 *     N   1 to 16     GAMBYRE_MOST_PORTS   ports of a side
 *     T   1 to 1024   GAMBYRE_MOST_SLOTS   slots of a frame; before 0.15.0 it was 1 to 4096
 *     Q   1 to 64     GAMBYRE_MOST_DEPTH   cells of a queue (`depth` below)
 *
 * Flow (i, j) has number i * N + j: its rate stands at that place of a list of N * N rates (row by row, a row for each
 * board), and so do its queue and its crosspoint in the state.
 *
 * Every call takes every input, and a record may hold any number in any field. What a call can't do it refuses with
 * a verdict (below), and a refused call changes nothing: state, store and written lists are as they were. For each call
 * it is proved that its whole outcome is what the definition in the project's specs/ says; docs/PROOF.md has what
 * follows for the press.
 *
 * MEMORY
 *   - The caller owns everything. The library allocates nothing, keeps nothing between calls and has no global
 *     state; it needs memcpy and memset, and no other symbol.
 *   - A state (gambyre_switch) goes in by value and the next one comes back by value. Go on with that one.
 *   - A list is lent for the time of the call, as a pointer and then its length in elements (not in bytes). A const
 *     list is only read. A pointer must be aligned for its elements. Where the length is 0 the pointer is not used,
 *     and may be NULL.
 *   - A list that is written (not const) must not overlap any other list of the same call. Lists that are only read
 *     may be the same memory.
 *   - Between an accepted start and the last call on its state, the store belongs to the queues: write it only by
 *     gambyre_arrive.
 *   - Bytes between the fields (padding) are unspecified: compare field by field, not with memcmp.
 *   - Records pass on the stack, and a call works there: leave it 64 KB.
 *
 * THREADS
 *   Calls on different states and stores may run at the same time. Calls on one state and store have to follow one
 *   another; while a call runs, nobody may write what it was lent.
 */
#ifndef GAMBYRE_H
#define GAMBYRE_H

#if !defined(__x86_64__) || !defined(__linux__) || defined(__ILP32__)
#error "gambyre.h: libgambyre.a is built for x86-64 Linux with 64-bit pointers; this compiler builds for something else"
#endif

#include <stddef.h>
#include <stdint.h>

/* The version of this header. The archive is of the same one if gambyre_version() == GAMBYRE_VERSION_NUMBER. */
#define GAMBYRE_VERSION "0.15.0"
#define GAMBYRE_VERSION_MAJOR 0
#define GAMBYRE_VERSION_MINOR 15
#define GAMBYRE_VERSION_PATCH 0
#define GAMBYRE_VERSION_NUMBER (GAMBYRE_VERSION_MAJOR * 10000 + GAMBYRE_VERSION_MINOR * 100 + GAMBYRE_VERSION_PATCH)

/* The compiler warns where an answer is dropped: it has the next state, and says whether a cell was taken. */
#if defined(__GNUC__)
#define GAMBYRE_MUST_USE __attribute__((warn_unused_result))
#elif (defined(__cplusplus) && __cplusplus >= 201703L) || (defined(__STDC_VERSION__) && __STDC_VERSION__ >= 202311L)
#define GAMBYRE_MUST_USE [[nodiscard]]
#else
#define GAMBYRE_MUST_USE
#endif

/* An enum has 32 bits, and every number of 32 bits is a value of it. C++ and C23 can say so; for C99 see the sizes. */
#if defined(__cplusplus) || (defined(__STDC_VERSION__) && __STDC_VERSION__ >= 202311L)
#define GAMBYRE_32_BITS : uint32_t
#else
#define GAMBYRE_32_BITS
#endif

#ifdef __cplusplus
extern "C" {
#endif

/* The largest values. */
enum {
    GAMBYRE_MOST_PORTS = 16,    /* N, of a side */
    GAMBYRE_MOST_FLOWS = 256,   /* N * N */
    GAMBYRE_MOST_SLOTS = 1024,  /* T, of a frame */
    GAMBYRE_MOST_DEPTH = 64,    /* Q, cells of a queue */
    GAMBYRE_MOST_STORE = 16384, /* N * N * Q, numbers of a store */
    GAMBYRE_MOST_FILE = 520,    /* 8 + 2 * N * N, bytes of a plan file */
    GAMBYRE_MOST_TEXT = 2064,   /* 8 * N * N + N, bytes of a plan's text */
    GAMBYRE_MOST_RECORD = 65535 /* slots of a record, see gambyre_cover */
};

/*
 * The verdicts: name, number and text. Of several refusals that are due, the first in the order given at the call is
 * answered. gambyre_verdict and gambyre_verdict_text are made of this list.
 *
 * No call answers 9. Before 0.13.0 it was GAMBYRE_PLAN_WAITS, "a plan already waits", the answer to a load while a plan
 * waits; such a load is accepted now. The number stays free.
 */
#define GAMBYRE_VERDICTS(VERDICT)                                                                   \
    VERDICT(GAMBYRE_ACCEPTED, 0, "accepted")                                                        \
    VERDICT(GAMBYRE_PORTS_OUT_OF_RANGE, 1, "N is outside 1 to 16")                                  \
    VERDICT(GAMBYRE_FRAME_OUT_OF_RANGE, 2, "T is outside 1 to 1024")                                \
    VERDICT(GAMBYRE_LIST_LENGTH, 3, "a rate, demand or output list is not N * N long")              \
    VERDICT(GAMBYRE_ROW_ABOVE_FRAME, 4, "the rates of a board add up to more than T")               \
    VERDICT(GAMBYRE_COLUMN_ABOVE_FRAME, 5, "the rates of a head add up to more than T")             \
    VERDICT(GAMBYRE_DEPTH_OUT_OF_RANGE, 6, "Q is outside 1 to 64")                                  \
    VERDICT(GAMBYRE_STORE_LENGTH, 7, "the store is not N * N * Q long")                             \
    VERDICT(GAMBYRE_PLAN_MISMATCH, 8, "the loaded plan has another N or T than the running one")    \
    VERDICT(GAMBYRE_NO_SUCH_PORT, 10, "the arrival is for a port that is not below N")              \
    VERDICT(GAMBYRE_QUEUE_FULL, 11, "the flow's queue holds Q cells")                               \
    VERDICT(GAMBYRE_STATE_INVALID, 12, "the state breaks a rule of gambyre_switch")                 \
    VERDICT(GAMBYRE_CROSSPOINT_FULL, 13, "the step would put a third cell in a crosspoint")         \
    VERDICT(GAMBYRE_NOT_PLAN_FILE, 14, "the file's mark is not LSP or its version is not 1")        \
    VERDICT(GAMBYRE_FILE_LENGTH, 15, "the file has under 8 bytes, or not 8 + 2 * N * N")            \
    VERDICT(GAMBYRE_NOT_PLAN_TEXT, 16, "the text breaks a rule of gambyre_read_text")               \
    VERDICT(GAMBYRE_RECORD_LENGTH, 17, "the record has fewer than l slots, or more than 65535")

/* What a call answers: that it was accepted, or why it was refused. */
typedef enum gambyre_verdict GAMBYRE_32_BITS {
#define GAMBYRE_NAME(name, number, text) name = number,
    GAMBYRE_VERDICTS(GAMBYRE_NAME)
#undef GAMBYRE_NAME
} gambyre_verdict;

/* The text of a verdict, "not a verdict" for any other number. */
static inline const char *gambyre_verdict_text(gambyre_verdict verdict) {
    const uint32_t answered = verdict;
    switch (answered) {
#define GAMBYRE_TEXT(name, number, text) case number: return text;
        GAMBYRE_VERDICTS(GAMBYRE_TEXT)
#undef GAMBYRE_TEXT
        default: return "not a verdict";
    }
}

/* What a port did in a slot. */
typedef enum gambyre_port_kind GAMBYRE_32_BITS {
    GAMBYRE_IDLE = 0,  /* it served nobody */
    GAMBYRE_EMPTY = 1, /* it served `other`, and there was no cell */
    GAMBYRE_MOVED = 2  /* a board: `cell` went to the crosspoint with `other`; a head: it came from there */
} gambyre_port_kind;

/* Whether a multiplexer chose a flow. */
typedef enum gambyre_choice_kind GAMBYRE_32_BITS {
    GAMBYRE_NO_FLOW = 0,
    GAMBYRE_FLOW = 1
} gambyre_choice_kind;

/* The records. The number before a field is its offset in bytes. */

/* A plan. The first N * N rates are the plan's; what stands behind them is no part of it. */
typedef struct gambyre_plan {
    size_t ports;                       /*  0  N */
    uint32_t frame;                     /*  8  T */
    uint16_t rates[GAMBYRE_MOST_FLOWS]; /* 12 */
} gambyre_plan;

/* How often a port served each port of the other side in this frame. */
typedef struct gambyre_multiplexer {
    uint16_t served[GAMBYRE_MOST_PORTS]; /* 0 */
} gambyre_multiplexer;

/* A queue, a ring in the flow's Q places of the store, which begin at (i * N + j) * Q. */
typedef struct gambyre_queue {
    uint8_t place; /* 0  of the oldest cell among the Q */
    uint8_t count; /* 1  of cells */
} gambyre_queue;

/* A crosspoint; the oldest cell comes first. */
typedef struct gambyre_crosspoint {
    uint32_t cells[2]; /* 0 */
    uint8_t count;     /* 8  of cells */
} gambyre_crosspoint;

/*
 * The state of a switch. It may be read at any time, stored, and made by hand: a state is refused with
 * GAMBYRE_STATE_INVALID if
 *   - its running plan is not accepted; or a plan waits and the waiting plan is not, or has another N or T;
 *   - depth is outside 1 to 64, or slot is not below T;
 *   - a queue's place is not below depth or its count is above it, or a crosspoint's count is above 2;
 *   - a service count is above its rate in the running plan, or is not 0 in slot 0.
 * What stands for ports from N up is neither looked at nor changed.
 */
typedef struct gambyre_switch {
    gambyre_plan running;                               /*    0 */
    gambyre_plan waiting;                               /*  528 */
    uint8_t waits;                                      /* 1056  0: no plan waits; any other number: one does */
    size_t depth;                                       /* 1064  Q */
    uint32_t slot;                                      /* 1072  the coming slot of the frame, from 0 */
    gambyre_queue queues[GAMBYRE_MOST_FLOWS];           /* 1076  by flow */
    gambyre_crosspoint crosspoints[GAMBYRE_MOST_FLOWS]; /* 1588  by flow */
    gambyre_multiplexer boards[GAMBYRE_MOST_PORTS];     /* 4660  by board: its services, by head */
    gambyre_multiplexer heads[GAMBYRE_MOST_PORTS];      /* 5172  by head: its services, by board */
} gambyre_switch;

/* What start, arrive and load answer. */
typedef struct gambyre_reply {
    gambyre_verdict verdict; /* 0 */
    gambyre_switch state;    /* 8 */
} gambyre_reply;

/* What a port did in a slot. A field that the kind does not have is 0. */
typedef struct gambyre_port {
    gambyre_port_kind kind; /*  0 */
    size_t other;           /*  8  the head that a board served, or the board that a head served */
    uint32_t cell;          /* 16 */
} gambyre_port;

/* What a step answers. Ports from N up, and all ports of a refused step, are idle. */
typedef struct gambyre_slot_reply {
    gambyre_verdict verdict;                /*    0 */
    gambyre_switch state;                   /*    8 */
    gambyre_port moves[GAMBYRE_MOST_PORTS]; /* 5696  by board */
    gambyre_port sends[GAMBYRE_MOST_PORTS]; /* 6080  by head */
} gambyre_slot_reply;

/* What the plan file's reader answers. */
typedef struct gambyre_reading {
    gambyre_verdict verdict; /* 0 */
    gambyre_plan plan;       /* 8  with 0 behind its rates; all 0 where the file is refused */
} gambyre_reading;

/* What a multiplexer chose. */
typedef struct gambyre_choice {
    gambyre_choice_kind kind; /* 0  handed over, every number but GAMBYRE_NO_FLOW is a flow */
    size_t flow;              /* 8  the other port's number; 0 where there is none */
} gambyre_choice;

/* A stretch of consecutive slots in a record. */
typedef struct gambyre_stretch {
    size_t services; /* 0  of the flow in it */
    size_t place;    /* 8  its first slot's number in the record, from 0 */
} gambyre_stretch;

/* What the meter answers. All but the verdict is 0 where the call is refused. */
typedef struct gambyre_cover_reply {
    gambyre_verdict verdict; /*  0 */
    gambyre_stretch least;   /*  8  the first of those with the fewest services */
    gambyre_stretch most;    /* 24  the first of those with the most */
} gambyre_cover_reply;

/* The library was built for these sizes; a compiler that lays the records out in another way stops here. */
#define GAMBYRE_HAS_SIZE(type, bytes) typedef char type##_has_size[sizeof(type) == (bytes) ? 1 : -1]
GAMBYRE_HAS_SIZE(gambyre_verdict, 4);
GAMBYRE_HAS_SIZE(gambyre_port_kind, 4);
GAMBYRE_HAS_SIZE(gambyre_choice_kind, 4);
GAMBYRE_HAS_SIZE(gambyre_plan, 528);
GAMBYRE_HAS_SIZE(gambyre_multiplexer, 32);
GAMBYRE_HAS_SIZE(gambyre_queue, 2);
GAMBYRE_HAS_SIZE(gambyre_crosspoint, 12);
GAMBYRE_HAS_SIZE(gambyre_switch, 5688);
GAMBYRE_HAS_SIZE(gambyre_reply, 5696);
GAMBYRE_HAS_SIZE(gambyre_port, 24);
GAMBYRE_HAS_SIZE(gambyre_slot_reply, 6464);
GAMBYRE_HAS_SIZE(gambyre_reading, 536);
GAMBYRE_HAS_SIZE(gambyre_choice, 16);
GAMBYRE_HAS_SIZE(gambyre_stretch, 16);
GAMBYRE_HAS_SIZE(gambyre_cover_reply, 40);
#undef GAMBYRE_HAS_SIZE

/* The version of the archive, as GAMBYRE_VERSION_NUMBER. */
GAMBYRE_MUST_USE uint32_t gambyre_version(void);

/* THE SWITCH */

/*
 * Starts a switch of n ports with a plan of t slots and queues of `depth` cells. The store (n * n * depth numbers)
 * may hold anything; it is not written. Answers the state: all queues and crosspoints empty, slot 0, no plan waits.
 * Refusals, in this order: 1, 2, 3, 4, 5, 6, 7. A refused call returns a state that is all 0, which arrive, load and
 * step refuse with 12.
 */
GAMBYRE_MUST_USE gambyre_reply gambyre_start(size_t n, uint32_t t, const uint16_t *rates, size_t rates_len,
                                             size_t depth, const uint32_t *store, size_t store_len);

/*
 * Puts a cell of board i for head j into its queue: writes one place of the store, and counts it in the state. Between
 * two steps any number of cells may arrive.
 * Refusals, in this order: 12, 7, 10, 11. A refused call returns the state that it was given, so `state = reply.state`
 * is right after any call; the host still has the cell.
 */
GAMBYRE_MUST_USE gambyre_reply gambyre_arrive(gambyre_switch state, uint32_t *store, size_t store_len, size_t i,
                                              size_t j, uint32_t cell);

/*
 * Puts a plan in waiting. It takes over in the next slot 0, and must have the running plan's N and T. A plan that waits
 * already is replaced: it never runs, and the state is the one that this load alone would have made.
 * Refusals, in this order: 12, 1, 2, 3, 4, 5, 8. A refused call returns the state that it was given, so
 * `state = reply.state` is right after any call.
 */
GAMBYRE_MUST_USE gambyre_reply gambyre_load(gambyre_switch state, size_t n, uint32_t t, const uint16_t *rates,
                                            size_t rates_len);

/*
 * Runs the slot state.slot: in slot 0 a waiting plan takes over; all ports choose; each board moves the oldest cell of
 * the queue it chose to the crosspoint; then each head takes the oldest cell of the crosspoint it chose, also one that
 * was moved in this slot. Answers the next state and what each port did. In an accepted step a port below N is idle
 * only if none of its flows is eligible (see gambyre_choose).
 * Refusals, in this order: 12, 7, 13. A refused call returns the state that it was given, so `state = reply.state` is
 * right after any call; all its ports are idle. A state that came from an accepted start by these calls, with its store
 * left alone, never gets 12 or 13.
 */
GAMBYRE_MUST_USE gambyre_slot_reply gambyre_step(gambyre_switch state, const uint32_t *store, size_t store_len);

/* PLANS */

/* Whether a plan is accepted. Refusals, in this order: 1, 2, 3, 4, 5. */
GAMBYRE_MUST_USE gambyre_verdict gambyre_accept(size_t n, uint32_t t, const uint16_t *rates, size_t rates_len);

/*
 * The rates of board i in the plan that rules the coming slot: the running one if `takeover` is 0, else the waiting
 * one. Copies them to `out`, as many as it takes, leaves the rest of `out` as it is, and answers how many there are: n,
 * or 0 where n or i is out of range or either list is not n * n long.
 */
GAMBYRE_MUST_USE size_t gambyre_desk_view(const uint16_t *running, size_t running_len, const uint16_t *waiting,
                                          size_t waiting_len, size_t n, size_t i, uint32_t takeover, uint16_t *out,
                                          size_t out_len);

/*
 * Writes rates in proportion to the demands: demand * t / the larger of its row and column sum, rounded down. They are
 * an accepted plan, whatever the demands.
 * Refusals, in this order: 1, 2, 3. A refused call writes nothing.
 */
GAMBYRE_MUST_USE gambyre_verdict gambyre_scale(size_t n, uint32_t t, const uint16_t *demands, size_t demands_len,
                                               uint16_t *rates, size_t rates_len);

/*
 * Writes the given plan with its spare slots given out, so that every row and every column adds up to t. No rate falls.
 * Flows (i, (i + d) mod n) are diagonal d. The diagonals have their turn in the order (period + k) mod n for k = 0 to
 * n - 1; in its turn a flow takes all the slots that its row and its column can both spare.
 * With a period number that goes up by 1 from plan to plan, each diagonal is first once in any n plans. `period` may be
 * any number, and only its remainder by n counts. Unless n is a power of 2, going from 4294967295 to 0 breaks the turn;
 * going back to 0 at a multiple of n does not, and 720720 is a multiple of every n from 1 to 16.
 * Up to version 0.10 there was no `period`, and boost did what it does with 0.
 * Refusals, in this order: 1, 2, 3, 4, 5. A refused call writes nothing.
 */
GAMBYRE_MUST_USE gambyre_verdict gambyre_boost(size_t n, uint32_t t, uint32_t period, const uint16_t *given,
                                               size_t given_len, uint16_t *rates, size_t rates_len);

/*
 * Reads a plan file: "LSP", version 1 (16 bits), N (8 bits), T (16 bits), N * N rates (16 bits each), low byte first.
 * Refusals, in this order: 15 (under 8 bytes), 14, 1, 2, 15, 4, 5. A refused call returns a plan that is all 0.
 */
GAMBYRE_MUST_USE gambyre_reading gambyre_read(const uint8_t *bytes, size_t bytes_len);

/*
 * Reads the rates of a plan out of comma-separated text (RFC 4180), as a spreadsheet saves it, and writes them row by
 * row. The text has n records, one for each board, and a record has n fields, with one comma between two. A field is
 * one to five decimal digits, plain or wholly in double quotes, with a value up to 65535. A record ends in CR LF, which
 * the last one may lack. There is nothing else in the text, no space either. The list of bytes may have any length; no
 * text that keeps these rules has more than GAMBYRE_MOST_TEXT bytes.
 * Refusals, in this order: 1, 2, 3, 16, 4, 5. A refused call writes nothing.
 */
GAMBYRE_MUST_USE gambyre_verdict gambyre_read_text(size_t n, uint32_t t, const uint8_t *text, size_t text_len,
                                                   uint16_t *rates, size_t rates_len);

/* ONE PORT. The switch does these for each of its ports; they refuse nothing. */

/*
 * The choice of a port in a slot of a frame. A flow of rate a > 0 that was served k times is eligible if
 * k * frame <= slot * a. The slot goes to the eligible flow with the smallest deadline, (k + 1) * frame / a rounded
 * up, of equal ones to that with the largest rate, and of equal rates to the lowest number. (Up to version 0.11 equal
 * deadlines went to the lowest number, whatever the rates.) Only the first 16 rates count.
 */
GAMBYRE_MUST_USE gambyre_choice gambyre_choose(gambyre_multiplexer multiplexer, const uint16_t *rates, size_t rates_len,
                                               uint32_t frame, uint32_t slot);

/*
 * Counts one service of the chosen flow, and none for GAMBYRE_NO_FLOW. A count of 65535 stays, and a flow past 15
 * changes nothing.
 */
GAMBYRE_MUST_USE gambyre_multiplexer gambyre_count(gambyre_multiplexer multiplexer, gambyre_choice choice);

/* The end of a frame: the counts of the first n flows, 16 at most, return to 0. */
GAMBYRE_MUST_USE gambyre_multiplexer gambyre_end_frame(gambyre_multiplexer multiplexer, size_t n);

/* MEASURING. How evenly a head serves its boards. */

/* In a record: the head was idle in this slot. */
enum { GAMBYRE_IDLE_SLOT = 65535 };

/*
 * The least and the most services of a flow in any l consecutive slots of a record, and the first place where each
 * occurs. A record has one number for each slot, GAMBYRE_MOST_RECORD of them at most. The host makes that of head j
 * from the answers of accepted steps: it appends sends[j].other, the board that the head served, and GAMBYRE_IDLE_SLOT
 * where sends[j].kind is GAMBYRE_IDLE. `flow` is then the number of a board, or GAMBYRE_IDLE_SLOT, which counts idle
 * slots. A service counts whether it found a cell or not. With l = 0 the answer is 0 services at place 0, for an empty
 * record too.
 * If the record begins with slot 0 of a frame and one plan runs in all its slots, then a flow of rate a > 0 has in any
 * l > 0 consecutive slots of it
 *     at most    (l - 1) * a / T, rounded up, plus 1 services, and
 *     at least   (l + 1) * a / T, rounded down, less 1.
 * This is proved for every plan and every l, and wherever the record ends, be it in mid-frame. Where another plan takes
 * over, begin another record.
 * Refusals: 17, which is due for any l if the record is too long. All numbers of a refused answer are 0.
 */
GAMBYRE_MUST_USE gambyre_cover_reply gambyre_cover(const uint16_t *record, size_t record_len, uint16_t flow, size_t l);

#ifdef __cplusplus
}
#endif

#endif
