/*
 * Holds include/gambyre.h to the library: the small example of each refusal answers the number behind its name, and so do
 * the kinds of a port's answer and of a choice; the limits and the version are the library's; a period number puts its
 * diagonal first; a hand-made state may hold any byte; a record is measured as it was counted by hand; an empty list may be
 * NULL. It compiles as C99 and as C++. Exits with 1 if something differs, or if a verdict of the header was never met. Its last
 * line says how many lists were NULL, each alone in its call.
 */
#include "gambyre.h"

#include <stdio.h>
#include <string.h>

static int differing;

static void same(const char *what, unsigned long answered, unsigned long named) {
    if (answered != named) {
        printf("%s: %lu, but the header says %lu\n", what, answered, named);
        differing = 1;
    }
}

/* Which verdicts a call has answered as the header names them. */
static unsigned long met[GAMBYRE_RECORD_LENGTH + 1];

static void verdict(const char *what, unsigned long answered, gambyre_verdict named) {
    same(what, answered, named);
    met[named] += answered == (unsigned long)named;
}

/* Every verdict of the header's list was met. */
static void verdicts(void) {
#define MET(name, number, text) same("met: " text, met[name] > 0, 1);
    GAMBYRE_VERDICTS(MET)
#undef MET
}

/* A switch of one flow that is served in every slot, with a queue of one cell. */
static const uint16_t always[1] = {1}, never[1] = {0};
static uint32_t store[GAMBYRE_MOST_STORE];

static gambyre_switch one_flow(void) {
    return gambyre_start(1, 1, always, 1, 1, store, 1).state;
}

/* The same made by hand, with the given byte in all that belongs to no port below N, and between the fields. */
static gambyre_switch one_flow_among(int byte) {
    const gambyre_switch fresh = one_flow();
    gambyre_switch state;
    memset(&state, byte, sizeof state);
    state.running.ports = fresh.running.ports;
    state.running.frame = fresh.running.frame;
    state.running.rates[0] = fresh.running.rates[0];
    state.waits = fresh.waits;
    state.depth = fresh.depth;
    state.slot = fresh.slot;
    state.queues[0] = fresh.queues[0];
    state.crosspoints[0].count = fresh.crosspoints[0].count;
    state.boards[0].served[0] = fresh.boards[0].served[0];
    state.heads[0].served[0] = fresh.heads[0].served[0];
    return state;
}

static int same_plan(const gambyre_plan *a, const gambyre_plan *b) {
    return a->ports == b->ports && a->frame == b->frame && memcmp(a->rates, b->rates, sizeof a->rates) == 0;
}

/* Field by field, since the bytes between fields are free. */
static int same_state(const gambyre_switch *a, const gambyre_switch *b) {
    int equal = same_plan(&a->running, &b->running) && same_plan(&a->waiting, &b->waiting) && a->waits == b->waits &&
                a->depth == b->depth && a->slot == b->slot && memcmp(a->queues, b->queues, sizeof a->queues) == 0 &&
                memcmp(a->boards, b->boards, sizeof a->boards) == 0 &&
                memcmp(a->heads, b->heads, sizeof a->heads) == 0;
    for (size_t flow = 0; flow < GAMBYRE_MOST_FLOWS; flow++) {
        const gambyre_crosspoint *p = &a->crosspoints[flow], *q = &b->crosspoints[flow];
        equal = equal && p->cells[0] == q->cells[0] && p->cells[1] == q->cells[1] && p->count == q->count;
    }
    return equal;
}

/* Number 12 from every call that takes a state, which comes back as it was in every field. */
static void refused(const char *what, gambyre_switch state) {
    gambyre_reply arrival = gambyre_arrive(state, store, 1, 0, 0, 7), load = gambyre_load(state, 1, 1, always, 1);
    gambyre_slot_reply step = gambyre_step(state, store, 1);
    verdict(what, arrival.verdict, GAMBYRE_STATE_INVALID);
    verdict(what, load.verdict, GAMBYRE_STATE_INVALID);
    verdict(what, step.verdict, GAMBYRE_STATE_INVALID);
    verdict(what, gambyre_step(state, NULL, 0).verdict, GAMBYRE_STATE_INVALID);
    same("the state of a refused arrival", same_state(&arrival.state, &state), 1);
    same("the state of a refused load", same_state(&load.state, &state), 1);
    same("the state of a refused step", same_state(&step.state, &state), 1);
}

static void version(void) {
    char parts[32];
    same("version", gambyre_version(), GAMBYRE_VERSION_NUMBER);
    snprintf(parts, sizeof parts, "%d.%d.%d", GAMBYRE_VERSION_MAJOR, GAMBYRE_VERSION_MINOR, GAMBYRE_VERSION_PATCH);
    same("the version's parts", strcmp(parts, GAMBYRE_VERSION) == 0, 1);
}

/* Every verdict has a text of its own, and every other number the same one, 9 among them. */
static void texts(void) {
    const char *other = gambyre_verdict_text((gambyre_verdict)UINT32_MAX);
    for (uint32_t a = GAMBYRE_ACCEPTED; a <= GAMBYRE_RECORD_LENGTH; a++) {
        if (a == 9) continue;
        const char *text = gambyre_verdict_text((gambyre_verdict)a);
        same("a verdict has a text", strcmp(text, other) != 0, 1);
        for (uint32_t b = GAMBYRE_ACCEPTED; b < a; b++) {
            same("the text of one verdict", strcmp(text, gambyre_verdict_text((gambyre_verdict)b)) != 0, 1);
        }
    }
    same("9 is no verdict", strcmp(gambyre_verdict_text((gambyre_verdict)9), other), 0);
    same("18 is no verdict", strcmp(gambyre_verdict_text((gambyre_verdict)18), other), 0);
    same("256 is no verdict", strcmp(gambyre_verdict_text((gambyre_verdict)256), other), 0);
    same("accepted", strcmp(gambyre_verdict_text(GAMBYRE_ACCEPTED), "accepted"), 0);
}

static void plans(void) {
    const uint16_t none[4] = {0}, row[4] = {2, 2, 0, 0}, column[4] = {2, 0, 2, 0};
    verdict("N = 17", gambyre_accept(17, 3, none, 4), GAMBYRE_PORTS_OUT_OF_RANGE);
    verdict("T = 0", gambyre_accept(2, 0, none, 4), GAMBYRE_FRAME_OUT_OF_RANGE);
    verdict("3 rates", gambyre_accept(2, 3, none, 3), GAMBYRE_LIST_LENGTH);
    verdict("row 2 2", gambyre_accept(2, 3, row, 4), GAMBYRE_ROW_ABOVE_FRAME);
    verdict("rows 2 0 and 2 0", gambyre_accept(2, 3, column, 4), GAMBYRE_COLUMN_ABOVE_FRAME);
    verdict("no rates", gambyre_accept(2, 3, none, 4), GAMBYRE_ACCEPTED);
}

/* No rates, and a frame of 5: the flows of the diagonal that is first get it whole. */
static void periods(void) {
    const uint16_t none[9] = {0};
    const uint32_t period[6] = {0, 1, 2, 3, UINT32_MAX - 1, UINT32_MAX};
    const size_t first[6] = {0, 1, 2, 0, 2, 0};
    for (int turn = 0; turn < 6; turn++) {
        uint16_t rates[9] = {9, 9, 9, 9, 9, 9, 9, 9, 9};
        verdict("boost", gambyre_boost(3, 5, period[turn], none, 9, rates, 9), GAMBYRE_ACCEPTED);
        for (size_t flow = 0; flow < 9; flow++) {
            same("a boosted rate", rates[flow], flow % 3 == (flow / 3 + first[turn]) % 3 ? 5 : 0);
        }
    }
}

static void files(void) {
    const uint8_t version_2[10] = {'L', 'S', 'P', 2, 0, 1, 1, 0, 1, 0};
    verdict("version 2", gambyre_read(version_2, 10).verdict, GAMBYRE_NOT_PLAN_FILE);
    verdict("empty file", gambyre_read(version_2, 0).verdict, GAMBYRE_FILE_LENGTH);
}

/* The verdict on a text of two ports and three slots; what is refused leaves the list as it was. */
static void plan_text(const char *what, const char *text, gambyre_verdict expected) {
    const uint16_t written[4] = {1, 2, 0, 1}, lent[4] = {9, 9, 9, 9};
    uint16_t rates[4] = {9, 9, 9, 9};
    verdict(what, gambyre_read_text(2, 3, (const uint8_t *)text, strlen(text), rates, 4), expected);
    same("the list", memcmp(rates, expected == GAMBYRE_ACCEPTED ? written : lent, sizeof rates) == 0, 1);
}

static void plan_texts(void) {
    plan_text("plain fields", "1,2\r\n0,1\r\n", GAMBYRE_ACCEPTED);
    plan_text("quotes, zeros, no last CR LF", "\"1\",00002\r\n\"00000\",1", GAMBYRE_ACCEPTED);
    plan_text("empty text", "", GAMBYRE_NOT_PLAN_TEXT);
    plan_text("LF alone", "1,2\n0,1\n", GAMBYRE_NOT_PLAN_TEXT);
    plan_text("empty line", "1,2\r\n0,1\r\n\r\n", GAMBYRE_NOT_PLAN_TEXT);
    plan_text("semicolons", "1;2\r\n0;1\r\n", GAMBYRE_NOT_PLAN_TEXT);
    plan_text("six digits", "1,000002\r\n0,1\r\n", GAMBYRE_NOT_PLAN_TEXT);
    plan_text("65538", "1,65538\r\n0,1\r\n", GAMBYRE_NOT_PLAN_TEXT);
    plan_text("65535", "1,65535\r\n0,1\r\n", GAMBYRE_ROW_ABOVE_FRAME);
    plan_text("rows 1 2 and 0 2", "1,2\r\n0,2\r\n", GAMBYRE_COLUMN_ABOVE_FRAME);
}

/* All at their largest and all at their smallest, and each one further. */
static void limits(void) {
    enum { N = GAMBYRE_MOST_PORTS, T = GAMBYRE_MOST_SLOTS, Q = GAMBYRE_MOST_DEPTH };
    static const uint16_t none[(N + 1) * (N + 1)] = {0};
    const uint8_t head[8] = {'L', 'S', 'P', 1, 0, N, T % 256, T / 256};
    uint8_t file[GAMBYRE_MOST_FILE] = {0};
    memcpy(file, head, sizeof head);
    same("flows", GAMBYRE_MOST_FLOWS, N * N);
    verdict("all at their largest", gambyre_start(N, T, none, GAMBYRE_MOST_FLOWS, Q, store, GAMBYRE_MOST_STORE).verdict,
            GAMBYRE_ACCEPTED);
    verdict("a port more", gambyre_accept(N + 1, T, none, (N + 1) * (N + 1)), GAMBYRE_PORTS_OUT_OF_RANGE);
    verdict("a slot more", gambyre_accept(N, T + 1, none, GAMBYRE_MOST_FLOWS), GAMBYRE_FRAME_OUT_OF_RANGE);
    verdict("a cell more", gambyre_start(1, 1, always, 1, Q + 1, store, Q + 1).verdict, GAMBYRE_DEPTH_OUT_OF_RANGE);
    verdict("all at their smallest", gambyre_start(1, 1, always, 1, 1, store, 1).verdict, GAMBYRE_ACCEPTED);
    verdict("no port", gambyre_accept(0, 1, none, 0), GAMBYRE_PORTS_OUT_OF_RANGE);
    verdict("no slot", gambyre_accept(1, 0, none, 1), GAMBYRE_FRAME_OUT_OF_RANGE);
    verdict("no cell", gambyre_start(1, 1, always, 1, 0, store, 0).verdict, GAMBYRE_DEPTH_OUT_OF_RANGE);
    verdict("the longest file", gambyre_read(file, GAMBYRE_MOST_FILE).verdict, GAMBYRE_ACCEPTED);
    verdict("a byte less", gambyre_read(file, GAMBYRE_MOST_FILE - 1).verdict, GAMBYRE_FILE_LENGTH);
}

/* The longest text: five digits in quotes for each flow. */
static void longest_text(void) {
    enum { N = GAMBYRE_MOST_PORTS, T = GAMBYRE_MOST_SLOTS };
    char text[GAMBYRE_MOST_TEXT + 2] = "";
    uint16_t rates[GAMBYRE_MOST_FLOWS] = {0};
    size_t length = 0;
    for (size_t flow = 0; flow < GAMBYRE_MOST_FLOWS; flow++) {
        const char *end = flow % N == N - 1 ? "\r\n" : ",";
        length += (size_t)snprintf(text + length, sizeof text - length, "\"%05d\"%s", T / N, end);
    }
    same("bytes of the longest text", length, GAMBYRE_MOST_TEXT);
    verdict("the longest text", gambyre_read_text(N, T, (const uint8_t *)text, length, rates, GAMBYRE_MOST_FLOWS),
            GAMBYRE_ACCEPTED);
    same("its last rate", rates[GAMBYRE_MOST_FLOWS - 1], T / N);
    text[length] = '0';
    verdict("a byte more", gambyre_read_text(N, T, (const uint8_t *)text, length + 1, rates, GAMBYRE_MOST_FLOWS),
            GAMBYRE_NOT_PLAN_TEXT);
}

/* The later plan replaces the one that waits, and leaves nothing of it in any field, for ports from N up neither. */
static void two_loads(void) {
    gambyre_switch state = one_flow_among(0xA5);
    gambyre_reply first = gambyre_load(state, 1, 1, always, 1);
    gambyre_reply second = gambyre_load(first.state, 1, 1, never, 1), alone = gambyre_load(state, 1, 1, never, 1);
    verdict("first load", first.verdict, GAMBYRE_ACCEPTED);
    same("the rate that waits", first.state.waiting.rates[0], 1);
    verdict("second load", second.verdict, GAMBYRE_ACCEPTED);
    same("the state after both", same_state(&second.state, &alone.state), 1);
    same("the rate that takes over", gambyre_step(second.state, store, 1).state.running.rates[0], 0);
}

static void starts_and_loads(void) {
    verdict("Q = 65", gambyre_start(1, 1, always, 1, 65, store, 1).verdict, GAMBYRE_DEPTH_OUT_OF_RANGE);
    verdict("Q = 2, 1 place", gambyre_start(1, 1, always, 1, 2, store, 1).verdict, GAMBYRE_STORE_LENGTH);
    verdict("T = 2 to T = 1", gambyre_load(one_flow(), 1, 2, always, 1).verdict, GAMBYRE_PLAN_MISMATCH);
    gambyre_reply loaded = gambyre_load(one_flow(), 1, 1, always, 1);
    verdict("load", loaded.verdict, GAMBYRE_ACCEPTED);
    same("what a load leaves in waits", loaded.state.waits, 1);
}

static void arrivals(void) {
    gambyre_reply first = gambyre_arrive(one_flow(), store, 1, 0, 0, 7);
    verdict("output 1", gambyre_arrive(one_flow(), store, 1, 0, 1, 7).verdict, GAMBYRE_NO_SUCH_PORT);
    verdict("arrival", first.verdict, GAMBYRE_ACCEPTED);
    verdict("second arrival", gambyre_arrive(first.state, store, 1, 0, 0, 8).verdict, GAMBYRE_QUEUE_FULL);
    gambyre_slot_reply moved = gambyre_step(first.state, store, 1);
    same("a board with a cell", moved.moves[0].kind, GAMBYRE_MOVED);
    same("its cell", moved.moves[0].cell, 7);
    same("a head with a cell", moved.sends[0].kind, GAMBYRE_MOVED);
    same("a board without", gambyre_step(moved.state, store, 1).moves[0].kind, GAMBYRE_EMPTY);
    same("a port from N up", moved.sends[1].kind, GAMBYRE_IDLE);
}

static void hand_made_states(void) {
    gambyre_switch late = one_flow();
    late.slot = 1;
    refused("slot = T", late);
    gambyre_switch full = one_flow();
    full.queues[0].count = 1;
    full.crosspoints[0].count = 2;
    verdict("third cell", gambyre_step(full, store, 1).verdict, GAMBYRE_CROSSPOINT_FULL);
    full.crosspoints[0].count = 3;
    refused("three cells", full);
    gambyre_reply no_start = gambyre_start(0, 0, always, 1, 1, store, 1);
    verdict("N = 0", no_start.verdict, GAMBYRE_PORTS_OUT_OF_RANGE);
    refused("the state of a refused start", no_start.state);
}

/* Every byte of `waits` but 0 says that a plan waits: it is judged, takes over in slot 0 and in no other, and leaves 0. */
static void bytes_of_waits(void) {
    for (unsigned byte = 0; byte < 256; byte++) {
        gambyre_switch outside = one_flow_among(0xA5);
        outside.waiting.ports = 3000;
        outside.waiting.frame = 9;
        outside.waits = (uint8_t)byte;
        if (byte != 0) {
            refused("a waiting plan of 3000 ports", outside);
        } else {
            verdict("3000 ports, and none waits", gambyre_step(outside, store, 1).verdict, GAMBYRE_ACCEPTED);
        }

        gambyre_switch state = gambyre_start(1, 2, always, 1, 1, store, 1).state;
        state.waiting.ports = 1;
        state.waiting.frame = 2;
        state.waiting.rates[0] = 2;
        state.waits = (uint8_t)byte;
        gambyre_slot_reply first = gambyre_step(state, store, 1);
        verdict("slot 0", first.verdict, GAMBYRE_ACCEPTED);
        same("the rate after slot 0", first.state.running.rates[0], byte != 0 ? 2 : 1);
        same("waits after slot 0", first.state.waits, 0);
        same("the waiting plan after slot 0", first.state.waiting.ports, byte != 0 ? 0 : 1);
        gambyre_reply loaded = gambyre_load(state, 1, 2, always, 1);
        verdict("a load", loaded.verdict, GAMBYRE_ACCEPTED);
        same("waits after a load", loaded.state.waits, 1);
        same("the rate that waits after a load", loaded.state.waiting.rates[0], 1);
        same("waits after an arrival", gambyre_arrive(state, store, 1, 0, 0, 7).state.waits, byte);
        state.slot = 1;
        gambyre_slot_reply second = gambyre_step(state, store, 1);
        verdict("slot 1", second.verdict, GAMBYRE_ACCEPTED);
        same("the rate after slot 1", second.state.running.rates[0], 1);
        same("waits after slot 1", second.state.waits, byte);
    }
}

static void desk_views(void) {
    const uint16_t running[1] = {3}, waiting[1] = {4};
    for (unsigned takeover = 0; takeover <= 256; takeover++) {
        uint16_t row[1] = {0};
        same("a row", gambyre_desk_view(running, 1, waiting, 1, 1, 0, takeover, row, 1), 1);
        same("its rate", row[0], takeover == 0 ? 3 : 4);
    }
}

static void choices(void) {
    const gambyre_multiplexer rested = {{0}};
    const uint16_t second[2] = {0, 1};
    gambyre_choice choice = gambyre_choose(rested, second, 2, 1, 0);
    same("a choice", choice.kind, GAMBYRE_FLOW);
    same("its flow", choice.flow, 1);
    same("its count", gambyre_count(rested, choice).served[1], 1);
    same("no choice", gambyre_choose(rested, second, 1, 1, 0).kind, GAMBYRE_NO_FLOW);
    memset(&choice, 0xA5, sizeof choice);
    choice.flow = 1;
    for (unsigned kind = 0; kind <= 256; kind++) {
        choice.kind = (gambyre_choice_kind)kind;
        same("the count of a kind", gambyre_count(rested, choice).served[1], kind != GAMBYRE_NO_FLOW);
    }
}

static void cover(const uint16_t *list, size_t slots, uint16_t flow, size_t l, gambyre_cover_reply expected) {
    const gambyre_cover_reply reply = gambyre_cover(list, slots, flow, l);
    verdict("cover", reply.verdict, expected.verdict);
    same("the least services", reply.least.services, expected.least.services);
    same("their place", reply.least.place, expected.least.place);
    same("the most services", reply.most.services, expected.most.services);
    same("their place", reply.most.place, expected.most.place);
}

/* Counted by hand, and at the limits. */
static void covers(void) {
    enum { IDLE = GAMBYRE_IDLE_SLOT, MOST = GAMBYRE_MOST_RECORD };
    static uint16_t longest[MOST + 1];
    const uint16_t record[10] = {0, 1, 0, 0, IDLE, 0, 1, 1, 0, IDLE};
    const gambyre_cover_reply board_1 = {GAMBYRE_ACCEPTED, {0, 2}, {2, 5}};
    const gambyre_cover_reply idle = {GAMBYRE_ACCEPTED, {0, 0}, {1, 2}};
    const gambyre_cover_reply none = {GAMBYRE_ACCEPTED, {0, 0}, {0, 0}};
    const gambyre_cover_reply refused_17 = {GAMBYRE_RECORD_LENGTH, {0, 0}, {0, 0}};
    const gambyre_cover_reply all = {GAMBYRE_ACCEPTED, {MOST, 0}, {MOST, 0}};
    cover(record, 10, 1, 3, board_1);
    cover(record, 10, IDLE, 3, idle);
    cover(record, 10, 2, 3, none);
    cover(record, 10, 0, 0, none);
    cover(record, 10, 0, 11, refused_17);
    cover(record, 10, 0, SIZE_MAX, refused_17);
    cover(longest, MOST, 0, MOST, all);
    cover(longest, MOST + 1, 0, MOST, refused_17);
    cover(longest, MOST + 1, 0, 0, refused_17);
}

/* How many list parameters were NULL while the other lists of the call were not. */
static unsigned null_lists;

static void no_list(const char *what, unsigned long answered, unsigned long named) {
    same(what, answered, named);
    null_lists++;
}

/* Each list of each call, and all lists of a call that has several. */
static void empty_lists(void) {
    const gambyre_multiplexer rested = {{0}};
    const uint8_t one[1] = {'1'};
    uint16_t list[1] = {9};
    no_list("start, no rates", gambyre_start(1, 1, NULL, 0, 1, store, 1).verdict, GAMBYRE_LIST_LENGTH);
    no_list("start, no store", gambyre_start(1, 1, always, 1, 1, NULL, 0).verdict, GAMBYRE_STORE_LENGTH);
    no_list("arrive, no store", gambyre_arrive(one_flow(), NULL, 0, 0, 0, 7).verdict, GAMBYRE_STORE_LENGTH);
    no_list("load, no rates", gambyre_load(one_flow(), 1, 1, NULL, 0).verdict, GAMBYRE_LIST_LENGTH);
    no_list("step, no store", gambyre_step(one_flow(), NULL, 0).verdict, GAMBYRE_STORE_LENGTH);
    no_list("accept, no rates", gambyre_accept(1, 1, NULL, 0), GAMBYRE_LIST_LENGTH);
    no_list("desk view, no running list", gambyre_desk_view(NULL, 0, always, 1, 1, 0, 1, list, 1), 0);
    no_list("desk view, no waiting list", gambyre_desk_view(always, 1, NULL, 0, 1, 0, 0, list, 1), 0);
    no_list("desk view, nowhere to copy", gambyre_desk_view(always, 1, always, 1, 1, 0, 0, NULL, 0), 1);
    no_list("scale, no demands", gambyre_scale(1, 1, NULL, 0, list, 1), GAMBYRE_LIST_LENGTH);
    no_list("scale, no rates", gambyre_scale(1, 1, always, 1, NULL, 0), GAMBYRE_LIST_LENGTH);
    no_list("boost, no plan", gambyre_boost(1, 1, 0, NULL, 0, list, 1), GAMBYRE_LIST_LENGTH);
    no_list("boost, no rates", gambyre_boost(1, 1, 0, always, 1, NULL, 0), GAMBYRE_LIST_LENGTH);
    no_list("read, no bytes", gambyre_read(NULL, 0).verdict, GAMBYRE_FILE_LENGTH);
    no_list("read_text, no text", gambyre_read_text(1, 1, NULL, 0, list, 1), GAMBYRE_NOT_PLAN_TEXT);
    no_list("read_text, no rates", gambyre_read_text(1, 1, one, 1, NULL, 0), GAMBYRE_LIST_LENGTH);
    no_list("choose, no rates", gambyre_choose(rested, NULL, 0, 1, 0).kind, GAMBYRE_NO_FLOW);
    no_list("cover, no record", gambyre_cover(NULL, 0, 0, 0).verdict, GAMBYRE_ACCEPTED);
    same("N = 0, no rates", gambyre_accept(0, 0, NULL, 0), GAMBYRE_PORTS_OUT_OF_RANGE);
    same("desk view, no list", gambyre_desk_view(NULL, 0, NULL, 0, 0, 0, 0, NULL, 0), 0);
    same("read_text, no list", gambyre_read_text(1, 1, NULL, 0, NULL, 0), GAMBYRE_LIST_LENGTH);
    same("cover of a slot, no record", gambyre_cover(NULL, 0, 0, 1).verdict, GAMBYRE_RECORD_LENGTH);
    same("what refused calls write", list[0], 9);
}

int main(void) {
    version();
    texts();
    plans();
    periods();
    files();
    plan_texts();
    limits();
    longest_text();
    starts_and_loads();
    two_loads();
    arrivals();
    hand_made_states();
    bytes_of_waits();
    desk_views();
    choices();
    covers();
    empty_lists();
    verdicts();
    if (!differing) {
        printf("tests/header.c: the header's numbers are the library's\n");
        printf("%u lists were NULL\n", null_lists);
    }
    return differing;
}
