/*
 * Two boxes on one bus, over the handler. Each has a state, a record and a memory of its own. In each round of the bus
 * both are asked for their choice; the lower rank in arbitration goes out; its sender reports it sent, and the other
 * receives it. What happens is printed line by line.
 *
 *     ./archive && gcc -Wall -Wextra -std=c11 -Iinclude examples/box.c target/staticlib/libcuongphemi.a && ./a.out
 */
#include <inttypes.h>
#include <stdio.h>
#include <stdlib.h>
#include <string.h>

#include "cuongphemi.h"

/* ---- a box: its three buffers as the calls take them, and what its interrupt has for itself */

/* How long a memory these boxes have; a box may choose another length, to CUONGPHEMI_MEMORY_MOST. */
#define BOX_MEMORY_WORDS 2560

struct box {
    const char *name;
    uint32_t state[CUONGPHEMI_STATE_WORDS];
    union {
        uint32_t words[CUONGPHEMI_RECORD_WORDS];
        struct cuongphemi_record fields;
    } record;
    uint32_t memory[BOX_MEMORY_WORDS];
    struct cuongphemi_record own[2]; /* the interrupt's two records, which no call is lent */
    volatile unsigned raised_in;     /* in which of them it raises, 0 or 1 */
};

#define BOX(b) \
    (b)->state, CUONGPHEMI_STATE_WORDS, (b)->record.words, CUONGPHEMI_RECORD_WORDS, (b)->memory, BOX_MEMORY_WORDS

/* The answer of the last call, and the bytes that it wrote. */
static uint32_t answer[CUONGPHEMI_ANSWER_WORDS];
static uint8_t output[CUONGPHEMI_OUTPUT_BYTES];

#define ANSWER answer, CUONGPHEMI_ANSWER_WORDS
#define OUTPUT output, CUONGPHEMI_OUTPUT_BYTES

struct frame {
    uint32_t words[CUONGPHEMI_FRAME_WORDS];
    uint8_t data[CUONGPHEMI_DATA_BYTES_MOST];
    size_t count;
};

/* Time goes on by one with every frame on the bus. */
static uint16_t now = 100;

/* ---- printing */

static void print_frame(const uint32_t *frame)
{
    printf(frame[CUONGPHEMI_FRAME_XTD] ? "%08" PRIX32 : "%03" PRIX32, frame[CUONGPHEMI_FRAME_ID]);
    if (frame[CUONGPHEMI_FRAME_RTR])
        printf(" remote");
    if (frame[CUONGPHEMI_FRAME_FDF])
        printf(" FD");
    if (frame[CUONGPHEMI_FRAME_BRS])
        printf(" fast");
    if (frame[CUONGPHEMI_FRAME_ESI])
        printf(" passive");
    printf(" DLC %" PRIu32, frame[CUONGPHEMI_FRAME_DLC]);
}

static void print_bytes(const uint8_t *data, size_t count)
{
    for (size_t i = 0; i < count; i++)
        printf("%s%02X", i == 0 ? " |" : " ", data[i]);
}

static void print_filter(int matched, uint32_t index)
{
    if (matched)
        printf(", filter %" PRIu32, index);
    else
        printf(", no filter");
}

static void refused(const struct box *b, const char *call, uint32_t number)
{
    printf("%s: %s refused, %" PRIu32 "\n", b->name, call, number);
}

/* Calls that this program knows to be right. */
static void must(const struct box *b, const char *call, uint32_t number)
{
    if (number != CUONGPHEMI_ACCEPTED) {
        refused(b, call, number);
        exit(EXIT_FAILURE);
    }
}

/* ---- the start */

static void start(struct box *b, const uint32_t *registers)
{
    uint32_t number = cuongphemi_start(BOX(b), registers, CUONGPHEMI_REGISTER_WORDS, ANSWER);
    if (number != CUONGPHEMI_ACCEPTED) {
        printf("%s: start refused, %" PRIu32 ", sections %" PRIu32 " and %" PRIu32 "\n", b->name, number,
               answer[CUONGPHEMI_START_NAMED], answer[CUONGPHEMI_START_NAMED_TOO]);
        return;
    }
    printf("%s: started, sections", b->name);
    for (int i = 0; i < CUONGPHEMI_SECTIONS; i++)
        printf(" %" PRIu32 "+%" PRIu32, answer[CUONGPHEMI_START_FIRST_WORD(i)], answer[CUONGPHEMI_START_WORDS(i)]);
    printf("\n");
}

/* ---- frames and requests */

/* A frame's data are the numbers from `first` on. */
static struct frame filled(struct frame f, uint8_t first)
{
    f.count = CUONGPHEMI_DATA_BYTES(f.words[CUONGPHEMI_FRAME_RTR], f.words[CUONGPHEMI_FRAME_FDF],
                                    f.words[CUONGPHEMI_FRAME_DLC]);
    for (size_t i = 0; i < f.count; i++)
        f.data[i] = (uint8_t)(first + i);
    return f;
}

static struct frame classic(uint32_t id, uint32_t dlc, uint8_t first)
{
    struct frame f = {.words = {[CUONGPHEMI_FRAME_ID] = id, [CUONGPHEMI_FRAME_DLC] = dlc}};
    return filled(f, first);
}

/* Of 29 bits. */
static struct frame extended(uint32_t id, uint32_t dlc, uint8_t first)
{
    struct frame f = classic(id, dlc, first);
    f.words[CUONGPHEMI_FRAME_XTD] = CUONGPHEMI_YES;
    return f;
}

static struct frame remote(uint32_t id, uint32_t dlc)
{
    struct frame f = classic(id, dlc, 0);
    f.words[CUONGPHEMI_FRAME_RTR] = CUONGPHEMI_YES;
    return filled(f, 0);
}

/* FD, with the faster rate. */
static struct frame fast(uint32_t id, uint32_t dlc, uint8_t first)
{
    struct frame f = classic(id, dlc, first);
    f.words[CUONGPHEMI_FRAME_FDF] = CUONGPHEMI_YES;
    f.words[CUONGPHEMI_FRAME_BRS] = CUONGPHEMI_YES;
    return filled(f, first);
}

static void requested(const struct box *b, const char *call, uint32_t number, const struct frame *f)
{
    if (number != CUONGPHEMI_ACCEPTED) {
        refused(b, call, number);
        return;
    }
    printf("%s: %s ", b->name, call);
    print_frame(f->words);
    printf(" in buffer %" PRIu32 "\n", answer[CUONGPHEMI_REQUEST_BUFFER]);
}

static void request_dedicated(struct box *b, uint32_t buffer, struct frame f, uint8_t marker, uint32_t wish)
{
    uint32_t number = cuongphemi_request_dedicated(BOX(b), buffer, f.words, CUONGPHEMI_FRAME_WORDS, f.data, f.count,
                                                   marker, wish, ANSWER);
    requested(b, "requests", number, &f);
}

static void request_shared(struct box *b, struct frame f, uint8_t marker, uint32_t wish)
{
    uint32_t number = cuongphemi_request_shared(BOX(b), f.words, CUONGPHEMI_FRAME_WORDS, f.data, f.count, marker, wish,
                                                ANSWER);
    requested(b, "requests shared", number, &f);
}

/* ---- the bus */

/* The rank in arbitration, from the header words of a choice: the smaller wins. */
static uint32_t rank(const uint32_t *frame)
{
    uint32_t id = frame[CUONGPHEMI_FRAME_ID], remote = frame[CUONGPHEMI_FRAME_RTR];
    if (frame[CUONGPHEMI_FRAME_XTD])
        return (id >> 18) << 21 | UINT32_C(3) << 19 | (id & 0x3FFFF) << 1 | remote;
    return id << 21 | remote << 20;
}

struct choice {
    uint32_t buffer;
    struct frame frame;
};

static struct choice ask(const struct box *b)
{
    struct choice c;
    must(b, "choice", cuongphemi_ask_choice(BOX(b), CUONGPHEMI_NO, OUTPUT, ANSWER));
    c.buffer = answer[CUONGPHEMI_CHOICE_BUFFER];
    if (c.buffer != CUONGPHEMI_CHOICE_NOTHING) {
        memcpy(c.frame.words, answer + CUONGPHEMI_CHOICE_FRAME, sizeof c.frame.words);
        c.frame.count = answer[CUONGPHEMI_CHOICE_BYTES];
        memcpy(c.frame.data, output, c.frame.count);
    }
    return c;
}

static void receive(struct box *b, const struct frame *f)
{
    static const char *const reasons[] = {
        [CUONGPHEMI_REASON_REMOTE] = "remote",
        [CUONGPHEMI_REASON_REJECT] = "reject",
        [CUONGPHEMI_REASON_NO_MATCH] = "no match",
        [CUONGPHEMI_REASON_PRIORITY_ONLY] = "priority only",
        [CUONGPHEMI_REASON_DEBUG] = "debug",
        [CUONGPHEMI_REASON_MISFILED] = "misfiled",
        [CUONGPHEMI_REASON_LOCKED] = "locked",
    };
    uint32_t number = cuongphemi_receive(BOX(b), f->words, CUONGPHEMI_FRAME_WORDS, f->data, f->count, now, ANSWER);
    if (number != CUONGPHEMI_ACCEPTED) {
        refused(b, "receive", number);
        return;
    }
    uint32_t where = answer[CUONGPHEMI_RECEIVE_WHERE], filter = answer[CUONGPHEMI_RECEIVE_FILTER];
    printf("%s:   ", b->name);
    switch (answer[CUONGPHEMI_RECEIVE_OUTCOME]) {
    case CUONGPHEMI_OUTCOME_IN_FIFO:
        printf("stored in FIFO %" PRIu32 " place %" PRIu32, where, answer[CUONGPHEMI_RECEIVE_PLACE]);
        break;
    case CUONGPHEMI_OUTCOME_IN_BUFFER:
        printf("stored in Rx buffer %" PRIu32, where);
        break;
    case CUONGPHEMI_OUTCOME_LOST:
        printf("lost to FIFO %" PRIu32, where);
        break;
    case CUONGPHEMI_OUTCOME_DISCARDED:
        printf("discarded, %s", reasons[where]);
        break;
    }
    print_filter(filter != CUONGPHEMI_RECEIVE_NO_FILTER, filter - 1);
    printf("\n");
}

/* One frame on the bus, if a box has one to send. */
static int bus_round(struct box *a, struct box *b)
{
    struct choice x = ask(a), y = ask(b);
    int from_a = x.buffer != CUONGPHEMI_CHOICE_NOTHING, from_b = y.buffer != CUONGPHEMI_CHOICE_NOTHING;
    if (!from_a && !from_b)
        return 0;
    int a_wins = from_a && (!from_b || rank(x.frame.words) < rank(y.frame.words));
    struct box *winner = a_wins ? a : b, *other = a_wins ? b : a;
    const struct choice *sent = a_wins ? &x : &y;
    now++;
    printf("bus: %s sends ", winner->name);
    print_frame(sent->frame.words);
    print_bytes(sent->frame.data, sent->frame.count);
    printf(from_a && from_b ? ", %s waits\n" : "\n", other->name);
    must(winner, "report", cuongphemi_report_sent(BOX(winner), sent->buffer, CUONGPHEMI_NO, now));
    receive(other, &sent->frame);
    return 1;
}

static void bus(struct box *a, struct box *b)
{
    while (bus_round(a, b))
        ;
    printf("bus: quiet\n");
}

/* ---- what a box holds */

static void print_status(const struct box *b)
{
    static const char *const rings[] = {
        [CUONGPHEMI_RING_FIFO0] = "FIFO 0",
        [CUONGPHEMI_RING_FIFO1] = "FIFO 1",
        [CUONGPHEMI_RING_EVENTS] = "event list",
        [CUONGPHEMI_RING_SHARED] = "shared FIFO",
    };
    must(b, "status", cuongphemi_status(BOX(b), ANSWER));
    printf("%s:", b->name);
    for (int i = CUONGPHEMI_RING_FIFO0; i <= CUONGPHEMI_RING_SHARED; i++)
        printf(" %s holds %" PRIu32 " from %" PRIu32 ",", rings[i], answer[CUONGPHEMI_STATUS_FILL(i)],
               answer[CUONGPHEMI_STATUS_OLDEST(i)]);
    printf(" pending %" PRIu32 ", flags %05" PRIX32 "\n", answer[CUONGPHEMI_STATUS_PENDING], b->record.fields.flags);
}

static void print_priority(const struct box *b)
{
    uint32_t word = b->record.fields.priority, outcome = CUONGPHEMI_TAKE(word, CUONGPHEMI_PRIORITY_OUTCOME);
    printf("%s: priority by filter %" PRIu32 " of %s bits", b->name, CUONGPHEMI_TAKE(word, CUONGPHEMI_PRIORITY_FILTER),
           CUONGPHEMI_TAKE(word, CUONGPHEMI_PRIORITY_LIST) == CUONGPHEMI_LIST_29 ? "29" : "11");
    if (outcome == CUONGPHEMI_PRIORITY_NO_FIFO)
        printf(", not stored\n");
    else if (outcome == CUONGPHEMI_PRIORITY_LOST)
        printf(", lost\n");
    else
        printf(", in FIFO %d place %" PRIu32 "\n", outcome == CUONGPHEMI_PRIORITY_IN_FIFO1,
               CUONGPHEMI_TAKE(word, CUONGPHEMI_PRIORITY_PLACE));
}

static void print_read(const struct box *b, const char *where, uint32_t number)
{
    printf("%s: %s %" PRIu32 ": ", b->name, where, number);
    print_frame(answer + CUONGPHEMI_READ_FRAME);
    print_bytes(output, answer[CUONGPHEMI_READ_BYTES]);
    printf(", time %" PRIu32, answer[CUONGPHEMI_READ_TIME]);
    print_filter(answer[CUONGPHEMI_READ_ANMF] == CUONGPHEMI_NO, answer[CUONGPHEMI_READ_FILTER]);
    printf("\n");
}

/* Reads and acknowledges all that is held in a FIFO, the oldest first. */
static void empty_fifo(struct box *b, uint32_t fifo)
{
    for (;;) {
        must(b, "status", cuongphemi_status(BOX(b), ANSWER));
        uint32_t ring = fifo == CUONGPHEMI_FIFO0 ? CUONGPHEMI_RING_FIFO0 : CUONGPHEMI_RING_FIFO1;
        uint32_t oldest = answer[CUONGPHEMI_STATUS_OLDEST(ring)];
        if (answer[CUONGPHEMI_STATUS_FILL(ring)] == 0)
            return;
        must(b, "read", cuongphemi_read_fifo(BOX(b), fifo, oldest, OUTPUT, ANSWER));
        print_read(b, fifo == CUONGPHEMI_FIFO0 ? "reads FIFO 0 place" : "reads FIFO 1 place", oldest);
        must(b, "acknowledge", cuongphemi_acknowledge_fifo(BOX(b), fifo, oldest));
    }
}

static void empty_buffer(struct box *b, uint32_t buffer)
{
    uint32_t number = cuongphemi_read_buffer(BOX(b), buffer, OUTPUT, ANSWER);
    if (number != CUONGPHEMI_ACCEPTED) {
        refused(b, "read of an Rx buffer", number);
        return;
    }
    print_read(b, "reads Rx buffer", buffer);
    must(b, "release", cuongphemi_release_buffer(BOX(b), buffer));
}

/* Reads all events that are held, and acknowledges them at once by the youngest. */
static void empty_events(struct box *b)
{
    must(b, "status", cuongphemi_status(BOX(b), ANSWER));
    uint32_t held = answer[CUONGPHEMI_STATUS_FILL(CUONGPHEMI_RING_EVENTS)];
    uint32_t oldest = answer[CUONGPHEMI_STATUS_OLDEST(CUONGPHEMI_RING_EVENTS)];
    uint32_t size = CUONGPHEMI_TAKE(b->state[CUONGPHEMI_REGISTER_TXEFC], CUONGPHEMI_TXEFC_COUNT), last = 0;
    for (uint32_t i = 0; i < held; i++) {
        last = (oldest + i) % size;
        must(b, "read of an event", cuongphemi_read_event(BOX(b), last, ANSWER));
        printf("%s: event %" PRIu32 ": ", b->name, last);
        print_frame(answer + CUONGPHEMI_EVENT_FRAME);
        printf(", marker %" PRIu32 ", %s, time %" PRIu32 "\n", answer[CUONGPHEMI_EVENT_MARKER],
               answer[CUONGPHEMI_EVENT_TYPE] == CUONGPHEMI_EVENT_TYPE_SENT ? "sent" : "of another type",
               answer[CUONGPHEMI_EVENT_TIME]);
    }
    if (held != 0)
        must(b, "acknowledge", cuongphemi_acknowledge_event(BOX(b), last));
}

/* ---- the interrupt: here it comes where the program calls it, in a box at any time */

static void interrupt(struct box *b, uint32_t flags)
{
    cuongphemi_flags_raise(&b->own[b->raised_in], flags);
}

/* From here on the interrupt raises in the other record; the one that it left is returned. */
static unsigned turn(struct box *b)
{
    unsigned left = b->raised_in;
    b->raised_in = 1 - left;
    return left;
}

/* What the interrupt raised comes into the box's record, between two calls, and nothing is masked. */
static void merge(struct box *b, unsigned left)
{
    uint32_t flags = cuongphemi_flags_take(&b->own[left]);
    cuongphemi_flags_raise(&b->record.fields, flags);
    printf("%s: merges flags %05" PRIX32 "\n", b->name, flags);
}

/* ---- the two boxes */

/* FD, 64 data bytes in FIFO 0 and in the Tx buffers, a shared FIFO; what no filter matches is discarded. */
static void set_up_a(struct box *a)
{
    const uint32_t registers[CUONGPHEMI_REGISTER_WORDS] = {
        [CUONGPHEMI_REGISTER_SIDFC] = CUONGPHEMI_SIDFC(2, 0),
        [CUONGPHEMI_REGISTER_XIDFC] = CUONGPHEMI_XIDFC(1, 2),
        [CUONGPHEMI_REGISTER_RXF0C] = CUONGPHEMI_RXFC(CUONGPHEMI_FIFO_BLOCKS, 2, 4, 16),
        [CUONGPHEMI_REGISTER_RXF1C] = CUONGPHEMI_RXFC(CUONGPHEMI_FIFO_OVERWRITES, 0, 2, 100),
        [CUONGPHEMI_REGISTER_RXBC] = CUONGPHEMI_RXBC(120),
        [CUONGPHEMI_REGISTER_RXESC] = CUONGPHEMI_RXESC(CUONGPHEMI_SIZE_64, CUONGPHEMI_SIZE_8, CUONGPHEMI_SIZE_8),
        [CUONGPHEMI_REGISTER_TXEFC] = CUONGPHEMI_TXEFC(0, 4, 200),
        [CUONGPHEMI_REGISTER_TXBC] = CUONGPHEMI_TXBC(CUONGPHEMI_SHARED_IS_FIFO, 2, 2, 300),
        [CUONGPHEMI_REGISTER_TXESC] = CUONGPHEMI_TXESC(CUONGPHEMI_SIZE_64),
        [CUONGPHEMI_REGISTER_GFC] = CUONGPHEMI_GFC(CUONGPHEMI_NO_MATCH_DISCARDED, CUONGPHEMI_NO_MATCH_DISCARDED,
                                                   CUONGPHEMI_NO, CUONGPHEMI_NO),
        [CUONGPHEMI_REGISTER_XIDAM] = CUONGPHEMI_XIDAM_RESET,
        [CUONGPHEMI_REGISTER_RX_BUFFERS] = 2,
        [CUONGPHEMI_REGISTER_FD_ON] = CUONGPHEMI_YES,
        [CUONGPHEMI_REGISTER_RATE_SWITCH_ON] = CUONGPHEMI_YES,
        [CUONGPHEMI_REGISTER_MEMORY_WORDS] = BOX_MEMORY_WORDS,
    };
    /* 200 to 2FF to FIFO 0, 300 to Rx buffer 1; 04000000 to 07FFFFFF with priority to FIFO 1 */
    a->memory[0] = CUONGPHEMI_FILTER_11(CUONGPHEMI_FILTER_RANGE, CUONGPHEMI_ACTION_FIFO0, 0x200, 0x2FF);
    a->memory[1] = CUONGPHEMI_FILTER_11_TO_BUFFER(0x300, 1);
    a->memory[2] = CUONGPHEMI_FILTER_29_FIRST(CUONGPHEMI_FILTER_RANGE, CUONGPHEMI_ACTION_PRIORITY_FIFO1, 0x04000000,
                                              0x07FFFFFF);
    a->memory[3] = CUONGPHEMI_FILTER_29_SECOND(CUONGPHEMI_FILTER_RANGE, CUONGPHEMI_ACTION_PRIORITY_FIFO1, 0x04000000,
                                               0x07FFFFFF);
    start(a, registers);
}

/* FD without the rate switch, 8 data bytes everywhere, a queue; of what no filter matches, 29 bits go to FIFO 0. */
static void set_up_b(struct box *b)
{
    const uint32_t registers[CUONGPHEMI_REGISTER_WORDS] = {
        [CUONGPHEMI_REGISTER_SIDFC] = CUONGPHEMI_SIDFC(2, 0),
        [CUONGPHEMI_REGISTER_RXF0C] = CUONGPHEMI_RXFC(CUONGPHEMI_FIFO_BLOCKS, 0, 2, 16),
        [CUONGPHEMI_REGISTER_TXEFC] = CUONGPHEMI_TXEFC(0, 1, 100),
        [CUONGPHEMI_REGISTER_TXBC] = CUONGPHEMI_TXBC(CUONGPHEMI_SHARED_IS_QUEUE, 3, 1, 200),
        [CUONGPHEMI_REGISTER_GFC] = CUONGPHEMI_GFC(CUONGPHEMI_NO_MATCH_DISCARDED, CUONGPHEMI_NO_MATCH_TO_FIFO0,
                                                   CUONGPHEMI_NO, CUONGPHEMI_NO),
        [CUONGPHEMI_REGISTER_XIDAM] = CUONGPHEMI_XIDAM_RESET,
        [CUONGPHEMI_REGISTER_FD_ON] = CUONGPHEMI_YES,
        [CUONGPHEMI_REGISTER_MEMORY_WORDS] = BOX_MEMORY_WORDS,
    };
    /* 110 rejected, else 100 to 1FF to FIFO 0 */
    b->memory[0] = CUONGPHEMI_FILTER_11(CUONGPHEMI_FILTER_RANGE, CUONGPHEMI_ACTION_REJECT, 0x110, 0x110);
    b->memory[1] = CUONGPHEMI_FILTER_11(CUONGPHEMI_FILTER_RANGE, CUONGPHEMI_ACTION_FIFO0, 0x100, 0x1FF);
    start(b, registers);
}

int main(void)
{
    static struct box a = {.name = "A"}, b = {.name = "B"};
    const uint32_t event = CUONGPHEMI_YES, no_event = CUONGPHEMI_NO;

    /* A box that was never started refuses. */
    must(&a, "never started", cuongphemi_never_started(a.state, CUONGPHEMI_STATE_WORDS));
    must(&b, "never started", cuongphemi_never_started(b.state, CUONGPHEMI_STATE_WORDS));
    refused(&a, "status", cuongphemi_status(BOX(&a), ANSWER));
    set_up_a(&a);
    set_up_b(&b);

    /* Frames of both wait; the bus takes them by rank, A's shared FIFO in its order. */
    request_dedicated(&a, 0, classic(0x120, 3, 0x10), 7, event);
    request_shared(&a, fast(0x145, 11, 0x20), 8, event);
    request_shared(&a, classic(0x110, 1, 0x40), 0, no_event);
    request_shared(&a, classic(0x111, 1, 0x41), 0, no_event);
    request_dedicated(&a, 0, classic(0x121, 1, 0x50), 0, no_event);
    request_dedicated(&b, 0, classic(0x300, 4, 0x60), 1, event);
    request_shared(&b, extended(0x04800123, 2, 0x70), 2, event);
    request_shared(&b, remote(0x120, 5), 3, no_event);
    request_shared(&b, fast(0x2F0, 9, 0x80), 4, no_event);
    print_status(&a);
    print_status(&b);
    bus(&a, &b);

    print_status(&a);
    print_priority(&a);
    print_status(&b);
    empty_fifo(&a, CUONGPHEMI_FIFO0);
    empty_fifo(&a, CUONGPHEMI_FIFO1);
    empty_fifo(&b, CUONGPHEMI_FIFO0);
    empty_events(&a);
    empty_events(&b);

    /* Rx buffer 1 of A holds new data: it is locked until it is released. B's events have room for one. */
    request_dedicated(&b, 0, classic(0x300, 1, 0x90), 5, event);
    bus(&a, &b);
    empty_buffer(&a, 1);
    request_dedicated(&b, 0, classic(0x300, 1, 0xA0), 6, event);
    bus(&a, &b);
    empty_buffer(&a, 1);
    empty_buffer(&a, 0);
    print_status(&b);

    /* FIFO 1 of A overwrites its oldest, FIFO 0 of B loses what it has no room for. */
    for (uint8_t i = 0; i < 3; i++) {
        request_shared(&b, extended(0x04800200 + i, 1, (uint8_t)(0xB0 + i)), i, no_event);
        request_dedicated(&a, 1, classic(0x180 + i, 1, (uint8_t)(0xC0 + i)), i, no_event);
        bus(&a, &b);
    }
    empty_fifo(&a, CUONGPHEMI_FIFO1);
    empty_fifo(&b, CUONGPHEMI_FIFO0);

    /* B has no 29-bit filter: what none matches goes to its FIFO 0. */
    request_dedicated(&a, 1, extended(0x05550055, 1, 0xD0), 0, no_event);
    bus(&a, &b);
    empty_fifo(&b, CUONGPHEMI_FIFO0);

    /* A request is cancelled before it goes out, but not one in a shared FIFO. */
    request_shared(&b, classic(0x222, 0, 0), 0, no_event);
    must(&b, "cancel", cuongphemi_cancel(BOX(&b), 1));
    request_shared(&a, classic(0x133, 0, 0), 0, no_event);
    refused(&a, "cancel", cuongphemi_cancel(BOX(&a), 2));
    bus(&a, &b);

    /* Flags stay up until they are cleared, by the call or in place. */
    print_status(&a);
    must(&a, "clear", cuongphemi_clear_flags(BOX(&a), CUONGPHEMI_FLAG_SENT | CUONGPHEMI_FLAG_RX_BUFFER));
    print_status(&a);
    cuongphemi_flags_clear(&a.record.fields, CUONGPHEMI_FLAGS_ALL);
    cuongphemi_priority_put(&a.record.fields, 0);
    print_status(&a);
    print_priority(&a);

    /* The interrupt's flags arrive: those from before a merge, and one that comes in its middle with the next. */
    interrupt(&a, CUONGPHEMI_FLAG_SENT);
    interrupt(&a, CUONGPHEMI_FLAG_RX_BUFFER);
    unsigned left = turn(&a);
    interrupt(&a, CUONGPHEMI_FLAG_CANCELLED);
    merge(&a, left);
    print_status(&a);
    merge(&a, turn(&a));
    print_status(&a);

    /* Wrong values are told by numbers, and change nothing. */
    refused(&a, "status with a short answer", cuongphemi_status(BOX(&a), answer, CUONGPHEMI_ANSWER_WORDS - 1));
    a.state[CUONGPHEMI_REGISTER_FD_ON] = 2;
    refused(&a, "status with FD neither on nor off", cuongphemi_status(BOX(&a), ANSWER));
    a.state[CUONGPHEMI_REGISTER_FD_ON] = CUONGPHEMI_YES;
    refused(&a, "read of FIFO 2", cuongphemi_read_fifo(BOX(&a), 2, 0, OUTPUT, ANSWER));
    cuongphemi_flags_raise(&a.record.fields, ~CUONGPHEMI_FLAGS_ALL);
    refused(&a, "status with flags that have no name", cuongphemi_status(BOX(&a), ANSWER));
    cuongphemi_flags_clear(&a.record.fields, ~CUONGPHEMI_FLAGS_ALL);
    print_status(&a);
    return 0;
}
