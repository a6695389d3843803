/*
 * What a call may store to. Every buffer stands on pages of its own, which are read-only while a call is made:
 *
 *     a refused call stores nothing at all, but for the first two answer words of a start that returns 10 to 15
 *     an accepted call stores only to the buffers that it changes
 *
 * A store to a read-only page is a fault. Its handler notes the page and lets the store go on, so each call ends and
 * all that it stored to is told. Every call is made with every number that it can return.
 */
#define _DEFAULT_SOURCE

#include <inttypes.h>
#include <signal.h>
#include <stdio.h>
#include <stdlib.h>
#include <string.h>
#include <sys/mman.h>
#include <unistd.h>

#include "cuongphemi.h"

/* The memory's words of the box below, and of the longest memory that is lent: one over the most. */
#define BOX_MEMORY_WORDS 2560
#define LENT_MOST (CUONGPHEMI_MEMORY_MOST + 1)

/* The word of the registers and of the state that is the memory's length. */
#define LENGTH CUONGPHEMI_REGISTER_MEMORY_WORDS

/* ---- the buffers on their pages. The answer lies across two: its first two words, and the others. */

enum page { STATE, RECORD, MEMORY, REGISTERS, FRAME, DATA, OUTPUT, ANSWER_FRONT, ANSWER_REST, PAGES };

#define IN(page) (1u << (page))
#define ANSWER (IN(ANSWER_FRONT) | IN(ANSWER_REST))
#define EVERYTHING (IN(PAGES) - 1)

static const char *const page_names[PAGES] = {
    [STATE] = "state", [RECORD] = "record", [MEMORY] = "memory", [REGISTERS] = "registers", [FRAME] = "frame",
    [DATA] = "data", [OUTPUT] = "output", [ANSWER_FRONT] = "answer 0, 1", [ANSWER_REST] = "answer from 2 on",
};

static struct {
    uint8_t *at;
    size_t bytes;
} pages[PAGES];

static uint32_t *state, *record, *memory, *registers, *frame, *answer;
static uint8_t *data, *output;

/* The pages that were stored to while they were read-only. */
static volatile unsigned stored;

static void protect(enum page page, int how)
{
    if (mprotect(pages[page].at, pages[page].bytes, how) != 0) {
        perror("mprotect");
        _exit(1);
    }
}

static void leave_writable(unsigned writable)
{
    for (int page = 0; page < PAGES; page++)
        protect(page, (writable & IN(page)) != 0 ? PROT_READ | PROT_WRITE : PROT_READ);
}

static void fault(int number, siginfo_t *information, void *context)
{
    (void)context;
    uintptr_t at = (uintptr_t)information->si_addr;
    for (int page = 0; page < PAGES; page++) {
        if (at - (uintptr_t)pages[page].at < pages[page].bytes) {
            stored |= IN(page);
            protect(page, PROT_READ | PROT_WRITE);
            return;
        }
    }
    /* A fault elsewhere comes again, and ends the program. */
    signal(number, SIG_DFL);
}

static void lay_out_pages(void)
{
    size_t size = (size_t)sysconf(_SC_PAGESIZE);
    size_t memory_bytes = (LENT_MOST * 4 + size) / size * size;
    uint8_t *at = mmap(NULL, memory_bytes + PAGES * size, PROT_READ | PROT_WRITE, MAP_PRIVATE | MAP_ANONYMOUS, -1, 0);
    if (at == MAP_FAILED) {
        perror("mmap");
        exit(1);
    }
    for (int page = 0; page < PAGES; page++) {
        pages[page].at = at;
        pages[page].bytes = page == MEMORY ? memory_bytes : size;
        at += pages[page].bytes;
    }
    state = (uint32_t *)pages[STATE].at;
    record = (uint32_t *)pages[RECORD].at;
    memory = (uint32_t *)pages[MEMORY].at;
    registers = (uint32_t *)pages[REGISTERS].at;
    frame = (uint32_t *)pages[FRAME].at;
    data = pages[DATA].at;
    output = pages[OUTPUT].at;
    answer = (uint32_t *)pages[ANSWER_REST].at - 2;
}

/* ---- the calls, each with inputs that a test may change */

static size_t state_words, record_words, memory_words, register_words, frame_words, answer_words;
static size_t data_bytes, output_bytes;
static uint32_t fifo, place, rx_buffer, request_buffer, sent_buffer, wish, passive;

#define BOX state, state_words, record, record_words, memory, memory_words
#define REQUEST frame, frame_words, data, data_bytes, 0, wish
#define OUT output, output_bytes
#define TOLD answer, answer_words

static uint32_t start(void) { return cuongphemi_start(BOX, registers, register_words, TOLD); }
static uint32_t receive(void) { return cuongphemi_receive(BOX, frame, frame_words, data, data_bytes, 0, TOLD); }
static uint32_t read_fifo(void) { return cuongphemi_read_fifo(BOX, fifo, place, OUT, TOLD); }
static uint32_t acknowledge_fifo(void) { return cuongphemi_acknowledge_fifo(BOX, fifo, place); }
static uint32_t read_buffer(void) { return cuongphemi_read_buffer(BOX, rx_buffer, OUT, TOLD); }
static uint32_t release_buffer(void) { return cuongphemi_release_buffer(BOX, rx_buffer); }
static uint32_t request_dedicated(void) { return cuongphemi_request_dedicated(BOX, request_buffer, REQUEST, TOLD); }
static uint32_t request_shared(void) { return cuongphemi_request_shared(BOX, REQUEST, TOLD); }
static uint32_t cancel(void) { return cuongphemi_cancel(BOX, sent_buffer); }
static uint32_t ask_choice(void) { return cuongphemi_ask_choice(BOX, passive, OUT, TOLD); }
static uint32_t report_sent(void) { return cuongphemi_report_sent(BOX, sent_buffer, passive, 0); }
static uint32_t read_event(void) { return cuongphemi_read_event(BOX, place, TOLD); }
static uint32_t acknowledge_event(void) { return cuongphemi_acknowledge_event(BOX, place); }
static uint32_t clear_flags(void) { return cuongphemi_clear_flags(BOX, 1); }
static uint32_t status(void) { return cuongphemi_status(BOX, TOLD); }
static uint32_t never_started(void) { return cuongphemi_never_started(state, state_words); }

enum call {
    START, RECEIVE, READ_FIFO, ACKNOWLEDGE_FIFO, READ_BUFFER, RELEASE_BUFFER, REQUEST_DEDICATED, REQUEST_SHARED,
    CANCEL, ASK_CHOICE, REPORT_SENT, READ_EVENT, ACKNOWLEDGE_EVENT, CLEAR_FLAGS, STATUS, NEVER_STARTED, CALLS
};

#define MOST_NUMBERS 9

/* A call, every number that it returns, and the pages that it stores to where it is accepted. */
static const struct {
    const char *name;
    uint32_t (*make)(void);
    uint32_t numbers[MOST_NUMBERS];
    unsigned changes;
} calls[CALLS] = {
    [START] = {"start", start, {0, 10, 11, 12, 13, 14, 15, 100, 101}, IN(STATE) | IN(RECORD) | ANSWER},
    [RECEIVE] = {"receive", receive, {0, 20, 21, 22, 100, 101}, IN(STATE) | IN(RECORD) | IN(MEMORY) | ANSWER},
    [READ_FIFO] = {"read_fifo", read_fifo, {0, 20, 23, 29, 30, 100, 101}, IN(OUTPUT) | ANSWER},
    [ACKNOWLEDGE_FIFO] = {"acknowledge_fifo", acknowledge_fifo, {0, 20, 23, 29, 100, 101}, IN(STATE)},
    [READ_BUFFER] = {"read_buffer", read_buffer, {0, 20, 23, 29, 30, 100, 101}, IN(OUTPUT) | ANSWER},
    [RELEASE_BUFFER] = {"release_buffer", release_buffer, {0, 20, 23, 29, 100, 101}, IN(STATE)},
    [REQUEST_DEDICATED] =
        {"request_dedicated", request_dedicated, {0, 20, 21, 23, 24, 100, 101}, IN(STATE) | IN(MEMORY) | ANSWER},
    [REQUEST_SHARED] = {"request_shared", request_shared, {0, 20, 21, 25, 100, 101}, IN(STATE) | IN(MEMORY) | ANSWER},
    [CANCEL] = {"cancel", cancel, {0, 20, 23, 26, 27, 100, 101}, IN(STATE) | IN(RECORD)},
    [ASK_CHOICE] = {"ask_choice", ask_choice, {0, 20, 30, 100, 101}, IN(OUTPUT) | ANSWER},
    [REPORT_SENT] = {"report_sent", report_sent, {0, 20, 23, 28, 100, 101}, IN(STATE) | IN(RECORD) | IN(MEMORY)},
    [READ_EVENT] = {"read_event", read_event, {0, 20, 23, 29, 100, 101}, ANSWER},
    [ACKNOWLEDGE_EVENT] = {"acknowledge_event", acknowledge_event, {0, 20, 23, 29, 100, 101}, IN(STATE)},
    [CLEAR_FLAGS] = {"clear_flags", clear_flags, {0, 20, 100, 101}, IN(RECORD)},
    [STATUS] = {"status", status, {0, 20, 100, 101}, ANSWER},
    [NEVER_STARTED] = {"never_started", never_started, {0, 100}, IN(STATE)},
};

/* ---- one case: a call on a box that was spoiled in some way */

static int cases, failures;
static int tried[CALLS][102];

static void must(uint32_t number)
{
    if (number != 0) {
        printf("read_only: the box is not made, %" PRIu32 "\n", number);
        exit(1);
    }
}

/* A box on which every call is accepted, with the inputs for it. */
static void make_box(void)
{
    leave_writable(EVERYTHING);
    state_words = CUONGPHEMI_STATE_WORDS;
    record_words = CUONGPHEMI_RECORD_WORDS;
    memory_words = BOX_MEMORY_WORDS;
    register_words = CUONGPHEMI_REGISTER_WORDS;
    frame_words = CUONGPHEMI_FRAME_WORDS;
    answer_words = CUONGPHEMI_ANSWER_WORDS;
    output_bytes = CUONGPHEMI_OUTPUT_BYTES;
    data_bytes = 8;
    fifo = place = rx_buffer = wish = passive = 0;

    /*
     * One filter to Rx buffer 0. Two of each: FIFO 0, FIFO 1, Rx buffers, events, dedicated, shared as a FIFO. Its
     * last section ends with word 59.
     */
    static const uint32_t given[CUONGPHEMI_REGISTER_WORDS] = {
        [0] = UINT32_C(1) << 16,
        [2] = UINT32_C(2) << 16 | 16 << 2,
        [3] = UINT32_C(2) << 16 | 24 << 2,
        [4] = 32 << 2,
        [6] = UINT32_C(2) << 16 | 40 << 2,
        [7] = UINT32_C(2) << 24 | UINT32_C(2) << 16 | 44 << 2,
        [11] = 2,
        [12] = 1,
        [LENGTH] = BOX_MEMORY_WORDS,
    };
    memcpy(registers, given, sizeof given);
    memset(state, 0, 4 * state_words);
    memset(record, 0, 4 * record_words);
    memory[0] = UINT32_C(7) << 27 | UINT32_C(0x300) << 16;
    must(start());

    /* Rx buffer 0 and place 0 of FIFO 0 hold a frame. */
    memset(frame, 0, 4 * frame_words);
    frame[6] = 8;
    frame[0] = 0x300;
    must(receive());
    frame[0] = 0x100;
    must(receive());

    /* Place 0 of the events holds one. Dedicated buffer 0 is the choice, shared buffer 2 waits too. */
    wish = 1;
    request_buffer = sent_buffer = 0;
    must(request_dedicated());
    must(report_sent());
    must(request_dedicated());
    frame[0] = 0x101;
    must(request_shared());
    request_buffer = 1;
}

/* Makes the call with all else read-only, and tells where it returned or stored something else. */
static void try_call(enum call call, uint32_t number, const char *changed)
{
    stored = 0;
    leave_writable(number == 0 ? calls[call].changes : number < 20 ? IN(ANSWER_FRONT) : 0);
    uint32_t returned = calls[call].make();
    leave_writable(EVERYTHING);
    cases++;
    tried[call][number] = 1;
    if (returned == number && stored == 0)
        return;
    failures++;
    printf("%s, %" PRIu32 " by %s:", calls[call].name, number, changed);
    if (returned != number)
        printf(" returned %" PRIu32 ";", returned);
    for (int page = 0; page < PAGES; page++)
        if ((stored & IN(page)) != 0)
            printf(" stored to %s;", page_names[page]);
    printf("\n");
}

static int returns(enum call call, uint32_t number)
{
    for (int i = 0; i < MOST_NUMBERS; i++)
        if (calls[call].numbers[i] == number)
            return 1;
    return 0;
}

/* The calls of a list that can return this number, each on a box of its own with these changes. */
#define TRY(number, list, ...)                                                                              \
    for (int call = 0; call < CALLS; call++)                                                                \
        if (((list) >> call & 1) != 0 && returns(call, number)) {                                           \
            make_box();                                                                                     \
            __VA_ARGS__;                                                                                    \
            try_call(call, number, #__VA_ARGS__);                                                           \
        }

#define THE(call) (1u << (call))
#define ALL (THE(CALLS) - 1)
#define WITH_FRAME (THE(RECEIVE) | THE(REQUEST_DEDICATED) | THE(REQUEST_SHARED))
#define WITH_OUTPUT (THE(READ_FIFO) | THE(READ_BUFFER) | THE(ASK_CHOICE))
#define WITHOUT_ANSWER                                                                                      \
    (THE(ACKNOWLEDGE_FIFO) | THE(RELEASE_BUFFER) | THE(CANCEL) | THE(REPORT_SENT) | THE(ACKNOWLEDGE_EVENT) |\
     THE(CLEAR_FLAGS) | THE(NEVER_STARTED))
#define WITH_FIFO (THE(READ_FIFO) | THE(ACKNOWLEDGE_FIFO))
#define WITH_RX_BUFFER (THE(READ_BUFFER) | THE(RELEASE_BUFFER))
#define WITH_EVENT (THE(READ_EVENT) | THE(ACKNOWLEDGE_EVENT))
#define WITH_TX_BUFFER (THE(CANCEL) | THE(REPORT_SENT))

/* ---- all cases */

static void accepted(void)
{
    TRY(0, ALL, (void)0);
    TRY(0, THE(START), cuongphemi_never_started(state, state_words));
    TRY(0, THE(START), state[12] = state[13] = 2);
    TRY(0, THE(START), memset(state, 0xFF, 4 * state_words), memset(record, 0xFF, 4 * record_words));
    TRY(0, THE(START), memset(state, 0, 4 * state_words));
    /* Other lengths: the shortest for this box, and the longest of all; by the state's word where it isn't a start. */
    TRY(0, THE(START), registers[LENGTH] = memory_words = 60);
    TRY(0, THE(START), registers[LENGTH] = memory_words = CUONGPHEMI_MEMORY_MOST);
    TRY(0, ALL & ~THE(START), state[LENGTH] = memory_words = 60);
    TRY(0, ALL & ~THE(START), state[LENGTH] = memory_words = CUONGPHEMI_MEMORY_MOST);
    /* Nothing is pending, and nothing is written to the output. */
    TRY(0, THE(ASK_CHOICE), must(start()));
}

static void the_boundary_refuses(void)
{
    TRY(100, ALL, state_words--);
    TRY(100, ALL, state_words++);
    TRY(100, ALL & ~THE(NEVER_STARTED), record_words--);
    TRY(100, ALL & ~THE(NEVER_STARTED), record_words++);
    TRY(100, ALL & ~WITHOUT_ANSWER, answer_words--);
    TRY(100, ALL & ~WITHOUT_ANSWER, answer_words++);
    TRY(100, WITH_FRAME, frame_words--);
    TRY(100, WITH_FRAME, frame_words++);
    TRY(100, THE(START), register_words--);
    TRY(100, THE(START), register_words++);

    TRY(101, ALL & ~THE(START), state[12] = 2);
    TRY(101, ALL & ~THE(START), state[13] = 2);
    TRY(101, THE(START), registers[12] = 2);
    TRY(101, THE(START), registers[13] = 2);
    TRY(101, WITH_FRAME, frame[1] = 2);
    TRY(101, WITH_FRAME, frame[2] = 2);
    TRY(101, WITH_FRAME, frame[3] = 2);
    TRY(101, WITH_FRAME, frame[4] = 2);
    TRY(101, WITH_FRAME, frame[5] = 2);
    TRY(101, THE(REQUEST_DEDICATED) | THE(REQUEST_SHARED), wish = 2);
    TRY(101, THE(ASK_CHOICE) | THE(REPORT_SENT), passive = 2);
}

static void a_start_is_refused(void)
{
    /* A length of 0; one over the most, with a memory as long, and far over it; another than is lent. */
    TRY(10, ALL, registers[LENGTH] = 0);
    TRY(10, ALL, registers[LENGTH] = memory_words = 0);
    TRY(10, ALL, registers[LENGTH] = memory_words = LENT_MOST);
    TRY(10, ALL, registers[LENGTH] = UINT32_MAX);
    TRY(10, ALL, registers[LENGTH]--);
    TRY(10, ALL, registers[LENGTH]++);
    TRY(10, ALL, memory_words--);
    TRY(10, ALL, memory_words++);
    TRY(11, ALL, registers[9] = 64);
    /* 129 filters; 20 + 20 Tx buffers; Tx buffers from the last word on, a memory one word short; FIFO 1 on FIFO 0. */
    TRY(12, ALL, registers[0] = UINT32_C(129) << 16);
    TRY(13, ALL, registers[7] = UINT32_C(20) << 24 | UINT32_C(20) << 16);
    TRY(14, ALL, registers[7] = UINT32_C(1) << 16 | (BOX_MEMORY_WORDS - 1) << 2);
    TRY(14, ALL, registers[LENGTH] = memory_words = 59);
    TRY(15, ALL, registers[3] = registers[2]);
}

static void a_box_is_unfit(void)
{
    TRY(20, ALL, cuongphemi_never_started(state, state_words));
    TRY(20, ALL, memset(state, 0, 4 * state_words));
    TRY(20, ALL, memset(state, 0, 4 * state_words), memory_words = 0);
    /* Another length is lent than the start was given, or the state's own is wrong. */
    TRY(20, ALL, memory_words--);
    TRY(20, ALL, memory_words++);
    TRY(20, ALL, memory_words = 0);
    TRY(20, ALL, state[LENGTH]--);
    TRY(20, ALL, state[LENGTH] = memory_words = 0);
    TRY(20, ALL, state[LENGTH] = memory_words = 59);
    TRY(20, ALL, state[LENGTH] = memory_words = LENT_MOST);
    /* A register; a place and a fill past FIFO 0; bits past their counts; a shared one that isn't held; a flag. */
    TRY(20, ALL, state[9] = 64);
    TRY(20, ALL, state[CUONGPHEMI_STATE_FIFO0_OLDEST] = 2);
    TRY(20, ALL, state[CUONGPHEMI_STATE_FIFO0_FILL] = 3);
    TRY(20, ALL, state[CUONGPHEMI_STATE_NEW_DATA_LOW] = 4);
    TRY(20, ALL, state[CUONGPHEMI_STATE_PENDING] |= UINT32_C(1) << 31);
    TRY(20, ALL, state[CUONGPHEMI_STATE_PENDING] |= 8);
    TRY(20, ALL, record[0] = UINT32_C(1) << 31);
}

static void a_frame_is_refused(void)
{
    TRY(21, ALL, frame[0] = 0x800);
    TRY(21, ALL, frame[0] = 0x20000000, frame[1] = 1);
    TRY(21, ALL, frame[6] = 16);
    TRY(21, ALL, frame[2] = frame[3] = 1);
    TRY(21, ALL, frame[4] = 1);
    TRY(21, ALL, frame[5] = 1);
    TRY(21, ALL, data_bytes--);
    TRY(21, ALL, data_bytes++);
    /* An FD frame while FD is off. */
    TRY(22, ALL, frame[3] = 1, state[12] = 0);
}

static void a_place_is_refused(void)
{
    TRY(23, WITH_FIFO, fifo = 2);
    TRY(23, WITH_FIFO | WITH_EVENT, place = 2);
    TRY(23, WITH_RX_BUFFER, rx_buffer = 2);
    TRY(23, WITH_TX_BUFFER, sent_buffer = 4);
    TRY(23, THE(REQUEST_DEDICATED), request_buffer = 4);
    /* A shared one. */
    TRY(23, THE(REQUEST_DEDICATED), request_buffer = 2);
    TRY(24, ALL, request_buffer = 0);
    /* A FIFO and a queue without room; no shared part. */
    TRY(25, ALL, must(request_shared()));
    TRY(25, ALL, registers[7] |= UINT32_C(1) << 30, must(start()), must(request_shared()), must(request_shared()));
    TRY(25, ALL, registers[7] &= 0x3FFFFF, must(start()));
    TRY(26, ALL, sent_buffer = 2);
    TRY(27, ALL, sent_buffer = 1);
    TRY(28, ALL, sent_buffer = 1);
    TRY(28, ALL, sent_buffer = 2);
    TRY(29, WITH_FIFO | WITH_EVENT, place = 1);
    TRY(29, WITH_FIFO, fifo = 1);
    TRY(29, WITH_RX_BUFFER, rx_buffer = 1);
    TRY(30, WITH_OUTPUT, output_bytes--);
    TRY(30, WITH_OUTPUT, output_bytes++);
}

int main(void)
{
    lay_out_pages();
    struct sigaction action = {.sa_sigaction = fault, .sa_flags = SA_SIGINFO};
    sigemptyset(&action.sa_mask);
    sigaction(SIGSEGV, &action, NULL);

    accepted();
    the_boundary_refuses();
    a_start_is_refused();
    a_box_is_unfit();
    a_frame_is_refused();
    a_place_is_refused();

    for (int call = 0; call < CALLS; call++)
        for (int i = 0; i < MOST_NUMBERS; i++)
            if (!tried[call][calls[call].numbers[i]]) {
                failures++;
                printf("%s was never made to return %" PRIu32 "\n", calls[call].name, calls[call].numbers[i]);
            }
    if (failures != 0) {
        printf("read_only: %d of %d calls are not as they should be\n", failures, cases);
        return 1;
    }
    printf("read_only: %d calls, no store that should not be\n", cases);
    return 0;
}
