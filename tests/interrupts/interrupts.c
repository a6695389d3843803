/*
 * Interrupt code that shares a record with the calls: no flag that it raises is lost.
 *
 * The interrupt is a signal handler. A timer brings it at any moment while the main code makes calls on a box, and
 * each time it raises one flag. Five calls own the box's record: start, receive, cancel, report_sent and clear_flags
 * read it first and write it back at their end. What is raised in it while one of them is under way is lost, unless
 * the two sides are kept apart. There are two ways:
 *
 *     masked   the main code masks the interrupt around each call that owns the record; the interrupt raises in the
 *              box's record
 *     own      nothing is masked; the interrupt raises in a record of its own. It has two. The main code makes it go
 *              on with the other one, takes the flags of the first and raises them in the box's record.
 *
 * The handler counts what it raises. The main code must find each flag up in the box's record before it clears it;
 * the next interrupt is only ordered then, so no two become one.
 *
 *     interrupts             both ways, 20,000 interrupts each; exits 0 where every flag was found
 *     interrupts --control   neither way: the interrupt raises in the box's record, and nothing is masked; exits 0
 *                            where flags were lost
 */
#define _XOPEN_SOURCE 700

#include <inttypes.h>
#include <signal.h>
#include <stdatomic.h>
#include <stdio.h>
#include <stdlib.h>
#include <string.h>
#include <sys/time.h>

#include "cuongphemi.h"

#define INTERRUPTS 20000
#define BOX_MEMORY_WORDS 2560

/* The flag of the interrupt. No call on this box raises it: the box has no Rx buffers. */
#define ITS_FLAG CUONGPHEMI_FLAG_RX_BUFFER

enum way { NEITHER, MASKED, OWN_RECORDS };

/* What the main code is at when the interrupt comes. The first four calls own the record. */
enum doing {
    RECEIVE, REPORT, CANCEL, CLEAR, READ, ACKNOWLEDGE, REQUEST, CHOICE, EVENT, SETTLE, STATUS, MERGE, ELSE, DOINGS
};

#define OWNERS 4

static const char *const doing_names[DOINGS] = {
    [RECEIVE] = "receive",          [REPORT] = "report_sent", [CANCEL] = "cancel",
    [CLEAR] = "clear_flags",        [READ] = "read_fifo",     [ACKNOWLEDGE] = "acknowledge_fifo",
    [REQUEST] = "request",          [CHOICE] = "ask_choice",  [EVENT] = "read_event",
    [SETTLE] = "acknowledge_event", [STATUS] = "status",      [MERGE] = "the merge",
    [ELSE] = "else",
};

/* ---- the box, and what the two sides share */

static uint32_t state[CUONGPHEMI_STATE_WORDS];
static union {
    uint32_t words[CUONGPHEMI_RECORD_WORDS];
    struct cuongphemi_record record;
} status;
static uint32_t memory[BOX_MEMORY_WORDS];
static uint32_t answer[CUONGPHEMI_ANSWER_WORDS];
static uint8_t output[CUONGPHEMI_OUTPUT_BYTES];

#define BOX state, CUONGPHEMI_STATE_WORDS, status.words, CUONGPHEMI_RECORD_WORDS, memory, BOX_MEMORY_WORDS
#define ANSWER answer, CUONGPHEMI_ANSWER_WORDS
#define OUTPUT output, CUONGPHEMI_OUTPUT_BYTES

static enum way way;
static struct cuongphemi_record own[2];
static volatile sig_atomic_t own_now;
static volatile sig_atomic_t raised;
static volatile sig_atomic_t doing = ELSE;
static volatile sig_atomic_t came_while[DOINGS];

/* ---- the interrupt */

static void interrupt(int signal)
{
    (void)signal;
    cuongphemi_flags_raise(way == OWN_RECORDS ? &own[own_now] : &status.record, ITS_FLAG);
    came_while[doing]++;
    raised++;
}

/* Orders one interrupt, some microseconds from now. */
static void order_interrupt(void)
{
    static uint32_t random = 1;
    random = random * UINT32_C(1664525) + UINT32_C(1013904223);
    struct itimerval soon = {.it_value = {.tv_usec = 1 + (random >> 16) % 20}};
    setitimer(ITIMER_REAL, &soon, NULL);
}

static void mask(int how)
{
    sigset_t alarm;
    sigemptyset(&alarm);
    sigaddset(&alarm, SIGALRM);
    sigprocmask(how, &alarm, NULL);
}

/* ---- the main code */

static void fail(const char *what)
{
    printf("interrupts: %s\n", what);
    exit(1);
}

/* A call that only reads the record. */
#define CALL(at, call)                                                                                      \
    do {                                                                                                    \
        doing = at;                                                                                         \
        if ((call) != 0)                                                                                    \
            fail(#call " is refused");                                                                      \
        doing = ELSE;                                                                                       \
    } while (0)

/* A call that owns it. */
#define OWNING_CALL(at, call)                                                                               \
    do {                                                                                                    \
        if (way == MASKED)                                                                                  \
            mask(SIG_BLOCK);                                                                                \
        CALL(at, call);                                                                                     \
        if (way == MASKED)                                                                                  \
            mask(SIG_UNBLOCK);                                                                              \
    } while (0)

/* Brings what the interrupt raised into the box's record. It goes on with its other record, so this one is still. */
static void merge(void)
{
    doing = MERGE;
    int old = own_now;
    own_now = 1 - old;
    cuongphemi_flags_raise(&status.record, cuongphemi_flags_take(&own[old]));
    doing = ELSE;
}

/* FIFO 0 of 4 elements, which takes all frames; one dedicated Tx buffer; 4 events. */
static void start(void)
{
    uint32_t registers[CUONGPHEMI_REGISTER_WORDS] = {
        [2] = UINT32_C(4) << 16 | 16 << 2,
        [6] = UINT32_C(4) << 16 | 100 << 2,
        [7] = UINT32_C(1) << 16 | 200 << 2,
        [CUONGPHEMI_REGISTER_MEMORY_WORDS] = BOX_MEMORY_WORDS,
    };
    memset(own, 0, sizeof own);
    OWNING_CALL(ELSE, cuongphemi_start(BOX, registers, CUONGPHEMI_REGISTER_WORDS, ANSWER));
}

/* A frame is received, read and acknowledged, one sent with its event, one cancelled, and their flags cleared. */
static void make_calls(void)
{
    static const uint32_t frame[CUONGPHEMI_FRAME_WORDS] = {[0] = 0x123, [6] = 8};
    static const uint8_t data[8] = {1, 2, 3, 4, 5, 6, 7, 8};
    OWNING_CALL(RECEIVE, cuongphemi_receive(BOX, frame, CUONGPHEMI_FRAME_WORDS, data, 8, 0, ANSWER));
    uint32_t place = answer[2];
    CALL(READ, cuongphemi_read_fifo(BOX, 0, place, OUTPUT, ANSWER));
    CALL(ACKNOWLEDGE, cuongphemi_acknowledge_fifo(BOX, 0, place));
    CALL(REQUEST, cuongphemi_request_dedicated(BOX, 0, frame, CUONGPHEMI_FRAME_WORDS, data, 8, 0, 1, ANSWER));
    CALL(CHOICE, cuongphemi_ask_choice(BOX, 0, OUTPUT, ANSWER));
    OWNING_CALL(REPORT, cuongphemi_report_sent(BOX, 0, 0, 0));
    CALL(STATUS, cuongphemi_status(BOX, ANSWER));
    uint32_t event = answer[7];
    CALL(EVENT, cuongphemi_read_event(BOX, event, ANSWER));
    CALL(SETTLE, cuongphemi_acknowledge_event(BOX, event));
    CALL(REQUEST, cuongphemi_request_dedicated(BOX, 0, frame, CUONGPHEMI_FRAME_WORDS, data, 8, 0, 0, ANSWER));
    OWNING_CALL(CANCEL, cuongphemi_cancel(BOX, 0));
    OWNING_CALL(CLEAR, cuongphemi_clear_flags(BOX, ~ITS_FLAG));
}

/* Calls until one more interrupt came. */
static void call_until_raised(int before)
{
    order_interrupt();
    for (long rounds = 0; raised == before; rounds++) {
        if (rounds > 10000000)
            fail("the timer brings no interrupt");
        make_calls();
        if (way == OWN_RECORDS)
            merge();
    }
}

/* So many interrupts: how many of their flags came into the box's record. */
static int found_of_all(enum way taken)
{
    int found = 0;
    way = taken;
    raised = 0;
    own_now = 0;
    for (int i = 0; i < DOINGS; i++)
        came_while[i] = 0;
    start();
    for (int i = 0; i < INTERRUPTS; i++) {
        call_until_raised(i);
        /* It may have come after the last merge had emptied its record. */
        if (way == OWN_RECORDS)
            merge();
        atomic_signal_fence(memory_order_seq_cst);
        found += (status.record.flags & ITS_FLAG) != 0;
        OWNING_CALL(CLEAR, cuongphemi_clear_flags(BOX, ITS_FLAG));
        if ((status.record.flags & ITS_FLAG) != 0)
            fail("a flag is up that was cleared");
    }
    if (raised != INTERRUPTS)
        fail("an interrupt came that was not ordered");
    return found;
}

static void print(const char *name, int found)
{
    int owned = 0;
    for (int i = 0; i < OWNERS; i++)
        owned += came_while[i];
    printf("%s: %d raised, %d while a call owned the record; %d found\n", name, INTERRUPTS, owned, found);
    printf("    they came in");
    for (int i = 0; i < DOINGS; i++)
        printf("%s %s %d", i == 0 ? "" : ",", doing_names[i], (int)came_while[i]);
    printf("\n");
}

int main(int count, char **arguments)
{
    struct sigaction action = {.sa_handler = interrupt};
    sigemptyset(&action.sa_mask);
    sigaction(SIGALRM, &action, NULL);

    if (count == 2 && strcmp(arguments[1], "--control") == 0) {
        int found = found_of_all(NEITHER);
        print("neither", found);
        printf("interrupts: %d of %d lost in neither way\n", INTERRUPTS - found, INTERRUPTS);
        return found == INTERRUPTS;
    }
    int masked = found_of_all(MASKED);
    print("masked", masked);
    int own_records = found_of_all(OWN_RECORDS);
    print("own", own_records);
    /* Unmasked it must have met every call, or nothing was tried. */
    for (int i = 0; i < DOINGS; i++)
        if (came_while[i] == 0)
            fail("it never came while some call was under way");
    if (masked != INTERRUPTS || own_records != INTERRUPTS) {
        printf("interrupts: %d and %d of %d\n", masked, own_records, INTERRUPTS);
        return 1;
    }
    printf("interrupts: %d of %d, twice\n", INTERRUPTS, INTERRUPTS);
    return 0;
}
