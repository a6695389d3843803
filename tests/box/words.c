/*
 * What the header's macros make, against words that document 01 gives: the registers of case A, the filters of case B,
 * and its tables of sizes and lengths. To be compiled, as C and as C++: there is nothing to run.
 */
#include <assert.h>

#include "cuongphemi.h"

/* case A */
static_assert(CUONGPHEMI_SIDFC(4, 0) == 0x00040000, "SIDFC");
static_assert(CUONGPHEMI_XIDFC(2, 4) == 0x00020010, "XIDFC");
static_assert(CUONGPHEMI_RXFC(CUONGPHEMI_FIFO_BLOCKS, 0, 8, 8) == 0x00080020, "RXF0C");
static_assert(CUONGPHEMI_RXFC(CUONGPHEMI_FIFO_BLOCKS, 0, 4, 152) == 0x00040260, "RXF1C");
static_assert(CUONGPHEMI_RXBC(168) == 0x2A0, "RXBC");
static_assert(CUONGPHEMI_RXESC(CUONGPHEMI_SIZE_64, CUONGPHEMI_SIZE_8, CUONGPHEMI_SIZE_64) == 0x707, "RXESC");
static_assert(CUONGPHEMI_TXEFC(0, 4, 258) == 0x00040408, "TXEFC");
static_assert(CUONGPHEMI_TXBC(CUONGPHEMI_SHARED_IS_FIFO, 6, 2, 266) == 0x06020428, "TXBC");
static_assert(CUONGPHEMI_TXESC(CUONGPHEMI_SIZE_64) == 7, "TXESC");
static_assert(CUONGPHEMI_GFC(CUONGPHEMI_NO_MATCH_TO_FIFO0, CUONGPHEMI_NO_MATCH_TO_FIFO0, CUONGPHEMI_NO,
                             CUONGPHEMI_NO) == 0, "GFC");

/* the fields that are 0 in case A, each at its most */
static_assert(CUONGPHEMI_RXFC(CUONGPHEMI_FIFO_OVERWRITES, 0x7F, 0x7F, 0x3FFF) == 0xFF7FFFFC, "all of RXF0C");
static_assert(CUONGPHEMI_RXESC(0, 7, 0) == 0x070, "FIFO 1 in RXESC");
static_assert(CUONGPHEMI_TXEFC(0x3F, 0x3F, 0x3FFF) == 0x3F3FFFFC, "all of TXEFC");
static_assert(CUONGPHEMI_TXBC(CUONGPHEMI_SHARED_IS_QUEUE, 0x3F, 0x3F, 0x3FFF) == 0x7F3FFFFC, "all of TXBC");
static_assert(CUONGPHEMI_GFC(2, 1, CUONGPHEMI_YES, CUONGPHEMI_NO) == 0x26, "each of GFC");

/* a value that doesn't fit its field is a word that every start refuses */
static_assert(CUONGPHEMI_RXFC(CUONGPHEMI_FIFO_BLOCKS, 0x80, 8, 8) == 0xFFFFFFFF, "watermark");
static_assert(CUONGPHEMI_SIDFC(4, 0x4000) == 0xFFFFFFFF, "start");
static_assert(CUONGPHEMI_TXESC(8) == 0xFFFFFFFF, "size");
static_assert(CUONGPHEMI_SIDFC(UINT64_C(0x100000001), 0) == 0xFFFFFFFF, "a count of 33 bits");
static_assert(CUONGPHEMI_SIDFC(-1, 0) == 0xFFFFFFFF && CUONGPHEMI_RXBC(-INT64_C(0x100000000)) == 0xFFFFFFFF, "signed");
static_assert(CUONGPHEMI_FITS(7, CUONGPHEMI_TXESC_SIZE) && !CUONGPHEMI_FITS(8, CUONGPHEMI_TXESC_SIZE), "fits");

/* the named bits of a register are its fields at their most */
static_assert(CUONGPHEMI_SIDFC_NAMED == CUONGPHEMI_SIDFC(0xFF, 0x3FFF), "SIDFC's bits");
static_assert(CUONGPHEMI_XIDFC_NAMED == CUONGPHEMI_XIDFC(0x7F, 0x3FFF), "XIDFC's bits");
static_assert(CUONGPHEMI_RXFC_NAMED == CUONGPHEMI_RXFC(1, 0x7F, 0x7F, 0x3FFF), "RXF0C's and RXF1C's bits");
static_assert(CUONGPHEMI_RXBC_NAMED == CUONGPHEMI_RXBC(0x3FFF), "RXBC's bits");
static_assert(CUONGPHEMI_RXESC_NAMED == CUONGPHEMI_RXESC(7, 7, 7), "RXESC's bits");
static_assert(CUONGPHEMI_TXEFC_NAMED == CUONGPHEMI_TXEFC(0x3F, 0x3F, 0x3FFF), "TXEFC's bits");
static_assert(CUONGPHEMI_TXBC_NAMED == CUONGPHEMI_TXBC(1, 0x3F, 0x3F, 0x3FFF), "TXBC's bits");
static_assert(CUONGPHEMI_TXESC_NAMED == CUONGPHEMI_TXESC(7), "TXESC's bits");
static_assert(CUONGPHEMI_GFC_NAMED == CUONGPHEMI_GFC(3, 3, 1, 1), "GFC's bits");
static_assert(CUONGPHEMI_XIDAM_NAMED == CUONGPHEMI_ID_29_MOST, "XIDAM's bits");

/* case B */
#define FILTER(type, action, id1, id2) \
    CUONGPHEMI_FILTER_11(CUONGPHEMI_FILTER_##type, CUONGPHEMI_ACTION_##action, id1, id2)
static_assert(FILTER(RANGE, REJECT, 0x16, 0x20) == 0x18160020, "filter 0");
static_assert(FILTER(EITHER, FIFO1, 0x15, 0x120) == 0x50150120, "filter 1");
static_assert(CUONGPHEMI_FILTER_11_TO_BUFFER(0x130, 4) == 0x39300004, "filter 2");
static_assert(FILTER(MASKED, FIFO0, 0x700, 0x7CF) == 0x8F0007CF, "filter 3");

/* and of 29 bits, by the positions of the fields */
#define FIRST(type, action, id1, id2) \
    CUONGPHEMI_FILTER_29_FIRST(CUONGPHEMI_FILTER_##type, CUONGPHEMI_ACTION_##action, id1, id2)
#define SECOND(type, action, id1, id2) \
    CUONGPHEMI_FILTER_29_SECOND(CUONGPHEMI_FILTER_##type, CUONGPHEMI_ACTION_##action, id1, id2)
static_assert(FIRST(29_RANGE_WITHOUT_XIDAM, PRIORITY_FIFO1, 0x1FFFFFFF, 1) == 0xDFFFFFFF, "F0");
static_assert(SECOND(29_RANGE_WITHOUT_XIDAM, PRIORITY_FIFO1, 0x1FFFFFFF, 1) == 0xC0000001, "F1");
static_assert(CUONGPHEMI_FILTER_29_TO_BUFFER_FIRST(0x12345678, 63) == 0xF2345678, "F0 to a buffer");
static_assert(CUONGPHEMI_FILTER_29_TO_BUFFER_SECOND(0x12345678, 63) == 63, "F1 to a buffer");

/* a value that doesn't fit, each of them, makes a filter element that is off */
static_assert(CUONGPHEMI_FILTER_11(4, 1, 0, 0) == 0 && CUONGPHEMI_FILTER_11(0, 8, 0, 0) == 0
              && CUONGPHEMI_FILTER_11(0, 1, 0x800, 0) == 0 && CUONGPHEMI_FILTER_11(0, 1, 0, 0x800) == 0
              && CUONGPHEMI_FILTER_11(0, 1, 0, -1) == 0, "11 bits");
static_assert(CUONGPHEMI_FILTER_11_TO_BUFFER(0x800, 4) == 0 && CUONGPHEMI_FILTER_11_TO_BUFFER(0x130, 64) == 0
              && CUONGPHEMI_FILTER_11_TO_BUFFER(0x130, UINT64_C(0x100000004)) == 0, "11 bits to a buffer");
#define OFF_29(type, action, id1, id2) \
    (CUONGPHEMI_FILTER_29_FIRST(type, action, id1, id2) == 0 \
     && CUONGPHEMI_FILTER_29_SECOND(type, action, id1, id2) == 0)
static_assert(OFF_29(4, 1, 0, 1) && OFF_29(3, 8, 0, 1) && OFF_29(3, 1, 0x20000000, 1) && OFF_29(3, 1, 0, 0x20000000)
              && OFF_29(3, 1, 0, UINT64_C(0x100000001)), "29 bits");
static_assert(CUONGPHEMI_FILTER_29_TO_BUFFER_FIRST(0x20000000, 4) == 0
              && CUONGPHEMI_FILTER_29_TO_BUFFER_SECOND(0x20000000, 4) == 0
              && CUONGPHEMI_FILTER_29_TO_BUFFER_FIRST(0, 64) == 0
              && CUONGPHEMI_FILTER_29_TO_BUFFER_SECOND(0, 64) == 0, "29 bits to a buffer");

/* in ID2 of action 7: bits 5:0 and 10:9 */
static_assert(CUONGPHEMI_PUT(CUONGPHEMI_FILTER_BUFFER_MASK, CUONGPHEMI_FILTER_BUFFER) == 0x03F, "buffer");
static_assert(CUONGPHEMI_PUT(CUONGPHEMI_FILTER_DEBUG_MASK, CUONGPHEMI_FILTER_DEBUG) == 0x600, "debug");

/* element sizes and data lengths */
#define WORDS(bytes) CUONGPHEMI_ELEMENT_WORDS(CUONGPHEMI_SIZE_##bytes)
static_assert(WORDS(8) == 4 && WORDS(12) == 5 && WORDS(16) == 6 && WORDS(20) == 7 && WORDS(24) == 8 && WORDS(32) == 10
              && WORDS(48) == 14 && WORDS(64) == 18, "words of elements");
static_assert(CUONGPHEMI_DATA_BYTES(0, 1, 8) == 8 && CUONGPHEMI_DATA_BYTES(0, 1, 9) == 12
              && CUONGPHEMI_DATA_BYTES(0, 1, 10) == 16 && CUONGPHEMI_DATA_BYTES(0, 1, 11) == 20
              && CUONGPHEMI_DATA_BYTES(0, 1, 12) == 24 && CUONGPHEMI_DATA_BYTES(0, 1, 13) == 32
              && CUONGPHEMI_DATA_BYTES(0, 1, 14) == 48 && CUONGPHEMI_DATA_BYTES(0, 1, 15) == 64, "FD");
static_assert(CUONGPHEMI_DATA_BYTES(0, 0, 7) == 7 && CUONGPHEMI_DATA_BYTES(0, 0, 15) == 8
              && CUONGPHEMI_DATA_BYTES(1, 0, 8) == 0, "classic and remote");
static_assert(CUONGPHEMI_DATA_BYTES(0, 1, 16) == CUONGPHEMI_DATA_BYTES_MOST && CUONGPHEMI_DATA_BYTES(0, 0, 16) == 8
              && CUONGPHEMI_DATA_BYTES(0, 1, UINT32_MAX) == CUONGPHEMI_DATA_BYTES_MOST, "a DLC over 15");

/* a buffer's bit in its word */
static_assert(CUONGPHEMI_BUFFER_BIT(0) == 1 && CUONGPHEMI_BUFFER_BIT(31) == 0x80000000
              && CUONGPHEMI_BUFFER_BIT(32) == 1 && CUONGPHEMI_BUFFER_BIT(63) == 0x80000000, "bits of buffers");

/* the registers' last word; the state's first and last of its own */
static_assert(CUONGPHEMI_REGISTER_MEMORY_WORDS == CUONGPHEMI_REGISTER_WORDS - 1, "registers");
static_assert(CUONGPHEMI_STATE_FIFO0_OLDEST == CUONGPHEMI_REGISTER_WORDS
              && CUONGPHEMI_STATE_CANCELLED == CUONGPHEMI_STATE_WORDS - 1, "state");

/* flags 0 to 15 and 19; the answers' last words */
static_assert(CUONGPHEMI_FLAGS_ALL == (0xFFFF | CUONGPHEMI_FLAG_RX_BUFFER), "flags");
static_assert(CUONGPHEMI_START_WORDS(CUONGPHEMI_SECTION_TX_BUFFERS) == CUONGPHEMI_START_ANSWER_WORDS - 1, "start");
static_assert(CUONGPHEMI_START_ANSWER_WORDS == CUONGPHEMI_ANSWER_WORDS, "the longest answer");
static_assert(CUONGPHEMI_RECEIVE_FILTER == CUONGPHEMI_RECEIVE_ANSWER_WORDS - 1, "receive");
static_assert(CUONGPHEMI_READ_FRAME + CUONGPHEMI_FRAME_WORDS == CUONGPHEMI_READ_TIME
              && CUONGPHEMI_READ_BYTES == CUONGPHEMI_READ_ANSWER_WORDS - 1, "read");
static_assert(CUONGPHEMI_REQUEST_BUFFER == CUONGPHEMI_REQUEST_ANSWER_WORDS - 1, "request");
static_assert(CUONGPHEMI_CHOICE_FRAME + CUONGPHEMI_FRAME_WORDS == CUONGPHEMI_CHOICE_BYTES
              && CUONGPHEMI_CHOICE_BYTES == CUONGPHEMI_CHOICE_ANSWER_WORDS - 1, "choice");
static_assert(CUONGPHEMI_EVENT_FRAME + CUONGPHEMI_FRAME_WORDS == CUONGPHEMI_EVENT_MARKER
              && CUONGPHEMI_EVENT_TIME == CUONGPHEMI_EVENT_ANSWER_WORDS - 1, "event");
static_assert(CUONGPHEMI_STATUS_PUT(CUONGPHEMI_RING_SHARED) == CUONGPHEMI_STATUS_PENDING - 1
              && CUONGPHEMI_STATUS_PENDING == CUONGPHEMI_STATUS_ANSWER_WORDS - 1, "status");
static_assert(sizeof(struct cuongphemi_record) == CUONGPHEMI_RECORD_WORDS * sizeof(uint32_t), "record");
