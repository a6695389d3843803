/*
 * Cuongphemi: a CAN message handler in software, for C.
 *
 * The handler keeps received frames in two FIFOs and in Rx buffers, holds frames to send in dedicated and shared Tx
 * buffers, says which of them goes out next, and lists what was sent. It knows no bus: the caller hands it the frames
 * that arrive and sends those that it names.
 *
 * Nothing is kept inside. A box of the caller's is three buffers, lent to each call: the state (28 words), the record
 * of flags and priority (2 words) and the memory. The memory has 1 to 4,352 words: the box chooses, and says so at the
 * start and with each call. Several boxes are several such threes. There is no heap, no global and no input or output,
 * and every call ends. What each one returns and writes is proved for every input; nothing but what is named below is
 * written.
 *
 * The archive libcuongphemi.a is compiled for x86-64 Linux (ELF objects, the System V calling convention), and nothing
 * else has to be linked. For any other target the Rattle source is the product: its toolchain compiles for x86-64
 * Linux alone.
 *
 * To begin:
 *     1. call cuongphemi_never_started on the state, before the first start;
 *     2. write the filter elements into the memory; the rest of it may be any words, and no start writes it;
 *     3. call cuongphemi_start with the registers, the memory's length among them.
 * After step 1 every other call, until a start is accepted, returns 20 (CUONGPHEMI_REFUSED_UNFIT), or 100 or 101,
 * which are judged first. cuongphemi_never_started is the call made for it, and the one to use. A zeroed state serves
 * as well, because its memory length is 0, which no start accepts. Words that were left from elsewhere do not: they
 * may be taken for a started box.
 *
 * The caller's duty. A buffer is a pointer and the number of its words or bytes. The pointer is not null, also with a
 * count of 0; it is aligned for its type; so many words or bytes stand behind it; and no buffer that a call may write
 * overlaps another of the same call. Every other wrong argument is told by the number that the call returns, and so
 * are a state and a record that do not fit. Nothing is told of the memory's words, which may be any, nor of a state or
 * a record that was changed and is still a possible one. Two calls on the same box are not made at the same time, nor
 * one from an interrupt while another runs; "Interrupts", below, says what an interrupt may do.
 */
#ifndef CUONGPHEMI_H
#define CUONGPHEMI_H

#include <stddef.h>
#include <stdint.h>

#ifdef __cplusplus
extern "C" {
#endif

/*
 * ---- the version of this interface, and as one number to compare. What old programs must be changed for raises the
 * major, what is added the minor, and what changes neither the patch.
 */
#define CUONGPHEMI_VERSION_MAJOR 2
#define CUONGPHEMI_VERSION_MINOR 0
#define CUONGPHEMI_VERSION_PATCH 0
#define CUONGPHEMI_VERSION \
    (CUONGPHEMI_VERSION_MAJOR * 10000 + CUONGPHEMI_VERSION_MINOR * 100 + CUONGPHEMI_VERSION_PATCH)

/*
 * ---- the numbers that the calls return
 *
 * Where several apply, 100 is returned before 101, both before the others, and of those the lowest. A refused call,
 * any number but 0, stores nothing to state, record, memory, output or answer; the one exception is that a start that
 * returns 10 to 15 writes the two sections that it names into its answer.
 */
#define CUONGPHEMI_ACCEPTED 0
/* of a start alone */
#define CUONGPHEMI_REFUSED_WRONG_MEMORY 10    /* the memory's length that the registers give is 0, is over
                                                 CUONGPHEMI_MEMORY_MOST or isn't that of the lent memory */
#define CUONGPHEMI_REFUSED_UNNAMED_BIT 11     /* a register has a bit set that has no name */
#define CUONGPHEMI_REFUSED_COUNT_OVER 12      /* a count is over its most; names the first such section */
#define CUONGPHEMI_REFUSED_TX_OVER 13         /* dedicated and shared Tx buffers together are over 32 */
#define CUONGPHEMI_REFUSED_PAST_MEMORY 14     /* a section ends past the given length; names the first such section */
#define CUONGPHEMI_REFUSED_OVERLAP 15         /* two sections share a word; names the first such pair, by
                                                 its lower section, then by the other */
/* of every call but a start */
#define CUONGPHEMI_REFUSED_UNFIT 20           /* the state doesn't fit its registers, this memory (of another length
                                                 than the start was given, for one) or the record, or was never
                                                 started */
/* of the calls that say so */
#define CUONGPHEMI_REFUSED_MALFORMED 21       /* the frame: an 11-bit identifier over 0x7FF, a 29-bit one over
                                                 0x1FFFFFFF, a DLC over 15, FD with remote, BRS or ESI without FDF, or
                                                 data bytes other than CUONGPHEMI_DATA_BYTES says */
#define CUONGPHEMI_REFUSED_FD_OFF 22          /* an FD frame is received while FD is off */
#define CUONGPHEMI_REFUSED_NO_SUCH 23         /* no such FIFO, place or buffer; a dedicated request of a shared one */
#define CUONGPHEMI_REFUSED_ALREADY_PENDING 24 /* the dedicated buffer is already pending */
#define CUONGPHEMI_REFUSED_NONE_FREE 25       /* no shared buffer is free, or there are none */
#define CUONGPHEMI_REFUSED_IN_SHARED_FIFO 26  /* a buffer of a shared FIFO can't be cancelled */
#define CUONGPHEMI_REFUSED_NOT_PENDING 27     /* nothing is pending there to be cancelled */
#define CUONGPHEMI_REFUSED_NOT_THE_CHOICE 28  /* what is reported sent isn't the present choice */
#define CUONGPHEMI_REFUSED_NOT_HELD 29        /* what is to be read, acknowledged or released isn't held */
#define CUONGPHEMI_REFUSED_WRONG_OUTPUT 30    /* the output isn't 64 bytes */
/* of every call, before its own numbers */
#define CUONGPHEMI_REFUSED_WRONG_LENGTH 100   /* of state, record, registers, frame or answer */
#define CUONGPHEMI_REFUSED_NOT_YES_OR_NO 101  /* a word that says yes or no is neither: in the arguments or, but for a
                                                 start, in the state (words 12 and 13), which is why a state that was
                                                 never written often gives 101 and not 20 */

/* A word that says yes or no. */
#define CUONGPHEMI_NO 0
#define CUONGPHEMI_YES 1

/* ---- how many words or bytes the buffers have */

#define CUONGPHEMI_STATE_WORDS 28
#define CUONGPHEMI_RECORD_WORDS 2
#define CUONGPHEMI_MEMORY_MOST 4352           /* a memory has 1 to so many words */
#define CUONGPHEMI_REGISTER_WORDS 15
#define CUONGPHEMI_FRAME_WORDS 7
#define CUONGPHEMI_ANSWER_WORDS 16
#define CUONGPHEMI_OUTPUT_BYTES 64

/*
 * ---- fields of words
 *
 * A field NAME stands in a word from bit NAME_SHIFT on, and NAME_MASK is its largest value. CUONGPHEMI_TAKE(word,
 * NAME) is the field's value in a word; CUONGPHEMI_PUT(value, NAME) is a word with that field alone, to be ORed with
 * others. A value that does not fit, one over the field's largest or below 0, makes it a word of ones, which as a
 * register every start refuses (CUONGPHEMI_REFUSED_UNNAMED_BIT). A value may have up to 64 bits, and
 * CUONGPHEMI_FITS(value, NAME) says whether it fits. The macros of this header are constant where their arguments are,
 * and may evaluate an argument more than once.
 */
#define CUONGPHEMI_TAKE(word, name) ((uint32_t)(word) >> name##_SHIFT & name##_MASK)
#define CUONGPHEMI_FITS(value, name) (((uint64_t)(value) & ~(uint64_t)name##_MASK) == 0)
#define CUONGPHEMI_PUT(value, name) \
    (CUONGPHEMI_FITS(value, name) ? (uint32_t)(value) << name##_SHIFT : UINT32_C(0xFFFFFFFF))

/*
 * ---- the registers: the words that a start is given
 *
 * Every bit that has no name must be 0. A section's start is its first word's number in the memory; where the count is
 * 0 it plays no part. Below each register: its fields, its named bits (NAMED: all its fields together), and a macro
 * that makes the word of them. The words 11 to 14 have no fields.
 */
#define CUONGPHEMI_REGISTER_SIDFC 0           /* 11-bit filters */
#define CUONGPHEMI_REGISTER_XIDFC 1           /* 29-bit filters */
#define CUONGPHEMI_REGISTER_RXF0C 2           /* Rx FIFO 0 */
#define CUONGPHEMI_REGISTER_RXF1C 3           /* Rx FIFO 1 */
#define CUONGPHEMI_REGISTER_RXBC 4            /* Rx buffers */
#define CUONGPHEMI_REGISTER_RXESC 5           /* sizes of what is received */
#define CUONGPHEMI_REGISTER_TXEFC 6           /* Tx events */
#define CUONGPHEMI_REGISTER_TXBC 7            /* Tx buffers */
#define CUONGPHEMI_REGISTER_TXESC 8           /* size of what is sent */
#define CUONGPHEMI_REGISTER_GFC 9             /* frames that no filter matches, remote frames */
#define CUONGPHEMI_REGISTER_XIDAM 10          /* mask for 29-bit identifiers */
#define CUONGPHEMI_REGISTER_RX_BUFFERS 11     /* how many Rx buffers, to CUONGPHEMI_RX_BUFFERS_MOST */
#define CUONGPHEMI_REGISTER_FD_ON 12          /* yes or no; no: a received FD frame is refused, one to send goes out
                                                 as classic: the DLC stays, at most 8 bytes, no BRS, no ESI */
#define CUONGPHEMI_REGISTER_RATE_SWITCH_ON 13 /* yes or no; no: FD frames go out without BRS */
#define CUONGPHEMI_REGISTER_MEMORY_WORDS 14   /* the memory's length in words, 1 to CUONGPHEMI_MEMORY_MOST; it must be
                                                 the lent memory's */

/* The most that a start accepts of each; of the memory's words, CUONGPHEMI_MEMORY_MOST. */
#define CUONGPHEMI_FILTERS_11_MOST 128
#define CUONGPHEMI_FILTERS_29_MOST 64
#define CUONGPHEMI_FIFO_MOST 64
#define CUONGPHEMI_RX_BUFFERS_MOST 64
#define CUONGPHEMI_EVENTS_MOST 32
#define CUONGPHEMI_TX_BUFFERS_MOST 32         /* dedicated, shared, and both together */

/* Size codes: how many data bytes an element has room for. */
#define CUONGPHEMI_SIZE_8 0
#define CUONGPHEMI_SIZE_12 1
#define CUONGPHEMI_SIZE_16 2
#define CUONGPHEMI_SIZE_20 3
#define CUONGPHEMI_SIZE_24 4
#define CUONGPHEMI_SIZE_32 5
#define CUONGPHEMI_SIZE_48 6
#define CUONGPHEMI_SIZE_64 7

/* How many words an element takes: of a FIFO, an Rx or a Tx buffer, by its size code; a filter; an event. */
#define CUONGPHEMI_ELEMENT_WORDS(size) ((size) <= 4 ? 4 + (size) : (size) == 5 ? 10 : (size) == 6 ? 14 : 18)
#define CUONGPHEMI_FILTER_11_WORDS 1
#define CUONGPHEMI_FILTER_29_WORDS 2
#define CUONGPHEMI_EVENT_WORDS 2

/* SIDFC, to 128 filters; XIDFC, to 64. */
#define CUONGPHEMI_SIDFC_COUNT_SHIFT 16
#define CUONGPHEMI_SIDFC_COUNT_MASK 0xFFu
#define CUONGPHEMI_SIDFC_START_SHIFT 2
#define CUONGPHEMI_SIDFC_START_MASK 0x3FFFu
#define CUONGPHEMI_SIDFC_NAMED UINT32_C(0x00FFFFFC)
#define CUONGPHEMI_SIDFC(count, start) \
    (CUONGPHEMI_PUT(count, CUONGPHEMI_SIDFC_COUNT) | CUONGPHEMI_PUT(start, CUONGPHEMI_SIDFC_START))

#define CUONGPHEMI_XIDFC_COUNT_SHIFT 16
#define CUONGPHEMI_XIDFC_COUNT_MASK 0x7Fu
#define CUONGPHEMI_XIDFC_START_SHIFT 2
#define CUONGPHEMI_XIDFC_START_MASK 0x3FFFu
#define CUONGPHEMI_XIDFC_NAMED UINT32_C(0x007FFFFC)
#define CUONGPHEMI_XIDFC(count, start) \
    (CUONGPHEMI_PUT(count, CUONGPHEMI_XIDFC_COUNT) | CUONGPHEMI_PUT(start, CUONGPHEMI_XIDFC_START))

/*
 * RXF0C and RXF1C, to 64 elements each. A full FIFO loses what arrives (CUONGPHEMI_FIFO_BLOCKS) or overwrites its
 * oldest (CUONGPHEMI_FIFO_OVERWRITES). An overwrite is answered CUONGPHEMI_OUTCOME_IN_FIFO, and of the FIFO's flags it
 * raises NEW alone, not LOST. The watermark is the fill at which the watermark flag rises, 1 to the count. With 0, or
 * with more than the count, the flag never rises; a start accepts that.
 */
#define CUONGPHEMI_FIFO_BLOCKS 0
#define CUONGPHEMI_FIFO_OVERWRITES 1
#define CUONGPHEMI_RXFC_OVERWRITE_SHIFT 31
#define CUONGPHEMI_RXFC_OVERWRITE_MASK 1u
#define CUONGPHEMI_RXFC_WATERMARK_SHIFT 24
#define CUONGPHEMI_RXFC_WATERMARK_MASK 0x7Fu
#define CUONGPHEMI_RXFC_COUNT_SHIFT 16
#define CUONGPHEMI_RXFC_COUNT_MASK 0x7Fu
#define CUONGPHEMI_RXFC_START_SHIFT 2
#define CUONGPHEMI_RXFC_START_MASK 0x3FFFu
#define CUONGPHEMI_RXFC_NAMED UINT32_C(0xFF7FFFFC)
#define CUONGPHEMI_RXFC(overwrite, watermark, count, start) \
    (CUONGPHEMI_PUT(overwrite, CUONGPHEMI_RXFC_OVERWRITE) | CUONGPHEMI_PUT(watermark, CUONGPHEMI_RXFC_WATERMARK) \
     | CUONGPHEMI_PUT(count, CUONGPHEMI_RXFC_COUNT) | CUONGPHEMI_PUT(start, CUONGPHEMI_RXFC_START))

/* RXBC; their number is the word CUONGPHEMI_REGISTER_RX_BUFFERS. */
#define CUONGPHEMI_RXBC_START_SHIFT 2
#define CUONGPHEMI_RXBC_START_MASK 0x3FFFu
#define CUONGPHEMI_RXBC_NAMED UINT32_C(0x0000FFFC)
#define CUONGPHEMI_RXBC(start) CUONGPHEMI_PUT(start, CUONGPHEMI_RXBC_START)

/* RXESC and TXESC, of size codes. */
#define CUONGPHEMI_RXESC_FIFO0_SHIFT 0
#define CUONGPHEMI_RXESC_FIFO0_MASK 7u
#define CUONGPHEMI_RXESC_FIFO1_SHIFT 4
#define CUONGPHEMI_RXESC_FIFO1_MASK 7u
#define CUONGPHEMI_RXESC_RX_BUFFERS_SHIFT 8
#define CUONGPHEMI_RXESC_RX_BUFFERS_MASK 7u
#define CUONGPHEMI_RXESC_NAMED UINT32_C(0x00000777)
#define CUONGPHEMI_RXESC(fifo0, fifo1, rx_buffers) \
    (CUONGPHEMI_PUT(fifo0, CUONGPHEMI_RXESC_FIFO0) | CUONGPHEMI_PUT(fifo1, CUONGPHEMI_RXESC_FIFO1) \
     | CUONGPHEMI_PUT(rx_buffers, CUONGPHEMI_RXESC_RX_BUFFERS))

#define CUONGPHEMI_TXESC_SIZE_SHIFT 0
#define CUONGPHEMI_TXESC_SIZE_MASK 7u
#define CUONGPHEMI_TXESC_NAMED UINT32_C(0x00000007)
#define CUONGPHEMI_TXESC(size) CUONGPHEMI_PUT(size, CUONGPHEMI_TXESC_SIZE)

/* TXEFC, to 32 events; the watermark as that of an Rx FIFO. A full list loses the new event. */
#define CUONGPHEMI_TXEFC_WATERMARK_SHIFT 24
#define CUONGPHEMI_TXEFC_WATERMARK_MASK 0x3Fu
#define CUONGPHEMI_TXEFC_COUNT_SHIFT 16
#define CUONGPHEMI_TXEFC_COUNT_MASK 0x3Fu
#define CUONGPHEMI_TXEFC_START_SHIFT 2
#define CUONGPHEMI_TXEFC_START_MASK 0x3FFFu
#define CUONGPHEMI_TXEFC_NAMED UINT32_C(0x3F3FFFFC)
#define CUONGPHEMI_TXEFC(watermark, count, start) \
    (CUONGPHEMI_PUT(watermark, CUONGPHEMI_TXEFC_WATERMARK) | CUONGPHEMI_PUT(count, CUONGPHEMI_TXEFC_COUNT) \
     | CUONGPHEMI_PUT(start, CUONGPHEMI_TXEFC_START))

/*
 * TXBC, to 32 buffers together. Dedicated buffers have the lowest numbers, the shared ones follow. Shared buffers are
 * a FIFO, whose oldest alone may go out, or a queue, of which any may. A queue is not in order: of equal identifiers
 * that in the lowest-numbered buffer goes first, so a newer request in a lower buffer that came free overtakes older
 * ones. For messages of several frames the FIFO is right.
 */
#define CUONGPHEMI_SHARED_IS_FIFO 0
#define CUONGPHEMI_SHARED_IS_QUEUE 1
#define CUONGPHEMI_TXBC_QUEUE_SHIFT 30
#define CUONGPHEMI_TXBC_QUEUE_MASK 1u
#define CUONGPHEMI_TXBC_SHARED_SHIFT 24
#define CUONGPHEMI_TXBC_SHARED_MASK 0x3Fu
#define CUONGPHEMI_TXBC_DEDICATED_SHIFT 16
#define CUONGPHEMI_TXBC_DEDICATED_MASK 0x3Fu
#define CUONGPHEMI_TXBC_START_SHIFT 2
#define CUONGPHEMI_TXBC_START_MASK 0x3FFFu
#define CUONGPHEMI_TXBC_NAMED UINT32_C(0x7F3FFFFC)
#define CUONGPHEMI_TXBC(queue, shared, dedicated, start) \
    (CUONGPHEMI_PUT(queue, CUONGPHEMI_TXBC_QUEUE) | CUONGPHEMI_PUT(shared, CUONGPHEMI_TXBC_SHARED) \
     | CUONGPHEMI_PUT(dedicated, CUONGPHEMI_TXBC_DEDICATED) | CUONGPHEMI_PUT(start, CUONGPHEMI_TXBC_START))

/*
 * GFC. A frame that no filter element matches goes to FIFO 0, to FIFO 1, or is discarded (ANFS for 11-bit identifiers,
 * ANFE for 29-bit ones). Remote frames may all be rejected before the filters are asked (RRFS and RRFE, yes or no).
 */
#define CUONGPHEMI_NO_MATCH_TO_FIFO0 0
#define CUONGPHEMI_NO_MATCH_TO_FIFO1 1
#define CUONGPHEMI_NO_MATCH_DISCARDED 2
#define CUONGPHEMI_NO_MATCH_DISCARDED_TOO 3   /* the same as 2 */
#define CUONGPHEMI_GFC_ANFS_SHIFT 4
#define CUONGPHEMI_GFC_ANFS_MASK 3u
#define CUONGPHEMI_GFC_ANFE_SHIFT 2
#define CUONGPHEMI_GFC_ANFE_MASK 3u
#define CUONGPHEMI_GFC_RRFS_SHIFT 1
#define CUONGPHEMI_GFC_RRFS_MASK 1u
#define CUONGPHEMI_GFC_RRFE_SHIFT 0
#define CUONGPHEMI_GFC_RRFE_MASK 1u
#define CUONGPHEMI_GFC_NAMED UINT32_C(0x0000003F)
#define CUONGPHEMI_GFC(anfs, anfe, rrfs, rrfe) \
    (CUONGPHEMI_PUT(anfs, CUONGPHEMI_GFC_ANFS) | CUONGPHEMI_PUT(anfe, CUONGPHEMI_GFC_ANFE) \
     | CUONGPHEMI_PUT(rrfs, CUONGPHEMI_GFC_RRFS) | CUONGPHEMI_PUT(rrfe, CUONGPHEMI_GFC_RRFE))

/*
 * XIDAM, 29 bits. A 29-bit identifier is ANDed with it before it is compared with a filter element, but for the range
 * without XIDAM; the identifier that is stored is the whole one. ID1 and ID2 are not ANDed: one that has a bit outside
 * XIDAM equals no identifier (of a masked element: an ID1 whose bit is 1 in ID2 too). The reset value lets all bits
 * through. A start takes the word as it is given and knows no default: with a XIDAM of 0 every 29-bit identifier is
 * compared as 0.
 */
#define CUONGPHEMI_XIDAM_NAMED UINT32_C(0x1FFFFFFF)
#define CUONGPHEMI_XIDAM_RESET UINT32_C(0x1FFFFFFF)

/*
 * ---- the state's words
 *
 * Words 0 to 14 are the registers of the last accepted start, by the names above. A program may read the others; it
 * writes none. Places count from 0 in their section, those of the shared FIFO from 0 at the first shared buffer.
 */
#define CUONGPHEMI_STATE_FIFO0_OLDEST 15
#define CUONGPHEMI_STATE_FIFO0_FILL 16
#define CUONGPHEMI_STATE_FIFO1_OLDEST 17
#define CUONGPHEMI_STATE_FIFO1_FILL 18
#define CUONGPHEMI_STATE_EVENTS_OLDEST 19
#define CUONGPHEMI_STATE_EVENTS_FILL 20
#define CUONGPHEMI_STATE_SHARED_OLDEST 21     /* of a shared FIFO; 0 where it is a queue */
#define CUONGPHEMI_STATE_SHARED_FILL 22       /* of a shared FIFO; 0 where it is a queue */
#define CUONGPHEMI_STATE_NEW_DATA_LOW 23      /* a bit for each of Rx buffers 0 to 31 that holds new data */
#define CUONGPHEMI_STATE_NEW_DATA_HIGH 24     /* and for 32 to 63 */
#define CUONGPHEMI_STATE_PENDING 25           /* a bit for each Tx buffer that waits to be sent */
#define CUONGPHEMI_STATE_SENT 26              /* whose latest request was sent; a new request clears it */
#define CUONGPHEMI_STATE_CANCELLED 27         /* whose latest request was cancelled; a new request clears it */

/* A buffer's bit in these words; that of Rx buffers 32 to 63 in CUONGPHEMI_STATE_NEW_DATA_HIGH. */
#define CUONGPHEMI_BUFFER_BIT(buffer) (UINT32_C(1) << ((buffer)&31))

/* ---- a frame's words. 1 to 5 say yes or no. */

#define CUONGPHEMI_FRAME_ID 0
#define CUONGPHEMI_FRAME_XTD 1                /* the identifier has 29 bits, else 11 */
#define CUONGPHEMI_FRAME_RTR 2                /* remote */
#define CUONGPHEMI_FRAME_FDF 3                /* FD, else classic */
#define CUONGPHEMI_FRAME_BRS 4                /* the bit rate switches */
#define CUONGPHEMI_FRAME_ESI 5                /* the sender is error passive */
#define CUONGPHEMI_FRAME_DLC 6                /* 0 to 15 */

#define CUONGPHEMI_ID_11_MOST 0x7FFu
#define CUONGPHEMI_ID_29_MOST 0x1FFFFFFFu
#define CUONGPHEMI_DLC_MOST 15
#define CUONGPHEMI_DATA_BYTES_MOST 64

/*
 * How many data bytes a frame has. Remote: none. DLC 0 to 8: as many. DLC 9 to 15: 8 in a classic frame; 12, 16, 20,
 * 24, 32, 48, 64 in an FD frame. A DLC over 15, which no call accepts, counts as 15.
 */
#define CUONGPHEMI_DATA_BYTES(rtr, fdf, dlc) \
    ((rtr) ? 0 : (dlc) <= 8 ? (dlc) : !(fdf) ? 8 : (dlc) <= 12 ? 4 * ((dlc)-6) : (dlc) <= 14 ? 16 * ((dlc)-11) : 64)

/*
 * ---- filter elements, which the caller writes into the memory's filter sections
 *
 * Element i of the 11-bit list is the word start + i; of the 29-bit list, the words start + 2i and start + 2i + 1.
 * The list of the frame's kind is tried from element 0, and the first element that matches decides. No call refuses a
 * filter word, whatever it is. The words may be rewritten at any time between two calls; the next receive uses them.
 * In the macros that make an element, a value that does not fit makes the element off (all its words are 0).
 *
 * Action CUONGPHEMI_ACTION_RX_BUFFER (7): the type plays no part; an identifier equal to ID1 matches (29-bit: after
 * XIDAM); ID2 bits 5:0 are the number of the Rx buffer. With a bit of ID2's 10:9 set the element asks for a debug
 * message, which this handler leaves out: the frame that matches is discarded (CUONGPHEMI_REASON_DEBUG). ID2's other
 * bits are ignored. A buffer that does not exist discards the frame too (CUONGPHEMI_REASON_MISFILED), and so does one
 * that still holds new data (CUONGPHEMI_REASON_LOCKED).
 */
#define CUONGPHEMI_FILTER_RANGE 0             /* from ID1 to ID2, both included; ID1 over ID2 matches nothing */
#define CUONGPHEMI_FILTER_EITHER 1            /* ID1 or ID2 */
#define CUONGPHEMI_FILTER_MASKED 2            /* equal to ID1 at the bits that are 1 in ID2 */
#define CUONGPHEMI_FILTER_11_OFF 3            /* 11-bit: matches nothing */
#define CUONGPHEMI_FILTER_29_RANGE_WITHOUT_XIDAM 3 /* 29-bit: a range of the whole identifier */

#define CUONGPHEMI_ACTION_OFF 0               /* matches nothing */
#define CUONGPHEMI_ACTION_FIFO0 1
#define CUONGPHEMI_ACTION_FIFO1 2
#define CUONGPHEMI_ACTION_REJECT 3
#define CUONGPHEMI_ACTION_PRIORITY 4          /* noted as priority, not stored */
#define CUONGPHEMI_ACTION_PRIORITY_FIFO0 5    /* noted as priority and stored */
#define CUONGPHEMI_ACTION_PRIORITY_FIFO1 6
#define CUONGPHEMI_ACTION_RX_BUFFER 7

/* With action 7, of both kinds, in ID2: the Rx buffer's number, and the bits that ask for a debug message. */
#define CUONGPHEMI_FILTER_BUFFER_SHIFT 0
#define CUONGPHEMI_FILTER_BUFFER_MASK 0x3Fu
#define CUONGPHEMI_FILTER_DEBUG_SHIFT 9
#define CUONGPHEMI_FILTER_DEBUG_MASK 3u

/* 11-bit: one word. */
#define CUONGPHEMI_FILTER_11_TYPE_SHIFT 30
#define CUONGPHEMI_FILTER_11_TYPE_MASK 3u
#define CUONGPHEMI_FILTER_11_ACTION_SHIFT 27
#define CUONGPHEMI_FILTER_11_ACTION_MASK 7u
#define CUONGPHEMI_FILTER_11_ID1_SHIFT 16
#define CUONGPHEMI_FILTER_11_ID1_MASK 0x7FFu
#define CUONGPHEMI_FILTER_11_ID2_SHIFT 0
#define CUONGPHEMI_FILTER_11_ID2_MASK 0x7FFu
#define CUONGPHEMI_FILTER_11_FITS(type, action, id1, id2) \
    (CUONGPHEMI_FITS(type, CUONGPHEMI_FILTER_11_TYPE) && CUONGPHEMI_FITS(action, CUONGPHEMI_FILTER_11_ACTION) \
     && CUONGPHEMI_FITS(id1, CUONGPHEMI_FILTER_11_ID1) && CUONGPHEMI_FITS(id2, CUONGPHEMI_FILTER_11_ID2))
#define CUONGPHEMI_FILTER_11(type, action, id1, id2) \
    (!CUONGPHEMI_FILTER_11_FITS(type, action, id1, id2) ? UINT32_C(0) \
     : CUONGPHEMI_PUT(type, CUONGPHEMI_FILTER_11_TYPE) | CUONGPHEMI_PUT(action, CUONGPHEMI_FILTER_11_ACTION) \
           | CUONGPHEMI_PUT(id1, CUONGPHEMI_FILTER_11_ID1) | CUONGPHEMI_PUT(id2, CUONGPHEMI_FILTER_11_ID2))
#define CUONGPHEMI_FILTER_11_TO_BUFFER(id, buffer) \
    CUONGPHEMI_FILTER_11(CUONGPHEMI_FILTER_RANGE, CUONGPHEMI_ACTION_RX_BUFFER, id, \
                         CUONGPHEMI_PUT(buffer, CUONGPHEMI_FILTER_BUFFER))

/*
 * 29-bit: two words, the first with action and ID1, the second with type and ID2. The macros of both take all of the
 * element's values, so that one that does not fit makes both words 0.
 */
#define CUONGPHEMI_FILTER_29_ACTION_SHIFT 29
#define CUONGPHEMI_FILTER_29_ACTION_MASK 7u
#define CUONGPHEMI_FILTER_29_ID1_SHIFT 0
#define CUONGPHEMI_FILTER_29_ID1_MASK 0x1FFFFFFFu
#define CUONGPHEMI_FILTER_29_TYPE_SHIFT 30
#define CUONGPHEMI_FILTER_29_TYPE_MASK 3u
#define CUONGPHEMI_FILTER_29_ID2_SHIFT 0
#define CUONGPHEMI_FILTER_29_ID2_MASK 0x1FFFFFFFu
#define CUONGPHEMI_FILTER_29_FITS(type, action, id1, id2) \
    (CUONGPHEMI_FITS(type, CUONGPHEMI_FILTER_29_TYPE) && CUONGPHEMI_FITS(action, CUONGPHEMI_FILTER_29_ACTION) \
     && CUONGPHEMI_FITS(id1, CUONGPHEMI_FILTER_29_ID1) && CUONGPHEMI_FITS(id2, CUONGPHEMI_FILTER_29_ID2))
#define CUONGPHEMI_FILTER_29_FIRST(type, action, id1, id2) \
    (!CUONGPHEMI_FILTER_29_FITS(type, action, id1, id2) ? UINT32_C(0) \
     : CUONGPHEMI_PUT(action, CUONGPHEMI_FILTER_29_ACTION) | CUONGPHEMI_PUT(id1, CUONGPHEMI_FILTER_29_ID1))
#define CUONGPHEMI_FILTER_29_SECOND(type, action, id1, id2) \
    (!CUONGPHEMI_FILTER_29_FITS(type, action, id1, id2) ? UINT32_C(0) \
     : CUONGPHEMI_PUT(type, CUONGPHEMI_FILTER_29_TYPE) | CUONGPHEMI_PUT(id2, CUONGPHEMI_FILTER_29_ID2))
#define CUONGPHEMI_FILTER_29_TO_BUFFER_FIRST(id, buffer) \
    CUONGPHEMI_FILTER_29_FIRST(CUONGPHEMI_FILTER_RANGE, CUONGPHEMI_ACTION_RX_BUFFER, id, \
                               CUONGPHEMI_PUT(buffer, CUONGPHEMI_FILTER_BUFFER))
#define CUONGPHEMI_FILTER_29_TO_BUFFER_SECOND(id, buffer) \
    CUONGPHEMI_FILTER_29_SECOND(CUONGPHEMI_FILTER_RANGE, CUONGPHEMI_ACTION_RX_BUFFER, id, \
                                CUONGPHEMI_PUT(buffer, CUONGPHEMI_FILTER_BUFFER))

/*
 * ---- the record: two words, lent as words to the calls and as this struct to the steps in place. A union of both
 * serves C (examples/box.c).
 */
struct cuongphemi_record {
    uint32_t flags;
    uint32_t priority;
};

/*
 * The flags. Each rises by what is said here, and stays up, whatever happens to the FIFO or buffer that it speaks of,
 * until cuongphemi_clear_flags, a step in place or an accepted start clears it. A refused call raises none.
 */
#define CUONGPHEMI_FLAG_FIFO0_NEW (UINT32_C(1) << 0)        /* a frame was stored in FIFO 0, overwriting or not */
#define CUONGPHEMI_FLAG_FIFO0_WATERMARK (UINT32_C(1) << 1)  /* a store raised its fill to the watermark */
#define CUONGPHEMI_FLAG_FIFO0_FULL (UINT32_C(1) << 2)       /* a store raised its fill to its size */
#define CUONGPHEMI_FLAG_FIFO0_LOST (UINT32_C(1) << 3)       /* a frame was lost: full and blocking, or of size 0 */
#define CUONGPHEMI_FLAG_FIFO1_NEW (UINT32_C(1) << 4)        /* the same of FIFO 1 */
#define CUONGPHEMI_FLAG_FIFO1_WATERMARK (UINT32_C(1) << 5)
#define CUONGPHEMI_FLAG_FIFO1_FULL (UINT32_C(1) << 6)
#define CUONGPHEMI_FLAG_FIFO1_LOST (UINT32_C(1) << 7)
#define CUONGPHEMI_FLAG_PRIORITY (UINT32_C(1) << 8)         /* a filter noted a priority, whatever came of storing */
#define CUONGPHEMI_FLAG_SENT (UINT32_C(1) << 9)             /* a frame was reported sent */
#define CUONGPHEMI_FLAG_CANCELLED (UINT32_C(1) << 10)       /* a request was cancelled */
#define CUONGPHEMI_FLAG_TX_FIFO_EMPTY (UINT32_C(1) << 11)   /* a report emptied the shared FIFO (never of a queue) */
#define CUONGPHEMI_FLAG_EVENT_NEW (UINT32_C(1) << 12)       /* an event was stored */
#define CUONGPHEMI_FLAG_EVENT_WATERMARK (UINT32_C(1) << 13) /* that raised the events' fill to their watermark */
#define CUONGPHEMI_FLAG_EVENT_FULL (UINT32_C(1) << 14)      /* that raised it to their size */
#define CUONGPHEMI_FLAG_EVENT_LOST (UINT32_C(1) << 15)      /* a wanted event was lost: list full or of size 0 */
#define CUONGPHEMI_FLAG_RX_BUFFER (UINT32_C(1) << 19)       /* a frame was stored in an Rx buffer */

/*
 * All of them. With any other bit up in the record, every call but a start returns 20 (CUONGPHEMI_REFUSED_UNFIT), or
 * 100 or 101, which are judged first.
 */
#define CUONGPHEMI_FLAGS_ALL UINT32_C(0x0008FFFF)

/*
 * The priority word: what the latest frame was that a filter noted as priority. It stays until the next such frame, an
 * accepted start or cuongphemi_priority_put. No call judges it.
 */
#define CUONGPHEMI_PRIORITY_LIST_SHIFT 15     /* the filter's list, one of the two below */
#define CUONGPHEMI_PRIORITY_LIST_MASK 1u
#define CUONGPHEMI_PRIORITY_FILTER_SHIFT 8    /* its index */
#define CUONGPHEMI_PRIORITY_FILTER_MASK 0x7Fu
#define CUONGPHEMI_PRIORITY_OUTCOME_SHIFT 6   /* one of the four below */
#define CUONGPHEMI_PRIORITY_OUTCOME_MASK 3u
#define CUONGPHEMI_PRIORITY_PLACE_SHIFT 0     /* the place in the FIFO where it is stored, else 0 */
#define CUONGPHEMI_PRIORITY_PLACE_MASK 0x3Fu

#define CUONGPHEMI_LIST_11 0                  /* of the 11-bit filters */
#define CUONGPHEMI_LIST_29 1                  /* of the 29-bit filters */

#define CUONGPHEMI_PRIORITY_NO_FIFO 0         /* noted alone */
#define CUONGPHEMI_PRIORITY_LOST 1
#define CUONGPHEMI_PRIORITY_IN_FIFO0 2
#define CUONGPHEMI_PRIORITY_IN_FIFO1 3

/*
 * ---- Interrupts
 *
 * No call is made in an interrupt on a box on which the interrupted code may be in a call. What an interrupt may make
 * is a step in place (cuongphemi_flags_raise and the three beside it), on a record that nobody else is changing.
 *
 * Five calls own the record while they run: cuongphemi_start, cuongphemi_receive, cuongphemi_cancel,
 * cuongphemi_report_sent and cuongphemi_clear_flags. They read it at their beginning and, where they are accepted,
 * write it at their end. A flag that an interrupt raises in that record in between is lost. The other calls only read
 * it, for CUONGPHEMI_REFUSED_UNFIT: an interrupt may raise a named flag in it while they run; the flag stays up and
 * changes none of their answers. A step in place, too, reads the record and then writes it, and what an interrupt
 * changes in the same record in between is lost. That goes for a step of the main code, and for a step of an interrupt
 * that another interrupt can interrupt.
 *
 * Two ways lose nothing.
 *
 * 1. Masked. The interrupt raises in the box's own record, and the main code masks the interrupt around each of the
 *    five calls and around each of its own steps in place.
 *
 * 2. Merged. The interrupt raises in a record of its own, which no call is ever lent, and the main code merges it into
 *    the box's record between two calls: cuongphemi_flags_raise(&box_record, cuongphemi_flags_take(&own)). The take
 *    reads and then clears, so the interrupt is masked for this one step. Or, with no masking at all, the interrupt
 *    has two records, and an index says in which of them it raises. The main code turns the index first, and then
 *    takes from the record that the interrupt no longer uses:
 *
 *        struct cuongphemi_record own[2];   (zeroed)
 *        volatile unsigned raised_in;       (0 or 1)
 *
 *        the interrupt:      cuongphemi_flags_raise(&own[raised_in], mask);
 *
 *        between two calls:  unsigned left = raised_in;
 *                            raised_in = 1 - left;
 *                            cuongphemi_flags_raise(&box_record, cuongphemi_flags_take(&own[left]));
 *
 *    This asks that the interrupt runs on the same core as the main code, and to its end before that goes on, and that
 *    the core stores the index in one step. An interrupt that can interrupt another has two records and an index of
 *    its own. Where an interrupt puts a priority too, and raises CUONGPHEMI_FLAG_PRIORITY with it, the main code puts
 *    own[left].priority into the box's record if the flags that it took have that flag.
 */

/*
 * ---- the steps in place. They ask for no state and refuse nothing. A bit outside CUONGPHEMI_FLAGS_ALL that is raised
 * in a box's record makes its calls return 20, or 100 or 101, until it is cleared in place or a start is accepted.
 */

/* Sets the flags of a mask; the priority stays. */
void cuongphemi_flags_raise(struct cuongphemi_record *record, uint32_t mask);

/* Clears the flags of a mask; the priority stays. */
void cuongphemi_flags_clear(struct cuongphemi_record *record, uint32_t mask);

/* Returns the flags that are up, and clears them; the priority stays. */
uint32_t cuongphemi_flags_take(struct cuongphemi_record *record);

/* Replaces the priority word; the flags stay. */
void cuongphemi_priority_put(struct cuongphemi_record *record, uint32_t word);

/*
 * ---- the calls
 *
 * Every one takes the box first; `memory_words` is the lent memory's length. `answer` has 16 words, of which a call
 * writes those that are named with it and leaves the rest (NAME_ANSWER_WORDS says how many there are, from word 0 on);
 * `output` has 64 bytes, of which it writes the first few that it counts and leaves the rest. `fifo` is one of the two
 * below. A `place` counts from 0 in its FIFO or list, a `buffer` from 0. `data` is not null, also where a frame has no
 * data. What a call can return is listed by number; the numbers' names are above. Where a call has no yes-or-no word
 * of its own, 101 speaks of the state's words 12 and 13.
 */
#define CUONGPHEMI_FIFO0 0
#define CUONGPHEMI_FIFO1 1

/*
 * Writes a state for which every call but a start returns 20, or 100 or 101, which are judged first, whatever record
 * and memory are. Its words 12 and 13 say no.
 * Returns 0, 100.
 */
uint32_t cuongphemi_never_started(uint32_t *state, size_t state_words);

/*
 * Starts the box: an empty state with these registers, and a record of 0. The old state and the old record may be any
 * words; a refusal keeps them. The memory is only measured; a later call that is lent another length returns 20.
 * Returns 0, 10 to 15, 100, 101 (101: the registers' words 12 and 13).
 */
uint32_t cuongphemi_start(uint32_t *state, size_t state_words, uint32_t *record, size_t record_words,
                          const uint32_t *memory, size_t memory_words, const uint32_t *registers,
                          size_t register_words, uint32_t *answer, size_t answer_words);

/* The sections, and how many there are. */
#define CUONGPHEMI_SECTION_FILTERS_11 0
#define CUONGPHEMI_SECTION_FILTERS_29 1
#define CUONGPHEMI_SECTION_FIFO0 2
#define CUONGPHEMI_SECTION_FIFO1 3
#define CUONGPHEMI_SECTION_RX_BUFFERS 4
#define CUONGPHEMI_SECTION_EVENTS 5
#define CUONGPHEMI_SECTION_TX_BUFFERS 6
#define CUONGPHEMI_SECTIONS 7
#define CUONGPHEMI_NO_SECTION 7

/*
 * Answer: the two sections that a refusal 10 to 15 names (written then too), CUONGPHEMI_NO_SECTION for none. A pair is
 * the first by its lower section, then by the other, and the lower is named first. An accepted start writes
 * CUONGPHEMI_NO_SECTION into both;
 */
#define CUONGPHEMI_START_ANSWER_WORDS 16      /* 2 of them where it returns 10 to 15 */
#define CUONGPHEMI_START_NAMED 0
#define CUONGPHEMI_START_NAMED_TOO 1
/* and where it is accepted, each section's first word and how many words it has (0 and 0 where its count is 0). */
#define CUONGPHEMI_START_FIRST_WORD(section) (2 + 2 * (section))
#define CUONGPHEMI_START_WORDS(section) (3 + 2 * (section))

/*
 * Receives a frame: stores it where the filters send it, or loses or discards it. `time` is stored beside it. Data
 * beyond the element's size are not kept, the DLC is. `data` is not null, also with 0 bytes.
 * Returns 0, 20, 21, 22, 100, 101.
 */
uint32_t cuongphemi_receive(uint32_t *state, size_t state_words, uint32_t *record, size_t record_words,
                            uint32_t *memory, size_t memory_words, const uint32_t *frame, size_t frame_words,
                            const uint8_t *data, size_t data_bytes, uint16_t time, uint32_t *answer,
                            size_t answer_words);

/* Answer. */
#define CUONGPHEMI_RECEIVE_ANSWER_WORDS 4
#define CUONGPHEMI_RECEIVE_OUTCOME 0          /* what became of the frame, below */
#define CUONGPHEMI_RECEIVE_WHERE 1            /* beside each outcome, below */
#define CUONGPHEMI_RECEIVE_PLACE 2            /* the place in a FIFO where it is stored, else 0 */
#define CUONGPHEMI_RECEIVE_FILTER 3           /* the index of the filter element that matched + 1, or: */
#define CUONGPHEMI_RECEIVE_NO_FILTER 0        /* none matched */

#define CUONGPHEMI_OUTCOME_IN_FIFO 1          /* stored, overwriting or not; WHERE: the FIFO, 0 or 1 */
#define CUONGPHEMI_OUTCOME_IN_BUFFER 2        /* stored; WHERE: the Rx buffer */
#define CUONGPHEMI_OUTCOME_LOST 3             /* WHERE: the FIFO, which is full and blocks, or is of size 0 */
#define CUONGPHEMI_OUTCOME_DISCARDED 4        /* WHERE: the reason, one of those below */

#define CUONGPHEMI_REASON_REMOTE 0            /* remote frames are rejected */
#define CUONGPHEMI_REASON_REJECT 1            /* by a filter element */
#define CUONGPHEMI_REASON_NO_MATCH 2
#define CUONGPHEMI_REASON_PRIORITY_ONLY 3     /* noted as priority, not stored */
#define CUONGPHEMI_REASON_DEBUG 4             /* the element asks for a debug message; these are left out */
#define CUONGPHEMI_REASON_MISFILED 5          /* for an Rx buffer that does not exist */
#define CUONGPHEMI_REASON_LOCKED 6            /* the Rx buffer holds new data */

/*
 * Reads the frame at a held place of a FIFO. Its first bytes, as many as its element has room for, go to the output.
 * Where the element was too small, the DLC is still the frame's own, and the count says how many bytes are there.
 * Returns 0, 20, 23, 29, 30, 100, 101.
 */
uint32_t cuongphemi_read_fifo(const uint32_t *state, size_t state_words, const uint32_t *record, size_t record_words,
                              const uint32_t *memory, size_t memory_words, uint32_t fifo, uint32_t place,
                              uint8_t *output, size_t output_bytes, uint32_t *answer, size_t answer_words);

/* Answer of both reads, as it stands in the element. */
#define CUONGPHEMI_READ_ANSWER_WORDS 11
#define CUONGPHEMI_READ_FRAME 0               /* 0 to 6: the frame's words */
#define CUONGPHEMI_READ_TIME 7
#define CUONGPHEMI_READ_FILTER 8              /* the filter element's index, told even where the next word says yes */
#define CUONGPHEMI_READ_ANMF 9                /* yes or no: no filter element matched (it was stored with index 0) */
#define CUONGPHEMI_READ_BYTES 10              /* how many bytes were written to the output */

/* Releases all that is held in a FIFO up to and including a place. Returns 0, 20, 23, 29, 100, 101. */
uint32_t cuongphemi_acknowledge_fifo(uint32_t *state, size_t state_words, const uint32_t *record, size_t record_words,
                                     const uint32_t *memory, size_t memory_words, uint32_t fifo, uint32_t place);

/* Reads an Rx buffer that holds new data, as cuongphemi_read_fifo does. Returns 0, 20, 23, 29, 30, 100, 101. */
uint32_t cuongphemi_read_buffer(const uint32_t *state, size_t state_words, const uint32_t *record, size_t record_words,
                                const uint32_t *memory, size_t memory_words, uint32_t buffer, uint8_t *output,
                                size_t output_bytes, uint32_t *answer, size_t answer_words);

/* Releases an Rx buffer: it can be filled again. Returns 0, 20, 23, 29, 100, 101. */
uint32_t cuongphemi_release_buffer(uint32_t *state, size_t state_words, const uint32_t *record, size_t record_words,
                                   const uint32_t *memory, size_t memory_words, uint32_t buffer);

/*
 * Asks for a frame to be sent from a dedicated Tx buffer. `marker` comes back with the choice and the event; `wish`
 * (yes or no): an event is wanted when it was sent. All the bytes that the DLC says are lent; those beyond the
 * buffer's size are not kept. `data` is not null, also with 0 bytes.
 * Returns 0, 20, 21, 23, 24, 100, 101.
 */
uint32_t cuongphemi_request_dedicated(uint32_t *state, size_t state_words, const uint32_t *record, size_t record_words,
                                      uint32_t *memory, size_t memory_words, uint32_t buffer, const uint32_t *frame,
                                      size_t frame_words, const uint8_t *data, size_t data_bytes, uint8_t marker,
                                      uint32_t wish, uint32_t *answer, size_t answer_words);

/*
 * The same from the shared Tx buffers: the next place of a FIFO, the lowest free buffer of a queue.
 * Returns 0, 20, 21, 25, 100, 101.
 */
uint32_t cuongphemi_request_shared(uint32_t *state, size_t state_words, const uint32_t *record, size_t record_words,
                                   uint32_t *memory, size_t memory_words, const uint32_t *frame, size_t frame_words,
                                   const uint8_t *data, size_t data_bytes, uint8_t marker, uint32_t wish,
                                   uint32_t *answer, size_t answer_words);

/* Answer of both requests. */
#define CUONGPHEMI_REQUEST_ANSWER_WORDS 1
#define CUONGPHEMI_REQUEST_BUFFER 0           /* the Tx buffer that holds it */

/* Cancels a request that waits in a dedicated or a queue buffer. Returns 0, 20, 23, 26, 27, 100, 101. */
uint32_t cuongphemi_cancel(uint32_t *state, size_t state_words, uint32_t *record, size_t record_words,
                           const uint32_t *memory, size_t memory_words, uint32_t buffer);

/*
 * Tells which frame goes out next: of those that wait, the one that wins arbitration. Equal identifiers of the same
 * kind tie, be they classic or FD, where both are remote or neither is: the lowest buffer number goes first. `passive`
 * (yes or no): the sender is error passive. ESI as sent is set in FD frames alone, where the request has it or the
 * sender is passive. The bytes to send go to the output; those beyond the buffer's size are CUONGPHEMI_FILLER.
 * Returns 0, 20, 30, 100, 101.
 */
uint32_t cuongphemi_ask_choice(const uint32_t *state, size_t state_words, const uint32_t *record, size_t record_words,
                               const uint32_t *memory, size_t memory_words, uint32_t passive, uint8_t *output,
                               size_t output_bytes, uint32_t *answer, size_t answer_words);

#define CUONGPHEMI_FILLER 0xCC

/* Answer. */
#define CUONGPHEMI_CHOICE_ANSWER_WORDS 11     /* 1 where nothing waits */
#define CUONGPHEMI_CHOICE_BUFFER 0            /* the Tx buffer, or: */
#define CUONGPHEMI_CHOICE_NOTHING 32          /* nothing waits; then only this word is written */
#define CUONGPHEMI_CHOICE_MARKER 1
#define CUONGPHEMI_CHOICE_WISH 2
#define CUONGPHEMI_CHOICE_FRAME 3             /* 3 to 9: the frame's words, as it is sent */
#define CUONGPHEMI_CHOICE_BYTES 10            /* how many bytes were written to the output */

/*
 * Reports that the present choice was sent. Where an event is wanted it goes into the list, with the frame as sent, or
 * is lost. `passive` (yes or no) and `time` are those of the frame as it went out, and the event tells them: this
 * `passive` counts, not the one that the choice was asked with.
 * Returns 0, 20, 23, 28, 100, 101.
 */
uint32_t cuongphemi_report_sent(uint32_t *state, size_t state_words, uint32_t *record, size_t record_words,
                                uint32_t *memory, size_t memory_words, uint32_t buffer, uint32_t passive,
                                uint16_t time);

/* Reads a held event. Returns 0, 20, 23, 29, 100, 101. */
uint32_t cuongphemi_read_event(const uint32_t *state, size_t state_words, const uint32_t *record, size_t record_words,
                               const uint32_t *memory, size_t memory_words, uint32_t place, uint32_t *answer,
                               size_t answer_words);

/* Answer. */
#define CUONGPHEMI_EVENT_ANSWER_WORDS 10
#define CUONGPHEMI_EVENT_FRAME 0              /* 0 to 6: the frame's words, as it was sent */
#define CUONGPHEMI_EVENT_MARKER 7
#define CUONGPHEMI_EVENT_TYPE 8               /* two bits, as they stand in the event: */
#define CUONGPHEMI_EVENT_TYPE_SENT 1          /* the one type that the handler writes */
#define CUONGPHEMI_EVENT_TIME 9

/* Releases all held events up to and including a place. Returns 0, 20, 23, 29, 100, 101. */
uint32_t cuongphemi_acknowledge_event(uint32_t *state, size_t state_words, const uint32_t *record, size_t record_words,
                                      const uint32_t *memory, size_t memory_words, uint32_t place);

/* Clears the flags of a mask; the priority stays. Returns 0, 20, 100, 101. */
uint32_t cuongphemi_clear_flags(const uint32_t *state, size_t state_words, uint32_t *record, size_t record_words,
                                const uint32_t *memory, size_t memory_words, uint32_t mask);

/* Tells how the rings stand. Returns 0, 20, 100, 101. */
uint32_t cuongphemi_status(const uint32_t *state, size_t state_words, const uint32_t *record, size_t record_words,
                           const uint32_t *memory, size_t memory_words, uint32_t *answer, size_t answer_words);

/*
 * Answer, by ring: how many are held, the place of the oldest, and the put place, where the next one goes: oldest +
 * fill, counted in a circle (the oldest itself where the ring is full). A ring of size 0 has 0 in all three. Where the
 * shared Tx buffers are a queue they are no ring, and all three are 0 whatever waits: CUONGPHEMI_STATUS_PENDING counts
 * what waits, and the bits of the state's word CUONGPHEMI_STATE_PENDING say where.
 */
#define CUONGPHEMI_STATUS_ANSWER_WORDS 13
#define CUONGPHEMI_RING_FIFO0 0
#define CUONGPHEMI_RING_FIFO1 1
#define CUONGPHEMI_RING_EVENTS 2
#define CUONGPHEMI_RING_SHARED 3              /* the shared Tx buffers, places from 0 at the first of them */
#define CUONGPHEMI_STATUS_FILL(ring) (3 * (ring))
#define CUONGPHEMI_STATUS_OLDEST(ring) (3 * (ring) + 1)
#define CUONGPHEMI_STATUS_PUT(ring) (3 * (ring) + 2)
#define CUONGPHEMI_STATUS_PENDING 12          /* how many Tx buffers wait to be sent, dedicated and shared */

#ifdef __cplusplus
}
#endif

#endif
