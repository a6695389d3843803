//! The boundary to C: what is lent as words, and the model behind the same sixteen functions as the library.
//!
//! A call answers 0, a number of the paper, or one of two of the boundary's own: 100 where a lent piece other than
//! memory, data and output has the wrong length, 101 where a word that says yes or no is neither 0 nor 1.

use crate::model::{self, *};

pub const REGISTER_WORDS: usize = 15;
pub const STATE_WORDS: usize = REGISTER_WORDS + 13;
pub const STATUS_WORDS: usize = 2;
pub const FRAME_WORDS: usize = 7;
pub const ANSWER_WORDS: usize = 16;

/// The words of registers and of a state that say yes or no: FD on and rate switch on.
pub const SAYS_YES_OR_NO: [usize; 2] = [12, 13];

/// The word of registers and of a state that gives the memory's length.
pub const LENGTH_WORD: usize = 14;

/// The words of a state after the registers: the four rings, each with its oldest place and its fill, then the bits.
pub const FIRST_RING: usize = REGISTER_WORDS;
pub const NEW_DATA_WORD: usize = FIRST_RING + 8;
pub const PENDING_WORD: usize = NEW_DATA_WORD + 2;
pub const SENT_WORD: usize = PENDING_WORD + 1;
pub const CANCELLED_WORD: usize = SENT_WORD + 1;

pub const WRONG_LENGTH: u32 = 100;
pub const NEITHER_YES_NOR_NO: u32 = 101;

/// The answer of the choice when nothing is pending.
pub const NO_BUFFER: u32 = 32;

/// The functions of the boundary. `status` is the record in two words, flags and priority.
#[allow(clippy::too_many_arguments)]
pub trait Calls {
    fn start(
        &self,
        state: &mut [u32],
        status: &mut [u32],
        memory: &[u32],
        registers: &[u32],
        answer: &mut [u32],
    ) -> u32;

    fn receive(
        &self,
        state: &mut [u32],
        status: &mut [u32],
        memory: &mut [u32],
        frame: &[u32],
        data: &[u8],
        time: u16,
        answer: &mut [u32],
    ) -> u32;

    fn read_fifo(
        &self,
        state: &[u32],
        status: &[u32],
        memory: &[u32],
        fifo: u32,
        place: u32,
        output: &mut [u8],
        answer: &mut [u32],
    ) -> u32;

    fn acknowledge_fifo(&self, state: &mut [u32], status: &[u32], memory: &[u32], fifo: u32, place: u32) -> u32;

    fn read_buffer(
        &self,
        state: &[u32],
        status: &[u32],
        memory: &[u32],
        buffer: u32,
        output: &mut [u8],
        answer: &mut [u32],
    ) -> u32;

    fn release_buffer(&self, state: &mut [u32], status: &[u32], memory: &[u32], buffer: u32) -> u32;

    fn request_dedicated(
        &self,
        state: &mut [u32],
        status: &[u32],
        memory: &mut [u32],
        buffer: u32,
        frame: &[u32],
        data: &[u8],
        marker: u8,
        wish: u32,
        answer: &mut [u32],
    ) -> u32;

    fn request_shared(
        &self,
        state: &mut [u32],
        status: &[u32],
        memory: &mut [u32],
        frame: &[u32],
        data: &[u8],
        marker: u8,
        wish: u32,
        answer: &mut [u32],
    ) -> u32;

    fn cancel(&self, state: &mut [u32], status: &mut [u32], memory: &[u32], buffer: u32) -> u32;

    fn ask_choice(
        &self,
        state: &[u32],
        status: &[u32],
        memory: &[u32],
        passive: u32,
        output: &mut [u8],
        answer: &mut [u32],
    ) -> u32;

    fn report_sent(
        &self,
        state: &mut [u32],
        status: &mut [u32],
        memory: &mut [u32],
        buffer: u32,
        passive: u32,
        time: u16,
    ) -> u32;

    fn read_event(&self, state: &[u32], status: &[u32], memory: &[u32], place: u32, answer: &mut [u32]) -> u32;

    fn acknowledge_event(&self, state: &mut [u32], status: &[u32], memory: &[u32], place: u32) -> u32;

    fn clear_flags(&self, state: &[u32], status: &mut [u32], memory: &[u32], mask: u32) -> u32;

    fn status(&self, state: &[u32], status: &[u32], memory: &[u32], answer: &mut [u32]) -> u32;

    fn never_started(&self, state: &mut [u32]) -> u32;
}

// ------------------------------------------------------------------------------------------------------
// Words and what they stand for
// ------------------------------------------------------------------------------------------------------

/// The lengths of the boundary's own pieces: 100 where one is wrong.
fn lengths<const N: usize>(right: [bool; N]) -> Result<(), u32> {
    if right.contains(&false) {
        return Err(WRONG_LENGTH);
    }
    Ok(())
}

/// A word that says yes or no: 101 where it does neither.
fn yes(word: u32) -> Result<bool, u32> {
    match word {
        0 => Ok(false),
        1 => Ok(true),
        _ => Err(NEITHER_YES_NOR_NO),
    }
}

/// The eleven registers, the Rx buffer count, FD on, rate switch on and the memory's length.
#[inline(always)]
pub fn unpack_registers(w: &[u32]) -> Result<Registers, u32> {
    Ok(Registers {
        sidfc: w[0],
        xidfc: w[1],
        rxf0c: w[2],
        rxf1c: w[3],
        rxbc: w[4],
        rxesc: w[5],
        txefc: w[6],
        txbc: w[7],
        txesc: w[8],
        gfc: w[9],
        xidam: w[10],
        rx_buffers: w[11],
        fd_on: yes(w[12])?,
        rate_switch_on: yes(w[13])?,
        memory_words: w[LENGTH_WORD],
    })
}

#[inline(always)]
pub fn pack_registers(r: &Registers, w: &mut [u32]) {
    w[..11].copy_from_slice(&r.words());
    w[11] = r.rx_buffers;
    w[12] = u32::from(r.fd_on);
    w[13] = u32::from(r.rate_switch_on);
    w[LENGTH_WORD] = r.memory_words;
}

/// The registers, the four rings, and the bits of the buffers.
#[inline(always)]
pub fn unpack_state(w: &[u32]) -> Result<State, u32> {
    let ring = |nth: usize| Ring { oldest: w[FIRST_RING + 2 * nth], fill: w[FIRST_RING + 2 * nth + 1] };
    Ok(State {
        registers: unpack_registers(w)?,
        fifo0: ring(0),
        fifo1: ring(1),
        events: ring(2),
        shared: ring(3),
        new_data: u64::from(w[NEW_DATA_WORD]) | u64::from(w[NEW_DATA_WORD + 1]) << 32,
        pending: w[PENDING_WORD],
        sent: w[SENT_WORD],
        cancelled: w[CANCELLED_WORD],
    })
}

#[inline(always)]
pub fn pack_state(s: &State, w: &mut [u32]) {
    pack_registers(&s.registers, w);
    for (nth, ring) in [s.fifo0, s.fifo1, s.events, s.shared].into_iter().enumerate() {
        w[FIRST_RING + 2 * nth] = ring.oldest;
        w[FIRST_RING + 2 * nth + 1] = ring.fill;
    }
    w[NEW_DATA_WORD] = s.new_data as u32;
    w[NEW_DATA_WORD + 1] = (s.new_data >> 32) as u32;
    w[PENDING_WORD] = s.pending;
    w[SENT_WORD] = s.sent;
    w[CANCELLED_WORD] = s.cancelled;
}

pub fn unpack_record(w: &[u32]) -> Record {
    Record { flags: w[0], priority: w[1] }
}

pub fn pack_record(record: &Record, w: &mut [u32]) {
    w[0] = record.flags;
    w[1] = record.priority;
}

#[inline(always)]
pub fn unpack_frame(w: &[u32]) -> Result<Frame, u32> {
    Ok(Frame {
        id: w[0],
        xtd: yes(w[1])?,
        rtr: yes(w[2])?,
        fdf: yes(w[3])?,
        brs: yes(w[4])?,
        esi: yes(w[5])?,
        dlc: w[6],
    })
}

pub fn pack_frame(f: &Frame, w: &mut [u32]) {
    let bits = [f.xtd, f.rtr, f.fdf, f.brs, f.esi].map(u32::from);
    w[0] = f.id;
    w[1..6].copy_from_slice(&bits);
    w[6] = f.dlc;
}

/// What became of a received frame, and the filter index + 1.
fn pack_received(received: &Received, w: &mut [u32]) {
    let (kind, what, place) = match received.outcome {
        Outcome::Stored { fifo, place } => (1, fifo, place),
        Outcome::StoredBuffer { buffer } => (2, buffer, 0),
        Outcome::Lost { fifo } => (3, fifo, 0),
        Outcome::Discarded { reason } => (4, reason, 0),
    };
    w[..4].copy_from_slice(&[kind, what, place, received.index.map_or(0, |index| index + 1)]);
}

/// The frame, its timestamp, the filter index as it stands, ANMF, and the bytes written.
fn pack_read(read: &Read, w: &mut [u32]) {
    let h = &read.header;
    let frame = Frame { id: h.id, xtd: h.xtd, rtr: h.rtr, fdf: h.fdf, brs: h.brs, esi: h.esi, dlc: h.dlc };
    pack_frame(&frame, w);
    w[7] = u32::from(h.timestamp);
    w[8] = h.index;
    w[9] = u32::from(h.anmf);
    w[10] = read.bytes;
}

/// The buffer, marker, event wish, the frame as sent and the bytes written.
fn pack_choice(choice: &Choice, w: &mut [u32]) {
    w[0] = choice.buffer;
    w[1] = u32::from(choice.marker);
    w[2] = u32::from(choice.wish);
    pack_frame(&choice.header, &mut w[3..]);
    w[10] = choice.bytes;
}

/// The header, marker, type and timestamp.
fn pack_event(e: &Event, w: &mut [u32]) {
    let frame = Frame { id: e.id, xtd: e.xtd, rtr: e.rtr, fdf: e.fdf, brs: e.brs, esi: e.esi, dlc: e.dlc };
    pack_frame(&frame, w);
    w[7] = u32::from(e.marker);
    w[8] = e.kind;
    w[9] = u32::from(e.timestamp);
}

/// Fill, oldest and put place of the four rings, then the number of pending buffers.
fn pack_status(s: &Status, w: &mut [u32]) {
    for (nth, ring) in [s.fifo0, s.fifo1, s.events, s.shared].into_iter().enumerate() {
        w[3 * nth..3 * nth + 3].copy_from_slice(&[ring.fill, ring.oldest, ring.put]);
    }
    w[12] = s.pending;
}

// ------------------------------------------------------------------------------------------------------
// The model behind the boundary
// ------------------------------------------------------------------------------------------------------

/// The model as the library: each call unpacks what is lent, lets the model answer and packs what changed.
pub struct Model;

/// 0, or the number of the refusal.
fn number(answer: Result<(), u32>) -> u32 {
    answer.err().unwrap_or(0)
}

/// Whether state and status have their lengths, which every call asks first.
fn own(state: &[u32], status: &[u32]) -> bool {
    state.len() == STATE_WORDS && status.len() == STATUS_WORDS
}

impl Calls for Model {
    fn start(
        &self,
        state: &mut [u32],
        status: &mut [u32],
        memory: &[u32],
        registers: &[u32],
        answer: &mut [u32],
    ) -> u32 {
        let mut run = || {
            lengths([own(state, status), registers.len() == REGISTER_WORDS, answer.len() == ANSWER_WORDS])?;
            // A start takes any old state and record: their words are not looked at.
            let (mut s, mut c) = (State::never_started(), Record::default());
            match model::start(&mut s, &mut c, unpack_registers(registers)?, memory.len()) {
                Err(no) => {
                    answer[..2].copy_from_slice(&[no.first, no.second]);
                    Err(no.number)
                }
                Ok(layout) => {
                    pack_state(&s, state);
                    pack_record(&c, status);
                    answer[..2].copy_from_slice(&[NO_SECTION, NO_SECTION]);
                    for (section, words) in layout.iter().zip(answer[2..].chunks_mut(2)) {
                        words.copy_from_slice(&[section.start, section.words]);
                    }
                    Ok(())
                }
            }
        };
        number(run())
    }

    fn receive(
        &self,
        state: &mut [u32],
        status: &mut [u32],
        memory: &mut [u32],
        frame: &[u32],
        data: &[u8],
        time: u16,
        answer: &mut [u32],
    ) -> u32 {
        let mut run = || {
            lengths([own(state, status), frame.len() == FRAME_WORDS, answer.len() == ANSWER_WORDS])?;
            let (mut s, mut c) = (unpack_state(state)?, unpack_record(status));
            let received = model::receive(&mut s, &mut c, memory, &unpack_frame(frame)?, data, time)?;
            pack_state(&s, state);
            pack_record(&c, status);
            pack_received(&received, answer);
            Ok(())
        };
        number(run())
    }

    fn read_fifo(
        &self,
        state: &[u32],
        status: &[u32],
        memory: &[u32],
        fifo: u32,
        place: u32,
        output: &mut [u8],
        answer: &mut [u32],
    ) -> u32 {
        let mut run = || {
            lengths([own(state, status), answer.len() == ANSWER_WORDS])?;
            let (s, c) = (unpack_state(state)?, unpack_record(status));
            pack_read(&model::read_fifo(&s, &c, memory, fifo, place, output)?, answer);
            Ok(())
        };
        number(run())
    }

    fn acknowledge_fifo(&self, state: &mut [u32], status: &[u32], memory: &[u32], fifo: u32, place: u32) -> u32 {
        let mut run = || {
            lengths([own(state, status)])?;
            let (mut s, c) = (unpack_state(state)?, unpack_record(status));
            model::acknowledge_fifo(&mut s, &c, memory, fifo, place)?;
            pack_state(&s, state);
            Ok(())
        };
        number(run())
    }

    fn read_buffer(
        &self,
        state: &[u32],
        status: &[u32],
        memory: &[u32],
        buffer: u32,
        output: &mut [u8],
        answer: &mut [u32],
    ) -> u32 {
        let mut run = || {
            lengths([own(state, status), answer.len() == ANSWER_WORDS])?;
            let (s, c) = (unpack_state(state)?, unpack_record(status));
            pack_read(&model::read_rx_buffer(&s, &c, memory, buffer, output)?, answer);
            Ok(())
        };
        number(run())
    }

    fn release_buffer(&self, state: &mut [u32], status: &[u32], memory: &[u32], buffer: u32) -> u32 {
        let mut run = || {
            lengths([own(state, status)])?;
            let (mut s, c) = (unpack_state(state)?, unpack_record(status));
            model::release_rx_buffer(&mut s, &c, memory, buffer)?;
            pack_state(&s, state);
            Ok(())
        };
        number(run())
    }

    fn request_dedicated(
        &self,
        state: &mut [u32],
        status: &[u32],
        memory: &mut [u32],
        buffer: u32,
        frame: &[u32],
        data: &[u8],
        marker: u8,
        wish: u32,
        answer: &mut [u32],
    ) -> u32 {
        let mut run = || {
            lengths([own(state, status), frame.len() == FRAME_WORDS, answer.len() == ANSWER_WORDS])?;
            let (mut s, c) = (unpack_state(state)?, unpack_record(status));
            let (frame, wish) = (unpack_frame(frame)?, yes(wish)?);
            answer[0] = model::request_dedicated(&mut s, &c, memory, buffer, &frame, data, marker, wish)?;
            pack_state(&s, state);
            Ok(())
        };
        number(run())
    }

    fn request_shared(
        &self,
        state: &mut [u32],
        status: &[u32],
        memory: &mut [u32],
        frame: &[u32],
        data: &[u8],
        marker: u8,
        wish: u32,
        answer: &mut [u32],
    ) -> u32 {
        let mut run = || {
            lengths([own(state, status), frame.len() == FRAME_WORDS, answer.len() == ANSWER_WORDS])?;
            let (mut s, c) = (unpack_state(state)?, unpack_record(status));
            let (frame, wish) = (unpack_frame(frame)?, yes(wish)?);
            answer[0] = model::request_shared(&mut s, &c, memory, &frame, data, marker, wish)?;
            pack_state(&s, state);
            Ok(())
        };
        number(run())
    }

    fn cancel(&self, state: &mut [u32], status: &mut [u32], memory: &[u32], buffer: u32) -> u32 {
        let mut run = || {
            lengths([own(state, status)])?;
            let (mut s, mut c) = (unpack_state(state)?, unpack_record(status));
            model::cancel(&mut s, &mut c, memory, buffer)?;
            pack_state(&s, state);
            pack_record(&c, status);
            Ok(())
        };
        number(run())
    }

    fn ask_choice(
        &self,
        state: &[u32],
        status: &[u32],
        memory: &[u32],
        passive: u32,
        output: &mut [u8],
        answer: &mut [u32],
    ) -> u32 {
        let mut run = || {
            lengths([own(state, status), answer.len() == ANSWER_WORDS])?;
            let (s, c) = (unpack_state(state)?, unpack_record(status));
            match model::choice(&s, &c, memory, yes(passive)?, output)? {
                None => answer[0] = NO_BUFFER,
                Some(choice) => pack_choice(&choice, answer),
            }
            Ok(())
        };
        number(run())
    }

    fn report_sent(
        &self,
        state: &mut [u32],
        status: &mut [u32],
        memory: &mut [u32],
        buffer: u32,
        passive: u32,
        time: u16,
    ) -> u32 {
        let mut run = || {
            lengths([own(state, status)])?;
            let (mut s, mut c) = (unpack_state(state)?, unpack_record(status));
            model::report_sent(&mut s, &mut c, memory, buffer, yes(passive)?, time)?;
            pack_state(&s, state);
            pack_record(&c, status);
            Ok(())
        };
        number(run())
    }

    fn read_event(&self, state: &[u32], status: &[u32], memory: &[u32], place: u32, answer: &mut [u32]) -> u32 {
        let mut run = || {
            lengths([own(state, status), answer.len() == ANSWER_WORDS])?;
            let (s, c) = (unpack_state(state)?, unpack_record(status));
            pack_event(&model::read_event(&s, &c, memory, place)?, answer);
            Ok(())
        };
        number(run())
    }

    fn acknowledge_event(&self, state: &mut [u32], status: &[u32], memory: &[u32], place: u32) -> u32 {
        let mut run = || {
            lengths([own(state, status)])?;
            let (mut s, c) = (unpack_state(state)?, unpack_record(status));
            model::acknowledge_event(&mut s, &c, memory, place)?;
            pack_state(&s, state);
            Ok(())
        };
        number(run())
    }

    fn clear_flags(&self, state: &[u32], status: &mut [u32], memory: &[u32], mask: u32) -> u32 {
        let mut run = || {
            lengths([own(state, status)])?;
            let (s, mut c) = (unpack_state(state)?, unpack_record(status));
            model::clear_flags(&s, &mut c, memory, mask)?;
            pack_record(&c, status);
            Ok(())
        };
        number(run())
    }

    fn status(&self, state: &[u32], status: &[u32], memory: &[u32], answer: &mut [u32]) -> u32 {
        let mut run = || {
            lengths([own(state, status), answer.len() == ANSWER_WORDS])?;
            let (s, c) = (unpack_state(state)?, unpack_record(status));
            pack_status(&model::status(&s, &c, memory)?, answer);
            Ok(())
        };
        number(run())
    }

    fn never_started(&self, state: &mut [u32]) -> u32 {
        let mut run = || {
            lengths([state.len() == STATE_WORDS])?;
            pack_state(&State::never_started(), state);
            Ok(())
        };
        number(run())
    }
}
