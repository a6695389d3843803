//! The bench cases of the paper, its easy mistakes, the edge vectors, and each refusal by its number.

use cuongphemi_host::model::*;
use std::fmt::Debug;

// ------------------------------------------------------------------------------------------------------
// Tools
// ------------------------------------------------------------------------------------------------------

/// Counts and sizes of a layout that is packed from word 0 in section order.
#[derive(Clone, Copy)]
struct Plan {
    standard: u32,
    extended: u32,
    fifo: [u32; 2],
    rx_buffers: u32,
    events: u32,
    dedicated: u32,
    shared: u32,
    queue: bool,
    /// Size codes of FIFO 0, FIFO 1, Rx buffers and Tx buffers.
    code: [u32; 4],
    overwrite: [bool; 2],
    watermark: [u32; 2],
    event_watermark: u32,
    gfc: u32,
    xidam: u32,
    fd_on: bool,
    rate_switch_on: bool,
}

const PLAN: Plan = Plan {
    standard: 0,
    extended: 0,
    fifo: [0, 0],
    rx_buffers: 0,
    events: 0,
    dedicated: 0,
    shared: 0,
    queue: false,
    code: [0, 0, 0, 0],
    overwrite: [false, false],
    watermark: [0, 0],
    event_watermark: 0,
    gfc: 0,
    xidam: 0x1FFF_FFFF,
    fd_on: true,
    rate_switch_on: true,
};

fn packed(p: Plan) -> Registers {
    let words = [
        p.standard,
        2 * p.extended,
        p.fifo[0] * SIZE_WORDS[p.code[0] as usize],
        p.fifo[1] * SIZE_WORDS[p.code[1] as usize],
        p.rx_buffers * SIZE_WORDS[p.code[2] as usize],
        2 * p.events,
        (p.dedicated + p.shared) * SIZE_WORDS[p.code[3] as usize],
    ];
    let mut start = [0; 7];
    for section in 1..7 {
        start[section] = start[section - 1] + words[section - 1];
    }
    let fifo =
        |f: usize| u32::from(p.overwrite[f]) << 31 | p.watermark[f] << 24 | p.fifo[f] << 16 | start[2 + f] << 2;
    Registers {
        sidfc: p.standard << 16 | start[0] << 2,
        xidfc: p.extended << 16 | start[1] << 2,
        rxf0c: fifo(0),
        rxf1c: fifo(1),
        rxbc: start[4] << 2,
        rxesc: p.code[2] << 8 | p.code[1] << 4 | p.code[0],
        txefc: p.event_watermark << 24 | p.events << 16 | start[5] << 2,
        txbc: u32::from(p.queue) << 30 | p.shared << 24 | p.dedicated << 16 | start[6] << 2,
        txesc: p.code[3],
        gfc: p.gfc,
        xidam: p.xidam,
        rx_buffers: p.rx_buffers,
        fd_on: p.fd_on,
        rate_switch_on: p.rate_switch_on,
        memory_words: BENCH_MEMORY_WORDS,
    }
}

/// A handler with its memory, so that the tests read like a row of calls.
#[derive(Clone, PartialEq, Debug)]
struct Handler {
    state: State,
    record: Record,
    memory: Vec<u32>,
    output: Vec<u8>,
}

const UNTOUCHED: u8 = 0xA5;

impl Handler {
    /// A zeroed state with a memory of so many words.
    fn zeroed(lent: usize) -> Handler {
        Handler {
            state: State::default(),
            record: Record::default(),
            memory: vec![0xDEAD_BEEF; lent],
            output: vec![UNTOUCHED; 64],
        }
    }

    /// Started, with a memory as long as is given.
    fn from(registers: Registers) -> Handler {
        let mut h = Handler::zeroed(registers.memory_words as usize);
        let before = h.memory.clone();
        start(&mut h.state, &mut h.record, registers, h.memory.len()).expect("the layout is legal");
        assert_eq!(h.memory, before);
        h
    }

    fn new(plan: Plan) -> Handler {
        Handler::from(packed(plan))
    }

    fn filters(mut self, words: &[u32]) -> Handler {
        // Both lists lie at the start of the memory in a packed layout.
        self.memory[..words.len()].copy_from_slice(words);
        self
    }

    fn start_of(&self, section: usize) -> usize {
        sections(&self.state.registers)[section].start as usize
    }

    fn receive(&mut self, frame: Frame, data: &[u8]) -> Result<Received, u32> {
        self.receive_at(frame, data, 0)
    }

    fn receive_at(&mut self, frame: Frame, data: &[u8], time: u16) -> Result<Received, u32> {
        self.checked(|h| receive(&mut h.state, &mut h.record, &mut h.memory, &frame, data, time))
    }

    fn read(&mut self, fifo: u32, place: u32) -> Result<Read, u32> {
        self.checked(|h| read_fifo(&h.state, &h.record, &h.memory, fifo, place, &mut h.output))
    }

    fn acknowledge(&mut self, fifo: u32, place: u32) -> Result<(), u32> {
        self.checked(|h| acknowledge_fifo(&mut h.state, &h.record, &h.memory, fifo, place))
    }

    fn read_buffer(&mut self, buffer: u32) -> Result<Read, u32> {
        self.checked(|h| read_rx_buffer(&h.state, &h.record, &h.memory, buffer, &mut h.output))
    }

    fn release(&mut self, buffer: u32) -> Result<(), u32> {
        self.checked(|h| release_rx_buffer(&mut h.state, &h.record, &h.memory, buffer))
    }

    fn dedicated(&mut self, buffer: u32, frame: Frame, data: &[u8], marker: u8, wish: bool) -> Result<u32, u32> {
        self.checked(|h| {
            request_dedicated(&mut h.state, &h.record, &mut h.memory, buffer, &frame, data, marker, wish)
        })
    }

    fn shared(&mut self, frame: Frame, data: &[u8], marker: u8, wish: bool) -> Result<u32, u32> {
        self.checked(|h| request_shared(&mut h.state, &h.record, &mut h.memory, &frame, data, marker, wish))
    }

    fn cancel(&mut self, buffer: u32) -> Result<(), u32> {
        self.checked(|h| cancel(&mut h.state, &mut h.record, &h.memory, buffer))
    }

    fn choice(&mut self, passive: bool) -> Result<Option<Choice>, u32> {
        self.checked(|h| choice(&h.state, &h.record, &h.memory, passive, &mut h.output))
    }

    fn report(&mut self, buffer: u32, passive: bool, time: u16) -> Result<(), u32> {
        self.checked(|h| report_sent(&mut h.state, &mut h.record, &mut h.memory, buffer, passive, time))
    }

    fn event(&mut self, place: u32) -> Result<Event, u32> {
        self.checked(|h| read_event(&h.state, &h.record, &h.memory, place))
    }

    fn acknowledge_event(&mut self, place: u32) -> Result<(), u32> {
        self.checked(|h| acknowledge_event(&mut h.state, &h.record, &h.memory, place))
    }

    fn clear(&mut self, mask: u32) -> Result<(), u32> {
        self.checked(|h| clear_flags(&h.state, &mut h.record, &h.memory, mask))
    }

    fn status(&mut self) -> Result<Status, u32> {
        self.checked(|h| status(&h.state, &h.record, &h.memory))
    }

    /// Runs a call and sees to it that a refusal changed nothing.
    fn checked<T: Debug>(&mut self, call: impl FnOnce(&mut Handler) -> Result<T, u32>) -> Result<T, u32> {
        let before = self.clone();
        let answer = call(self);
        if answer.is_err() {
            assert_eq!(*self, before, "a refusal changes nothing: {answer:?}");
        }
        answer
    }

    fn flags(&self) -> u32 {
        self.record.flags
    }
}

fn classic(id: u32, dlc: u32) -> Frame {
    Frame { id, dlc, ..Frame::default() }
}

fn extended(id: u32, dlc: u32) -> Frame {
    Frame { id, dlc, xtd: true, ..Frame::default() }
}

fn fd(id: u32, dlc: u32) -> Frame {
    Frame { id, dlc, fdf: true, ..Frame::default() }
}

fn remote(id: u32) -> Frame {
    Frame { id, rtr: true, ..Frame::default() }
}

fn stored(fifo: u32, place: u32, index: Option<u32>) -> Result<Received, u32> {
    Ok(Received { outcome: Outcome::Stored { fifo, place }, index })
}

fn in_buffer(buffer: u32, index: u32) -> Result<Received, u32> {
    Ok(Received { outcome: Outcome::StoredBuffer { buffer }, index: Some(index) })
}

fn lost(fifo: u32, index: Option<u32>) -> Result<Received, u32> {
    Ok(Received { outcome: Outcome::Lost { fifo }, index })
}

fn discarded(reason: u32, index: Option<u32>) -> Result<Received, u32> {
    Ok(Received { outcome: Outcome::Discarded { reason }, index })
}

/// The numbers of some flags as a word.
fn flags(numbers: &[u32]) -> u32 {
    numbers.iter().fold(0, |word, number| word | 1 << number)
}

fn standard(kind: u32, action: u32, id1: u32, id2: u32) -> u32 {
    kind << 30 | action << 27 | id1 << 16 | id2
}

fn long(kind: u32, action: u32, id1: u32, id2: u32) -> [u32; 2] {
    [action << 29 | id1, kind << 30 | id2]
}

const BYTES: [u8; 64] = {
    let mut bytes = [0; 64];
    let mut at = 0;
    while at < 64 {
        bytes[at] = at as u8 + 1;
        at += 1;
    }
    bytes
};

// ------------------------------------------------------------------------------------------------------
// Bench cases
// ------------------------------------------------------------------------------------------------------

fn case_a() -> Registers {
    Registers {
        sidfc: 0x0004_0000,
        xidfc: 0x0002_0010,
        rxf0c: 0x0008_0020,
        rxf1c: 0x0004_0260,
        rxbc: 0x2A0,
        rxesc: 0x707,
        txefc: 0x0004_0408,
        txbc: 0x0602_0428,
        txesc: 7,
        gfc: 0,
        xidam: 0x1FFF_FFFF,
        rx_buffers: 5,
        fd_on: false,
        rate_switch_on: false,
        memory_words: 2560,
    }
}

fn bench_text(registers: &Registers) -> String {
    let mut text = String::new();
    for word in registers.words() {
        text += &format!("{word:08x}\n");
    }
    text + &format!("{:08x}\n", registers.rx_buffers)
}

const CASE_A_PRINTOUT: &str = "layout ok\n0 0 4\n1 4 4\n2 8 144\n3 152 16\n4 168 90\n5 258 8\n6 266 144\n";

#[test]
fn case_a_layout() {
    let text = bench_text(&case_a());
    assert_eq!(layout_printout(text.as_bytes()), CASE_A_PRINTOUT);
    assert_eq!(layout_printout(text.to_uppercase().as_bytes()), CASE_A_PRINTOUT);
    let expected = [(0, 4), (4, 4), (8, 144), (152, 16), (168, 90), (258, 8), (266, 144)];
    let expected = expected.map(|(start, words)| Section { start, words });
    assert_eq!(layout_verdict(&case_a(), 2560), Ok(expected));
}

#[test]
fn star_layouts() {
    let refusal = |number, first, second| Err(StartRefusal { number, first, second });
    let shifted = Registers { rxf1c: 0x0004_025C, ..case_a() };
    assert_eq!(layout_verdict(&shifted, 2560), refusal(15, 2, 3));
    assert_eq!(layout_printout(bench_text(&shifted).as_bytes()), "layout refused 15 2 3\n");

    let last = Registers { txbc: 0x0602_0000 | 2416 << 2, ..case_a() };
    assert_eq!(last.txbc, 0x0602_25C0);
    assert!(layout_verdict(&last, 2560).is_ok());

    let past = Registers { txbc: 0x0602_0000 | 2417 << 2, ..case_a() };
    assert_eq!(layout_verdict(&past, 2560), refusal(14, 6, 7));
    assert_eq!(layout_printout(bench_text(&past).as_bytes()), "layout refused 14 6 7\n");
}

#[test]
fn unread_layouts() {
    let text = bench_text(&case_a());
    let unread = |input: &str| assert_eq!(layout_printout(input.as_bytes()), "layout unread\n", "{input:?}");
    unread("");
    unread(&text[..text.len() - 1]);
    unread(&format!("{text}\n"));
    unread(&format!("{text}00000000\n"));
    unread(&text[9..]);
    unread(&text.replace('\n', "\r\n"));
    unread(&text.replacen('0', "g", 1));
    unread(&text.replacen('0', " ", 1));
    unread(&text.replacen('0', "+", 1));
    unread(&text.replacen('0', "", 1));
    unread(&text.replacen("\n0", "0\n", 1));
    unread(&text.replacen('\n', " ", 1));
    unread(&format!(" {}", &text[..107]));
    unread(&text.replacen("00", "\u{e9}", 1));
}

#[test]
fn other_printouts() {
    let mut r = Registers { rx_buffers: 0xFFFF_FFFF, ..case_a() };
    assert_eq!(layout_printout(bench_text(&r).as_bytes()), "layout refused 12 4 7\n");
    r.gfc = 0x40;
    assert_eq!(layout_printout(bench_text(&r).as_bytes()), "layout refused 11 7 7\n");
    r = Registers { rx_buffers: 0, ..case_a() };
    assert!(layout_printout(bench_text(&r).as_bytes()).contains("\n4 0 0\n"));
}

const CASE_B: [u32; 4] = [0x1816_0020, 0x5015_0120, 0x3930_0004, 0x8F00_07CF];

#[test]
fn case_b_frames() {
    let mut h = Handler::from(case_a()).filters(&CASE_B);
    assert_eq!(h.receive(classic(0x15, 0), &[]), stored(1, 0, Some(1)));
    assert_eq!(h.receive(classic(0x16, 0), &[]), discarded(REASON_REJECT, Some(0)));
    assert_eq!(h.receive(classic(0x20, 0), &[]), discarded(REASON_REJECT, Some(0)));
    assert_eq!(h.receive(classic(0x130, 0), &[]), in_buffer(4, 2));
    assert_eq!(h.receive(classic(0x720, 0), &[]), stored(0, 0, Some(3)));
    assert_eq!(h.receive(classic(0x740, 0), &[]), stored(0, 1, None));
    assert_eq!(h.receive(classic(0x120, 0), &[]), stored(1, 1, Some(1)));
    assert_eq!(h.state.new_data, 1 << 4);
    assert_eq!(h.flags(), flags(&[0, 4, 19]));
    assert_eq!(h.record.priority, 0);
}

#[test]
fn case_b_filters_taken_apart() {
    let expected = [(0, 3, 0x16, 0x20), (1, 2, 0x15, 0x120), (0, 7, 0x130, 4), (2, 1, 0x700, 0x7CF)];
    for (word, (kind, action, id1, id2)) in CASE_B.into_iter().zip(expected) {
        assert_eq!(standard_filter(word), Filter { kind, action, id1, id2 });
    }
}

#[test]
fn star_element_words() {
    let expected = [0x048C_0000, 0x0238_1234, 0x0403_0201, 0x0807_0605];
    let frame = Frame { id: 0x123, fdf: true, brs: true, dlc: 8, ..Frame::default() };
    let mut element = [0xDEAD_BEEF; 4];
    put_element(&mut element, rx_header_words(&frame, Some(2), 0x1234), &BYTES[..8]);
    assert_eq!(element, expected);

    // The same by the calls: the third filter sends it to FIFO 0.
    let mut h =
        Handler::new(Plan { standard: 3, fifo: [2, 0], ..PLAN }).filters(&[0, 0, standard(1, 1, 0x123, 0x123)]);
    assert_eq!(h.receive_at(frame, &BYTES[..8], 0x1234), stored(0, 0, Some(2)));
    let at = h.start_of(RX_FIFO_0);
    assert_eq!(h.memory[at..at + 4], expected);
    assert_eq!(h.memory[at + 4], 0xDEAD_BEEF);
}

#[test]
fn star_ranks() {
    assert_eq!(rank(0x100, false, false), 0x2000_0000);
    assert_eq!(rank(0x100, false, true), 0x2010_0000);
    assert_eq!(rank(0x0400_0000, true, false), 0x2018_0000);
    assert_eq!(rank(0x1FFF_FFFF, true, true), 0xFFFF_FFFF);
    assert_eq!(rank(0, false, false), 0);
    assert_eq!(rank_of_word_0(0x4400_0000), 0x2018_0000);
    assert_eq!(rank_of_word_0(0x0400_0000), 0x2000_0000);
}

#[test]
fn star_bytes_past_the_element() {
    let mut h = Handler::new(Plan { dedicated: 1, ..PLAN });
    assert_eq!(h.dedicated(0, fd(0x123, 9), &BYTES[..12], 7, false), Ok(0));
    let chosen = h.choice(false).unwrap().unwrap();
    assert_eq!(chosen, Choice { buffer: 0, marker: 7, wish: false, header: fd(0x123, 9), bytes: 12 });
    assert_eq!(h.output[..12], [1, 2, 3, 4, 5, 6, 7, 8, 0xCC, 0xCC, 0xCC, 0xCC]);
    assert!(h.output[12..].iter().all(|byte| *byte == UNTOUCHED));
}

#[test]
fn data_lengths() {
    for dlc in 0..=8 {
        assert_eq!(data_length(false, false, dlc), dlc);
        assert_eq!(data_length(false, true, dlc), dlc);
    }
    for (dlc, bytes) in (9..=15).zip([12, 16, 20, 24, 32, 48, 64]) {
        assert_eq!(data_length(false, false, dlc), 8);
        assert_eq!(data_length(false, true, dlc), bytes);
        assert_eq!(data_length(true, true, dlc), 0);
    }
}

// ------------------------------------------------------------------------------------------------------
// Easy to get wrong
// ------------------------------------------------------------------------------------------------------

#[test]
fn a_29_bit_identifier_does_not_tie_with_an_11_bit_one() {
    let mut h = Handler::new(Plan { dedicated: 2, ..PLAN });
    h.dedicated(0, extended(0x0400_0000, 0), &[], 0, false).unwrap();
    h.dedicated(1, classic(0x100, 0), &[], 0, false).unwrap();
    assert_eq!(h.choice(false).unwrap().unwrap().buffer, 1);
    // A remote 11-bit frame wins against it too, but loses against the data frame.
    let mut h = Handler::new(Plan { dedicated: 3, ..PLAN });
    h.dedicated(0, extended(0x0400_0000, 0), &[], 0, false).unwrap();
    h.dedicated(1, remote(0x100), &[], 0, false).unwrap();
    assert_eq!(h.choice(false).unwrap().unwrap().buffer, 1);
    h.dedicated(2, classic(0x100, 0), &[], 0, false).unwrap();
    assert_eq!(h.choice(false).unwrap().unwrap().buffer, 2);
}

#[test]
fn action_7_ignores_type_3() {
    let mut h = Handler::new(Plan { standard: 2, rx_buffers: 3, gfc: 0x20, ..PLAN })
        .filters(&[standard(3, 7, 5, 2), standard(3, 1, 6, 6)]);
    assert_eq!(h.receive(classic(5, 0), &[]), in_buffer(2, 0));
    // Type 3 with another action is off in the 11-bit list.
    assert_eq!(h.receive(classic(6, 0), &[]), discarded(REASON_NO_MATCH, None));
}

#[test]
fn long_frames_stay_inside_their_element() {
    let mut h = Handler::new(Plan { fifo: [3, 0], dedicated: 3, ..PLAN });
    h.receive(classic(1, 0), &[]).unwrap();
    assert_eq!(h.receive(fd(1, 15), &BYTES), stored(0, 1, None));
    let at = h.start_of(RX_FIFO_0);
    assert_eq!(h.memory[at + 6..at + 8], [0x0403_0201, 0x0807_0605]);
    assert_eq!(h.memory[at + 8], 0xDEAD_BEEF);
    let read = h.read(0, 1).unwrap();
    assert_eq!((read.bytes, read.header.dlc, read.header.fdf), (8, 15, true));
    assert_eq!(h.output[..8], BYTES[..8]);
    assert_eq!(h.output[8], UNTOUCHED);

    h.dedicated(1, fd(1, 15), &BYTES, 0, false).unwrap();
    let at = h.start_of(TX_BUFFERS);
    assert_eq!(h.memory[at + 3], 0xDEAD_BEEF);
    assert_eq!(h.memory[at + 6..at + 8], [0x0403_0201, 0x0807_0605]);
    assert_eq!(h.memory[at + 8], 0xDEAD_BEEF);
}

#[test]
fn overwriting_does_not_set_lost() {
    let mut h = Handler::new(Plan { fifo: [0, 2], overwrite: [false, true], gfc: 0x10, ..PLAN });
    for id in 0..5 {
        assert_eq!(h.receive(classic(id, 0), &[]), stored(1, id % 2, None));
    }
    assert_eq!(h.flags(), flags(&[4, 6]));
    assert_eq!(h.state.fifo1, Ring { oldest: 1, fill: 2 });
    assert_eq!(h.read(1, 1).unwrap().header.id, 3);
    assert_eq!(h.read(1, 0).unwrap().header.id, 4);
}

// ------------------------------------------------------------------------------------------------------
// Start
// ------------------------------------------------------------------------------------------------------

/// On a memory as long as is given.
fn verdict(registers: Registers) -> (u32, u32, u32) {
    verdict_on(registers, registers.memory_words as usize)
}

fn verdict_on(registers: Registers, lent: usize) -> (u32, u32, u32) {
    match layout_verdict(&registers, lent) {
        Ok(_) => (0, 7, 7),
        Err(no) => (no.number, no.first, no.second),
    }
}

/// The values after a reset, with the bench cases' memory: a reset itself gives no length.
fn reset() -> Registers {
    Registers { memory_words: BENCH_MEMORY_WORDS, ..Registers::reset() }
}

#[test]
fn reset_registers_lose_every_frame() {
    let mut h = Handler::from(reset());
    assert_eq!(layout_verdict(&reset(), 2560), Ok([Section::default(); 7]));
    for frame in [classic(0, 0), classic(0x7FF, 0), extended(5, 0), remote(3)] {
        assert_eq!(h.receive(frame, &[]), lost(0, None));
    }
    assert_eq!(h.flags(), 0x8);
    assert_eq!(h.state, State { registers: reset(), ..State::default() });
    // Without a length no memory will do.
    assert_eq!(Registers::reset().memory_words, 0);
    for lent in [0, 1, 2560, 4352] {
        assert_eq!(verdict_on(Registers::reset(), lent), (10, 7, 7));
    }
}

#[test]
fn start_numbers() {
    // 10, below everything else.
    let bad = Registers { gfc: u32::MAX, ..case_a() };
    for lent in [0, 1, 2559, 2561, 10_240] {
        assert_eq!(verdict_on(bad, lent), (10, 7, 7));
    }
    for memory_words in [0, 4353, 10_240, u32::MAX] {
        assert_eq!(verdict(Registers { memory_words, ..bad }), (10, 7, 7));
        assert_eq!(verdict_on(Registers { memory_words, ..bad }, 2560), (10, 7, 7));
    }
    // 11: each bit of each register by itself.
    let legal: [u32; 11] = [
        0x00FF_FFFC,
        0x007F_FFFC,
        0xFF7F_FFFC,
        0xFF7F_FFFC,
        0x0000_FFFC,
        0x0000_0777,
        0x3F3F_FFFC,
        0x7F3F_FFFC,
        0x0000_0007,
        0x0000_003F,
        0x1FFF_FFFF,
    ];
    for (number, mask) in legal.into_iter().enumerate() {
        for at in 0..32 {
            let mut r = Registers { memory_words: 2560, ..Registers::default() };
            let word = [
                &mut r.sidfc,
                &mut r.xidfc,
                &mut r.rxf0c,
                &mut r.rxf1c,
                &mut r.rxbc,
                &mut r.rxesc,
                &mut r.txefc,
                &mut r.txbc,
                &mut r.txesc,
                &mut r.gfc,
                &mut r.xidam,
            ]
            .into_iter()
            .nth(number)
            .unwrap();
            *word = 1 << at;
            let named = mask >> at & 1 == 1;
            assert_eq!(verdict(r).0 != 11, named, "register {number}, bit {at}");
        }
    }
    assert_eq!(verdict(Registers { xidfc: 1 << 23, ..reset() }), (11, 7, 7));
    // 11 comes before 12, and an absent section's unnamed bits count.
    assert_eq!(verdict(Registers { txefc: 1, rx_buffers: 99, ..reset() }), (11, 7, 7));
    assert_eq!(verdict(Registers { rxbc: 2, ..reset() }), (11, 7, 7));
    // 12: each section, the first one named.
    let r = reset();
    assert_eq!(verdict(Registers { sidfc: 129 << 16, ..r }), (12, 0, 7));
    assert_eq!(verdict(Registers { xidfc: 65 << 16, ..r }), (12, 1, 7));
    assert_eq!(verdict(Registers { rxf0c: 65 << 16, ..r }), (12, 2, 7));
    assert_eq!(verdict(Registers { rxf1c: 65 << 16, ..r }), (12, 3, 7));
    assert_eq!(verdict(Registers { rx_buffers: 65, ..r }), (12, 4, 7));
    assert_eq!(verdict(Registers { rx_buffers: 0xFFFF_FFFF, ..r }), (12, 4, 7));
    assert_eq!(verdict(Registers { txefc: 33 << 16, ..r }), (12, 5, 7));
    assert_eq!(verdict(Registers { txbc: 33 << 16, ..r }), (12, 6, 7));
    assert_eq!(verdict(Registers { txbc: 33 << 24, ..r }), (12, 6, 7));
    assert_eq!(verdict(Registers { txbc: 63 << 24 | 63 << 16, ..r }), (12, 6, 7));
    assert_eq!(verdict(Registers { rxf1c: 127 << 16, rx_buffers: 70, ..r }), (12, 3, 7));
    // 13.
    assert_eq!(verdict(Registers { txbc: 32 << 24 | 32 << 16, ..r }), (13, 7, 7));
    assert_eq!(verdict(Registers { txbc: 1 << 24 | 32 << 16, ..r }), (13, 7, 7));
    assert_eq!(verdict(Registers { txbc: 32 << 24 | 1 << 16 | 0xFFFC, ..r }), (13, 7, 7));
    // 14: the first of two, and before 15.
    assert_eq!(verdict(Registers { sidfc: 1 << 16 | 2559 << 2, ..r }), (0, 7, 7));
    assert_eq!(verdict(Registers { sidfc: 1 << 16 | 2560 << 2, ..r }), (14, 0, 7));
    assert_eq!(verdict(Registers { xidfc: 1 << 16 | 2559 << 2, txefc: 1 << 16 | 0xFFFC, ..r }), (14, 1, 7));
    assert_eq!(verdict(Registers { sidfc: 9 << 16, xidfc: 9 << 16, txbc: 1 << 16 | 2557 << 2, ..r }), (14, 6, 7));
    // 15: the first pair in section order.
    let pair = Registers {
        sidfc: 4 << 16,
        xidfc: 4 << 16 | 100 << 2,
        rxf0c: 1 << 16 | 107 << 2,
        txbc: 1 << 16 | 3 << 2,
        ..r
    };
    assert_eq!(verdict(pair), (15, 0, 6));
    assert_eq!(verdict(Registers { txbc: 1 << 16 | 4 << 2, ..pair }), (15, 1, 2));
    assert_eq!(verdict(Registers { txbc: 1 << 16 | 4 << 2, rxf0c: 1 << 16 | 108 << 2, ..pair }), (0, 7, 7));
}

#[test]
fn absent_sections_have_no_place() {
    let r = Registers {
        sidfc: 0xFFFC,
        xidfc: 0xFFFC,
        rxf0c: 0xFFFC,
        rxf1c: 0xFFFC,
        rxbc: 0xFFFC,
        txefc: 0xFFFC,
        txbc: 0xFFFC,
        ..reset()
    };
    assert_eq!(layout_verdict(&r, 2560), Ok([Section::default(); 7]));
    // They overlap nothing either.
    let r = Registers { sidfc: 128 << 16, xidfc: 5 << 2, ..reset() };
    assert!(layout_verdict(&r, 2560).is_ok());
}

// ------------------------------------------------------------------------------------------------------
// The memory's length
// ------------------------------------------------------------------------------------------------------

/// Case A with a memory of this length.
fn case_a_for(memory_words: u32) -> Registers {
    Registers { memory_words, ..case_a() }
}

#[test]
fn given_0_lent_0() {
    assert_eq!(verdict_on(Registers::default(), 0), (10, 7, 7));
}

#[test]
fn given_1_lent_1() {
    for xidam in [0, 1, 0x1FFF_FFFF] {
        let r = Registers { xidam, memory_words: 1, ..Registers::default() };
        assert_eq!(layout_verdict(&r, 1), Ok([Section::default(); 7]));
    }
    // One filter fills it; nothing else has one word.
    let r = Registers { memory_words: 1, ..reset() };
    assert_eq!(verdict(Registers { sidfc: 1 << 16, ..r }), (0, 7, 7));
    assert_eq!(verdict(Registers { sidfc: 1 << 16 | 1 << 2, ..r }), (14, 0, 7));
    assert_eq!(verdict(Registers { sidfc: 2 << 16, ..r }), (14, 0, 7));
    assert_eq!(verdict(Registers { xidfc: 1 << 16, ..r }), (14, 1, 7));
}

#[test]
fn given_4352_tx_ends_at_the_last_word() {
    let r = Registers { txbc: 0x0602_41C0, ..case_a_for(4352) };
    let layout = layout_verdict(&r, 4352).expect("it ends at word 4,352");
    assert_eq!(layout[TX_BUFFERS], Section { start: 4208, words: 144 });
    // What is asked of its last buffer goes to the last words, and comes from there.
    let mut h = Handler::from(Registers { txbc: 0x0008_41C0, fd_on: true, ..r });
    h.dedicated(7, fd(0x123, 15), &BYTES, 9, false).unwrap();
    assert_eq!(h.memory[4351], 0x403F_3E3D);
    assert_eq!(h.memory[4352 - 18], 0x123 << 18);
    assert_eq!(h.memory[4351 - 18], 0xDEAD_BEEF);
    assert_eq!(h.choice(false).unwrap().unwrap().bytes, 64);
    assert_eq!(h.output, BYTES);
}

#[test]
fn given_4352_tx_ends_one_word_past() {
    assert_eq!(verdict(Registers { txbc: 0x0602_41C4, ..case_a_for(4352) }), (14, 6, 7));
}

#[test]
fn given_4353_lent_4353() {
    assert_eq!(verdict_on(case_a_for(4353), 4353), (10, 7, 7));
}

#[test]
fn given_2560_lent_4352() {
    assert_eq!(verdict_on(case_a(), 4352), (10, 7, 7));
    assert_eq!(verdict_on(case_a_for(4352), 2560), (10, 7, 7));
}

#[test]
fn given_4352_what_2560_refuses() {
    let r = Registers { txbc: 0x0602_25C4, ..case_a() };
    assert_eq!(verdict(r), (14, 6, 7));
    assert_eq!(verdict(Registers { memory_words: 4352, ..r }), (0, 7, 7));
}

#[test]
fn given_2561_a_bit_without_a_name() {
    assert_eq!(verdict_on(Registers { gfc: 0x40, ..case_a_for(2561) }, 2561), (11, 7, 7));
}

#[test]
fn started_with_2560_lent_2559() {
    let mut h = Handler::from(case_a());
    assert!(h.status().is_ok());
    h.memory.truncate(2559);
    assert_eq!(h.status(), Err(20));
    all_calls_give_20(&mut h);
    // The same memory again, and the state is fit as before.
    h.memory.push(0);
    assert!(h.status().is_ok());
    h.memory.push(0);
    all_calls_give_20(&mut h);
}

#[test]
fn state_says_4353_lent_4353() {
    let mut h = Handler::from(case_a());
    h.state.registers.memory_words = 4353;
    h.memory = vec![0; 4353];
    assert_eq!(h.status(), Err(20));
    all_calls_give_20(&mut h);
}

#[test]
fn every_length_and_no_other() {
    for memory_words in 0..5000 {
        let refused = memory_words == 0 || memory_words > MEMORY_MOST;
        let number = verdict(Registers { memory_words, ..reset() }).0;
        assert_eq!(number, if refused { 10 } else { 0 }, "{memory_words}");
        for lent in [memory_words + 1, memory_words.wrapping_sub(1), 5000] {
            assert_eq!(verdict_on(Registers { memory_words, ..reset() }, lent as usize), (10, 7, 7));
        }
        // 14 by the given length: a filter in its last word, and in the word behind that.
        if !refused {
            let at = |start: u32| Registers { sidfc: 1 << 16 | start << 2, memory_words, ..reset() };
            assert_eq!(verdict(at(memory_words - 1)), (0, 7, 7));
            assert_eq!(verdict(at(memory_words)), (14, 0, 7));
        }
    }
    // Lengths whose low 16 bits alone would be right.
    for memory_words in [0x1_0000, 0x1_0A00, 0x8000_0A00, 0xFFFF_0001] {
        assert_eq!(verdict(Registers { memory_words, ..reset() }), (10, 7, 7));
        assert_eq!(verdict_on(Registers { memory_words, ..reset() }, memory_words as usize & 0xFFFF), (10, 7, 7));
    }
}

#[test]
fn unfit_reads_the_length_in_the_state() {
    // The layout ends at word 410: a longer memory does, where state and memory say the same, and a shorter doesn't.
    let h = Handler::from(case_a());
    for (length, fits) in [(409, false), (410, true), (2559, true), (4352, true), (4353, false), (0, false)] {
        let mut h = h.clone();
        h.state.registers.memory_words = length;
        all_calls_give_20(&mut h);
        h.memory = vec![0; length as usize];
        assert_eq!(h.status().is_ok(), fits, "{length}");
    }
}

#[test]
fn a_start_may_give_another_length() {
    let mut h = Handler::from(case_a());
    h.memory.resize(4352, 0);
    // Refused, it leaves the old length; accepted, it keeps the new one.
    let refused = start(&mut h.state, &mut h.record, case_a(), 4352).unwrap_err();
    assert_eq!((refused.number, h.state.registers.memory_words), (10, 2560));
    assert_eq!(h.status(), Err(20));
    start(&mut h.state, &mut h.record, case_a_for(4352), 4352).unwrap();
    assert_eq!(h.state, State { registers: case_a_for(4352), ..State::default() });
    assert!(h.status().is_ok());
}

#[test]
fn a_refused_start_keeps_state_and_record() {
    let mut h = Handler::from(case_a()).filters(&CASE_B);
    h.receive(classic(0x720, 0), &[]).unwrap();
    let before = h.clone();
    let no = start(&mut h.state, &mut h.record, Registers { rxesc: 8, ..case_a() }, 2560).unwrap_err();
    assert_eq!(no, StartRefusal { number: 11, first: 7, second: 7 });
    assert_eq!(h, before);
    // An accepted one empties both, whatever was in them.
    h.record.flags = u32::MAX;
    h.state.fifo0.fill = 999;
    start(&mut h.state, &mut h.record, case_a(), 2560).unwrap();
    assert_eq!(h.state, State { registers: case_a(), ..State::default() });
    assert_eq!(h.record, Record::default());
    assert_eq!(h.memory, before.memory);
}

#[test]
fn high_watermarks_are_accepted_and_never_fire() {
    let mut h = Handler::new(Plan { fifo: [64, 0], watermark: [65, 0], ..PLAN });
    for _ in 0..64 {
        h.receive(classic(1, 0), &[]).unwrap();
    }
    assert_eq!(h.flags(), flags(&[0, 2]));
    let mut h = Handler::new(Plan { fifo: [64, 0], watermark: [64, 0], ..PLAN });
    for _ in 0..64 {
        assert_eq!(h.flags() & flags(&[1, 2]), 0);
        h.receive(classic(1, 0), &[]).unwrap();
    }
    assert_eq!(h.flags(), flags(&[0, 1, 2]));
}

// ------------------------------------------------------------------------------------------------------
// Receive
// ------------------------------------------------------------------------------------------------------

#[test]
fn overwrite_fifo_of_size_1() {
    let mut h = Handler::new(Plan { fifo: [1, 0], overwrite: [true, false], watermark: [1, 0], ..PLAN });
    assert_eq!(h.receive(classic(1, 0), &[]), stored(0, 0, None));
    assert_eq!(h.flags(), flags(&[0, 1, 2]));
    h.clear(u32::MAX).unwrap();
    assert_eq!(h.receive(classic(2, 0), &[]), stored(0, 0, None));
    assert_eq!(h.flags(), flags(&[0]));
    assert_eq!(h.state.fifo0, Ring { oldest: 0, fill: 1 });
    assert_eq!(h.read(0, 0).unwrap().header.id, 2);
}

#[test]
fn watermark_equal_to_the_size() {
    let mut h = Handler::new(Plan { fifo: [2, 0], watermark: [2, 0], ..PLAN });
    h.receive(classic(1, 0), &[]).unwrap();
    assert_eq!(h.flags(), flags(&[0]));
    h.receive(classic(1, 0), &[]).unwrap();
    assert_eq!(h.flags(), flags(&[0, 1, 2]));
    h.clear(u32::MAX).unwrap();
    // Lost: nothing but its own flag.
    assert_eq!(h.receive(classic(1, 0), &[]), lost(0, None));
    assert_eq!(h.flags(), flags(&[3]));
    // It fires again when the fill rises to it again.
    h.acknowledge(0, 0).unwrap();
    h.receive(classic(1, 0), &[]).unwrap();
    assert_eq!(h.flags(), flags(&[0, 1, 2, 3]));
}

#[test]
fn priority_outcomes() {
    let list = [standard(1, 4, 4, 4), standard(1, 5, 5, 5), standard(1, 6, 6, 6)];
    let mut h = Handler::new(Plan { standard: 3, extended: 2, fifo: [2, 1], ..PLAN }).filters(&list);
    let ext = [long(1, 6, 0x1000_0000, 0), long(1, 4, 7, 7)].concat();
    h.memory[3..7].copy_from_slice(&ext);

    assert_eq!(h.receive(classic(4, 0), &[]), discarded(REASON_PRIORITY_ONLY, Some(0)));
    assert_eq!((h.flags(), h.record.priority), (flags(&[8]), 0));
    h.receive(classic(5, 0), &[]).unwrap();
    assert_eq!(h.receive(classic(5, 0), &[]), stored(0, 1, Some(1)));
    assert_eq!((h.flags(), h.record.priority), (flags(&[0, 2, 8]), 1 << 8 | 2 << 6 | 1));
    h.clear(u32::MAX).unwrap();
    assert_eq!(h.record.priority, 1 << 8 | 2 << 6 | 1);
    // Action 5 lost.
    assert_eq!(h.receive(classic(5, 0), &[]), lost(0, Some(1)));
    assert_eq!((h.flags(), h.record.priority), (flags(&[3, 8]), 1 << 8 | 1 << 6));
    assert_eq!(h.receive(extended(0x1000_0000, 0), &[]), stored(1, 0, Some(0)));
    assert_eq!(h.record.priority, 1 << 15 | 3 << 6);
    assert_eq!(h.receive(classic(6, 0), &[]), lost(1, Some(2)));
    assert_eq!(h.record.priority, 2 << 8 | 1 << 6);
    assert_eq!(h.receive(extended(7, 0), &[]), discarded(REASON_PRIORITY_ONLY, Some(1)));
    assert_eq!(h.record.priority, 1 << 15 | 1 << 8);
    // A frame without priority leaves the word.
    h.receive(classic(9, 0), &[]).unwrap();
    assert_eq!(h.record.priority, 1 << 15 | 1 << 8);
}

#[test]
fn priority_to_a_fifo_of_size_0() {
    let mut h = Handler::new(Plan { standard: 1, ..PLAN }).filters(&[standard(1, 6, 6, 6)]);
    h.record.priority = u32::MAX;
    assert_eq!(h.receive(classic(6, 0), &[]), lost(1, Some(0)));
    assert_eq!((h.flags(), h.record.priority), (flags(&[7, 8]), 1 << 6));
}

#[test]
fn extended_mask() {
    // Action 7 of type 3 with XIDAM 0: the masked identifier is 0, so only ID1 0 matches, for any frame.
    let plan = Plan { extended: 1, rx_buffers: 2, gfc: 0x08, xidam: 0, ..PLAN };
    let mut h = Handler::new(plan).filters(&long(3, 7, 0, 1));
    assert_eq!(h.receive(extended(0x0123_4567, 0), &[]), in_buffer(1, 0));
    // The stored identifier is the whole one.
    assert_eq!(h.read_buffer(1).unwrap().header.id, 0x0123_4567);
    let mut h = Handler::new(plan).filters(&long(3, 7, 0x0123_4567, 1));
    assert_eq!(h.receive(extended(0x0123_4567, 0), &[]), discarded(REASON_NO_MATCH, None));
    // Type 3 with another action leaves XIDAM out; type 0 does not.
    let plan = Plan { fifo: [4, 0], ..plan };
    let mut h = Handler::new(plan).filters(&long(3, 1, 10, 20));
    assert_eq!(h.receive(extended(20, 0), &[]), stored(0, 0, Some(0)));
    assert_eq!(h.receive(extended(21, 0), &[]), discarded(REASON_NO_MATCH, None));
    let mut h = Handler::new(plan).filters(&long(0, 1, 10, 20));
    assert_eq!(h.receive(extended(20, 0), &[]), discarded(REASON_NO_MATCH, None));
    // The filter's own limits are never masked.
    let mut h = Handler::new(Plan { xidam: 0xFF, ..plan }).filters(&long(1, 1, 0x105, 0x5));
    assert_eq!(h.receive(extended(0x105, 0), &[]), stored(0, 0, Some(0)));
    let mut h = Handler::new(Plan { xidam: 0xFF, ..plan }).filters(&long(1, 1, 0x105, 0x105));
    assert_eq!(h.receive(extended(0x105, 0), &[]), discarded(REASON_NO_MATCH, None));
    let mut h = Handler::new(Plan { xidam: 0xFF, ..plan }).filters(&long(2, 1, 0x105, 0x10F));
    assert_eq!(h.receive(extended(0x105, 0), &[]), discarded(REASON_NO_MATCH, None));
    // Bit 29 of F1 is nobody's.
    let mut h = Handler::new(plan).filters(&[1 << 29 | 10, 3 << 30 | 1 << 29 | 20]);
    assert_eq!(h.receive(extended(15, 0), &[]), stored(0, 0, Some(0)));
}

#[test]
fn ranges() {
    let plan = Plan { standard: 1, fifo: [8, 0], gfc: 0x20, ..PLAN };
    // Reversed: nothing matches.
    let mut h = Handler::new(plan).filters(&[standard(0, 1, 20, 10)]);
    for id in [9, 10, 15, 20, 21] {
        assert_eq!(h.receive(classic(id, 0), &[]), discarded(REASON_NO_MATCH, None));
    }
    // Ends included, and bits 15:11 ignored.
    let mut h = Handler::new(plan).filters(&[standard(0, 1, 10, 20) | 0xF800]);
    let hits: Vec<u32> = (0..30).filter(|id| h.receive(classic(*id, 0), &[]).unwrap().index.is_some()).collect();
    assert_eq!(hits, (10..=20).collect::<Vec<_>>());
    // A 29-bit frame does not look at the 11-bit list.
    let mut h = Handler::new(Plan { gfc: 0x28, ..plan }).filters(&[standard(0, 1, 0, 0x7FF)]);
    assert_eq!(h.receive(extended(15, 0), &[]), discarded(REASON_NO_MATCH, None));
}

#[test]
fn remote_and_no_match() {
    let list = [standard(0, 1, 0, 0x7FF)];
    let mut h = Handler::new(Plan { standard: 1, fifo: [4, 4], gfc: 0b10, ..PLAN }).filters(&list);
    assert_eq!(h.receive(remote(1), &[]), discarded(REASON_REMOTE, None));
    assert_eq!(h.receive(Frame { xtd: true, ..remote(1) }, &[]), stored(0, 0, None));
    assert_eq!(h.receive(classic(1, 0), &[]), stored(0, 1, Some(0)));
    let mut h = Handler::new(Plan { standard: 1, fifo: [4, 4], gfc: 0b01, ..PLAN }).filters(&list);
    assert_eq!(h.receive(remote(1), &[]), stored(0, 0, Some(0)));
    assert_eq!(h.receive(Frame { xtd: true, ..remote(1) }, &[]), discarded(REASON_REMOTE, None));
    // ANFS and ANFE, all four values.
    for (value, expected) in [(0, stored(0, 0, None)), (1, stored(1, 0, None))] {
        let mut h = Handler::new(Plan { fifo: [4, 4], gfc: value << 4 | 0b1000, ..PLAN });
        assert_eq!(h.receive(classic(1, 0), &[]), expected);
        assert_eq!(h.receive(extended(1, 0), &[]), discarded(REASON_NO_MATCH, None));
        let mut h = Handler::new(Plan { fifo: [4, 4], gfc: value << 2 | 0b11_0000, ..PLAN });
        assert_eq!(h.receive(extended(1, 0), &[]), expected);
        assert_eq!(h.receive(classic(1, 0), &[]), discarded(REASON_NO_MATCH, None));
    }
}

#[test]
fn rx_buffers() {
    // ID2 0x3FF: bits 10:9 are 01, so debug comes before the buffer that does not exist.
    let plan = Plan { standard: 1, rx_buffers: 64, ..PLAN };
    let mut h = Handler::new(Plan { rx_buffers: 1, ..plan }).filters(&[standard(0, 7, 5, 0x3FF)]);
    assert_eq!(h.receive(classic(5, 0), &[]), discarded(REASON_DEBUG, Some(0)));
    let mut h = Handler::new(Plan { rx_buffers: 1, ..plan }).filters(&[standard(0, 7, 5, 0x1FF)]);
    assert_eq!(h.receive(classic(5, 0), &[]), discarded(REASON_MISFILED, Some(0)));
    assert_eq!(h.flags(), 0);
    // Buffer 63 of 64; bits 8:6 are ignored.
    let mut h = Handler::new(plan).filters(&[standard(0, 7, 5, 0x1FF)]);
    assert_eq!(h.receive(classic(5, 2), &[8, 9]), in_buffer(63, 0));
    assert_eq!(h.state.new_data, 1 << 63);
    assert_eq!(h.flags(), flags(&[19]));
    let at = h.start_of(RX_BUFFERS) + 63 * 4;
    assert_eq!(h.memory[at..at + 4], [5 << 18, 2 << 16, 0x0908, 0]);
    // Locked until released.
    let locked = h.memory.clone();
    assert_eq!(h.receive(classic(5, 0), &[]), discarded(REASON_LOCKED, Some(0)));
    assert_eq!(h.memory, locked);
    assert_eq!(h.read_buffer(63).unwrap().bytes, 2);
    assert_eq!(h.output[..3], [8, 9, UNTOUCHED]);
    assert_eq!(h.release(63), Ok(()));
    assert_eq!((h.state.new_data, h.flags()), (0, flags(&[19])));
    assert_eq!(h.receive(classic(5, 0), &[]), in_buffer(63, 0));
    // 29-bit: bits 28:11 of ID2 are ignored.
    let mut h = Handler::new(Plan { standard: 0, extended: 1, ..plan }).filters(&long(0, 7, 5, 0x1FFF_F9FF));
    assert_eq!(h.receive(extended(5, 0), &[]), in_buffer(63, 0));
}

#[test]
fn classic_dlc_15() {
    let mut h = Handler::new(Plan { fifo: [2, 0], code: [7, 0, 0, 0], ..PLAN });
    assert_eq!(h.receive(classic(1, 15), &BYTES[..8]), stored(0, 0, None));
    let read = h.read(0, 0).unwrap();
    assert_eq!((read.bytes, read.header.dlc), (8, 15));
    // Every word of the element is written, unused bytes 0.
    let at = h.start_of(RX_FIFO_0);
    assert_eq!(h.memory[at..at + 2], [1 << 18, 1 << 31 | 15 << 16]);
    assert_eq!(h.memory[at + 2..at + 4], [0x0403_0201, 0x0807_0605]);
    assert!(h.memory[at + 4..at + 18].iter().all(|word| *word == 0));
    assert_eq!(h.memory[at + 18], 0xDEAD_BEEF);
}

// ------------------------------------------------------------------------------------------------------
// Read and acknowledge
// ------------------------------------------------------------------------------------------------------

#[test]
fn reading_takes_words_as_they_stand() {
    let mut h = Handler::new(Plan { fifo: [2, 0], ..PLAN });
    h.receive(classic(1, 8), &BYTES[..8]).unwrap();
    let at = h.start_of(RX_FIFO_0);
    // RTR and FDF set by hand: no bytes.
    h.memory[at] |= 1 << 29;
    h.memory[at + 1] |= 1 << 21;
    let read = h.read(0, 0).unwrap();
    assert_eq!((read.bytes, read.header.rtr, read.header.fdf), (0, true, true));
    assert!(h.output.iter().all(|byte| *byte == UNTOUCHED));
    // All bits set: unnamed ones ignored, the index even with ANMF.
    h.memory[at] = !(1 << 30) & !(1 << 29);
    h.memory[at + 1] = 0xFFFF_FFFF;
    let read = h.read(0, 0).unwrap();
    let expected = RxHeader {
        id: 0x7FF,
        xtd: false,
        rtr: false,
        fdf: true,
        brs: true,
        esi: true,
        dlc: 15,
        anmf: true,
        index: 127,
        timestamp: 0xFFFF,
    };
    assert_eq!(read, Read { header: expected, bytes: 8 });
}

#[test]
fn acknowledging_in_a_wrapped_ring() {
    let mut h = Handler::new(Plan { fifo: [4, 0], ..PLAN });
    for id in 0..4 {
        h.receive(classic(id, 0), &[]).unwrap();
    }
    assert_eq!(h.acknowledge(0, 2), Ok(()));
    assert_eq!(h.state.fifo0, Ring { oldest: 3, fill: 1 });
    for id in 4..6 {
        h.receive(classic(id, 0), &[]).unwrap();
    }
    // Held: 3, 0, 1. The youngest is at place 1.
    let s = h.status().unwrap();
    assert_eq!(s.fifo0, RingStatus { fill: 3, oldest: 3, put: 2 });
    assert_eq!(h.acknowledge(0, 2), Err(29));
    assert_eq!(h.acknowledge(0, 1), Ok(()));
    assert_eq!(h.state.fifo0, Ring { oldest: 2, fill: 0 });
    assert_eq!(h.acknowledge(0, 1), Err(29));
    assert_eq!(h.flags(), flags(&[0, 2]));
}

#[test]
fn read_refusals() {
    let mut h =
        Handler::new(Plan { standard: 1, fifo: [2, 0], rx_buffers: 1, ..PLAN }).filters(&[standard(0, 7, 5, 0)]);
    assert_eq!(h.read(0, 2), Err(23));
    assert_eq!(h.read(0, u32::MAX), Err(23));
    assert_eq!(h.read(1, 0), Err(23));
    assert_eq!(h.read(2, 0), Err(23));
    assert_eq!(h.read(0, 0), Err(29));
    assert_eq!(h.acknowledge(0, 2), Err(23));
    assert_eq!(h.acknowledge(1, 0), Err(23));
    assert_eq!(h.acknowledge(u32::MAX, 0), Err(23));
    assert_eq!(h.acknowledge(0, 1), Err(29));
    assert_eq!(h.read_buffer(1), Err(23));
    assert_eq!(h.read_buffer(0), Err(29));
    assert_eq!(h.release(1), Err(23));
    assert_eq!(h.release(0), Err(29));
    assert_eq!(h.event(0), Err(23));
    assert_eq!(h.acknowledge_event(0), Err(23));
    h.receive(classic(1, 0), &[]).unwrap();
    h.receive(classic(5, 0), &[]).unwrap();
    for length in [0, 63, 65, 128] {
        h.output = vec![UNTOUCHED; length];
        assert_eq!(h.read(0, 0), Err(30));
        assert_eq!(h.read_buffer(0), Err(30));
        assert_eq!(h.choice(false), Err(30));
        // The lower number wins.
        assert_eq!(h.read(0, 1), Err(29));
        assert_eq!(h.read(0, 2), Err(23));
    }
    h.output = vec![UNTOUCHED; 64];
    assert!(h.read(0, 0).is_ok());
    assert!(h.read_buffer(0).is_ok());
    assert_eq!(h.choice(false), Ok(None));
    assert!(h.output.iter().all(|byte| *byte == UNTOUCHED));
}

// ------------------------------------------------------------------------------------------------------
// Sending
// ------------------------------------------------------------------------------------------------------

#[test]
fn tx_element_words() {
    let frame = Frame { id: 0x0123_4567, xtd: true, rtr: false, fdf: true, brs: true, esi: true, dlc: 3 };
    let mut element = [0xDEAD_BEEF; 5];
    put_element(&mut element, tx_header_words(&frame, 0xAB, true), &[1, 2, 3]);
    assert_eq!(element, [0xC123_4567, 0xABB3_0000, 0x0003_0201, 0, 0]);
}

#[test]
fn shared_requests_without_room() {
    let mut h = Handler::new(Plan { dedicated: 32, ..PLAN });
    assert_eq!(h.shared(classic(1, 0), &[], 0, false), Err(25));
    let mut h = Handler::new(Plan { dedicated: 32, queue: true, ..PLAN });
    assert_eq!(h.shared(classic(1, 0), &[], 0, false), Err(25));
    assert_eq!(h.dedicated(31, classic(1, 0), &[], 0, false), Ok(31));
    let mut h = Handler::new(PLAN);
    assert_eq!(h.shared(classic(1, 0), &[], 0, false), Err(25));
    assert_eq!(h.shared(classic(0x800, 0), &[], 0, false), Err(21));
    // A queue of 32, filled to the end.
    let mut h = Handler::new(Plan { shared: 32, queue: true, ..PLAN });
    for buffer in 0..32 {
        assert_eq!(h.shared(classic(buffer, 0), &[], 0, false), Ok(buffer));
    }
    assert_eq!(h.shared(classic(1, 0), &[], 0, false), Err(25));
    assert_eq!(h.status().unwrap().pending, 32);
    // The lowest free one is taken, not the next in a circle.
    h.cancel(17).unwrap();
    h.cancel(4).unwrap();
    assert_eq!(h.shared(classic(1, 0), &[], 0, false), Ok(4));
    assert_eq!(h.shared(classic(1, 0), &[], 0, false), Ok(17));
    assert_eq!(h.status().unwrap().shared, RingStatus { fill: 0, oldest: 0, put: 0 });
}

#[test]
fn a_shared_fifo_goes_round() {
    let mut h = Handler::new(Plan { dedicated: 2, shared: 3, ..PLAN });
    for buffer in 2..5 {
        assert_eq!(h.shared(classic(9 - buffer, 0), &[], 0, false), Ok(buffer));
    }
    assert_eq!(h.shared(classic(1, 0), &[], 0, false), Err(25));
    // The oldest goes first, although a younger one has the better rank.
    assert_eq!(h.choice(false).unwrap().unwrap().buffer, 2);
    assert_eq!(h.report(4, false, 0), Err(28));
    assert_eq!(h.report(2, false, 0), Ok(()));
    assert_eq!(h.status().unwrap().shared, RingStatus { fill: 2, oldest: 1, put: 0 });
    assert_eq!(h.state.sent, 1 << 2);
    assert_eq!(h.shared(classic(1, 0), &[], 0, false), Ok(2));
    assert_eq!(h.state.sent, 0);
    assert_eq!(h.state.pending, 0b11100);
    assert_eq!(h.status().unwrap().pending, 3);
}

#[test]
fn fd_off_sends_eight_bytes() {
    let mut h = Handler::new(Plan { dedicated: 1, events: 1, code: [0, 0, 0, 7], fd_on: false, ..PLAN });
    let frame = Frame { brs: true, esi: true, ..fd(0x123, 15) };
    assert_eq!(h.dedicated(0, frame, &BYTES, 0x55, true), Ok(0));
    let chosen = h.choice(true).unwrap().unwrap();
    let header = classic(0x123, 15);
    assert_eq!(chosen, Choice { buffer: 0, marker: 0x55, wish: true, header, bytes: 8 });
    assert_eq!(h.output[..8], BYTES[..8]);
    assert_eq!(h.output[8], UNTOUCHED);
    h.report(0, true, 0x4321).unwrap();
    let at = h.start_of(TX_EVENTS);
    assert_eq!(h.memory[at..at + 2], [0x123 << 18, 0x554F_4321]);
}

#[test]
fn as_sent_form() {
    let on = Registers { fd_on: true, rate_switch_on: true, ..Registers::default() };
    let slow = Registers { fd_on: true, ..Registers::default() };
    let off = Registers { rate_switch_on: true, ..Registers::default() };
    let fd_bits = 1 << 21 | 1 << 20;
    let form = |r: &Registers, word0, word1, passive| {
        let f = as_sent(r, word0, word1, passive);
        (f.rtr, f.fdf, f.brs, f.esi)
    };
    assert_eq!(form(&on, 0, fd_bits, false), (false, true, true, false));
    assert_eq!(form(&on, 0, fd_bits, true), (false, true, true, true));
    assert_eq!(form(&on, 1 << 31, fd_bits, false), (false, true, true, true));
    assert_eq!(form(&slow, 0, fd_bits, true), (false, true, false, true));
    assert_eq!(form(&off, 1 << 31, fd_bits, true), (false, false, false, false));
    assert_eq!(form(&on, 1 << 29 | 1 << 31, fd_bits, true), (true, false, false, false));
    assert_eq!(form(&on, 1 << 31, 1 << 20, true), (false, false, false, false));
}

#[test]
fn equal_ranks() {
    // Dedicated and the head of the FIFO: the lower number, so the dedicated one.
    let mut h = Handler::new(Plan { dedicated: 1, shared: 2, ..PLAN });
    h.shared(classic(7, 0), &[], 0, false).unwrap();
    h.dedicated(0, fd(7, 0), &[], 0, false).unwrap();
    assert_eq!(h.choice(false).unwrap().unwrap().buffer, 0);
    assert_eq!(h.report(1, false, 0), Err(28));
    assert_eq!(h.report(0, false, 0), Ok(()));
    assert_eq!(h.report(1, false, 0), Ok(()));
    assert_eq!(h.report(1, false, 0), Err(28));
    // In a queue the lower number too.
    let mut h = Handler::new(Plan { shared: 3, queue: true, ..PLAN });
    for _ in 0..3 {
        h.shared(classic(7, 0), &[], 0, false).unwrap();
    }
    assert_eq!(h.choice(false).unwrap().unwrap().buffer, 0);
}

#[test]
fn choice_follows_the_memory() {
    let mut h = Handler::new(Plan { dedicated: 2, ..PLAN });
    h.dedicated(0, classic(7, 0), &[], 1, false).unwrap();
    h.dedicated(1, classic(8, 0), &[], 2, false).unwrap();
    assert_eq!(h.choice(false).unwrap().unwrap().buffer, 0);
    let at = h.start_of(TX_BUFFERS);
    h.memory[at] = 9 << 18 | 0x3FFFF;
    h.memory[at + 4] = 9 << 18;
    // The low 18 bits of an 11-bit word play no part, so the ranks tie.
    assert_eq!(h.choice(false).unwrap().unwrap().buffer, 0);
    h.memory[at] = 10 << 18;
    assert_eq!(h.choice(false).unwrap().unwrap().buffer, 1);
    assert_eq!(h.report(0, false, 0), Err(28));
}

#[test]
fn report_refusals() {
    let mut h = Handler::new(Plan { dedicated: 16, shared: 16, ..PLAN });
    assert_eq!(h.report(32, false, 0), Err(23));
    assert_eq!(h.report(u32::MAX, false, 0), Err(23));
    assert_eq!(h.report(0, false, 0), Err(28));
    assert_eq!(h.report(31, false, 0), Err(28));
}

#[test]
fn events_of_size_0() {
    for wish in [false, true] {
        let mut h = Handler::new(Plan { dedicated: 1, event_watermark: 1, ..PLAN });
        h.dedicated(0, classic(7, 0), &[], 1, wish).unwrap();
        h.report(0, false, 0).unwrap();
        assert_eq!(h.flags(), if wish { flags(&[9, 15]) } else { flags(&[9]) });
        assert_eq!(h.event(0), Err(23));
    }
}

#[test]
fn events_are_kept_and_lost() {
    let mut h = Handler::new(Plan { dedicated: 1, events: 2, event_watermark: 1, ..PLAN });
    let send = |h: &mut Handler, marker: u8, wish: bool| {
        let frame = Frame { esi: false, brs: true, ..fd(0x30 + u32::from(marker), 9) };
        h.dedicated(0, frame, &BYTES[..12], marker, wish).unwrap();
        h.report(0, true, 0x100 + u16::from(marker)).unwrap();
    };
    send(&mut h, 1, false);
    assert_eq!((h.flags(), h.state.events.fill), (flags(&[9]), 0));
    send(&mut h, 2, true);
    assert_eq!((h.flags(), h.state.events.fill), (flags(&[9, 12, 13]), 1));
    h.clear(u32::MAX).unwrap();
    send(&mut h, 3, true);
    assert_eq!((h.flags(), h.state.events.fill), (flags(&[9, 12, 14]), 2));
    h.clear(u32::MAX).unwrap();
    send(&mut h, 4, true);
    assert_eq!((h.flags(), h.state.events.fill), (flags(&[9, 15]), 2));
    let event = h.event(1).unwrap();
    let expected = Event {
        id: 0x33,
        xtd: false,
        rtr: false,
        esi: true,
        marker: 3,
        kind: 1,
        fdf: true,
        brs: true,
        dlc: 9,
        timestamp: 0x103,
    };
    assert_eq!(event, expected);
    assert_eq!(h.event(0).unwrap().marker, 2);
    assert_eq!(h.acknowledge_event(2), Err(23));
    assert_eq!(h.acknowledge_event(1), Ok(()));
    assert_eq!(h.event(0), Err(29));
    assert_eq!(h.state.events, Ring { oldest: 0, fill: 0 });
    assert_eq!(h.acknowledge_event(0), Err(29));
}

#[test]
fn event_watermark_limits() {
    let mut h = Handler::new(Plan { dedicated: 1, events: 32, event_watermark: 32, ..PLAN });
    for _ in 0..32 {
        assert_eq!(h.flags() & flags(&[13, 14]), 0);
        h.dedicated(0, classic(1, 0), &[], 0, true).unwrap();
        h.report(0, false, 0).unwrap();
    }
    assert_eq!(h.flags(), flags(&[9, 12, 13, 14]));
}

#[test]
fn flag_11_is_for_the_fifo_alone() {
    let mut h = Handler::new(Plan { dedicated: 1, shared: 2, ..PLAN });
    h.shared(classic(7, 0), &[], 0, false).unwrap();
    h.shared(classic(7, 0), &[], 0, false).unwrap();
    h.report(1, false, 0).unwrap();
    assert_eq!(h.flags(), flags(&[9]));
    h.report(2, false, 0).unwrap();
    assert_eq!(h.flags(), flags(&[9, 11]));
    h.clear(u32::MAX).unwrap();
    // A dedicated send while the FIFO is empty doesn't set it.
    h.dedicated(0, classic(7, 0), &[], 0, false).unwrap();
    h.report(0, false, 0).unwrap();
    assert_eq!(h.flags(), flags(&[9]));
    // A queue never does.
    let mut h = Handler::new(Plan { shared: 1, queue: true, ..PLAN });
    h.shared(classic(7, 0), &[], 0, false).unwrap();
    h.report(0, false, 0).unwrap();
    assert_eq!(h.flags(), flags(&[9]));
}

#[test]
fn cancelling() {
    let mut h = Handler::new(Plan { dedicated: 2, shared: 2, ..PLAN });
    assert_eq!(h.cancel(4), Err(23));
    assert_eq!(h.cancel(u32::MAX), Err(23));
    assert_eq!(h.cancel(2), Err(26));
    assert_eq!(h.cancel(0), Err(27));
    h.shared(classic(7, 0), &[], 0, false).unwrap();
    assert_eq!(h.cancel(2), Err(26));
    h.dedicated(1, classic(7, 0), &[], 0, false).unwrap();
    assert_eq!(h.dedicated(1, classic(7, 0), &[], 0, false), Err(24));
    assert_eq!(h.cancel(1), Ok(()));
    assert_eq!((h.state.pending, h.state.cancelled, h.state.sent), (0b100, 0b10, 0));
    assert_eq!(h.flags(), flags(&[10]));
    assert_eq!(h.cancel(1), Err(27));
    h.dedicated(1, classic(6, 0), &[], 0, false).unwrap();
    assert_eq!((h.state.pending, h.state.cancelled), (0b110, 0));
    h.report(1, false, 0).unwrap();
    assert_eq!((h.state.pending, h.state.sent), (0b100, 0b10));
    let mut h = Handler::new(Plan { dedicated: 1, shared: 2, queue: true, ..PLAN });
    assert_eq!(h.cancel(1), Err(27));
    h.shared(classic(7, 0), &[], 0, false).unwrap();
    assert_eq!(h.cancel(1), Ok(()));
    assert_eq!(h.choice(false), Ok(None));
}

#[test]
fn dedicated_refusals() {
    let mut h = Handler::new(Plan { dedicated: 2, shared: 2, ..PLAN });
    for buffer in [2, 3, 4, 32, u32::MAX] {
        assert_eq!(h.dedicated(buffer, classic(7, 0), &[], 0, false), Err(23));
        assert_eq!(h.dedicated(buffer, classic(7, 1), &[], 0, false), Err(21));
    }
    h.dedicated(1, classic(7, 0), &[], 0, false).unwrap();
    assert_eq!(h.dedicated(1, classic(7, 1), &[], 0, false), Err(21));
    assert_eq!(h.dedicated(1, classic(7, 0), &[], 0, false), Err(24));
}

// ------------------------------------------------------------------------------------------------------
// 20, 21, 22
// ------------------------------------------------------------------------------------------------------

#[test]
fn malformed_frames() {
    let good = |frame: Frame, length: usize| assert!(!malformed(&frame, &BYTES[..length]), "{frame:?}");
    let bad = |frame: Frame, length: usize| {
        assert!(malformed(&frame, &BYTES[..length]), "{frame:?}");
        let mut h = Handler::new(Plan { fifo: [4, 0], dedicated: 1, shared: 1, fd_on: false, ..PLAN });
        assert_eq!(h.receive(frame, &BYTES[..length]), Err(21));
        assert_eq!(h.dedicated(0, frame, &BYTES[..length], 0, false), Err(21));
        assert_eq!(h.shared(frame, &BYTES[..length], 0, false), Err(21));
    };
    good(classic(0x7FF, 0), 0);
    bad(classic(0x800, 0), 0);
    good(extended(0x1FFF_FFFF, 0), 0);
    bad(extended(0x2000_0000, 0), 0);
    good(classic(1, 15), 8);
    bad(classic(1, 16), 8);
    bad(fd(1, u32::MAX), 64);
    bad(Frame { fdf: true, ..remote(1) }, 0);
    bad(Frame { brs: true, ..classic(1, 0) }, 0);
    bad(Frame { esi: true, ..classic(1, 0) }, 0);
    good(Frame { brs: true, esi: true, ..fd(1, 0) }, 0);
    good(Frame { dlc: 15, ..remote(1) }, 0);
    bad(Frame { dlc: 8, ..remote(1) }, 8);
    good(fd(1, 9), 12);
    bad(fd(1, 9), 9);
    bad(fd(1, 9), 11);
    bad(fd(1, 9), 13);
    bad(classic(1, 9), 9);
    bad(classic(1, 0), 1);
}

#[test]
fn fd_frame_while_fd_is_off() {
    let mut h = Handler::new(Plan { fifo: [2, 0], dedicated: 1, fd_on: false, ..PLAN });
    assert_eq!(h.receive(fd(1, 0), &[]), Err(22));
    assert_eq!(h.receive(fd(0x800, 0), &[]), Err(21));
    assert_eq!(h.dedicated(0, fd(1, 0), &[], 0, false), Ok(0));
    // The rate switch is about sending only.
    let mut h = Handler::new(Plan { fifo: [2, 0], rate_switch_on: false, ..PLAN });
    assert_eq!(h.receive(Frame { brs: true, ..fd(1, 0) }, &[]), stored(0, 0, None));
    assert!(h.read(0, 0).unwrap().header.brs);
}

/// Every call from 2 to 15 gives 20 and changes nothing.
fn all_calls_give_20(h: &mut Handler) {
    assert_eq!(h.receive(classic(0x800, 99), &[]), Err(20));
    assert_eq!(h.read(9, 9), Err(20));
    assert_eq!(h.acknowledge(9, 9), Err(20));
    assert_eq!(h.read_buffer(99), Err(20));
    assert_eq!(h.release(99), Err(20));
    assert_eq!(h.dedicated(99, classic(0x800, 99), &[], 0, false), Err(20));
    assert_eq!(h.shared(classic(0x800, 99), &[], 0, false), Err(20));
    assert_eq!(h.cancel(99), Err(20));
    assert_eq!(h.choice(false), Err(20));
    assert_eq!(h.report(99, false, 0), Err(20));
    assert_eq!(h.event(99), Err(20));
    assert_eq!(h.acknowledge_event(99), Err(20));
    assert_eq!(h.clear(u32::MAX), Err(20));
    assert_eq!(h.status(), Err(20));
}

#[test]
fn unfit_states() {
    // Two dedicated, three shared, five Rx buffers, FIFOs of 8 and none, four events.
    let plan = Plan { fifo: [8, 0], rx_buffers: 5, events: 4, dedicated: 2, shared: 3, ..PLAN };
    let fit = Handler::new(plan);
    let unfit = |change: &dyn Fn(&mut Handler)| {
        let mut h = fit.clone();
        change(&mut h);
        all_calls_give_20(&mut h);
    };
    let fits = |change: &dyn Fn(&mut Handler)| {
        let mut h = fit.clone();
        change(&mut h);
        assert!(h.status().is_ok());
    };
    unfit(&|h| h.record.flags = 1 << 16);
    for flag in 0..32 {
        if flag < 16 || flag == 19 {
            fits(&|h| h.record.flags = 1 << flag);
        } else {
            unfit(&|h| h.record.flags = 1 << flag);
        }
    }
    fits(&|h| h.record.priority = u32::MAX);
    unfit(&|h| h.state.registers.gfc = u32::MAX);
    unfit(&|h| h.state.registers.rx_buffers = 65);
    unfit(&|h| h.memory.truncate(2559));
    unfit(&|h| h.memory.push(0));
    unfit(&|h| h.memory.clear());
    fits(&|h| h.state.fifo0 = Ring { oldest: 7, fill: 8 });
    unfit(&|h| h.state.fifo0.oldest = 8);
    unfit(&|h| h.state.fifo0.fill = 9);
    unfit(&|h| h.state.fifo0 = Ring { oldest: u32::MAX, fill: u32::MAX });
    unfit(&|h| h.state.fifo1.oldest = 1);
    unfit(&|h| h.state.fifo1.fill = 1);
    fits(&|h| h.state.events = Ring { oldest: 3, fill: 4 });
    unfit(&|h| h.state.events.oldest = 4);
    unfit(&|h| h.state.events.fill = 5);
    fits(&|h| h.state.shared.oldest = 2);
    unfit(&|h| h.state.shared.oldest = 3);
    unfit(&|h| h.state.shared.fill = 4);
    for bit in 0..32 {
        if bit < 2 {
            fits(&|h| h.state.pending = 1 << bit);
        } else {
            unfit(&|h| h.state.pending = 1 << bit);
        }
        if bit < 5 {
            fits(&|h| h.state.sent = 1 << bit);
            fits(&|h| h.state.cancelled = 1 << bit);
        } else {
            unfit(&|h| h.state.sent = 1 << bit);
            unfit(&|h| h.state.cancelled = 1 << bit);
        }
    }
    for bit in 0..64 {
        if bit < 5 {
            fits(&|h| h.state.new_data = 1 << bit);
        } else {
            unfit(&|h| h.state.new_data = 1 << bit);
        }
    }
    // The held places 2 and 0 of the shared FIFO are buffers 4 and 2.
    let ring = Ring { oldest: 2, fill: 2 };
    fits(&|h| (h.state.shared, h.state.pending) = (ring, 0b10101));
    fits(&|h| (h.state.shared, h.state.pending, h.state.sent) = (ring, 0b10100, 0b11111));
    unfit(&|h| (h.state.shared, h.state.pending) = (ring, 0b11100));
    unfit(&|h| (h.state.shared, h.state.pending) = (ring, 0b00100));
    // Queue mode: any pending bits, but the ring stays at 0.
    let queue = Handler::new(Plan { queue: true, ..plan });
    let mut h = queue.clone();
    h.state.pending = 0b10010;
    assert_eq!(h.status().unwrap().pending, 2);
    h.state.shared.oldest = 1;
    all_calls_give_20(&mut h);
    h.state.shared = Ring { oldest: 0, fill: 1 };
    all_calls_give_20(&mut h);
}

#[test]
fn a_zeroed_state_is_unfit() {
    let empty = RingStatus { fill: 0, oldest: 0, put: 0 };
    let nothing = Status { fifo0: empty, fifo1: empty, events: empty, shared: empty, pending: 0 };
    for memory_words in [1, 2560, 4352] {
        // Its length is 0, which no start accepts, with any memory and with none.
        let mut h = Handler::zeroed(memory_words as usize);
        all_calls_give_20(&mut h);
        all_calls_give_20(&mut Handler::zeroed(0));
        // The length alone is missing.
        h.state.registers.memory_words = memory_words;
        assert_eq!(h.status(), Ok(nothing));
        // A start on it is judged by itself.
        let mut h = Handler::zeroed(memory_words as usize);
        let lent = h.memory.len();
        let refused = start(&mut h.state, &mut h.record, Registers::default(), lent).unwrap_err();
        assert_eq!(refused, StartRefusal { number: 10, first: 7, second: 7 });
        all_calls_give_20(&mut h);
        let registers = Registers { memory_words, ..Registers::default() };
        assert_eq!(start(&mut h.state, &mut h.record, registers, lent), Ok([Section::default(); 7]));
        assert_eq!(h.status(), Ok(nothing));
    }
}

#[test]
fn a_state_that_never_started_is_unfit() {
    let never = State::never_started();
    assert_eq!((never.registers.gfc, never.registers.memory_words), (0xFFFF_FFFF, 0));
    for lent in [0, 1, 2560, 4352] {
        let mut h = Handler { state: never, ..Handler::zeroed(lent) };
        all_calls_give_20(&mut h);
        // Either alone would do: its GFC, its length.
        h.state.registers.memory_words = lent as u32;
        all_calls_give_20(&mut h);
    }
}

#[test]
fn clearing_flags() {
    let mut h = Handler::new(PLAN);
    h.record = Record { flags: 0x0008_FFFF, priority: 0x1234 };
    h.clear(0xF0).unwrap();
    assert_eq!(h.record, Record { flags: 0x0008_FF0F, priority: 0x1234 });
    h.clear(0).unwrap();
    assert_eq!(h.flags(), 0x0008_FF0F);
    h.clear(u32::MAX).unwrap();
    assert_eq!(h.record, Record { flags: 0, priority: 0x1234 });
}
