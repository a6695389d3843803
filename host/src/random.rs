//! Random inputs for the handler: the same seed gives the same row of inputs.

use crate::model::*;

/// An xorshift generator of 64 bits.
#[derive(Clone, Debug)]
pub struct Random {
    state: u64,
}

impl Random {
    /// Any seed will do; 0 is replaced, since xorshift would stay at 0.
    pub fn new(seed: u64) -> Random {
        let mut random = Random { state: if seed == 0 { 0x9E37_79B9_7F4A_7C15 } else { seed } };
        // Small seeds start alike, so the first numbers are left out.
        for _ in 0..16 {
            random.next();
        }
        random
    }

    #[allow(clippy::should_implement_trait)]
    pub fn next(&mut self) -> u64 {
        self.state ^= self.state >> 12;
        self.state ^= self.state << 25;
        self.state ^= self.state >> 27;
        self.state.wrapping_mul(0x2545_F491_4F6C_DD1D)
    }

    pub fn word(&mut self) -> u32 {
        (self.next() >> 32) as u32
    }

    /// A number below the limit, 0 if the limit is 0.
    pub fn below(&mut self, limit: u32) -> u32 {
        if limit == 0 {
            0
        } else {
            self.word() % limit
        }
    }

    /// A number from `low` to `high`, both included.
    pub fn between(&mut self, low: u32, high: u32) -> u32 {
        low + self.below((high - low).saturating_add(1))
    }

    /// True once in so many times.
    pub fn once_in(&mut self, times: u32) -> bool {
        self.below(times) == 0
    }

    pub fn coin(&mut self) -> bool {
        self.once_in(2)
    }

    pub fn bytes(&mut self, length: usize) -> Vec<u8> {
        (0..length).map(|_| self.word() as u8).collect()
    }

    pub fn bytes_up_to(&mut self, most: u32) -> Vec<u8> {
        let length = self.between(0, most) as usize;
        self.bytes(length)
    }

    /// A word that is often small, often all ones or close, and sometimes anything.
    pub fn odd_word(&mut self) -> u32 {
        match self.below(6) {
            0 => 0,
            1 => u32::MAX - self.below(3),
            2 => 1 << self.below(32),
            3 => self.below(130),
            _ => self.word(),
        }
    }
}

/// A count: absent, small, at its most or anything between.
fn count(random: &mut Random, most: u32) -> u32 {
    match random.below(8) {
        0 => 0,
        1..=4 => random.between(1, 4.min(most)),
        5 => most,
        _ => random.between(0, most),
    }
}

/// A watermark: off, close to the count, or anything the field holds.
fn watermark(random: &mut Random, count: u32, field: u32) -> u32 {
    match random.below(4) {
        0 => 0,
        1 => count.min(field),
        2 => random.between(0, count.min(field)),
        _ => random.between(0, field),
    }
}

/// A length that start accepts: half of them 2,560, else one beside it, the ends, a small one, or any.
pub fn memory_length(random: &mut Random) -> u32 {
    match random.below(16) {
        0..=7 => BENCH_MEMORY_WORDS,
        8 => random.between(BENCH_MEMORY_WORDS - 1, BENCH_MEMORY_WORDS + 1),
        9 => 1,
        10 => MEMORY_MOST - 1,
        11 => MEMORY_MOST,
        12 => random.between(1, 100),
        _ => random.between(1, MEMORY_MOST),
    }
}

/// A length that no start accepts: none, just over the most, or huge with low bits that alone would be right.
pub fn wrong_length(random: &mut Random) -> u32 {
    match random.below(6) {
        0 | 1 => 0,
        2 => MEMORY_MOST + 1,
        3 => random.between(MEMORY_MOST + 1, MEMORY_MOST + 8),
        4 => 1 << random.between(13, 31) | memory_length(random),
        _ => u32::MAX - random.below(3),
    }
}

/// A length of any kind: often right, often wrong.
fn any_length(random: &mut Random) -> u32 {
    match random.below(4) {
        0 => random.odd_word(),
        1 => wrong_length(random),
        _ => memory_length(random),
    }
}

/// Another length than is given, up to `room`: one word more or less, none, just over the most, or any.
pub fn other_length(random: &mut Random, given: u32, room: u32) -> u32 {
    loop {
        let lent = match random.below(5) {
            0 => given.saturating_add(1),
            1 => given.saturating_sub(1),
            2 => 0,
            3 => MEMORY_MOST + 1,
            _ => random.between(0, room),
        };
        if lent != given && lent <= room {
            return lent;
        }
    }
}

/// What is lent where a length is given: mostly as many words. Of a huge length sometimes its low bits.
pub fn lent_length(random: &mut Random, given: u32, room: u32) -> u32 {
    let low = given & 0xFFFF;
    if given <= room && !random.once_in(30) {
        given
    } else if low != given && low <= room && random.coin() {
        low
    } else {
        other_length(random, given, room)
    }
}

/// A register set that start accepts: a length, and a layout for it.
pub fn legal_registers(random: &mut Random) -> Registers {
    let memory_words = memory_length(random);
    legal_registers_for(random, memory_words)
}

/// The same for one length: random counts and sizes, placed in random order without overlap.
pub fn legal_registers_for(random: &mut Random, memory_words: u32) -> Registers {
    let code: [u32; 4] = [random.below(8), random.below(8), random.below(8), random.below(8)];
    let each = [
        1,
        2,
        SIZE_WORDS[code[0] as usize],
        SIZE_WORDS[code[1] as usize],
        SIZE_WORDS[code[2] as usize],
        2,
        SIZE_WORDS[code[3] as usize],
    ];

    // Counts, then the largest section is halved until all fit.
    let mut counts = [0u32; 7];
    for (section, value) in counts.iter_mut().enumerate() {
        *value = count(random, MOST[section]);
    }
    let words = |counts: &[u32; 7]| -> [u32; 7] { std::array::from_fn(|s| counts[s] * each[s]) };
    while words(&counts).iter().sum::<u32>() > memory_words {
        let sizes = words(&counts);
        let largest = (0..7).max_by_key(|s| sizes[*s]).unwrap_or(0);
        counts[largest] /= 2;
    }

    // A random order, with the spare words dealt out as gaps before the sections. An absent section gets any start.
    let sizes = words(&counts);
    let mut order = [0usize, 1, 2, 3, 4, 5, 6];
    for last in (1..7).rev() {
        order.swap(last, random.below(last as u32 + 1) as usize);
    }
    let mut spare = memory_words - sizes.iter().sum::<u32>();
    let mut at = 0;
    let mut starts = [0u32; 7];
    for (nth, section) in order.into_iter().enumerate() {
        if counts[section] == 0 {
            starts[section] = random.below(1 << 14);
            continue;
        }
        let gap = match random.below(4) {
            0 => 0,
            1 => random.between(0, spare.min(3)),
            // The last section ends with the last word.
            2 if nth == 6 => spare,
            _ => random.between(0, if nth == 6 { spare } else { spare / 2 }),
        };
        spare -= gap;
        at += gap;
        starts[section] = at;
        at += sizes[section];
    }

    let dedicated = random.between(0, counts[TX_BUFFERS]);
    let shared = counts[TX_BUFFERS] - dedicated;
    let fifo = |random: &mut Random, section: usize| -> u32 {
        u32::from(random.coin()) << 31
            | watermark(random, counts[section], 127) << 24
            | counts[section] << 16
            | starts[section] << 2
    };
    Registers {
        sidfc: counts[0] << 16 | starts[0] << 2,
        xidfc: counts[1] << 16 | starts[1] << 2,
        rxf0c: fifo(random, 2),
        rxf1c: fifo(random, 3),
        rxbc: starts[4] << 2,
        rxesc: code[2] << 8 | code[1] << 4 | code[0],
        txefc: watermark(random, counts[5], 63) << 24 | counts[5] << 16 | starts[5] << 2,
        txbc: u32::from(random.coin()) << 30 | shared << 24 | dedicated << 16 | starts[6] << 2,
        txesc: code[3],
        gfc: if random.coin() { random.below(4) << 4 | random.below(4) << 2 } else { random.below(64) },
        xidam: if random.coin() { 0x1FFF_FFFF } else { random.word() & 0x1FFF_FFFF },
        rx_buffers: counts[4],
        fd_on: !random.once_in(3),
        rate_switch_on: random.coin(),
        memory_words,
    }
}

/// The eleven words of a register set, to be changed by number.
fn register_word(registers: &mut Registers, number: u32) -> &mut u32 {
    match number {
        0 => &mut registers.sidfc,
        1 => &mut registers.xidfc,
        2 => &mut registers.rxf0c,
        3 => &mut registers.rxf1c,
        4 => &mut registers.rxbc,
        5 => &mut registers.rxesc,
        6 => &mut registers.txefc,
        7 => &mut registers.txbc,
        8 => &mut registers.txesc,
        9 => &mut registers.gfc,
        _ => &mut registers.xidam,
    }
}

/// A legal register set with one or two small changes, so that it often just fails.
pub fn nearly_legal_registers(random: &mut Random) -> Registers {
    let memory_words = memory_length(random);
    nearly_legal_registers_for(random, memory_words)
}

/// The same, changed from one that is legal for this length.
pub fn nearly_legal_registers_for(random: &mut Random, memory_words: u32) -> Registers {
    let mut registers = legal_registers_for(random, memory_words);
    // The registers with a start in bits 15:2, and those with a count in bits from 16 on.
    let with_start = [0, 1, 2, 3, 4, 6, 7];
    let with_count = [0, 1, 2, 3, 6, 7];
    for _ in 0..random.between(1, 2) {
        match random.below(7) {
            // Any one bit.
            0 => {
                let number = random.below(11);
                *register_word(&mut registers, number) ^= 1 << random.below(32);
            }
            // A start a few words on or back.
            1 => {
                let number = with_start[random.below(7) as usize];
                let value = register_word(&mut registers, number);
                let start = (*value >> 2) & 0x3FFF;
                let moved = start.wrapping_add(random.between(0, 8)).wrapping_sub(4) & 0x3FFF;
                *value = (*value & !0xFFFC) | moved << 2;
            }
            // A section that starts close to the end of the memory, or ends with its last word or one word past it.
            2 => {
                let number = random.below(7) as usize;
                let start = if random.coin() {
                    random.between(memory_words.saturating_sub(150), memory_words + 10)
                } else {
                    let end = memory_words + random.below(2);
                    end.saturating_sub(section(&registers, number).words)
                };
                let value = register_word(&mut registers, with_start[number]);
                *value = (*value & !0xFFFC) | start << 2;
            }
            // One more of something.
            3 => {
                let number = with_count[random.below(6) as usize];
                let value = register_word(&mut registers, number);
                *value = value.wrapping_add(1 << 16);
            }
            // Sums and counts of Tx buffers round their limits.
            4 => {
                registers.txbc =
                    (registers.txbc & 0x4000_FFFC) | random.between(0, 34) << 24 | random.between(0, 34) << 16;
            }
            // The memory's length, which may be any number.
            5 => {
                registers.memory_words = match random.below(3) {
                    0 => registers.memory_words.wrapping_add(1),
                    1 => registers.memory_words.wrapping_sub(1),
                    _ => wrong_length(random),
                };
            }
            // The Rx buffer count, which may be any number too.
            _ => {
                registers.rx_buffers = match random.below(3) {
                    0 => random.between(62, 66),
                    1 => registers.rx_buffers.wrapping_add(1),
                    _ => random.odd_word(),
                };
            }
        }
    }
    registers
}

/// Arbitrary words in all registers, with a length that is often right.
pub fn arbitrary_registers(random: &mut Random) -> Registers {
    let mut registers = Registers::default();
    for number in 0..11 {
        *register_word(&mut registers, number) = random.odd_word();
    }
    registers.rx_buffers = random.odd_word();
    registers.fd_on = random.coin();
    registers.rate_switch_on = random.coin();
    registers.memory_words = any_length(random);
    registers
}

/// An identifier that fits its kind. Most come from a small set, so that filters and equal ranks are met.
pub fn identifier(random: &mut Random, xtd: bool) -> u32 {
    let base = match random.below(4) {
        0 => random.below(0x800),
        1 => 0x100,
        _ => random.below(8),
    };
    if !xtd {
        return base;
    }
    match random.below(4) {
        0 => random.word() & 0x1FFF_FFFF,
        1 => random.below(8),
        _ => base << 18 | random.below(3),
    }
}

/// A frame that 21 lets through, with its data.
pub fn well_formed_frame(random: &mut Random) -> (Frame, Vec<u8>) {
    let xtd = random.coin();
    let fdf = random.coin();
    let rtr = !fdf && random.once_in(4);
    let frame = Frame {
        id: identifier(random, xtd),
        xtd,
        rtr,
        fdf,
        brs: fdf && random.coin(),
        esi: fdf && random.once_in(4),
        dlc: random.below(16),
    };
    let data = random.bytes(data_length(frame.rtr, frame.fdf, frame.dlc) as usize);
    (frame, data)
}

/// A frame with anything in it: a well-formed one with one wrong thing, or all of it at random.
pub fn arbitrary_frame(random: &mut Random) -> (Frame, Vec<u8>) {
    let (mut frame, mut data) = well_formed_frame(random);
    match random.below(8) {
        0 => frame.id = random.odd_word(),
        1 => frame.id = if frame.xtd { 0x2000_0000 } else { 0x800 },
        2 => frame.dlc = random.odd_word(),
        3 => frame.rtr = !frame.rtr,
        4 => frame.brs = !frame.brs,
        5 => frame.esi = !frame.esi,
        6 => data = random.bytes_up_to(70),
        _ => {
            frame = Frame {
                id: random.odd_word(),
                xtd: random.coin(),
                rtr: random.coin(),
                fdf: random.coin(),
                brs: random.coin(),
                esi: random.coin(),
                dlc: random.odd_word(),
            };
            data = random.bytes_up_to(70);
        }
    }
    (frame, data)
}

/// Fills both filter lists with elements that the identifiers above often meet. The memory is as long as is given.
pub fn put_filters(random: &mut Random, registers: &Registers, memory: &mut [u32]) {
    let all = sections(registers);
    for index in 0..registers.standard_filters() {
        // An Rx buffer filter mostly names one that exists, and mostly no debug message.
        let action = if random.once_in(3) { 7 } else { random.below(8) };
        let id1 = identifier(random, false);
        let id2 = if action == 7 && !random.once_in(4) {
            random.below(registers.rx_buffers.saturating_add(1)) & 0x3F
        } else {
            identifier(random, false)
        };
        let noise = random.word() & 0x0000_F800;
        let value = random.below(4) << 30 | action << 27 | id1 << 16 | noise | id2;
        if let Some(place) = memory.get_mut((all[STANDARD_FILTERS].start + index) as usize) {
            *place = value;
        }
    }
    for index in 0..registers.extended_filters() {
        let action = if random.once_in(3) { 7 } else { random.below(8) };
        let id1 = identifier(random, true);
        let id2 = if action == 7 && !random.once_in(4) {
            random.below(registers.rx_buffers.saturating_add(1)) & 0x3F
        } else {
            identifier(random, true)
        };
        let noise = u32::from(random.coin()) << 29;
        let start = all[EXTENDED_FILTERS].start + 2 * index;
        if let Some(place) = memory.get_mut(start as usize) {
            *place = action << 29 | id1;
        }
        if let Some(place) = memory.get_mut(start as usize + 1) {
            *place = random.below(4) << 30 | noise | id2;
        }
    }
}

/// A memory of arbitrary words.
pub fn arbitrary_memory(random: &mut Random, length: usize) -> Vec<u32> {
    (0..length).map(|_| random.word()).collect()
}

/// A ring that fits its size.
fn fitting_ring(random: &mut Random, size: u32) -> Ring {
    Ring { oldest: random.below(size), fill: if random.once_in(4) { size } else { random.between(0, size) } }
}

/// A state and record that pass the test for 20, with anything in them that it allows.
pub fn fit_state(random: &mut Random) -> (State, Record) {
    let registers = legal_registers(random);
    let existing = ones(registers.tx_buffers()) as u32;
    let mut state = State {
        registers,
        fifo0: fitting_ring(random, registers.fifo_size(0)),
        fifo1: fitting_ring(random, registers.fifo_size(1)),
        events: fitting_ring(random, registers.events_size()),
        shared: Ring::default(),
        new_data: random.next() & ones(registers.rx_buffers),
        pending: random.word() & existing,
        sent: random.word() & existing,
        cancelled: random.word() & existing,
    };
    if !registers.queue_mode() {
        state.shared = fitting_ring(random, registers.shared());
        state.pending &= ones(registers.dedicated()) as u32;
        for place in held_places(state.shared, registers.shared()) {
            state.pending |= 1 << (registers.dedicated() + place);
        }
    }
    let record = Record { flags: random.word() & FLAGS, priority: random.odd_word() };
    (state, record)
}

/// A fit state with one change, which often makes it unfit.
pub fn nearly_fit_state(random: &mut Random) -> (State, Record) {
    let (mut state, mut record) = fit_state(random);
    match random.below(10) {
        0 => state.registers = nearly_legal_registers(random),
        9 => state.registers.memory_words = any_length(random),
        1 => state.pending ^= 1 << random.below(32),
        2 => state.sent ^= 1 << random.below(32),
        3 => state.cancelled ^= 1 << random.below(32),
        4 => state.new_data ^= 1 << random.below(64),
        5 => record.flags ^= 1 << random.below(32),
        number => {
            let ring = match (number, random.coin()) {
                (6, _) => &mut state.fifo0,
                (7, _) => &mut state.fifo1,
                (_, true) => &mut state.events,
                (_, false) => &mut state.shared,
            };
            if random.coin() {
                ring.oldest = random.odd_word();
            } else {
                ring.fill = random.odd_word();
            }
        }
    }
    (state, record)
}

/// A state and record with arbitrary values everywhere.
pub fn arbitrary_state(random: &mut Random) -> (State, Record) {
    let mut ring = || Ring { oldest: random.odd_word(), fill: random.odd_word() };
    let rings = [ring(), ring(), ring(), ring()];
    let registers = if random.coin() { arbitrary_registers(random) } else { nearly_legal_registers(random) };
    let state = State {
        registers,
        fifo0: rings[0],
        fifo1: rings[1],
        events: rings[2],
        shared: rings[3],
        new_data: random.next(),
        pending: random.odd_word(),
        sent: random.odd_word(),
        cancelled: random.odd_word(),
    };
    (state, Record { flags: random.odd_word(), priority: random.odd_word() })
}
