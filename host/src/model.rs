//! The message handler, rule by rule, in the order of the paper.
//!
//! Each function follows one rule, the tables are written as tables, and every public function is total: whatever
//! the fields hold, none panics and none reads or writes outside a slice. It is plain Rust as one would write it
//! without proofs, sets of bits as words, elements and filters as slices of the memory, nothing copied that need not
//! be and nothing allocated, so that it also serves as a measure of speed.
//!
//! A call answers `Ok` with its values or `Err` with the number of its refusal. A refusal changes nothing.

// ------------------------------------------------------------------------------------------------------
// What the handler holds
// ------------------------------------------------------------------------------------------------------

/// The memory has 1 to 4,352 words of 32 bits.
pub const MEMORY_MOST: u32 = 4352;

/// A lent output has 64 bytes.
pub const OUTPUT_BYTES: usize = 64;

/// The eleven register words and the four further inputs of a start.
#[derive(Clone, Copy, Debug, PartialEq, Eq, Default)]
pub struct Registers {
    pub sidfc: u32,
    pub xidfc: u32,
    pub rxf0c: u32,
    pub rxf1c: u32,
    pub rxbc: u32,
    pub rxesc: u32,
    pub txefc: u32,
    pub txbc: u32,
    pub txesc: u32,
    pub gfc: u32,
    pub xidam: u32,
    /// Number of Rx buffers. It is in no register (house).
    pub rx_buffers: u32,
    pub fd_on: bool,
    pub rate_switch_on: bool,
    /// The memory's length in words, as a start is given it. It is in no register either.
    pub memory_words: u32,
}

/// A circle of places: the oldest held place and how many are held from there on.
#[derive(Clone, Copy, Debug, PartialEq, Eq, Default)]
pub struct Ring {
    pub oldest: u32,
    pub fill: u32,
}

#[derive(Clone, Copy, Debug, PartialEq, Eq, Default)]
pub struct State {
    pub registers: Registers,
    pub fifo0: Ring,
    pub fifo1: Ring,
    pub events: Ring,
    /// The shared part of the Tx buffers as a FIFO. Both fields stay 0 in queue mode.
    pub shared: Ring,
    /// One bit for each Rx buffer.
    pub new_data: u64,
    /// One bit for each Tx buffer, here and in the next two.
    pub pending: u32,
    pub sent: u32,
    pub cancelled: u32,
}

impl State {
    /// A state before any start: no start accepts its GFC, nor a length of 0, so every other call gives 20.
    pub fn never_started() -> State {
        let registers = Registers { gfc: 0xFFFF_FFFF, ..Registers::default() };
        State { registers, ..State::default() }
    }
}

/// The small record that interrupt code may change.
#[derive(Clone, Copy, Debug, PartialEq, Eq, Default)]
pub struct Record {
    pub flags: u32,
    pub priority: u32,
}

/// The header of a frame. An 11-bit identifier stands in bits 10:0.
#[derive(Clone, Copy, Debug, PartialEq, Eq, Default)]
pub struct Frame {
    pub id: u32,
    pub xtd: bool,
    pub rtr: bool,
    pub fdf: bool,
    pub brs: bool,
    pub esi: bool,
    pub dlc: u32,
}

/// Bits `high` down to `low` of a word, as the paper writes them: 31:30 is `bits(w, 31, 30)`.
const fn bits(word: u32, high: u32, low: u32) -> u32 {
    (word >> low) & ones(high - low + 1) as u32
}

/// So many ones from bit 0 on, 64 at most.
pub const fn ones(count: u32) -> u64 {
    if count >= 64 {
        u64::MAX
    } else {
        (1 << count) - 1
    }
}

/// One bit of a word, false beyond bit 31.
fn bit(word: u32, at: u32) -> bool {
    at < 32 && (word >> at) & 1 == 1
}

/// One bit of the new-data word, false beyond bit 63.
fn bit64(word: u64, at: u32) -> bool {
    at < 64 && (word >> at) & 1 == 1
}

/// A word of the memory. Once the test for 20 is passed every address is inside; elsewhere it reads as 0.
fn word(memory: &[u32], at: u32) -> u32 {
    memory.get(at as usize).copied().unwrap_or(0)
}

/// So many words of the memory from a place on, none where they are not all inside.
fn words(memory: &[u32], at: u32, count: u32) -> &[u32] {
    memory.get(at as usize..).and_then(|rest| rest.get(..count as usize)).unwrap_or(&[])
}

// ------------------------------------------------------------------------------------------------------
// Registers and sections
// ------------------------------------------------------------------------------------------------------

pub const STANDARD_FILTERS: usize = 0;
pub const EXTENDED_FILTERS: usize = 1;
pub const RX_FIFO_0: usize = 2;
pub const RX_FIFO_1: usize = 3;
pub const RX_BUFFERS: usize = 4;
pub const TX_EVENTS: usize = 5;
pub const TX_BUFFERS: usize = 6;

/// The number that stands for no section.
pub const NO_SECTION: u32 = 7;

/// The greatest count of each section. Dedicated and shared Tx buffers each have the last one.
pub const MOST: [u32; 7] = [128, 64, 64, 64, 64, 32, 32];

/// Size codes 0 to 7: data bytes of an element.
pub const SIZE_BYTES: [u32; 8] = [8, 12, 16, 20, 24, 32, 48, 64];

/// Size codes 0 to 7: words of an element.
pub const SIZE_WORDS: [u32; 8] = [4, 5, 6, 7, 8, 10, 14, 18];

pub fn size_bytes(code: u32) -> u32 {
    SIZE_BYTES[(code & 7) as usize]
}

pub fn size_words(code: u32) -> u32 {
    SIZE_WORDS[(code & 7) as usize]
}

/// The named bits of the eleven registers, field by field. Every bit not named must be 0 (house).
const NAMED_FIELDS: [&[(u32, u32)]; 11] = [
    &[(23, 16), (15, 2)],                     // SIDFC: count, start
    &[(22, 16), (15, 2)],                     // XIDFC: count, start
    &[(31, 31), (30, 24), (22, 16), (15, 2)], // RXF0C: overwrite, watermark, count, start
    &[(31, 31), (30, 24), (22, 16), (15, 2)], // RXF1C: the same
    &[(15, 2)],                               // RXBC: start
    &[(10, 8), (6, 4), (2, 0)],               // RXESC: Rx buffers, FIFO 1, FIFO 0
    &[(29, 24), (21, 16), (15, 2)],           // TXEFC: watermark, count, start
    &[(30, 30), (29, 24), (21, 16), (15, 2)], // TXBC: queue, shared, dedicated, start
    &[(2, 0)],                                // TXESC: size
    &[(5, 4), (3, 2), (1, 1), (0, 0)],        // GFC: ANFS, ANFE, RRFS, RRFE
    &[(28, 0)],                               // XIDAM: mask
];

/// The named bits of a register as a word.
const fn named_bits(fields: &[(u32, u32)]) -> u32 {
    let mut word = 0;
    let mut nth = 0;
    while nth < fields.len() {
        let (high, low) = fields[nth];
        word |= (ones(high - low + 1) as u32) << low;
        nth += 1;
    }
    word
}

/// The same for the eleven registers.
const NAMED_BITS: [u32; 11] = {
    let mut words = [0; 11];
    let mut register = 0;
    while register < 11 {
        words[register] = named_bits(NAMED_FIELDS[register]);
        register += 1;
    }
    words
};

impl Registers {
    /// The values after a reset: all 0, but the mask of 29-bit identifiers all ones. A reset gives no length.
    pub fn reset() -> Registers {
        Registers { xidam: 0x1FFF_FFFF, ..Registers::default() }
    }

    /// The eleven words in the order of the paper.
    pub fn words(&self) -> [u32; 11] {
        [
            self.sidfc, self.xidfc, self.rxf0c, self.rxf1c, self.rxbc, self.rxesc, self.txefc, self.txbc,
            self.txesc, self.gfc, self.xidam,
        ]
    }

    pub fn standard_filters(&self) -> u32 {
        bits(self.sidfc, 23, 16)
    }

    pub fn extended_filters(&self) -> u32 {
        bits(self.xidfc, 22, 16)
    }

    /// RXF0C for FIFO 0, RXF1C for any other number.
    fn fifo_register(&self, fifo: u32) -> u32 {
        if fifo == 0 {
            self.rxf0c
        } else {
            self.rxf1c
        }
    }

    pub fn fifo_size(&self, fifo: u32) -> u32 {
        bits(self.fifo_register(fifo), 22, 16)
    }

    pub fn fifo_watermark(&self, fifo: u32) -> u32 {
        bits(self.fifo_register(fifo), 30, 24)
    }

    pub fn fifo_overwrites(&self, fifo: u32) -> bool {
        bit(self.fifo_register(fifo), 31)
    }

    pub fn fifo_size_code(&self, fifo: u32) -> u32 {
        if fifo == 0 {
            bits(self.rxesc, 2, 0)
        } else {
            bits(self.rxesc, 6, 4)
        }
    }

    pub fn rx_buffer_size_code(&self) -> u32 {
        bits(self.rxesc, 10, 8)
    }

    pub fn events_size(&self) -> u32 {
        bits(self.txefc, 21, 16)
    }

    pub fn events_watermark(&self) -> u32 {
        bits(self.txefc, 29, 24)
    }

    pub fn dedicated(&self) -> u32 {
        bits(self.txbc, 21, 16)
    }

    pub fn shared(&self) -> u32 {
        bits(self.txbc, 29, 24)
    }

    /// Dedicated buffers come first, then shared.
    pub fn tx_buffers(&self) -> u32 {
        self.dedicated() + self.shared()
    }

    pub fn queue_mode(&self) -> bool {
        bit(self.txbc, 30)
    }

    pub fn tx_size_code(&self) -> u32 {
        bits(self.txesc, 2, 0)
    }

    /// ANFS for 11-bit frames, ANFE for 29-bit frames.
    pub fn without_match(&self, xtd: bool) -> u32 {
        if xtd {
            bits(self.gfc, 3, 2)
        } else {
            bits(self.gfc, 5, 4)
        }
    }

    /// RRFS for 11-bit frames, RRFE for 29-bit frames.
    pub fn rejects_remote(&self, xtd: bool) -> bool {
        if xtd {
            bit(self.gfc, 0)
        } else {
            bit(self.gfc, 1)
        }
    }
}

/// A section as it is reported: word address and number of words.
#[derive(Clone, Copy, Debug, PartialEq, Eq, Default)]
pub struct Section {
    pub start: u32,
    pub words: u32,
}

impl Section {
    /// The word behind its last one.
    fn end(&self) -> u32 {
        self.start + self.words
    }
}

/// One section. Of count 0 it has no words, and its start is ignored and reported as 0.
#[inline(always)]
pub fn section(registers: &Registers, number: usize) -> Section {
    let r = registers;
    // Count, words each, and the register with the start in bits 15:2.
    let (count, each, register) = match number {
        STANDARD_FILTERS => (r.standard_filters(), 1, r.sidfc),
        EXTENDED_FILTERS => (r.extended_filters(), 2, r.xidfc),
        RX_FIFO_0 => (r.fifo_size(0), size_words(r.fifo_size_code(0)), r.rxf0c),
        RX_FIFO_1 => (r.fifo_size(1), size_words(r.fifo_size_code(1)), r.rxf1c),
        RX_BUFFERS => (r.rx_buffers, size_words(r.rx_buffer_size_code()), r.rxbc),
        TX_EVENTS => (r.events_size(), 2, r.txefc),
        _ => (r.tx_buffers(), size_words(r.tx_size_code()), r.txbc),
    };
    if count == 0 {
        return Section::default();
    }
    // Only a count that 12 refuses could go past 32 bits.
    Section { start: bits(register, 15, 2), words: count.saturating_mul(each) }
}

/// The seven sections.
#[inline(always)]
pub fn sections(registers: &Registers) -> [Section; 7] {
    [
        section(registers, STANDARD_FILTERS),
        section(registers, EXTENDED_FILTERS),
        section(registers, RX_FIFO_0),
        section(registers, RX_FIFO_1),
        section(registers, RX_BUFFERS),
        section(registers, TX_EVENTS),
        section(registers, TX_BUFFERS),
    ]
}

/// Where an element stands: its first word and how many it has.
#[derive(Clone, Copy)]
struct Element {
    at: u32,
    words: u32,
}

impl Element {
    /// An element of a section, by its number there.
    fn nth(registers: &Registers, section_number: usize, words: u32, nth: u32) -> Element {
        Element { at: section(registers, section_number).start + nth * words, words }
    }

    fn in_fifo(registers: &Registers, fifo: u32, place: u32) -> Element {
        let number = if fifo == 0 { RX_FIFO_0 } else { RX_FIFO_1 };
        Element::nth(registers, number, size_words(registers.fifo_size_code(fifo)), place)
    }

    fn of_rx_buffer(registers: &Registers, buffer: u32) -> Element {
        Element::nth(registers, RX_BUFFERS, size_words(registers.rx_buffer_size_code()), buffer)
    }

    fn of_event(registers: &Registers, place: u32) -> Element {
        Element::nth(registers, TX_EVENTS, 2, place)
    }

    fn of_tx_buffer(registers: &Registers, buffer: u32) -> Element {
        Element::nth(registers, TX_BUFFERS, size_words(registers.tx_size_code()), buffer)
    }

    fn read(self, memory: &[u32]) -> &[u32] {
        words(memory, self.at, self.words)
    }

    /// Its words to be written. Only called once the test for 20 is passed.
    fn write(self, memory: &mut [u32]) -> &mut [u32] {
        &mut memory[self.at as usize..][..self.words as usize]
    }
}

/// The two words of header that every element has.
fn header_words(element: &[u32]) -> [u32; 2] {
    element.first_chunk().copied().unwrap_or_default()
}

/// The data bytes that an element has room for.
fn room_bytes(element: &[u32]) -> u32 {
    4 * (element.len() as u32).saturating_sub(2)
}

// ------------------------------------------------------------------------------------------------------
// When the handler says no
// ------------------------------------------------------------------------------------------------------

/// Why a start is refused: the number and the two sections it names, 7 for none.
#[derive(Clone, Copy, Debug, PartialEq, Eq)]
pub struct StartRefusal {
    pub number: u32,
    pub first: u32,
    pub second: u32,
}

fn refuse_start<T>(number: u32, first: u32, second: u32) -> Result<T, StartRefusal> {
    Err(StartRefusal { number, first, second })
}

/// The layout verdict on a memory of `lent` words: the sections as reported, or one of 10 to 15. The lowest number is
/// given.
#[inline]
pub fn layout_verdict(registers: &Registers, lent: usize) -> Result<[Section; 7], StartRefusal> {
    let given = registers.memory_words;

    // 10: the length given is 0, above 4,352, or not that of the memory.
    if given == 0 || given > MEMORY_MOST || given as usize != lent {
        return refuse_start(10, NO_SECTION, NO_SECTION);
    }

    // 11: a bit that must be 0 is set.
    let unnamed =
        registers.words().into_iter().zip(NAMED_BITS).fold(0, |bits, (value, named)| bits | value & !named);
    if unnamed != 0 {
        return refuse_start(11, NO_SECTION, NO_SECTION);
    }

    // 12: a count is over its most; the first section is named. Dedicated and shared each have 32.
    let counts: [u32; 7] = [
        registers.standard_filters(),
        registers.extended_filters(),
        registers.fifo_size(0),
        registers.fifo_size(1),
        registers.rx_buffers,
        registers.events_size(),
        registers.dedicated().max(registers.shared()),
    ];
    for section in 0..7 {
        if counts[section] > MOST[section] {
            return refuse_start(12, section as u32, NO_SECTION);
        }
    }

    // 13: dedicated + shared over 32.
    if registers.dedicated() + registers.shared() > 32 {
        return refuse_start(13, NO_SECTION, NO_SECTION);
    }

    // 14: a section ends past the given length; the first is named.
    let all = sections(registers);
    for (section, place) in all.iter().enumerate() {
        if place.end() > given {
            return refuse_start(14, section as u32, NO_SECTION);
        }
    }

    // 15: two sections share a word; pairs order by the lower section, then the higher. A section without words
    // starts and ends at 0, so nothing starts before its end.
    for lower in 0..7 {
        for higher in lower + 1..7 {
            if all[lower].start < all[higher].end() && all[higher].start < all[lower].end() {
                return refuse_start(15, lower as u32, higher as u32);
            }
        }
    }

    Ok(all)
}

/// The held places of a ring, oldest first. A ring has at most 128 places.
pub fn held_places(ring: Ring, size: u32) -> impl Iterator<Item = u32> {
    (0..ring.fill.min(size)).map(move |older| (ring.oldest % size + older) % size)
}

/// The same as bits, of a ring that fits its size, which is at most 32.
fn held_bits(ring: Ring, size: u32) -> u64 {
    let run = ones(ring.fill) << ring.oldest;
    // What runs past the last place goes on at place 0.
    (run | run >> size) & ones(size)
}

/// How many held places are older than this one, or nothing if it is not held.
fn older_than(ring: Ring, size: u32, place: u32) -> Option<u32> {
    if place >= size {
        return None;
    }
    // Steps in the circle from the oldest place to this one.
    let older = if place >= ring.oldest { place - ring.oldest } else { place + (size - ring.oldest) };
    (older < ring.fill).then_some(older)
}

/// A place in the circle, from a number of at most twice the size.
fn in_circle(number: u32, size: u32) -> u32 {
    if number < size {
        number
    } else {
        number - size
    }
}

/// The put place of a ring that fits its size: oldest + fill modulo size, 0 at size 0.
pub fn put_place(ring: Ring, size: u32) -> u32 {
    in_circle(ring.oldest.wrapping_add(ring.fill), size)
}

/// The oldest place must be below the size and the fill not above it; both are 0 at size 0.
fn ring_fits(ring: Ring, size: u32) -> bool {
    if size == 0 {
        ring.oldest == 0 && ring.fill == 0
    } else {
        ring.oldest < size && ring.fill <= size
    }
}

/// The flags that exist: 0 to 15 and 19.
pub const FLAGS: u32 = 0xFFFF | 1 << 19;

/// 20: the state is unfit for a memory of `lent` words.
pub fn unfit(state: &State, record: &Record, lent: usize) -> bool {
    let r = &state.registers;

    // Start would refuse the state's registers, its own length among them, with this memory.
    if layout_verdict(r, lent).is_err() {
        return true;
    }

    // A FIFO's oldest place not below its size or fill above it; queue mode has both 0.
    let shared_size = if r.queue_mode() { 0 } else { r.shared() };
    let rings_fit = ring_fits(state.fifo0, r.fifo_size(0))
        && ring_fits(state.fifo1, r.fifo_size(1))
        && ring_fits(state.events, r.events_size())
        && ring_fits(state.shared, shared_size);
    if !rings_fit {
        return true;
    }

    // A pending, sent, cancelled or new-data bit past its count.
    let tx_bits = ones(r.tx_buffers()) as u32;
    if (state.pending | state.sent | state.cancelled) & !tx_bits != 0 {
        return true;
    }
    if state.new_data & !ones(r.rx_buffers) != 0 {
        return true;
    }

    // Shared FIFO pending bits not exactly those of its held places.
    let shared_pending = u64::from(state.pending) >> r.dedicated();
    if !r.queue_mode() && shared_pending != held_bits(state.shared, r.shared()) {
        return true;
    }

    // A flag outside 0 to 15 and 19.
    record.flags & !FLAGS != 0
}

/// Data bytes in an FD frame, by DLC.
pub const FD_BYTES: [u32; 16] = [0, 1, 2, 3, 4, 5, 6, 7, 8, 12, 16, 20, 24, 32, 48, 64];

/// Data bytes in a classic frame, by DLC.
pub const CLASSIC_BYTES: [u32; 16] = [0, 1, 2, 3, 4, 5, 6, 7, 8, 8, 8, 8, 8, 8, 8, 8];

/// The data length of a DLC. A remote frame has none. A DLC over 15 counts as 15; 21 comes before it matters.
pub fn data_length(rtr: bool, fdf: bool, dlc: u32) -> u32 {
    let dlc = dlc.min(15) as usize;
    if rtr {
        0
    } else if fdf {
        FD_BYTES[dlc]
    } else {
        CLASSIC_BYTES[dlc]
    }
}

/// 21: the frame is malformed.
pub fn malformed(frame: &Frame, data: &[u8]) -> bool {
    let greatest_id = if frame.xtd { 0x1FFF_FFFF } else { 0x7FF };
    frame.id > greatest_id
        || frame.dlc > 15
        || (frame.fdf && frame.rtr)
        || ((frame.brs || frame.esi) && !frame.fdf)
        || data.len() != data_length(frame.rtr, frame.fdf, frame.dlc) as usize
}

// ------------------------------------------------------------------------------------------------------
// Where a received frame goes
// ------------------------------------------------------------------------------------------------------

/// A filter element of either list, taken apart.
#[derive(Clone, Copy, Debug, PartialEq, Eq)]
pub struct Filter {
    pub kind: u32,
    pub action: u32,
    pub id1: u32,
    pub id2: u32,
}

/// Rule 3, S0: SFT 31:30, SFEC 29:27, SFID1 26:16, SFID2 10:0.
pub fn standard_filter(s0: u32) -> Filter {
    Filter { kind: bits(s0, 31, 30), action: bits(s0, 29, 27), id1: bits(s0, 26, 16), id2: bits(s0, 10, 0) }
}

/// Rule 3, F0: EFEC 31:29, EFID1 28:0; F1: EFT 31:30, EFID2 28:0.
pub fn extended_filter(f0: u32, f1: u32) -> Filter {
    Filter { kind: bits(f1, 31, 30), action: bits(f0, 31, 29), id1: bits(f0, 28, 0), id2: bits(f1, 28, 0) }
}

/// Rule 3 for the 11-bit list. Action 0 is off; action 7 asks for equality with ID1 whatever the type.
pub fn standard_matches(filter: &Filter, id: u32) -> bool {
    if filter.action == 0 {
        return false;
    }
    if filter.action == 7 {
        return id == filter.id1;
    }
    match filter.kind {
        0 => filter.id1 <= id && id <= filter.id2,
        1 => id == filter.id1 || id == filter.id2,
        2 => id & filter.id2 == filter.id1 & filter.id2,
        _ => false,
    }
}

/// Rule 3 for the 29-bit list. Only the range of type 3 leaves XIDAM out, and action 7 comes before the type.
pub fn extended_matches(filter: &Filter, id: u32, xidam: u32) -> bool {
    let masked = id & xidam;
    if filter.action == 0 {
        return false;
    }
    if filter.action == 7 {
        return masked == filter.id1;
    }
    match filter.kind {
        0 => filter.id1 <= masked && masked <= filter.id2,
        1 => masked == filter.id1 || masked == filter.id2,
        2 => masked & filter.id2 == filter.id1 & filter.id2,
        _ => filter.id1 <= id && id <= filter.id2,
    }
}

/// Rule 2: the list of the frame's kind is tried from element 0, and the first match ends the search.
pub fn first_match(registers: &Registers, memory: &[u32], id: u32, xtd: bool) -> Option<(u32, Filter)> {
    let Section { start, words: count } =
        section(registers, if xtd { EXTENDED_FILTERS } else { STANDARD_FILTERS });
    let list = words(memory, start, count);
    if xtd {
        let filters = list.chunks_exact(2).map(|f| extended_filter(f[0], f[1]));
        (0..).zip(filters).find(|(_, filter)| extended_matches(filter, id, registers.xidam))
    } else {
        let filters = list.iter().map(|s0| standard_filter(*s0));
        (0..).zip(filters).find(|(_, filter)| standard_matches(filter, id))
    }
}

/// Where the filters send a frame, before anyone looks whether there is room.
#[derive(Clone, Copy, Debug, PartialEq, Eq)]
pub enum Destination {
    /// Rule 1: a remote frame that goes out first.
    Remote,
    /// Rule 2: no match, and ANFS or ANFE discards.
    NoMatch,
    /// Rule 2: no match, and ANFS or ANFE names a FIFO.
    FifoWithoutMatch { fifo: u32 },
    /// Actions 1, 2, and with priority 5, 6.
    Fifo { fifo: u32, index: u32, priority: bool },
    /// Action 3.
    Reject { index: u32 },
    /// Action 4.
    PriorityOnly { index: u32 },
    /// Action 7 with ID2 bits 10:9 not 0.
    Debug { index: u32 },
    /// Action 7 with a buffer past the count.
    Misfiled { index: u32 },
    /// Action 7 with a buffer that exists; it may be locked.
    RxBuffer { buffer: u32, index: u32 },
}

pub fn destination(registers: &Registers, memory: &[u32], frame: &Frame) -> Destination {
    // Rule 1.
    if frame.rtr && registers.rejects_remote(frame.xtd) {
        return Destination::Remote;
    }
    // Rule 2.
    let Some((index, filter)) = first_match(registers, memory, frame.id, frame.xtd) else {
        return match registers.without_match(frame.xtd) {
            0 => Destination::FifoWithoutMatch { fifo: 0 },
            1 => Destination::FifoWithoutMatch { fifo: 1 },
            _ => Destination::NoMatch,
        };
    };
    // Rule 4. Action 0 never matches, so 7 is all that is left at the end.
    match filter.action {
        1 => Destination::Fifo { fifo: 0, index, priority: false },
        2 => Destination::Fifo { fifo: 1, index, priority: false },
        3 => Destination::Reject { index },
        4 => Destination::PriorityOnly { index },
        5 => Destination::Fifo { fifo: 0, index, priority: true },
        6 => Destination::Fifo { fifo: 1, index, priority: true },
        _ => {
            let buffer = bits(filter.id2, 5, 0);
            if bits(filter.id2, 10, 9) != 0 {
                Destination::Debug { index }
            } else if buffer >= registers.rx_buffers {
                Destination::Misfiled { index }
            } else {
                Destination::RxBuffer { buffer, index }
            }
        }
    }
}

/// Word 0 of every element: ESI 31, XTD 30, RTR 29, identifier 28:0, an 11-bit one in 28:18 and the rest 0.
pub fn word_0(frame: &Frame) -> u32 {
    let identifier = if frame.xtd { frame.id & 0x1FFF_FFFF } else { (frame.id & 0x7FF) << 18 };
    u32::from(frame.esi) << 31 | u32::from(frame.xtd) << 30 | u32::from(frame.rtr) << 29 | identifier
}

/// FDF 21, BRS 20, DLC 19:16, the part of word 1 that every element has.
fn word_1_common(frame: &Frame) -> u32 {
    u32::from(frame.fdf) << 21 | u32::from(frame.brs) << 20 | (frame.dlc & 15) << 16
}

/// The identifier in a word 0.
fn word_0_identifier(word0: u32) -> u32 {
    if bit(word0, 30) {
        bits(word0, 28, 0)
    } else {
        bits(word0, 28, 18)
    }
}

/// Writes all words of an element: two of header, then the data, byte 0 in bits 7:0. Bytes past its size are
/// dropped, unused bytes are 0.
pub fn put_element(element: &mut [u32], header: [u32; 2], data: &[u8]) {
    let [word0, word1, room @ ..] = element else {
        return;
    };
    [*word0, *word1] = header;
    let (whole, rest) = data[..data.len().min(4 * room.len())].as_chunks();
    let (used, unused) = room.split_at_mut(whole.len());
    for (word, bytes) in used.iter_mut().zip(whole) {
        *word = u32::from_le_bytes(*bytes);
    }
    unused.fill(0);
    if let Some(last) = unused.first_mut() {
        *last = rest.iter().rev().fold(0, |word, byte| word << 8 | u32::from(*byte));
    }
}

/// The header of an Rx element: word 1 has ANMF 31, filter index 30:24 (0 if ANMF), timestamp 15:0.
pub fn rx_header_words(frame: &Frame, index: Option<u32>, timestamp: u16) -> [u32; 2] {
    let filter_bits = match index {
        None => 1 << 31,
        Some(index) => (index & 0x7F) << 24,
    };
    [word_0(frame), filter_bits | word_1_common(frame) | u32::from(timestamp)]
}

/// The header of an Rx element as it is read.
#[derive(Clone, Copy, Debug, PartialEq, Eq)]
pub struct RxHeader {
    pub id: u32,
    pub xtd: bool,
    pub rtr: bool,
    pub fdf: bool,
    pub brs: bool,
    pub esi: bool,
    pub dlc: u32,
    pub anmf: bool,
    pub index: u32,
    pub timestamp: u16,
}

/// Reading ignores unnamed bits and takes the words as they stand.
pub fn rx_header(word0: u32, word1: u32) -> RxHeader {
    RxHeader {
        id: word_0_identifier(word0),
        xtd: bit(word0, 30),
        rtr: bit(word0, 29),
        fdf: bit(word1, 21),
        brs: bit(word1, 20),
        esi: bit(word0, 31),
        dlc: bits(word1, 19, 16),
        anmf: bit(word1, 31),
        index: bits(word1, 30, 24),
        timestamp: bits(word1, 15, 0) as u16,
    }
}

/// Writes the first data bytes of an element, one for each byte of the output.
fn put_bytes(element: &[u32], output: &mut [u8]) {
    let data = element.get(2..).unwrap_or(&[]);
    let (whole, rest) = output.as_chunks_mut();
    for (bytes, word) in whole.iter_mut().zip(data) {
        *bytes = word.to_le_bytes();
    }
    if let Some(last) = data.get(whole.len()) {
        rest.iter_mut().zip(last.to_le_bytes()).for_each(|(byte, value)| *byte = value);
    }
}

// ------------------------------------------------------------------------------------------------------
// What goes out
// ------------------------------------------------------------------------------------------------------

/// The header of a Tx element: word 1 has marker 31:24, event wanted 23, the rest 0.
pub fn tx_header_words(frame: &Frame, marker: u8, wish: bool) -> [u32; 2] {
    let own = u32::from(marker) << 24 | u32::from(wish) << 23;
    [word_0(frame), own | word_1_common(frame)]
}

/// Rank by arbitration, smaller wins.
pub fn rank(id: u32, xtd: bool, rtr: bool) -> u32 {
    let remote = u32::from(rtr);
    if xtd {
        let base = bits(id, 28, 18);
        let low = bits(id, 17, 0);
        base * (1 << 21) + (1 << 20) + (1 << 19) + low * 2 + remote
    } else {
        let base = bits(id, 10, 0);
        base * (1 << 21) + remote * (1 << 20)
    }
}

/// The rank of what stands in a word 0.
pub fn rank_of_word_0(word0: u32) -> u32 {
    rank(word_0_identifier(word0), bit(word0, 30), bit(word0, 29))
}

/// Candidates: every pending dedicated buffer, with the shared FIFO's oldest or every pending queue buffer. One
/// bit for each.
pub fn candidates(state: &State) -> u32 {
    let r = &state.registers;
    if r.queue_mode() {
        return state.pending & ones(r.tx_buffers()) as u32;
    }
    let dedicated = state.pending & ones(r.dedicated()) as u32;
    match held_places(state.shared, r.shared()).next() {
        None => dedicated,
        Some(oldest) => dedicated | 1u32.checked_shl(r.dedicated() + oldest).unwrap_or(0),
    }
}

/// The buffer to send next: the smallest rank, and of equal ranks the lower buffer number (house).
pub fn chosen_buffer(state: &State, memory: &[u32]) -> Option<u32> {
    let r = &state.registers;
    let start = section(r, TX_BUFFERS).start;
    let each = size_words(r.tx_size_code());
    let mut best: Option<(u32, u32)> = None;
    let mut left = candidates(state);
    while left != 0 {
        let buffer = left.trailing_zeros();
        left &= left - 1;
        let rank = rank_of_word_0(word(memory, start + buffer * each));
        // Buffers come in the order of their numbers, so an equal rank stays with the lower one.
        if best.is_none_or(|(best_rank, _)| rank < best_rank) {
            best = Some((rank, buffer));
        }
    }
    best.map(|(_, buffer)| buffer)
}

/// The header as sent, from the two header words of a Tx element.
pub fn as_sent(registers: &Registers, word0: u32, word1: u32, error_passive: bool) -> Frame {
    // RTR makes it classic. Otherwise FD needs FDF and FD on.
    let rtr = bit(word0, 29);
    let fdf = !rtr && bit(word1, 21) && registers.fd_on;
    // BRS needs also the bit and rate switch on.
    let brs = fdf && bit(word1, 20) && registers.rate_switch_on;
    // ESI is the bit or the caller's error-passive input, FD only.
    let esi = fdf && (bit(word0, 31) || error_passive);
    Frame { id: word_0_identifier(word0), xtd: bit(word0, 30), rtr, fdf, brs, esi, dlc: bits(word1, 19, 16) }
}

/// Writes the bytes to send, those of the element and 0xCC past its size, and answers how many.
pub fn put_sent_bytes(element: &[u32], sent: &Frame, output: &mut [u8; OUTPUT_BYTES]) -> u32 {
    let length = data_length(sent.rtr, sent.fdf, sent.dlc);
    let (own, past) = output[..length as usize].split_at_mut(length.min(room_bytes(element)) as usize);
    put_bytes(element, own);
    past.fill(0xCC);
    length
}

/// An event has word 0 of the frame as sent; word 1 marker 31:24, type 1 in 23:22, FDF, BRS, DLC, timestamp.
pub fn event_words(sent: &Frame, marker: u8, timestamp: u16) -> [u32; 2] {
    [word_0(sent), u32::from(marker) << 24 | 1 << 22 | word_1_common(sent) | u32::from(timestamp)]
}

/// An event as it is read.
#[derive(Clone, Copy, Debug, PartialEq, Eq)]
pub struct Event {
    pub id: u32,
    pub xtd: bool,
    pub rtr: bool,
    pub esi: bool,
    pub marker: u8,
    /// The type, two bits as they stand.
    pub kind: u32,
    pub fdf: bool,
    pub brs: bool,
    pub dlc: u32,
    pub timestamp: u16,
}

pub fn event_fields(word0: u32, word1: u32) -> Event {
    Event {
        id: word_0_identifier(word0),
        xtd: bit(word0, 30),
        rtr: bit(word0, 29),
        esi: bit(word0, 31),
        marker: bits(word1, 31, 24) as u8,
        kind: bits(word1, 23, 22),
        fdf: bit(word1, 21),
        brs: bit(word1, 20),
        dlc: bits(word1, 19, 16),
        timestamp: bits(word1, 15, 0) as u16,
    }
}

// Flags. FIFO 1 has its four 4 above those of FIFO 0.
pub const FIFO_NEW: u32 = 0;
pub const FIFO_WATERMARK: u32 = 1;
pub const FIFO_FULL: u32 = 2;
pub const FIFO_LOST: u32 = 3;
pub const PRIORITY: u32 = 8;
pub const SENT: u32 = 9;
pub const CANCELLED: u32 = 10;
pub const TX_FIFO_EMPTIED: u32 = 11;
pub const EVENT_NEW: u32 = 12;
pub const EVENT_WATERMARK: u32 = 13;
pub const EVENT_FULL: u32 = 14;
pub const EVENT_LOST: u32 = 15;
pub const RX_BUFFER_STORED: u32 = 19;

/// Flags are only ever added; call 14 and a start take them away.
fn raise(record: &mut Record, flag: u32) {
    record.flags |= 1 << flag;
}

/// The priority record: 29-bit list 15, filter index 14:8, outcome 7:6, element 5:0, else 0.
pub fn priority_word(extended_list: bool, index: u32, outcome: u32, element: u32) -> u32 {
    u32::from(extended_list) << 15 | (index & 0x7F) << 8 | (outcome & 3) << 6 | (element & 0x3F)
}

pub const OUTCOME_NO_FIFO: u32 = 0;
pub const OUTCOME_LOST: u32 = 1;
/// Outcome 2 is FIFO 0, outcome 3 is FIFO 1.
pub const OUTCOME_STORED: u32 = 2;

// ------------------------------------------------------------------------------------------------------
// The calls
// ------------------------------------------------------------------------------------------------------

/// Call 1: start from registers. It looks at nothing in the old state and never touches the memory.
pub fn start(
    state: &mut State,
    record: &mut Record,
    registers: Registers,
    lent: usize,
) -> Result<[Section; 7], StartRefusal> {
    let layout = layout_verdict(&registers, lent)?;
    *state = State { registers, ..State::default() };
    *record = Record::default();
    Ok(layout)
}

pub const REASON_REMOTE: u32 = 0;
pub const REASON_REJECT: u32 = 1;
pub const REASON_NO_MATCH: u32 = 2;
pub const REASON_PRIORITY_ONLY: u32 = 3;
pub const REASON_DEBUG: u32 = 4;
pub const REASON_MISFILED: u32 = 5;
pub const REASON_LOCKED: u32 = 6;

/// What became of a received frame.
#[derive(Clone, Copy, Debug, PartialEq, Eq)]
pub enum Outcome {
    Stored {
        fifo: u32,
        place: u32,
    },
    StoredBuffer {
        buffer: u32,
    },
    Lost {
        fifo: u32,
    },
    /// Reasons 0 to 6: remote, reject, no match, priority only, debug, misfiled, locked.
    Discarded {
        reason: u32,
    },
}

/// The answer of receive: what became of the frame, and the filter index if one matched.
#[derive(Clone, Copy, Debug, PartialEq, Eq)]
pub struct Received {
    pub outcome: Outcome,
    pub index: Option<u32>,
}

fn discarded(reason: u32, index: Option<u32>) -> Received {
    Received { outcome: Outcome::Discarded { reason }, index }
}

/// Rule 6: puts a frame into a FIFO and sets the flags of that FIFO. Answers the place, or nothing if lost.
#[allow(clippy::too_many_arguments)]
fn store_in_fifo(
    state: &mut State,
    record: &mut Record,
    memory: &mut [u32],
    fifo: u32,
    frame: &Frame,
    data: &[u8],
    index: Option<u32>,
    timestamp: u16,
) -> Option<u32> {
    let State { registers: r, fifo0, fifo1, .. } = state;
    let (ring, group) = if fifo == 0 { (fifo0, 0) } else { (fifo1, 4) };
    let size = r.fifo_size(fifo);

    // Blocking FIFO full, or any FIFO of size 0: frame lost.
    let full = ring.fill == size;
    if size == 0 || (full && !r.fifo_overwrites(fifo)) {
        raise(record, group + FIFO_LOST);
        return None;
    }

    let place = put_place(*ring, size);
    if full {
        // Overwrite and full: the oldest is overwritten; oldest place and put place move one on. Not lost.
        ring.oldest = in_circle(ring.oldest + 1, size);
    } else {
        ring.fill += 1;
        // Watermark when fill rises to it (1 to 64), full when fill rises to the size.
        let watermark = r.fifo_watermark(fifo);
        if (1..=64).contains(&watermark) && ring.fill == watermark {
            raise(record, group + FIFO_WATERMARK);
        }
        if ring.fill == size {
            raise(record, group + FIFO_FULL);
        }
    }
    raise(record, group + FIFO_NEW);
    let element = Element::in_fifo(r, fifo, place).write(memory);
    put_element(element, rx_header_words(frame, index, timestamp), data);
    Some(place)
}

/// Call 2: receive.
pub fn receive(
    state: &mut State,
    record: &mut Record,
    memory: &mut [u32],
    frame: &Frame,
    data: &[u8],
    timestamp: u16,
) -> Result<Received, u32> {
    if unfit(state, record, memory.len()) {
        return Err(20);
    }
    if malformed(frame, data) {
        return Err(21);
    }
    if frame.fdf && !state.registers.fd_on {
        return Err(22);
    }

    let answer = match destination(&state.registers, memory, frame) {
        Destination::Remote => discarded(REASON_REMOTE, None),
        Destination::NoMatch => discarded(REASON_NO_MATCH, None),
        Destination::Reject { index } => discarded(REASON_REJECT, Some(index)),
        Destination::Debug { index } => discarded(REASON_DEBUG, Some(index)),
        Destination::Misfiled { index } => discarded(REASON_MISFILED, Some(index)),
        Destination::PriorityOnly { index } => {
            raise(record, PRIORITY);
            record.priority = priority_word(frame.xtd, index, OUTCOME_NO_FIFO, 0);
            discarded(REASON_PRIORITY_ONLY, Some(index))
        }
        Destination::FifoWithoutMatch { fifo } => {
            match store_in_fifo(state, record, memory, fifo, frame, data, None, timestamp) {
                Some(place) => Received { outcome: Outcome::Stored { fifo, place }, index: None },
                None => Received { outcome: Outcome::Lost { fifo }, index: None },
            }
        }
        Destination::Fifo { fifo, index, priority } => {
            let stored = store_in_fifo(state, record, memory, fifo, frame, data, Some(index), timestamp);
            if priority {
                raise(record, PRIORITY);
                record.priority = match stored {
                    Some(place) => priority_word(frame.xtd, index, OUTCOME_STORED + fifo, place),
                    None => priority_word(frame.xtd, index, OUTCOME_LOST, 0),
                };
            }
            match stored {
                Some(place) => Received { outcome: Outcome::Stored { fifo, place }, index: Some(index) },
                None => Received { outcome: Outcome::Lost { fifo }, index: Some(index) },
            }
        }
        Destination::RxBuffer { buffer, index } => {
            // Rule 5: a buffer whose new-data bit is set is locked, and storing sets the bit.
            if bit64(state.new_data, buffer) {
                discarded(REASON_LOCKED, Some(index))
            } else {
                let element = Element::of_rx_buffer(&state.registers, buffer).write(memory);
                put_element(element, rx_header_words(frame, Some(index), timestamp), data);
                state.new_data |= 1 << buffer;
                raise(record, RX_BUFFER_STORED);
                Received { outcome: Outcome::StoredBuffer { buffer }, index: Some(index) }
            }
        }
    };
    Ok(answer)
}

/// The answer of a read: the whole header and how many bytes were written.
#[derive(Clone, Copy, Debug, PartialEq, Eq)]
pub struct Read {
    pub header: RxHeader,
    pub bytes: u32,
}

/// Writes min(frame, element) bytes into the lent 64 and leaves the rest.
fn read_rx_element(element: &[u32], output: &mut [u8; OUTPUT_BYTES]) -> Read {
    let [word0, word1] = header_words(element);
    let header = rx_header(word0, word1);
    let bytes = data_length(header.rtr, header.fdf, header.dlc).min(room_bytes(element));
    put_bytes(element, &mut output[..bytes as usize]);
    Read { header, bytes }
}

/// Call 3: read in FIFO 0 or 1.
pub fn read_fifo(
    state: &State,
    record: &Record,
    memory: &[u32],
    fifo: u32,
    place: u32,
    output: &mut [u8],
) -> Result<Read, u32> {
    if unfit(state, record, memory.len()) {
        return Err(20);
    }
    if fifo > 1 || place >= state.registers.fifo_size(fifo) {
        return Err(23);
    }
    let ring = if fifo == 0 { state.fifo0 } else { state.fifo1 };
    if older_than(ring, state.registers.fifo_size(fifo), place).is_none() {
        return Err(29);
    }
    let Ok(output) = output.try_into() else {
        return Err(30);
    };
    Ok(read_rx_element(Element::in_fifo(&state.registers, fifo, place).read(memory), output))
}

/// Acknowledging element A releases all held up to and including A.
fn release_up_to(ring: &mut Ring, size: u32, place: u32, older: u32) {
    ring.oldest = in_circle(place + 1, size);
    ring.fill -= older + 1;
}

/// Call 4: acknowledge in FIFO 0 or 1.
pub fn acknowledge_fifo(
    state: &mut State,
    record: &Record,
    memory: &[u32],
    fifo: u32,
    place: u32,
) -> Result<(), u32> {
    if unfit(state, record, memory.len()) {
        return Err(20);
    }
    let size = state.registers.fifo_size(fifo);
    if fifo > 1 || place >= size {
        return Err(23);
    }
    let ring = if fifo == 0 { &mut state.fifo0 } else { &mut state.fifo1 };
    let Some(older) = older_than(*ring, size, place) else {
        return Err(29);
    };
    release_up_to(ring, size, place, older);
    Ok(())
}

/// Call 5: read an Rx buffer.
pub fn read_rx_buffer(
    state: &State,
    record: &Record,
    memory: &[u32],
    buffer: u32,
    output: &mut [u8],
) -> Result<Read, u32> {
    if unfit(state, record, memory.len()) {
        return Err(20);
    }
    if buffer >= state.registers.rx_buffers {
        return Err(23);
    }
    if !bit64(state.new_data, buffer) {
        return Err(29);
    }
    let Ok(output) = output.try_into() else {
        return Err(30);
    };
    Ok(read_rx_element(Element::of_rx_buffer(&state.registers, buffer).read(memory), output))
}

/// Call 6: release an Rx buffer, which clears its new-data bit.
pub fn release_rx_buffer(state: &mut State, record: &Record, memory: &[u32], buffer: u32) -> Result<(), u32> {
    if unfit(state, record, memory.len()) {
        return Err(20);
    }
    if buffer >= state.registers.rx_buffers {
        return Err(23);
    }
    if !bit64(state.new_data, buffer) {
        return Err(29);
    }
    state.new_data &= !(1u64 << buffer);
    Ok(())
}

/// A new request writes the element, sets pending and clears the buffer's sent and cancelled bits.
fn request(
    state: &mut State,
    memory: &mut [u32],
    buffer: u32,
    frame: &Frame,
    data: &[u8],
    marker: u8,
    wish: bool,
) {
    let element = Element::of_tx_buffer(&state.registers, buffer).write(memory);
    put_element(element, tx_header_words(frame, marker, wish), data);
    let mask = 1u32 << buffer;
    state.pending |= mask;
    state.sent &= !mask;
    state.cancelled &= !mask;
}

/// Call 7: request a dedicated buffer. Answers the buffer number.
#[allow(clippy::too_many_arguments)]
pub fn request_dedicated(
    state: &mut State,
    record: &Record,
    memory: &mut [u32],
    buffer: u32,
    frame: &Frame,
    data: &[u8],
    marker: u8,
    wish: bool,
) -> Result<u32, u32> {
    if unfit(state, record, memory.len()) {
        return Err(20);
    }
    if malformed(frame, data) {
        return Err(21);
    }
    if buffer >= state.registers.dedicated() {
        return Err(23);
    }
    if bit(state.pending, buffer) {
        return Err(24);
    }
    request(state, memory, buffer, frame, data, marker, wish);
    Ok(buffer)
}

/// Call 8: request the shared part. Answers the buffer number.
pub fn request_shared(
    state: &mut State,
    record: &Record,
    memory: &mut [u32],
    frame: &Frame,
    data: &[u8],
    marker: u8,
    wish: bool,
) -> Result<u32, u32> {
    if unfit(state, record, memory.len()) {
        return Err(20);
    }
    if malformed(frame, data) {
        return Err(21);
    }
    let r = &state.registers;
    let place = if r.queue_mode() {
        // A queue request takes the lowest-numbered shared buffer that is not pending (house).
        let lowest = (!u64::from(state.pending) >> r.dedicated()).trailing_zeros();
        (lowest < r.shared()).then_some(lowest)
    } else if state.shared.fill < r.shared() {
        // A FIFO uses its places in a circle.
        Some(put_place(state.shared, r.shared()))
    } else {
        None
    };
    let Some(place) = place else {
        return Err(25);
    };
    let buffer = r.dedicated() + place;
    if !r.queue_mode() {
        state.shared.fill += 1;
    }
    request(state, memory, buffer, frame, data, marker, wish);
    Ok(buffer)
}

/// Call 9: cancel. It clears pending and sets cancelled.
pub fn cancel(state: &mut State, record: &mut Record, memory: &[u32], buffer: u32) -> Result<(), u32> {
    if unfit(state, record, memory.len()) {
        return Err(20);
    }
    let r = &state.registers;
    if buffer >= r.tx_buffers() {
        return Err(23);
    }
    if buffer >= r.dedicated() && !r.queue_mode() {
        return Err(26);
    }
    if !bit(state.pending, buffer) {
        return Err(27);
    }
    state.pending &= !(1u32 << buffer);
    state.cancelled |= 1 << buffer;
    raise(record, CANCELLED);
    Ok(())
}

/// The answer of the choice when something is pending.
#[derive(Clone, Copy, Debug, PartialEq, Eq)]
pub struct Choice {
    pub buffer: u32,
    pub marker: u8,
    pub wish: bool,
    /// The header as sent.
    pub header: Frame,
    /// How many bytes were written, which is how many are sent.
    pub bytes: u32,
}

/// Call 10: ask the choice. With nothing pending it answers none and leaves the output alone.
pub fn choice(
    state: &State,
    record: &Record,
    memory: &[u32],
    error_passive: bool,
    output: &mut [u8],
) -> Result<Option<Choice>, u32> {
    if unfit(state, record, memory.len()) {
        return Err(20);
    }
    let Ok(output) = output.try_into() else {
        return Err(30);
    };
    let Some(buffer) = chosen_buffer(state, memory) else {
        return Ok(None);
    };
    let r = &state.registers;
    let element = Element::of_tx_buffer(r, buffer).read(memory);
    let [word0, word1] = header_words(element);
    let header = as_sent(r, word0, word1, error_passive);
    let bytes = put_sent_bytes(element, &header, output);
    Ok(Some(Choice { buffer, marker: bits(word1, 31, 24) as u8, wish: bit(word1, 23), header, bytes }))
}

/// Call 11: report sent.
pub fn report_sent(
    state: &mut State,
    record: &mut Record,
    memory: &mut [u32],
    buffer: u32,
    error_passive: bool,
    timestamp: u16,
) -> Result<(), u32> {
    if unfit(state, record, memory.len()) {
        return Err(20);
    }
    if buffer >= state.registers.tx_buffers() {
        return Err(23);
    }
    if chosen_buffer(state, memory) != Some(buffer) {
        return Err(28);
    }
    let r = &state.registers;

    // A send clears pending and sets sent.
    state.pending &= !(1u32 << buffer);
    state.sent |= 1 << buffer;
    raise(record, SENT);

    // The shared FIFO moves one on; flag 11 when this send emptied it.
    if buffer >= r.dedicated() && !r.queue_mode() {
        state.shared.oldest = in_circle(state.shared.oldest + 1, r.shared());
        state.shared.fill -= 1;
        if state.shared.fill == 0 {
            raise(record, TX_FIFO_EMPTIED);
        }
    }

    // The event, if one is wanted. A full event list or one of size 0 loses the new event.
    let [word0, word1] = header_words(Element::of_tx_buffer(r, buffer).read(memory));
    if bit(word1, 23) {
        let size = r.events_size();
        if size == 0 || state.events.fill == size {
            raise(record, EVENT_LOST);
        } else {
            let sent = as_sent(r, word0, word1, error_passive);
            let event = event_words(&sent, bits(word1, 31, 24) as u8, timestamp);
            Element::of_event(r, put_place(state.events, size)).write(memory).copy_from_slice(&event);
            state.events.fill += 1;
            raise(record, EVENT_NEW);
            // Watermark when fill rises to it (1 to 32), full when fill rises to the size.
            let watermark = r.events_watermark();
            if (1..=32).contains(&watermark) && state.events.fill == watermark {
                raise(record, EVENT_WATERMARK);
            }
            if state.events.fill == size {
                raise(record, EVENT_FULL);
            }
        }
    }
    Ok(())
}

/// Call 12: read an event. It has no data, so nothing is lent for it.
pub fn read_event(state: &State, record: &Record, memory: &[u32], place: u32) -> Result<Event, u32> {
    if unfit(state, record, memory.len()) {
        return Err(20);
    }
    let size = state.registers.events_size();
    if place >= size {
        return Err(23);
    }
    if older_than(state.events, size, place).is_none() {
        return Err(29);
    }
    let [word0, word1] = header_words(Element::of_event(&state.registers, place).read(memory));
    Ok(event_fields(word0, word1))
}

/// Call 13: acknowledge an event, and all older ones with it.
pub fn acknowledge_event(state: &mut State, record: &Record, memory: &[u32], place: u32) -> Result<(), u32> {
    if unfit(state, record, memory.len()) {
        return Err(20);
    }
    let size = state.registers.events_size();
    if place >= size {
        return Err(23);
    }
    let Some(older) = older_than(state.events, size, place) else {
        return Err(29);
    };
    release_up_to(&mut state.events, size, place, older);
    Ok(())
}

/// Call 14: clear flags by a mask. Ones clear; priority stays.
pub fn clear_flags(state: &State, record: &mut Record, memory: &[u32], mask: u32) -> Result<(), u32> {
    if unfit(state, record, memory.len()) {
        return Err(20);
    }
    record.flags &= !mask;
    Ok(())
}

#[derive(Clone, Copy, Debug, PartialEq, Eq)]
pub struct RingStatus {
    pub fill: u32,
    pub oldest: u32,
    pub put: u32,
}

#[derive(Clone, Copy, Debug, PartialEq, Eq)]
pub struct Status {
    pub fifo0: RingStatus,
    pub fifo1: RingStatus,
    pub events: RingStatus,
    pub shared: RingStatus,
    /// The number of pending buffers.
    pub pending: u32,
}

fn ring_status(ring: Ring, size: u32) -> RingStatus {
    RingStatus { fill: ring.fill, oldest: ring.oldest, put: put_place(ring, size) }
}

/// Call 15: report status.
pub fn status(state: &State, record: &Record, memory: &[u32]) -> Result<Status, u32> {
    if unfit(state, record, memory.len()) {
        return Err(20);
    }
    let r = &state.registers;
    Ok(Status {
        fifo0: ring_status(state.fifo0, r.fifo_size(0)),
        fifo1: ring_status(state.fifo1, r.fifo_size(1)),
        events: ring_status(state.events, r.events_size()),
        shared: ring_status(state.shared, r.shared()),
        pending: state.pending.count_ones(),
    })
}

// ------------------------------------------------------------------------------------------------------
// Bench cases
// ------------------------------------------------------------------------------------------------------

/// The bench cases' memory.
pub const BENCH_MEMORY_WORDS: u32 = 2560;

/// The twelve values of a bench input, or nothing if it is not twelve lines of eight hex digits.
pub fn bench_values(input: &[u8]) -> Option<[u32; 12]> {
    let mut values = [0u32; 12];
    if input.len() != 12 * 9 {
        return None;
    }
    for (line, value) in input.chunks(9).zip(values.iter_mut()) {
        for digit in &line[..8] {
            *value = *value * 16 + (*digit as char).to_digit(16)?;
        }
        if line[8] != b'\n' {
            return None;
        }
    }
    Some(values)
}

/// What the bench program prints for its input.
pub fn layout_printout(input: &[u8]) -> String {
    let Some(v) = bench_values(input) else {
        return "layout unread\n".to_string();
    };
    let registers = Registers {
        sidfc: v[0],
        xidfc: v[1],
        rxf0c: v[2],
        rxf1c: v[3],
        rxbc: v[4],
        rxesc: v[5],
        txefc: v[6],
        txbc: v[7],
        txesc: v[8],
        gfc: v[9],
        xidam: v[10],
        rx_buffers: v[11],
        fd_on: false,
        rate_switch_on: false,
        memory_words: BENCH_MEMORY_WORDS,
    };
    match layout_verdict(&registers, BENCH_MEMORY_WORDS as usize) {
        Err(no) => format!("layout refused {} {} {}\n", no.number, no.first, no.second),
        Ok(layout) => {
            let mut text = "layout ok\n".to_string();
            for (section, place) in layout.iter().enumerate() {
                text += &format!("{} {} {}\n", section, place.start, place.words);
            }
            text
        }
    }
}
