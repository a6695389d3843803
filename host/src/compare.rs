//! Library and model side by side: the same random calls to both, and after every call everything compared: its
//! number, every word of state, status, memory and answer, every byte of the output.
//!
//! Two kinds of runs take turns. A history starts from a legal layout and goes on with calls that mostly make
//! sense. A hostile run lends anything: unfit states, wrong lengths, words that say neither yes nor no.

use crate::boundary::*;
use crate::library::Library;
use crate::model::*;
use crate::random::*;
use std::collections::BTreeMap;
use std::fmt;

/// The seed where none is given.
pub const SEED: u64 = 20_150_000;

/// What is lent of some cells. There are more than are lent, so that a write past the end is seen too.
#[derive(Clone, PartialEq, Eq)]
pub struct Room<T, const N: usize> {
    cells: [T; N],
    length: usize,
}

impl<T: Copy + Default, const N: usize> Room<T, N> {
    fn new(length: usize) -> Self {
        Room { cells: [T::default(); N], length }
    }

    pub fn lent(&self) -> &[T] {
        &self.cells[..self.length]
    }

    pub fn lent_mut(&mut self) -> &mut [T] {
        &mut self.cells[..self.length]
    }
}

impl<T: fmt::LowerHex + Copy + Default, const N: usize> fmt::Debug for Room<T, N> {
    fn fmt(&self, f: &mut fmt::Formatter) -> fmt::Result {
        let cells: Vec<String> = self.lent().iter().map(|cell| format!("{cell:x}")).collect();
        write!(f, "[{}]", cells.join(" "))
    }
}

/// What calls change.
#[derive(Clone, PartialEq, Eq)]
pub struct Lent {
    pub state: Room<u32, { STATE_WORDS + 5 }>,
    pub status: Room<u32, 4>,
    pub memory: Room<u32, 4864>,
    pub output: Room<u8, 2048>,
    pub answer: Room<u32, 24>,
}

/// The longest memory that is lent; guard words stand behind it.
const LENT_MOST: u32 = 4850;

impl Lent {
    /// With a memory of so many words.
    pub fn new(lent: usize) -> Lent {
        Lent {
            state: Room::new(STATE_WORDS),
            status: Room::new(STATUS_WORDS),
            memory: Room::new(lent),
            output: Room::new(OUTPUT_BYTES),
            answer: Room::new(ANSWER_WORDS),
        }
    }
}

/// What calls are given. A call takes some of these.
#[derive(Clone, Debug)]
pub struct Inputs {
    pub registers: Room<u32, { REGISTER_WORDS + 2 }>,
    pub frame: Room<u32, 9>,
    pub data: Room<u8, 2048>,
    pub time: u16,
    pub fifo: u32,
    pub place: u32,
    pub buffer: u32,
    pub marker: u8,
    pub wish: u32,
    pub passive: u32,
    pub mask: u32,
}

impl Inputs {
    pub fn new() -> Inputs {
        Inputs {
            registers: Room::new(REGISTER_WORDS),
            frame: Room::new(FRAME_WORDS),
            data: Room::new(0),
            time: 0,
            fifo: 0,
            place: 0,
            buffer: 0,
            marker: 0,
            wish: 0,
            passive: 0,
            mask: 0,
        }
    }

    pub fn set_registers(&mut self, registers: &Registers) {
        self.registers.length = REGISTER_WORDS;
        pack_registers(registers, self.registers.lent_mut());
    }

    pub fn set_frame(&mut self, frame: &Frame, data: &[u8]) {
        self.frame.length = FRAME_WORDS;
        pack_frame(frame, self.frame.lent_mut());
        self.data.length = data.len();
        self.data.lent_mut().copy_from_slice(data);
    }
}

impl Default for Inputs {
    fn default() -> Inputs {
        Inputs::new()
    }
}

/// The calls in the paper's order, and the state before any start.
#[derive(Clone, Copy, Debug, PartialEq, Eq, PartialOrd, Ord)]
pub enum Call {
    Start,
    Receive,
    ReadFifo,
    AcknowledgeFifo,
    ReadBuffer,
    ReleaseBuffer,
    RequestDedicated,
    RequestShared,
    Cancel,
    AskChoice,
    ReportSent,
    ReadEvent,
    AcknowledgeEvent,
    ClearFlags,
    Status,
    NeverStarted,
}

use Call::*;

/// Every call with every number that it can give.
pub const NUMBERS: [(Call, &[u32]); 16] = [
    (Start, &[0, 10, 11, 12, 13, 14, 15, 100, 101]),
    (Receive, &[0, 20, 21, 22, 100, 101]),
    (ReadFifo, &[0, 20, 23, 29, 30, 100, 101]),
    (AcknowledgeFifo, &[0, 20, 23, 29, 100, 101]),
    (ReadBuffer, &[0, 20, 23, 29, 30, 100, 101]),
    (ReleaseBuffer, &[0, 20, 23, 29, 100, 101]),
    (RequestDedicated, &[0, 20, 21, 23, 24, 100, 101]),
    (RequestShared, &[0, 20, 21, 25, 100, 101]),
    (Cancel, &[0, 20, 23, 26, 27, 100, 101]),
    (AskChoice, &[0, 20, 30, 100, 101]),
    (ReportSent, &[0, 20, 23, 28, 100, 101]),
    (ReadEvent, &[0, 20, 23, 29, 100, 101]),
    (AcknowledgeEvent, &[0, 20, 23, 29, 100, 101]),
    (ClearFlags, &[0, 20, 100, 101]),
    (Status, &[0, 20, 100, 101]),
    (NeverStarted, &[0, 100]),
];

/// One call to the library or to the model.
pub fn run(calls: &dyn Calls, call: Call, i: &Inputs, lent: &mut Lent) -> u32 {
    let state = lent.state.lent_mut();
    let status = lent.status.lent_mut();
    let memory = lent.memory.lent_mut();
    let output = lent.output.lent_mut();
    let answer = lent.answer.lent_mut();
    let (frame, data) = (i.frame.lent(), i.data.lent());
    match call {
        Start => calls.start(state, status, memory, i.registers.lent(), answer),
        Receive => calls.receive(state, status, memory, frame, data, i.time, answer),
        ReadFifo => calls.read_fifo(state, status, memory, i.fifo, i.place, output, answer),
        AcknowledgeFifo => calls.acknowledge_fifo(state, status, memory, i.fifo, i.place),
        ReadBuffer => calls.read_buffer(state, status, memory, i.buffer, output, answer),
        ReleaseBuffer => calls.release_buffer(state, status, memory, i.buffer),
        RequestDedicated => {
            calls.request_dedicated(state, status, memory, i.buffer, frame, data, i.marker, i.wish, answer)
        }
        RequestShared => calls.request_shared(state, status, memory, frame, data, i.marker, i.wish, answer),
        Cancel => calls.cancel(state, status, memory, i.buffer),
        AskChoice => calls.ask_choice(state, status, memory, i.passive, output, answer),
        ReportSent => calls.report_sent(state, status, memory, i.buffer, i.passive, i.time),
        ReadEvent => calls.read_event(state, status, memory, i.place, answer),
        AcknowledgeEvent => calls.acknowledge_event(state, status, memory, i.place),
        ClearFlags => calls.clear_flags(state, status, memory, i.mask),
        Status => calls.status(state, status, memory, answer),
        NeverStarted => calls.never_started(state),
    }
}

// ------------------------------------------------------------------------------------------------------
// What happened
// ------------------------------------------------------------------------------------------------------

/// How often a call gave a number, and how often an accepted call came to what.
#[derive(Default)]
pub struct Tally {
    pub calls: u64,
    numbers: BTreeMap<(Call, u32), u64>,
    outcomes: BTreeMap<(&'static str, u32), u64>,
}

const STORED: [&str; 2] = ["size code of a store in FIFO 0", "size code of a store in FIFO 1"];
const STORED_IN_BUFFER: &str = "size code of a store in an Rx buffer";
const REQUESTED: &str = "size code of a request";
const OVERWRITTEN: &str = "overwritten in FIFO";
const LOST: &str = "lost to FIFO";
const READ: &str = "read (0 with a filter's index, 1 ANMF with index 0, 2 ANMF with another index)";
const DISCARDED: &str = "discarded, reason";
const CHOSEN: &str = "chosen (0 none, 1 dedicated, 2 shared FIFO, 3 queue)";
const EQUAL_RANKS: &str = "equal ranks at the top";
const RAISED: &str = "raised flag";
const STARTED_OVER: &str = "started over an old state with neither yes nor no in word";
const NOT_STARTED_OVER: &str = "start refused over an old state with neither yes nor no in word";
const INTERRUPTED: &str = "interrupt code (0 raise, 1 clear, 2 take, 3 put)";
const STARTED_WITH: &str = "started with a memory (0 of one word, 1 to 2,559, 2 of 2,560, 3 to 4,351, 4 of 4,352)";
const TO_THE_END: &str = "started with a section up to the last word of a memory (the same)";
const ONE_PAST: &str = "refused with 14, one word past the end of a memory (the same)";
const WRONG_MEMORY: &str = "refused with 10 for one reason alone (0 given 0, 1 over the most, 2 lent another)";
const LENT_ANOTHER: &str = "another length is lent to a started engine, by call";

/// A length that a start accepts, by its kind in the tally.
fn length_kind(given: u32) -> u32 {
    match given {
        1 => 0,
        BENCH_MEMORY_WORDS => 2,
        MEMORY_MOST => 4,
        _ if given < BENCH_MEMORY_WORDS => 1,
        _ => 3,
    }
}

impl Tally {
    fn note(&mut self, what: &'static str, number: u32) {
        *self.outcomes.entry((what, number)).or_default() += 1;
    }

    /// What can happen and never did.
    pub fn missing(&self) -> Vec<String> {
        let mut expected: Vec<(&'static str, u32)> = vec![(EQUAL_RANKS, 0)];
        for what in [STORED[0], STORED[1], STORED_IN_BUFFER, REQUESTED] {
            expected.extend((0..8).map(|code| (what, code)));
        }
        expected.extend([(OVERWRITTEN, 0), (OVERWRITTEN, 1), (LOST, 0), (LOST, 1)]);
        expected.extend((0..7).map(|reason| (DISCARDED, reason)));
        expected.extend((0..3).map(|kind| (READ, kind)));
        expected.extend((0..4).map(|kind| (CHOSEN, kind)));
        expected.extend((0..32).filter(|flag| FLAGS >> flag & 1 == 1).map(|flag| (RAISED, flag)));
        expected.extend(SAYS_YES_OR_NO.map(|at| (STARTED_OVER, at as u32)));
        expected.extend(SAYS_YES_OR_NO.map(|at| (NOT_STARTED_OVER, at as u32)));
        expected.extend((0..4).map(|step| (INTERRUPTED, step)));
        for what in [STARTED_WITH, TO_THE_END, ONE_PAST] {
            expected.extend((0..5).map(|kind| (what, kind)));
        }
        expected.extend((0..3).map(|reason| (WRONG_MEMORY, reason)));
        expected.extend((2..=15).map(|call| (LENT_ANOTHER, call)));

        let pairs = NUMBERS.iter().flat_map(|(call, numbers)| numbers.iter().map(|number| (*call, *number)));
        let mut missing: Vec<String> = pairs
            .filter(|pair| !self.numbers.contains_key(pair))
            .map(|(call, number)| format!("{call:?} never gave {number}"))
            .collect();
        let never = expected.iter().filter(|outcome| !self.outcomes.contains_key(outcome));
        missing.extend(never.map(|(what, number)| format!("never: {what} {number}")));
        missing
    }
}

impl fmt::Display for Tally {
    fn fmt(&self, f: &mut fmt::Formatter) -> fmt::Result {
        for (call, numbers) in NUMBERS {
            write!(f, "{:17}", format!("{call:?}"))?;
            for number in numbers {
                let times = self.numbers.get(&(call, *number)).copied().unwrap_or(0);
                write!(f, " {number}: {times}")?;
            }
            writeln!(f)?;
        }
        let mut last = "";
        for ((what, number), times) in &self.outcomes {
            if *what != last {
                write!(f, "{}{what}", if last.is_empty() { "" } else { "\n" })?;
                last = what;
            }
            write!(f, " {number}: {times}")?;
        }
        writeln!(f)
    }
}

// ------------------------------------------------------------------------------------------------------
// The runs
// ------------------------------------------------------------------------------------------------------

/// How often each of the fifteen calls comes in a history, in the paper's order. A start comes by itself.
const MOODS: [[u32; 15]; 4] = [
    [0, 6, 2, 1, 2, 1, 2, 2, 1, 2, 2, 1, 1, 1, 1],  // all of it
    [0, 16, 1, 0, 1, 0, 4, 6, 0, 1, 1, 1, 0, 1, 1], // filling up
    [0, 1, 3, 4, 3, 4, 1, 1, 2, 2, 8, 3, 4, 1, 1],  // emptying
    [0, 1, 0, 0, 0, 0, 6, 8, 1, 4, 9, 2, 1, 1, 1],  // sending
];

pub struct Comparison {
    seed: u64,
    random: Random,
    inputs: Inputs,
    library: Box<Lent>,
    model: Box<Lent>,
    pub tally: Tally,
}

impl Comparison {
    pub fn new(seed: u64) -> Comparison {
        let mut random = Random::new(seed);
        let mut model = Box::new(Lent::new(BENCH_MEMORY_WORDS as usize));
        model.memory.cells.iter_mut().for_each(|word| *word = random.word());
        Comparison { seed, random, inputs: Inputs::new(), library: model.clone(), model, tally: Tally::default() }
    }

    /// So many calls, or a few more: the last run is not cut off.
    pub fn run(&mut self, calls: u64) {
        while self.tally.calls < calls {
            let length = self.random.between(20, 1500);
            if self.random.below(5) < 3 {
                self.history(length);
            } else {
                self.hostile_run(length);
            }
        }
    }

    /// The same call to both. Panics where anything differs.
    fn call(&mut self, call: Call) -> u32 {
        let before = (self.model.status.cells[0], self.model.state.cells);
        let number = run(&Library, call, &self.inputs, &mut self.library);
        let wanted = run(&Model, call, &self.inputs, &mut self.model);
        self.tally.calls += 1;
        if number != wanted || self.library != self.model {
            panic!("{}", self.difference(call, number, wanted, &before.1));
        }
        *self.tally.numbers.entry((call, number)).or_default() += 1;
        if call == Start && number < WRONG_LENGTH {
            let over = if number == 0 { STARTED_OVER } else { NOT_STARTED_OVER };
            for at in SAYS_YES_OR_NO.into_iter().filter(|at| before.1[*at] > 1) {
                self.tally.note(over, at as u32);
            }
            self.note_length(number);
        }
        if number == 0 {
            self.note_outcome(call, before.0, &before.1);
        }
        number
    }

    /// What a start made of the memory's length.
    fn note_length(&mut self, number: u32) {
        let Ok(registers) = unpack_registers(self.inputs.registers.lent()) else {
            return;
        };
        let (given, lent) = (registers.memory_words, self.model.memory.length);
        let named = self.model.answer.cells[0] as usize;
        let end = |section: &Section| section.start + section.words;
        match number {
            0 => {
                self.tally.note(STARTED_WITH, length_kind(given));
                if sections(&registers).iter().any(|section| end(section) == given) {
                    self.tally.note(TO_THE_END, length_kind(given));
                }
            }
            10 => {
                let reasons = [given == 0, given > MEMORY_MOST, given as usize != lent];
                let mut met = (0..3).filter(|reason| reasons[*reason]);
                if let (Some(alone), None) = (met.next(), met.next()) {
                    self.tally.note(WRONG_MEMORY, alone as u32);
                }
            }
            14 if end(&section(&registers, named)) == given + 1 => {
                self.tally.note(ONE_PAST, length_kind(given));
            }
            _ => {}
        }
    }

    /// What an accepted call came to.
    fn note_outcome(&mut self, call: Call, flags: u32, state_before: &[u32]) {
        let answer = self.model.answer.cells;
        let mut raised = self.model.status.cells[0] & !flags;
        while raised != 0 {
            self.tally.note(RAISED, raised.trailing_zeros());
            raised &= raised - 1;
        }
        let Ok(state) = unpack_state(self.model.state.lent()) else {
            return;
        };
        let r = &state.registers;
        match (call, answer[0]) {
            (Receive, 1) => {
                let fifo = answer[1];
                self.tally.note(STORED[fifo as usize & 1], r.fifo_size_code(fifo));
                // The fill stands behind the oldest place.
                let fill = FIRST_RING + 2 * fifo as usize + 1;
                if state_before[fill] == self.model.state.cells[fill] {
                    self.tally.note(OVERWRITTEN, fifo);
                }
            }
            (Receive, 2) => self.tally.note(STORED_IN_BUFFER, r.rx_buffer_size_code()),
            (Receive, 3) => self.tally.note(LOST, answer[1]),
            (Receive, _) => self.tally.note(DISCARDED, answer[1]),
            (ReadFifo | ReadBuffer, _) => {
                let [index, anmf] = [answer[8], answer[9]];
                self.tally.note(READ, if anmf == 0 { 0 } else { 1 + u32::from(index != 0) });
            }
            (RequestDedicated | RequestShared, _) => self.tally.note(REQUESTED, r.tx_size_code()),
            (AskChoice, NO_BUFFER) => self.tally.note(CHOSEN, 0),
            (AskChoice, buffer) => {
                let kind = match (buffer < r.dedicated(), r.queue_mode()) {
                    (true, _) => 1,
                    (_, false) => 2,
                    (_, true) => 3,
                };
                self.tally.note(CHOSEN, kind);
                let start = section(r, TX_BUFFERS).start;
                let rank = |buffer: u32| {
                    rank_of_word_0(
                        self.model.memory.cells[(start + buffer * size_words(r.tx_size_code())) as usize],
                    )
                };
                let others = candidates(&state) & !(1 << buffer);
                if (0..32).any(|other| others >> other & 1 == 1 && rank(other) == rank(buffer)) {
                    self.tally.note(EQUAL_RANKS, 0);
                }
            }
            _ => {}
        }
    }

    /// A difference in words: how to come to it again, the call, and every cell that differs.
    fn difference(&self, call: Call, number: u32, wanted: u32, state_before: &[u32]) -> String {
        fn cells<T: PartialEq + fmt::LowerHex, const N: usize>(
            name: &str,
            library: &Room<T, N>,
            model: &Room<T, N>,
        ) -> String {
            let pairs = library.cells.iter().zip(&model.cells).enumerate();
            let lines = pairs.filter(|(_, (library, model))| library != model);
            lines.map(|(at, (l, m))| format!("  {name} {at}: library {l:#x}, model {m:#x}\n")).collect()
        }
        let (l, m) = (&self.library, &self.model);
        let seed = self.seed;
        let nth = self.tally.calls;
        let lent = m.memory.length;
        format!(
            "library and model differ at call {nth} of seed {seed}: {call:?}, library {number}, model {wanted}\n"
        ) + &format!("  {lent} words of memory are lent\n")
            + &cells("state", &l.state, &m.state)
            + &cells("status", &l.status, &m.status)
            + &cells("memory", &l.memory, &m.memory)
            + &cells("output", &l.output, &m.output)
            + &cells("answer", &l.answer, &m.answer)
            + &format!("  state before {state_before:x?}\n  {:x?}\n", self.inputs)
    }

    /// What was changed by hand on the model's side, on the library's side too.
    fn share(&mut self) {
        self.library.clone_from(&self.model);
    }

    /// Anything in the output and the answer, so that a cell which should stay is seen to.
    fn scribble(&mut self) {
        let first = self.model.output.cells.iter_mut().take(96);
        first.for_each(|byte| *byte = self.random.word() as u8);
        self.model.answer.cells.iter_mut().for_each(|word| *word = self.random.word());
        self.share();
    }

    fn lend_memory(&mut self, length: u32) {
        self.model.memory.length = length as usize;
        self.library.memory.length = length as usize;
    }

    /// The length that a call goes by: a start is given one, every other finds one in the state.
    fn given(&self, call: Call) -> u32 {
        match call {
            Start => self.inputs.registers.cells[LENGTH_WORD],
            _ => self.model.state.cells[LENGTH_WORD],
        }
    }

    fn lend_state(&mut self, state: &State, record: &Record) {
        self.model.state.length = STATE_WORDS;
        self.model.status.length = STATUS_WORDS;
        pack_state(state, self.model.state.lent_mut());
        pack_record(record, self.model.status.lent_mut());
    }

    /// One history: a legal start and many calls.
    fn history(&mut self, calls: u32) {
        let registers = legal_registers(&mut self.random);
        let (state, record) = arbitrary_state(&mut self.random);
        self.lend_state(&state, &record);
        self.lend_memory(registers.memory_words);
        self.model.answer.length = ANSWER_WORDS;
        put_filters(&mut self.random, &registers, self.model.memory.lent_mut());
        // A start takes any old state, also one that says neither yes nor no.
        for at in SAYS_YES_OR_NO {
            self.model.state.cells[at] = self.random.odd_word();
        }
        self.scribble();
        self.inputs.set_registers(&registers);
        let number = self.call(Start);
        assert_eq!(number, 0, "a legal start is accepted");

        let mut mood = 0;
        for nth in 0..calls {
            if nth % 100 == 0 {
                mood = self.random.below(MOODS.len() as u32) as usize;
            }
            let state = unpack_state(self.model.state.lent()).expect("a started state says yes or no");
            self.lend_memory(state.registers.memory_words);
            if self.random.once_in(300) {
                put_filters(&mut self.random, &state.registers, self.model.memory.lent_mut());
                self.share();
            }
            // The caller may change any word of the memory.
            if self.random.once_in(100) {
                let at = self.random.below(state.registers.memory_words) as usize;
                self.model.memory.cells[at] = self.random.word();
                self.share();
            }
            if self.random.once_in(8) {
                self.scribble();
            }
            if self.random.once_in(30) {
                self.interrupt();
            }
            let call = if self.random.once_in(400) { Start } else { self.call_by_mood(&MOODS[mood]) };
            self.sensible_inputs(call, &state);
            let given = self.given(call);
            let lent = match call {
                Start => lent_length(&mut self.random, given, LENT_MOST),
                _ if self.random.once_in(100) => other_length(&mut self.random, given, LENT_MOST),
                _ => given,
            };
            self.lend_memory(lent);
            let number = self.call(call);
            let another = call != Start && lent != given;
            assert_eq!(number == 20, another, "a started engine meets 20 by a memory of another length alone");
            if another {
                self.tally.note(LENT_ANOTHER, call as u32 + 1);
            }
        }
    }

    /// One step of interrupt code on the record in place. It raises only flags that exist.
    fn interrupt(&mut self) {
        let step = self.random.below(4);
        let word = self.random.word();
        let status = &mut self.model.status.cells;
        let mut record = [status[0], status[1]];
        match step {
            0 => {
                Library.flags_raise(&mut record, word & FLAGS);
                status[0] |= word & FLAGS;
            }
            1 => {
                Library.flags_clear(&mut record, word);
                status[0] &= !word;
            }
            2 => {
                assert_eq!(Library.flags_take(&mut record), status[0]);
                status[0] = 0;
            }
            _ => {
                Library.priority_put(&mut record, word);
                status[1] = word;
            }
        }
        self.tally.note(INTERRUPTED, step);
        assert_eq!(record, [status[0], status[1]], "interrupt code's step {step}, word {word:#x}");
        self.share();
    }

    fn call_by_mood(&mut self, mood: &[u32; 15]) -> Call {
        let mut ticket = self.random.below(mood.iter().sum());
        for (weight, (call, _)) in mood.iter().zip(NUMBERS) {
            if ticket < *weight {
                return call;
            }
            ticket -= weight;
        }
        Status
    }

    /// Inputs that this call mostly accepts.
    fn sensible_inputs(&mut self, call: Call, state: &State) {
        let random = &mut self.random;
        let i = &mut self.inputs;
        let r = &state.registers;
        let output_length = match random.below(40) {
            0 => random.below(90) as usize,
            1 => random.below(2048) as usize,
            _ => OUTPUT_BYTES,
        };
        self.model.output.length = output_length;
        self.library.output.length = output_length;
        i.time = random.word() as u16;
        i.passive = random.below(2);
        match call {
            Start => {
                let registers = match random.below(3) {
                    0 => nearly_legal_registers(random),
                    _ => legal_registers(random),
                };
                i.set_registers(&registers);
            }
            Receive | RequestDedicated | RequestShared => {
                let (frame, data) =
                    if random.once_in(15) { arbitrary_frame(random) } else { well_formed_frame(random) };
                i.set_frame(&frame, &data);
                i.marker = random.word() as u8;
                i.wish = random.below(2);
                i.buffer = mostly_below(random, r.dedicated());
            }
            ReadFifo | AcknowledgeFifo => {
                i.fifo = if random.once_in(40) { random.odd_word() } else { random.below(2) };
                let ring = if i.fifo == 0 { state.fifo0 } else { state.fifo1 };
                i.place = mostly_held(random, ring, r.fifo_size(i.fifo));
            }
            ReadBuffer | ReleaseBuffer => i.buffer = mostly_set(random, state.new_data, r.rx_buffers),
            Cancel => i.buffer = mostly_set(random, u64::from(state.pending), r.tx_buffers()),
            ReportSent => {
                let chosen = chosen_buffer(state, &self.model.memory.cells);
                i.buffer = chosen.filter(|_| !random.once_in(5)).unwrap_or(random.below(34));
            }
            ReadEvent | AcknowledgeEvent => i.place = mostly_held(random, state.events, r.events_size()),
            ClearFlags => i.mask = if random.coin() { random.word() } else { random.odd_word() },
            AskChoice | Status | NeverStarted => {}
        }
    }

    /// Calls on states of any kind, each for a few calls, with anything lent.
    fn hostile_run(&mut self, calls: u32) {
        for _ in 0..calls.div_ceil(2) {
            let (state, record) = match self.random.below(4) {
                0 => arbitrary_state(&mut self.random),
                1 => nearly_fit_state(&mut self.random),
                _ => fit_state(&mut self.random),
            };
            self.lend_state(&state, &record);
            self.wild_memory(&state.registers);
            self.scribble();
            for _ in 0..self.random.between(1, 3) {
                let call = NUMBERS[self.random.below(16) as usize].0;
                self.sensible_inputs(call, &state);
                self.wild_inputs();
                self.wild_lengths();
                self.wild_words();
                let given = self.given(call);
                let lent = lent_length(&mut self.random, given, LENT_MOST);
                self.lend_memory(lent);
                self.call(call);
            }
        }
    }

    /// Arbitrary words in a part of the memory, and now and then filters that match.
    fn wild_memory(&mut self, registers: &Registers) {
        let random = &mut self.random;
        let memory = &mut self.model.memory.cells;
        if random.once_in(20) {
            let at = random.below(MEMORY_MOST) as usize;
            memory[at..].iter_mut().take(200).for_each(|word| *word = random.odd_word());
        }
        let given = registers.memory_words as usize;
        if random.once_in(10) && layout_verdict(registers, given).is_ok() {
            put_filters(random, registers, &mut memory[..given]);
        }
    }

    /// Half of the numbers are replaced by others.
    fn wild_inputs(&mut self) {
        let random = &mut self.random;
        let i = &mut self.inputs;
        if random.once_in(4) {
            i.set_registers(&arbitrary_registers(random));
        }
        if random.once_in(4) {
            let (frame, data) = arbitrary_frame(random);
            i.set_frame(&frame, &data);
        }
        if random.once_in(100) {
            i.data.length = random.below(2048) as usize;
        }
        let mut wild = |number: &mut u32| {
            if random.once_in(4) {
                *number = if random.coin() { random.below(66) } else { random.odd_word() };
            }
        };
        wild(&mut i.fifo);
        wild(&mut i.place);
        wild(&mut i.buffer);
        wild(&mut i.mask);
    }

    /// Wrong lengths of the boundary's own pieces, 100.
    fn wild_lengths(&mut self) {
        let random = &mut self.random;
        let mut wild = |right: usize, most: usize| {
            if random.once_in(50) {
                random.between(0, most as u32) as usize
            } else {
                right
            }
        };
        self.model.state.length = wild(STATE_WORDS, STATE_WORDS + 5);
        self.model.status.length = wild(STATUS_WORDS, 4);
        self.model.answer.length = wild(ANSWER_WORDS, 24);
        self.library.state.length = self.model.state.length;
        self.library.status.length = self.model.status.length;
        self.library.answer.length = self.model.answer.length;
        self.inputs.registers.length = wild(REGISTER_WORDS, REGISTER_WORDS + 2);
        self.inputs.frame.length = wild(FRAME_WORDS, 9);
    }

    /// Words that say neither yes nor no, 101.
    fn wild_words(&mut self) {
        let random = &mut self.random;
        if random.once_in(40) {
            let at = SAYS_YES_OR_NO[random.below(2) as usize];
            self.model.state.cells[at] = random.odd_word();
            self.library.state.cells[at] = self.model.state.cells[at];
        }
        if random.once_in(40) {
            self.inputs.registers.cells[SAYS_YES_OR_NO[random.below(2) as usize]] = random.odd_word();
        }
        if random.once_in(40) {
            self.inputs.frame.cells[1 + random.below(5) as usize] = random.odd_word();
        }
        if random.once_in(40) {
            self.inputs.wish = random.odd_word();
        }
        if random.once_in(40) {
            self.inputs.passive = random.odd_word();
        }
    }
}

/// Mostly a number below the limit, sometimes one past it.
fn mostly_below(random: &mut Random, limit: u32) -> u32 {
    if random.once_in(20) {
        random.odd_word()
    } else {
        random.below(limit + 1)
    }
}

/// Mostly a held place, and of these often the oldest.
fn mostly_held(random: &mut Random, ring: Ring, size: u32) -> u32 {
    if ring.fill == 0 || random.once_in(6) {
        return mostly_below(random, size);
    }
    let older = if random.coin() { 0 } else { random.below(ring.fill) };
    ring.oldest.wrapping_add(older).checked_rem(size).unwrap_or(0)
}

/// Mostly a number whose bit is set.
fn mostly_set(random: &mut Random, bits: u64, limit: u32) -> u32 {
    if bits == 0 || random.once_in(6) {
        return mostly_below(random, limit.min(64));
    }
    let at = random.below(64);
    (at + bits.rotate_right(at).trailing_zeros()) % 64
}
