//! The worked cases of `tests/worked_cases`, run over the library and over the model: both print what is expected.
//! docs/CALLS.md says what the lines of a case mean.

use cuongphemi_host::boundary::*;
use cuongphemi_host::library::Library;
use cuongphemi_host::model::{data_length, BENCH_MEMORY_WORDS, MEMORY_MOST};
use std::fmt::Write;
use std::path::PathBuf;

/// What stands in a lent output before the call.
const UNWRITTEN: u8 = 0xEE;

type Answer = [u32; ANSWER_WORDS];
type Frame = [u32; FRAME_WORDS];

/// The memory's words, of which a case lends the first ones: enough for one length over the most.
const ROOM: usize = MEMORY_MOST as usize + 1;

/// What a case runs on. Every case begins with a memory of zeros and without a start.
struct Bench<'a> {
    calls: &'a dyn Calls,
    state: [u32; STATE_WORDS],
    status: [u32; STATUS_WORDS],
    memory: [u32; ROOM],
    /// The length that a start is given, and how many words are lent.
    given: u32,
    lent: usize,
}

impl<'a> Bench<'a> {
    fn unstarted(calls: &'a dyn Calls) -> Bench<'a> {
        let mut state = [0; STATE_WORDS];
        assert_eq!(calls.never_started(&mut state), 0);
        let (given, lent) = (BENCH_MEMORY_WORDS, BENCH_MEMORY_WORDS as usize);
        Bench { calls, state, status: [0; STATUS_WORDS], memory: [0; ROOM], given, lent }
    }

    /// One line of a case: a word and its hexadecimal numbers. Answers what is printed after the arrow.
    fn run(&mut self, line: &str) -> String {
        let mut parts = line.split(' ');
        let word = parts.next().unwrap_or_default();
        let number = |digits| u32::from_str_radix(digits, 16).unwrap_or_else(|wrong| panic!("{line}: {wrong}"));
        let numbers: Vec<u32> = parts.map(number).collect();
        let Bench { calls, state, status, memory, given, lent } = self;
        let memory = &mut memory[..*lent];
        let answer = &mut [0; ANSWER_WORDS];
        match (word, &numbers[..]) {
            ("start", registers) => {
                let registers = [registers, &[*given]].concat();
                let number = calls.start(state, status, memory, &registers, answer);
                start_text(number, answer)
            }
            ("receive", &[form, id, dlc, time, first]) => {
                let frame = frame(form, id, dlc);
                let data = frame_data(&frame, first);
                let number = calls.receive(state, status, memory, &frame, &data, time as u16, answer);
                told(number, || receive_text(answer))
            }
            // A frame whose data have a length of their own.
            ("damaged", &[form, id, dlc, time, first, length]) => {
                let frame = frame(form, id, dlc);
                let data = data(first, length);
                let number = calls.receive(state, status, memory, &frame, &data, time as u16, answer);
                told(number, || receive_text(answer))
            }
            ("read", &[fifo, place, length]) => {
                let mut output = vec![UNWRITTEN; length as usize];
                let number = calls.read_fifo(state, status, memory, fifo, place, &mut output, answer);
                told(number, || read_text(answer, &output))
            }
            ("acknowledge", &[fifo, place]) => {
                told(calls.acknowledge_fifo(state, status, memory, fifo, place), done)
            }
            ("buffer", &[buffer, length]) => {
                let mut output = vec![UNWRITTEN; length as usize];
                let number = calls.read_buffer(state, status, memory, buffer, &mut output, answer);
                told(number, || read_text(answer, &output))
            }
            ("release", &[buffer]) => told(calls.release_buffer(state, status, memory, buffer), done),
            ("request", &[buffer, form, id, dlc, marker, wish]) => {
                let frame = frame(form, id, dlc);
                let data = frame_data(&frame, marker);
                let marker = marker as u8;
                let number =
                    calls.request_dedicated(state, status, memory, buffer, &frame, &data, marker, wish, answer);
                told(number, || request_text(answer))
            }
            ("share", &[form, id, dlc, marker, wish]) => {
                let frame = frame(form, id, dlc);
                let data = frame_data(&frame, marker);
                let marker = marker as u8;
                let number = calls.request_shared(state, status, memory, &frame, &data, marker, wish, answer);
                told(number, || request_text(answer))
            }
            ("cancel", &[buffer]) => told(calls.cancel(state, status, memory, buffer), done),
            ("choice", &[passive, length]) => {
                let mut output = vec![UNWRITTEN; length as usize];
                let number = calls.ask_choice(state, status, memory, passive, &mut output, answer);
                told(number, || choice_text(answer, &output))
            }
            ("report", &[buffer, passive, time]) => {
                told(calls.report_sent(state, status, memory, buffer, passive, time as u16), done)
            }
            ("event", &[place]) => {
                let number = calls.read_event(state, status, memory, place, answer);
                told(number, || event_text(answer))
            }
            ("settle", &[place]) => told(calls.acknowledge_event(state, status, memory, place), done),
            ("clear", &[mask]) => told(calls.clear_flags(state, status, memory, mask), done),
            ("status", []) => {
                let number = calls.status(state, status, memory, answer);
                told(number, || status_text(answer))
            }
            // Beside the calls: lengths from here on, words and record set by hand, four words, and what no status
            // tells.
            ("memory", &[words_given, words_lent]) => {
                (*given, *lent) = (words_given, words_lent as usize);
                String::new()
            }
            ("word", &[at, word]) => {
                memory[at as usize] = word;
                String::new()
            }
            ("state", &[at, word]) => {
                state[at as usize] = word;
                String::new()
            }
            ("record", &[flags, priority]) => {
                *status = [flags, priority];
                String::new()
            }
            ("show", &[at]) => memory[at as usize..][..4].iter().map(|word| format!(" 0x{word:08x}")).collect(),
            ("look", []) => look_text(state, status, memory),
            _ => panic!("no such line: {line}"),
        }
    }
}

/// A frame's words by its form: XTD in bit 4, then RTR, FDF, BRS and ESI in bit 0.
fn frame(form: u32, id: u32, dlc: u32) -> Frame {
    let bit = |at: u32| form >> at & 1;
    [id, bit(4), bit(3), bit(2), bit(1), bit(0), dlc]
}

/// The data of a frame: as many as its DLC says.
fn frame_data(frame: &Frame, first: u32) -> Vec<u8> {
    let [_, _, rtr, fdf, _, _, dlc] = *frame;
    data(first, data_length(rtr == 1, fdf == 1, dlc))
}

/// So many numbers from a first one on, which is taken modulo 64.
fn data(first: u32, length: u32) -> Vec<u8> {
    let first = first % 64;
    (first..first + length).map(|number| number as u8).collect()
}

// ------------------------------------------------------------------------------------------------------
// What is printed of an answer
// ------------------------------------------------------------------------------------------------------

fn told(number: u32, accepted: impl FnOnce() -> String) -> String {
    match number {
        0 => accepted(),
        _ => format!(" refused {number}"),
    }
}

fn done() -> String {
    " done".to_string()
}

/// The sections, or the refusal and the two that it names.
fn start_text(number: u32, answer: &Answer) -> String {
    let [first, second, sections @ ..] = answer;
    match number {
        0 => sections.iter().fold(" accepted".to_string(), |text, word| format!("{text} {word}")),
        _ => format!(" refused {number} {first} {second}"),
    }
}

fn receive_text(answer: &Answer) -> String {
    let [kind, what, place, filter, ..] = *answer;
    let outcome = match kind {
        1 => format!("stored {what} {place}"),
        2 => format!("buffer {what}"),
        3 => format!("lost {what}"),
        4 => format!("discarded {what}"),
        _ => format!("kind {kind}"),
    };
    let index = filter.checked_sub(1).map_or("none".to_string(), |index| index.to_string());
    format!(" {outcome} index {index}")
}

/// The seven words of a frame from a place of the answer on.
fn frame_text(answer: &Answer, at: usize) -> String {
    let w = &answer[at..at + FRAME_WORDS];
    format!(" id 0x{:x} xtd {} rtr {} fdf {} brs {} esi {} dlc {}", w[0], w[1], w[2], w[3], w[4], w[5], w[6])
}

fn bytes_text(output: &[u8], count: u32) -> String {
    let digits: String = output.iter().take(count as usize).map(|byte| format!("{byte:02x}")).collect();
    format!(" bytes {count} {digits}")
}

fn read_text(answer: &Answer, output: &[u8]) -> String {
    let [time, index, anmf, count] = [answer[7], answer[8], answer[9], answer[10]];
    let bytes = bytes_text(output, count);
    format!(" read{} anmf {anmf} index {index} time {time}{bytes}", frame_text(answer, 0))
}

fn request_text(answer: &Answer) -> String {
    format!(" buffer {}", answer[0])
}

fn choice_text(answer: &Answer, output: &[u8]) -> String {
    let [buffer, marker, wish, ..] = *answer;
    if buffer == NO_BUFFER {
        return " none".to_string();
    }
    let bytes = bytes_text(output, answer[10]);
    format!(" buffer {buffer} marker {marker} wish {wish}{}{bytes}", frame_text(answer, 3))
}

fn event_text(answer: &Answer) -> String {
    format!(" read{} marker {} type {} time {}", frame_text(answer, 0), answer[7], answer[8], answer[9])
}

fn status_text(answer: &Answer) -> String {
    let rings = ["fifo0", "fifo1", "events", "shared"].iter().zip(answer.chunks(3));
    let rings: String = rings.map(|(name, w)| format!(" {name} {} {} {}", w[0], w[1], w[2])).collect();
    format!("{rings} pending {}", answer[12])
}

/// The record, the bits of the buffers that no status tells, and a checksum of the lent memory.
fn look_text(state: &[u32], status: &[u32], memory: &[u32]) -> String {
    let state = unpack_state(state).expect("FD on and rate switch on say yes or no");
    let checksum = memory.iter().fold(0, |sum, word| (sum * 31 + word % 65521) % 65521);
    format!(
        " flags 0x{:x} priority 0x{:x} sent 0x{:x} cancelled 0x{:x} newdata 0x{:x} memory {checksum}",
        status[0], status[1], state.sent, state.cancelled, state.new_data
    )
}

// ------------------------------------------------------------------------------------------------------
// All cases
// ------------------------------------------------------------------------------------------------------

/// What the cases print: they stand apart by an empty line, each with its name first.
fn printed(calls: &dyn Calls, cases: &str) -> String {
    let mut text = String::new();
    for case in cases.split("\n\n") {
        let mut lines = case.lines();
        let name = lines.next().unwrap_or_default();
        let mut bench = Bench::unstarted(calls);
        for line in lines {
            writeln!(text, "{name} {line} ->{}", bench.run(line)).unwrap();
        }
    }
    text
}

/// Every line that is not as expected, with its number in the file.
fn differences(who: &str, expected: &str, printed: &str) -> Vec<String> {
    let expected: Vec<&str> = expected.lines().collect();
    let printed: Vec<&str> = printed.lines().collect();
    (0..expected.len().max(printed.len()))
        .map(|at| (at + 1, expected.get(at).copied(), printed.get(at).copied()))
        .filter(|(_, expected, came)| expected != came)
        .map(|(number, expected, came)| {
            let (expected, came) = (expected.unwrap_or("no such line"), came.unwrap_or("no such line"));
            format!("{who}, line {number}\n  expected: {expected}\n  came:     {came}")
        })
        .collect()
}

#[test]
fn library_and_model_print_what_is_expected() {
    let folder = PathBuf::from(env!("CARGO_MANIFEST_DIR")).join("../tests/worked_cases");
    let read = |name: &str| std::fs::read_to_string(folder.join(name)).unwrap();
    let (cases, expected) = (read("cases.txt"), read("expected.txt"));
    let runs: [(&str, &dyn Calls); 2] = [("library", &Library), ("model", &Model)];
    let different: Vec<String> =
        runs.iter().flat_map(|(who, calls)| differences(who, &expected, &printed(*calls, &cases))).collect();
    assert!(different.is_empty(), "{} lines differ\n{}", different.len(), different.join("\n"));
}
