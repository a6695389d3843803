//! How fast the proved library is beside plain Rust. Plain Rust is the model, once over the same lent words as the
//! library (words), once on its own structs and a slice of memory, where nothing is packed (structs).
//!
//!     benchmark                       nanoseconds of every job, the three in turn, the best round of each
//!     benchmark --instructions        instructions of every job, counted by valgrind
//!     benchmark --functions           the same, by function
//!     benchmark --once WHO JOB TURNS  one job alone, for a profiler; WHO is library, words or structs

use cuongphemi_host::boundary::*;
use cuongphemi_host::compare::{run, Call, Inputs, Lent};
use cuongphemi_host::library::Library;
use cuongphemi_host::model::{self, *};
use std::collections::BTreeMap;
use std::hint::black_box;
use std::process::{Command, ExitCode};
use std::time::Instant;

struct Job {
    name: &'static str,
    what: &'static str,
    ready: fn() -> Words,
    on_words: fn(&mut Words, &dyn Calls),
    on_structs: fn(&mut Structs),
}

const JOBS: [Job; 8] = [
    receive_job("first", "receive, 128 filters, the first matches", || receiving(0, 8)),
    receive_job("last", "receive, 128 filters, the last matches", || receiving(127, 8)),
    receive_job("none", "receive, 128 filters, none matches", || receiving(0x7FF, 8)),
    receive_job("first64", "receive of 64 bytes, the first matches", || receiving(0, 15)),
    Job {
        name: "read",
        what: "read and acknowledge (two calls)",
        ready: holding,
        on_words: Words::read_and_acknowledge,
        on_structs: Structs::read_and_acknowledge,
    },
    send_job("send1", "request, choose and report, 1 pending (three calls)", || sending(1)),
    send_job("send8", "request, choose and report, 8 pending", || sending(8)),
    send_job("send32", "request, choose and report, 32 pending", || sending(32)),
];

const fn receive_job(name: &'static str, what: &'static str, ready: fn() -> Words) -> Job {
    Job { name, what, ready, on_words: Words::receive, on_structs: Structs::receive }
}

const fn send_job(name: &'static str, what: &'static str, ready: fn() -> Words) -> Job {
    Job { name, what, ready, on_words: Words::request_choose_report, on_structs: Structs::request_choose_report }
}

// ------------------------------------------------------------------------------------------------------
// What the jobs begin with
// ------------------------------------------------------------------------------------------------------

/// 128 filters for identifiers 0 to 127, FIFO 0 of 64 elements that overwrites, 32 dedicated Tx buffers and 32
/// events. Every element has room for 64 bytes. What no filter matches goes to FIFO 0.
fn started() -> Words {
    let registers = Registers {
        sidfc: 128 << 16,
        rxf0c: 1 << 31 | 64 << 16 | 128 << 2,
        rxesc: 7,
        txefc: 32 << 16 | (128 + 64 * 18) << 2,
        txbc: 32 << 16 | (128 + 64 * 18 + 64) << 2,
        txesc: 7,
        fd_on: true,
        rate_switch_on: true,
        memory_words: BENCH_MEMORY_WORDS,
        ..Registers::reset()
    };
    let mut words = Words { lent: Lent::new(BENCH_MEMORY_WORDS as usize), inputs: Inputs::new() };
    for (id, filter) in (0..128).zip(words.lent.memory.lent_mut()) {
        // Type 1, action 1: one of two identifiers, here the same, to FIFO 0.
        *filter = 1 << 30 | 1 << 27 | id << 16 | id;
    }
    words.inputs.set_registers(&registers);
    words.call(&Model, Call::Start);
    words
}

fn receiving(id: u32, dlc: u32) -> Words {
    let mut words = started();
    words.set_frame(id, dlc);
    words
}

fn holding() -> Words {
    let mut words = receiving(0, 8);
    for _ in 0..64 {
        words.call(&Model, Call::Receive);
    }
    words
}

/// All but one of the pending requests, each with a worse identifier than the one before it.
fn sending(pending: u32) -> Words {
    let mut words = started();
    for buffer in 1..pending {
        words.set_frame(0x700 - buffer, 8);
        words.inputs.buffer = buffer;
        words.call(&Model, Call::RequestDedicated);
    }
    words.set_frame(0x100, 8);
    words.inputs.buffer = 0;
    words
}

// ------------------------------------------------------------------------------------------------------
// The jobs over lent words
// ------------------------------------------------------------------------------------------------------

struct Words {
    lent: Lent,
    inputs: Inputs,
}

impl Words {
    fn set_frame(&mut self, id: u32, dlc: u32) {
        let fd = dlc > 8;
        let frame = Frame { id, fdf: fd, brs: fd, dlc, ..Frame::default() };
        let data: Vec<u8> = (0..data_length(false, fd, dlc) as u8).collect();
        self.inputs.set_frame(&frame, &data);
    }

    fn call(&mut self, calls: &dyn Calls, call: Call) {
        assert_eq!(run(calls, call, &self.inputs, &mut self.lent), 0, "{call:?}");
    }

    fn receive(&mut self, calls: &dyn Calls) {
        self.call(calls, Call::Receive);
    }

    /// The oldest element is read and acknowledged. An empty FIFO is said to be full again, in the state's words.
    fn read_and_acknowledge(&mut self, calls: &dyn Calls) {
        let (oldest, fill) = (FIRST_RING, FIRST_RING + 1);
        let state = self.lent.state.lent_mut();
        if state[fill] == 0 {
            state[fill] = 64;
        }
        self.inputs.place = state[oldest];
        self.call(calls, Call::ReadFifo);
        self.call(calls, Call::AcknowledgeFifo);
    }

    /// A request that wins the choice, the choice, and its report. The other requests stay pending.
    fn request_choose_report(&mut self, calls: &dyn Calls) {
        self.call(calls, Call::RequestDedicated);
        self.call(calls, Call::AskChoice);
        self.call(calls, Call::ReportSent);
    }
}

// ------------------------------------------------------------------------------------------------------
// The same jobs on the model's structs
// ------------------------------------------------------------------------------------------------------

struct Structs {
    state: State,
    record: Record,
    memory: Vec<u32>,
    output: [u8; OUTPUT_BYTES],
    frame: Frame,
    data: Vec<u8>,
}

impl Structs {
    fn of(words: &Words) -> Structs {
        Structs {
            state: unpack_state(words.lent.state.lent()).expect("a started state says yes or no"),
            record: unpack_record(words.lent.status.lent()),
            memory: words.lent.memory.lent().to_vec(),
            output: [0; OUTPUT_BYTES],
            frame: unpack_frame(words.inputs.frame.lent()).expect("a frame says yes or no"),
            data: words.inputs.data.lent().to_vec(),
        }
    }

    fn receive(&mut self) {
        let Structs { state, record, memory, frame, data, .. } = self;
        black_box(model::receive(state, record, memory, frame, data, 0).expect("it is accepted"));
    }

    fn read_and_acknowledge(&mut self) {
        let Structs { state, record, memory, output, .. } = self;
        if state.fifo0.fill == 0 {
            state.fifo0.fill = 64;
        }
        let place = state.fifo0.oldest;
        black_box(model::read_fifo(state, record, memory, 0, place, output).expect("it is accepted"));
        model::acknowledge_fifo(state, record, memory, 0, place).expect("it is accepted");
    }

    fn request_choose_report(&mut self) {
        let Structs { state, record, memory, output, frame, data } = self;
        let request = model::request_dedicated(state, record, memory, 0, frame, data, 0, false);
        black_box(request.expect("it is accepted"));
        black_box(model::choice(state, record, memory, false, output).expect("it is accepted"));
        model::report_sent(state, record, memory, 0, false, 0).expect("it is accepted");
    }
}

// ------------------------------------------------------------------------------------------------------
// Measuring
// ------------------------------------------------------------------------------------------------------

const TURNS: u64 = 1_000;
const ROUNDS: u32 = 300;

/// Who does a job.
#[derive(Clone, Copy, PartialEq, Eq)]
enum Who {
    Library,
    Words,
    Structs,
}

const ALL: [Who; 3] = [Who::Library, Who::Words, Who::Structs];

impl Who {
    fn name(self) -> &'static str {
        match self {
            Who::Library => "library",
            Who::Words => "words",
            Who::Structs => "structs",
        }
    }

    fn turns(self, job: &Job, words: &mut Words, structs: &mut Structs, count: u64) {
        let calls: &dyn Calls = match self {
            Who::Library => &Library,
            Who::Words => &Model,
            Who::Structs => {
                (0..count).for_each(|_| (job.on_structs)(black_box(structs)));
                return;
            }
        };
        (0..count).for_each(|_| (job.on_words)(black_box(words), black_box(calls)));
    }
}

/// Nanoseconds of one turn: the best of many rounds, in which the three take turns.
fn nanoseconds(job: &Job) -> [f64; 3] {
    let mut best = [f64::INFINITY; 3];
    let mut words = [(job.ready)(), (job.ready)()];
    let mut structs = Structs::of(&words[0]);
    for _ in 0..ROUNDS {
        for (who, best) in ALL.into_iter().zip(&mut best) {
            let own = &mut words[usize::from(who == Who::Library)];
            let begin = Instant::now();
            who.turns(job, own, &mut structs, TURNS);
            *best = best.min(begin.elapsed().as_nanos() as f64 / TURNS as f64);
        }
    }
    best
}

/// How many instructions each function executes itself.
type Profile = BTreeMap<String, f64>;

/// The functions that lend and choose the calls, here and in `compare::run`, belong to no one and are not counted.
const NOT_COUNTED: [&str; 2] = ["benchmark::", "cuongphemi_host::compare::"];

/// The profile of one turn: valgrind counts two runs of different lengths.
fn profile(who: Who, job: &Job) -> Profile {
    let run = |turns: u64| -> Profile {
        let file = std::env::temp_dir().join(format!("benchmark.{}.callgrind", std::process::id()));
        let run = Command::new("valgrind")
            .args(["--tool=callgrind", "--compress-strings=no", "--compress-pos=no"])
            .arg(format!("--callgrind-out-file={}", file.display()))
            .arg(std::env::current_exe().expect("this program has a path"))
            .args(["--once", who.name(), job.name, &turns.to_string()])
            .output()
            .expect("valgrind runs");
        assert!(run.status.success(), "{}", String::from_utf8_lossy(&run.stderr));
        let text = std::fs::read_to_string(&file).expect("valgrind writes what it counted");
        std::fs::remove_file(&file).expect("its file can be removed");
        by_function(&text)
    };
    let mut profile = run(2 * TURNS);
    for (function, count) in run(TURNS) {
        *profile.entry(function).or_default() -= count;
    }
    profile.retain(|function, _| !NOT_COUNTED.iter().any(|own| function.starts_with(own)));
    profile.values_mut().for_each(|count| *count /= TURNS as f64);
    profile
}

/// What callgrind wrote: after a line with a function's name, lines with a place and a count. The line after one with
/// `calls=` has the count of the function that is called.
fn by_function(text: &str) -> Profile {
    let mut profile = Profile::new();
    let mut function = "";
    let mut called = false;
    for line in text.lines() {
        if let Some(name) = line.strip_prefix("fn=") {
            function = name;
        } else if line.starts_with("calls=") {
            called = true;
        } else if line.starts_with(|letter: char| letter.is_ascii_digit()) {
            let count = line.split(' ').nth(1).and_then(|count| count.parse::<f64>().ok());
            if !std::mem::take(&mut called) {
                *profile.entry(function.to_string()).or_default() += count.unwrap_or(0.0);
            }
        }
    }
    profile
}

fn instructions(job: &Job) -> [f64; 3] {
    ALL.map(|who| profile(who, job).values().sum())
}

fn table(unit: &str, measure: impl Fn(&Job) -> [f64; 3]) {
    println!("| Job, {unit} | library | plain Rust over words | ratio | plain Rust on structs | ratio |");
    println!("|---|---|---|---|---|---|");
    for job in &JOBS {
        let [library, words, structs] = measure(job);
        let (over_words, over_structs) = (library / words, library / structs);
        println!(
            "| {} | {library:.0} | {words:.0} | {over_words:.2} | {structs:.0} | {over_structs:.2} |",
            job.what
        );
    }
}

/// The functions of every job, those with the most instructions first.
fn functions() {
    for job in &JOBS {
        println!("{}", job.what);
        for who in ALL {
            let mut functions: Vec<(String, f64)> = profile(who, job).into_iter().collect();
            functions.sort_by(|(_, one), (_, other)| other.total_cmp(one));
            functions.retain(|(_, count)| *count >= 1.0);
            println!("    {} {:.0}", who.name(), functions.iter().map(|(_, count)| count).sum::<f64>());
            functions.iter().for_each(|(function, count)| println!("        {count:5.0} {function}"));
        }
    }
}

/// Whether there are such a handler, such a job and such a number.
fn once(who: &str, name: &str, count: &str) -> bool {
    let who = ALL.into_iter().find(|one| one.name() == who);
    let job = JOBS.iter().find(|job| job.name == name);
    let (Some(who), Some(job), Ok(count)) = (who, job, count.parse()) else {
        return false;
    };
    let mut words = (job.ready)();
    let mut structs = Structs::of(&words);
    who.turns(job, &mut words, &mut structs, count);
    true
}

fn main() -> ExitCode {
    let words: Vec<String> = std::env::args().skip(1).collect();
    let words: Vec<&str> = words.iter().map(String::as_str).collect();
    match words[..] {
        [] => table("nanoseconds", nanoseconds),
        ["--instructions"] => table("instructions", instructions),
        ["--functions"] => functions(),
        ["--once", who, name, count] if once(who, name, count) => {}
        _ => {
            let names: Vec<&str> = JOBS.iter().map(|job| job.name).collect();
            eprintln!("benchmark [--instructions | --functions | --once library|words|structs JOB TURNS]");
            eprintln!("a JOB of {}", names.join(", "));
            return ExitCode::from(2);
        }
    }
    ExitCode::SUCCESS
}
