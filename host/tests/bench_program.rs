//! The real bench program beside the model: for the same input bytes both print the same.

use cuongphemi_host::model::{self, BENCH_MEMORY_WORDS};
use cuongphemi_host::random;
use std::io::Write;
use std::path::PathBuf;
use std::process::{Command, Stdio};

const INPUTS: u32 = 2_000;

/// Registers of all kinds in the program's twelve lines, now and then with one byte replaced by any other.
fn input(source: &mut random::Random, turn: u32) -> Vec<u8> {
    let registers = match turn % 4 {
        0 => random::legal_registers_for(source, BENCH_MEMORY_WORDS),
        1 | 2 => random::nearly_legal_registers_for(source, BENCH_MEMORY_WORDS),
        _ => random::arbitrary_registers(source),
    };
    let mut lines = String::new();
    for word in registers.words() {
        lines += &format!("{word:08x}\n");
    }
    lines += &format!("{:08X}\n", registers.rx_buffers);
    let mut bytes = lines.into_bytes();
    if turn.is_multiple_of(37) {
        let at = (source.next() % bytes.len() as u64) as usize;
        bytes[at] = source.next() as u8;
    }
    bytes
}

fn printed(program: &PathBuf, bytes: &[u8]) -> Vec<u8> {
    let mut child = Command::new(program)
        .stdin(Stdio::piped())
        .stdout(Stdio::piped())
        .spawn()
        .expect("target/bin/bench_layout runs: ./bench builds it");
    child.stdin.take().unwrap().write_all(bytes).unwrap();
    child.wait_with_output().unwrap().stdout
}

#[test]
fn the_bench_program_prints_what_the_model_prints() {
    let program = PathBuf::from(env!("CARGO_MANIFEST_DIR")).join("../target/bin/bench_layout");
    let mut source = random::Random::new(7);
    for turn in 0..INPUTS {
        let bytes = input(&mut source, turn);
        let wanted = model::layout_printout(&bytes);
        assert_eq!(
            String::from_utf8_lossy(&printed(&program, &bytes)),
            wanted,
            "input {:?}",
            String::from_utf8_lossy(&bytes)
        );
    }
}
