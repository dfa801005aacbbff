//! The programs `frame` and `smoothness` on random plan files, whole and damaged, held to the model's printouts.
//!
//!     rustc --edition 2021 -O tests/plan_files.rs -o target/plan_files && target/plan_files [files] [seed]
//!
//! Exits with 1 at the first difference, or if a number that a file can get, or a number of lengths that `smoothness`
//! measures, was never met.

mod check;
mod model;
mod operations;

use check::inputs::plan_file;
use check::plans;
use check::random::Random;
use model::plan::LONGEST_FRAME;
use model::printout::printout;
use model::smoothness::smoothness;
use std::collections::BTreeMap;
use std::io::Write;
use std::process::{Command, ExitCode, Stdio};

type Printout = fn(&[u8]) -> String;

/// Each program, and the model of what it prints.
const PROGRAMS: [(&str, Printout); 2] = [("target/bin/frame", printout), ("target/bin/smoothness", smoothness)];
const FILES: u64 = 400;
/// What can be met in a printout: how many lengths a flow has in one of `smoothness`, else the first line.
const MET: [&str; 12] = [
    "slot",
    "no flow",
    "1 length",
    "2 lengths",
    "3 lengths",
    "4 lengths",
    "refused 1",
    "refused 2",
    "refused 4",
    "refused 5",
    "refused 14",
    "refused 15",
];

fn main() -> ExitCode {
    let mut numbers = std::env::args().skip(1).map_while(|argument| argument.parse::<u64>().ok());
    let files = numbers.next().unwrap_or(FILES);
    let mut random = Random::new(numbers.next().unwrap_or(5));
    let mut met = BTreeMap::new();
    for _ in 0..files {
        let file = random_file(&mut random);
        for (program, model) in PROGRAMS {
            let (printed, expected) = (printed_for(program, &file), model(&file));
            if printed != expected {
                println!("plan file {file:02X?}\n{program}:\n{printed}\nmodel:\n{expected}");
                return ExitCode::FAILURE;
            }
            *met.entry(met_in(&expected)).or_insert(0) += 1;
        }
    }
    println!("tests/plan_files.rs: {files} files printed by each program as the model does, {met:?}");
    let missing: Vec<&str> = MET.into_iter().filter(|name| !met.contains_key(name)).collect();
    if !missing.is_empty() {
        println!("never met: {missing:?}");
        return ExitCode::FAILURE;
    }
    ExitCode::SUCCESS
}

/// The lines of a flow begin with the same two numbers.
fn met_in(text: &str) -> &'static str {
    let mut lines = text.lines();
    let first = lines.next().unwrap_or("");
    let flows: Vec<Vec<&str>> = lines.map(|line| line.split(' ').take(2).collect()).collect();
    let lengths = flows.iter().filter(|flow| **flow == flows[0]).count();
    let name = match first.split(' ').next() {
        Some("slot") => "slot".to_string(),
        Some("out") if lengths == 0 => "no flow".to_string(),
        Some("out") if lengths == 1 => "1 length".to_string(),
        Some("out") => format!("{lengths} lengths"),
        _ => first.to_string(),
    };
    MET.into_iter().find(|met| *met == name).expect("the model prints a header or a refusal")
}

/// The file of an accepted plan, or one with too full a line, or with a damaged byte, or of another length.
fn random_file(random: &mut Random) -> Vec<u8> {
    let ports = random.within(1, 16);
    let frame = match random.below(16) {
        0 => LONGEST_FRAME as usize,
        1 | 2 => random.within(1, 8), // in a short frame `smoothness` measures fewer lengths
        _ => random.within(1, 100),
    };
    let mut rates = plans::accepted(random, ports, frame as u32);
    match random.below(16) {
        0 => rates = vec![frame as u16; ports * ports],
        // Each row is full, all of them for the same head.
        1 => rates = (0..ports * ports).map(|flow| if flow % ports == 0 { frame as u16 } else { 0 }).collect(),
        _ => {}
    }
    let mut file = plan_file(ports as u8, frame as u16, &rates);
    match random.below(14) {
        0 => file.truncate(random.below(file.len())),
        1 => file.resize(file.len() + random.within(1, 5000), 0),
        2 => file[5] = random.pick(&[0, 17, 255]),
        3 => file[6..8].copy_from_slice(&random.pick(&[[0, 0], [1, 16], [255, 255]])),
        4 => file[random.below(5)] ^= 1 << random.below(8),
        5 => {
            let place = random.below(file.len());
            file[place] = random.next() as u8;
        }
        _ => {}
    }
    file
}

fn printed_for(program: &str, file: &[u8]) -> String {
    let mut running = Command::new(program)
        .stdin(Stdio::piped())
        .stdout(Stdio::piped())
        .spawn()
        .expect("'bash build.sh frame smoothness' builds the programs");
    // The program may stop reading before the end of a file that is too long.
    let _ = running.stdin.take().expect("it is piped").write_all(file);
    let output = running.wait_with_output().expect("it was started");
    assert!(output.status.success(), "{program} failed on {file:02X?}");
    String::from_utf8(output.stdout).expect("the printout is ASCII")
}
