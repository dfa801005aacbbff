//! The program `sheet` on random texts, whole and damaged, and with random arguments, held to the model.
//!
//!     rustc --edition 2021 -O tests/sheets.rs -o target/sheets && target/sheets [texts] [seed]
//!
//! Exits with 1 at the first difference, or if something that the program can say was never met.

mod check;
mod model;
mod operations;

use check::inputs::plan_file;
use check::random::Random;
use check::same::told_text;
use check::texts::faults::FAULTS;
use check::texts::{damage, PlanText, SOUND};
use operations::{Model, Operations};
use std::collections::BTreeMap;
use std::ffi::OsStr;
use std::io::Write;
use std::os::unix::ffi::OsStrExt;
use std::process::{Command, ExitCode, Stdio};

const PROGRAM: &str = "target/bin/sheet";
const TEXTS: u64 = 600;
const USE: &str = "use: sheet N T <plan.csv >plan.lsp";
/// What the program can say on standard error; of an accepted plan it says nothing.
const SAID: [&str; 7] = ["", "refused 1", "refused 2", "refused 4", "refused 5", "refused 16", USE];

/// At the limits, and past them in a way that a few low bits don't show.
const NUMBERS: [&str; 13] = [
    "0",
    "00",
    "1",
    "16",
    "17",
    "257",
    "1024",
    "1025",
    "65537",
    "4294967297",
    "18446744073709551617",
    "340282366920938463463374607431768211457",
    "99999999999999999999999999999999999999999999",
];
const NO_NUMBERS: [&[u8]; 13] =
    [b"", b"x", b"-1", b"+3", b" 3", b"3 ", b"3\n", b"3,15", b"3.0", b"0x3", b"1e1", b"\xFF", "٣".as_bytes()];

/// Standard output and standard error.
type Answer = (Vec<u8>, String);

fn main() -> ExitCode {
    let mut numbers = std::env::args().skip(1).map_while(|argument| argument.parse::<u64>().ok());
    let texts = numbers.next().unwrap_or(TEXTS);
    let mut random = Random::new(numbers.next().unwrap_or(5));
    let mut met = BTreeMap::new();
    for _ in 0..texts {
        let (arguments, text) = random_call(&mut random);
        let (answered, expected) = (answer(&arguments, &text), expected(&arguments, &text));
        if answered != expected {
            let words: Vec<String> = arguments.iter().map(|word| word.escape_ascii().to_string()).collect();
            println!(
                "arguments {words:?}, text {}\nprogram: {answered:02X?}\nmodel: {expected:02X?}",
                told_text(&text)
            );
            return ExitCode::FAILURE;
        }
        *met.entry(expected.1.trim_end().to_string()).or_insert(0) += 1;
    }
    println!("tests/sheets.rs: {texts} texts answered as the model does, {met:?}");
    let missing: Vec<&str> = SAID.into_iter().filter(|&said| !met.contains_key(said)).collect();
    if !missing.is_empty() {
        println!("never met: {missing:?}");
        return ExitCode::FAILURE;
    }
    ExitCode::SUCCESS
}

/// Mostly the N and the T of the text.
fn random_call(random: &mut Random) -> (Vec<Vec<u8>>, Vec<u8>) {
    let (ports, frame, text) = random_text(random);
    let mut arguments = vec![ports.to_string().into_bytes(), frame.to_string().into_bytes()];
    let place = random.below(2);
    match random.below(16) {
        0 | 1 => arguments[place] = random.pick(&NUMBERS).into(),
        2 => arguments[place] = random.pick(&NO_NUMBERS).to_vec(),
        3 => arguments[place] = [b"0".repeat(random.pick(&[1, 20, 5000])), arguments[place].clone()].concat(),
        4 => arguments.truncate(place),
        5 => arguments.insert(place, b"3".to_vec()),
        _ => {}
    }
    (arguments, text)
}

/// The text of a plan, also of one that is refused, with one fault, damaged, or far too long.
fn random_text(random: &mut Random) -> (usize, u32, Vec<u8>) {
    let ports = random.within(1, 16);
    let mut made = PlanText::any(random, ports);
    if random.flip() {
        let (_, _, make) = random.pick(&SOUND);
        made = make(random);
    }
    let (_, least_ports, spoil) = random.pick(&FAULTS);
    if random.one_in(4) && made.ports >= least_ports {
        spoil(random, &mut made);
    }
    let mut text = made.bytes();
    match random.below(8) {
        0 | 1 => (0..random.within(1, 3)).for_each(|_| damage::anywhere(random, &mut text)),
        2 => text.resize(text.len() + random.within(1, 300_000), random.pick(b"0,\"\r\n\0")),
        _ => {}
    }
    (made.ports, made.frame, text)
}

fn expected(arguments: &[Vec<u8>], text: &[u8]) -> Answer {
    let numbers: Option<Vec<usize>> = arguments.iter().map(|argument| number(argument)).collect();
    let Some(&[ports, frame]) = numbers.as_deref() else { return (Vec::new(), format!("{USE}\n")) };
    let mut rates = vec![0; ports.min(17).pow(2)];
    match Model::read_text(ports, frame.try_into().unwrap_or(u32::MAX), text, &mut rates) {
        0 => (plan_file(ports as u8, frame as u16, &rates), String::new()),
        refusal => (Vec::new(), format!("refused {refusal}\n")),
    }
}

/// A number that is too large for its type is out of range, as the type's largest is.
fn number(argument: &[u8]) -> Option<usize> {
    let is_number = !argument.is_empty() && argument.iter().all(u8::is_ascii_digit);
    is_number.then(|| String::from_utf8_lossy(argument).parse().unwrap_or(usize::MAX))
}

fn answer(arguments: &[Vec<u8>], text: &[u8]) -> Answer {
    let mut program = Command::new(PROGRAM)
        .args(arguments.iter().map(|argument| OsStr::from_bytes(argument)))
        .stdin(Stdio::piped())
        .stdout(Stdio::piped())
        .stderr(Stdio::piped())
        .spawn()
        .expect("'bash build.sh sheet' builds the program");
    let mut input = program.stdin.take().expect("it is piped");
    let output = std::thread::scope(|scope| {
        // The write fails where the program ends before it has read a text that is too long.
        scope.spawn(move || input.write_all(text));
        program.wait_with_output().expect("it was started")
    });
    assert!(output.status.success(), "the program failed on {}", told_text(text));
    (output.stdout, String::from_utf8_lossy(&output.stderr).into_owned())
}
