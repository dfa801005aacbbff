//! The model and the comparison put to the test by themselves, without the proved library:
//! the cases of the scope on the model, the rules of texts kept and broken, the model by value against the
//! model in place, the model's meter against a count of every stretch, and the checks of choices, of services in a
//! stretch and of shares against the words of the scope.
//!
//!     rustc --edition 2021 -O --test tests/selftest.rs -o target/selftest && target/selftest

mod cases;
mod check;
mod model;
mod operations;

use check::choices::judge;
use check::covers::edges::EDGES;
use check::halves::{seeds, shared};
use check::random::Random;
use check::recorded;
use check::share::Share;
use check::tally::{Tally, Ties};
use check::texts::faults::FAULTS;
use check::texts::SOUND;
use check::{covers, inputs, runs, states};
use model::meter::{Stretch, IDLE_SLOT};
use model::printout::printout;
use model::smoothness::smoothness;
use model::Multiplexer;
use operations::{CoverReply, Model, Operations};
use std::collections::BTreeSet;

#[test]
fn cases_of_the_scope() {
    cases::all::<Model>();
}

#[test]
fn printout_of_the_scope() {
    assert_eq!(printout(&cases::C10_FILE), cases::C10_TEXT);
    assert_eq!(printout(&[]), "refused 15\n");
    assert_eq!(printout(b"LSP\x01\0\x01\x02\0\x01\0"), "slot in0 out0\n0 0 0\n1 - -\n");
}

/// A plan of two flows, from board 0: 1 of 3 slots to head 0, and 2 of them to head 1. Then one of T = 1.
#[test]
fn smoothness_by_hand() {
    let header = "out in rate slots least promised most promised\n";
    assert_eq!(
        smoothness(b"LSP\x01\0\x02\x03\0\x01\0\x02\0\0\0\0\0"),
        format!("{header}0 0 1 1 0 0 1 1\n0 0 1 3 1 0 1 2\n1 0 2 1 0 0 1 1\n1 0 2 3 2 1 2 3\n")
    );
    assert_eq!(smoothness(b"LSP\x01\0\x01\x01\0\x01\0"), format!("{header}0 0 1 1 1 1 1 1\n"));
    assert_eq!(smoothness(b"LSP\x01\0\x01\x01\0\0\0"), header);
    assert_eq!(smoothness(&[]), "refused 15\n");
}

/// The verdict on a text of two ports and ten slots, and the list that was lent with nines.
fn read_text(text: &str) -> (u32, [u16; 4]) {
    let mut rates = [9; 4];
    (Model::read_text(2, 10, text.as_bytes(), &mut rates), rates)
}

#[test]
fn texts_that_keep_the_rules() {
    for text in [
        "1,2\r\n3,4\r\n",
        "1,2\r\n3,4",
        "\"1\",2\r\n3,\"4\"\r\n",
        "\"1\",\"2\"\r\n\"3\",\"4\"",
        "00001,02\r\n\"003\",\"00004\"\r\n",
    ] {
        assert_eq!(read_text(text), (0, [1, 2, 3, 4]), "{text:?}");
    }
    for (text, number) in [("65535,0\r\n0,0", 4), ("1,2\r\n3,8", 4), ("1,2\r\n\"00010\",0", 5), ("0,5\r\n0,6", 5)] {
        assert_eq!(read_text(text), (number, [9; 4]), "{text:?}");
    }
}

#[test]
fn texts_that_break_a_rule() {
    let faults: [(&str, &[&str]); 15] = [
        ("byte", &["1,2\r\n 3,4", "1,2\r\n3,4 ", "1,2\r\n3;4", "1,2\r\n3,4\0", "1,2\r\n3,'4'", "1,2\r\n3,٤"]),
        ("BOM", &["\u{FEFF}1,2\r\n3,4"]),
        ("sign", &["1,2\r\n+3,4", "1,2\r\n-3,4", "1,2\r\n3,\"+4\""]),
        ("letter", &["1,2\r\n3,x", "1,2\r\n3,4e0"]),
        ("line end", &["1,2\n3,4", "1,2\r3,4", "1,2\n\r3,4", "1,2\r\r\n3,4", "1,2\r\n3,4\n", "1,2\r\n3,4\r"]),
        ("quote inside", &["1,2\r\n3,1\"0", "1,2\r\n3,\"1\"0\"", "1,2\r\n3,\"1\"\"0\"", "1,2\r\n3,\"\"4\"\""]),
        ("one quote", &["\"1,2\r\n3,4", "1,2\r\n3,4\"", "1,2\r\n3,\"4", "1,2\r\n3,\""]),
        ("separator in quotes", &["\"1,2\"\r\n3,4", "1,\"2\r\n3\",4"]),
        ("empty field", &["1,\r\n3,4", ",2\r\n3,4", "1,2\r\n3,", "1,2\r\n3,\"\"", ",\r\n,"]),
        ("digits", &["000001,2\r\n3,4", "1,2\r\n3,\"000004\"", "1,2\r\n3,4294967296"]),
        ("value", &["65536,2\r\n3,4", "1,2\r\n3,\"65540\"", "1,2\r\n3,99999"]),
        ("empty line", &["\r\n1,2\r\n3,4", "1,2\r\n\r\n3,4", "1,2\r\n3,4\r\n\r\n", "\r\n\r\n", "\r\n"]),
        ("comma", &["1,2,\r\n3,4", "1,2\r\n3,4,", "1,2\r\n3,4,\r\n", ",1,2\r\n3,4", "1,,2\r\n3,4", "1,2,3,4"]),
        ("records", &["1,2", "1,2\r\n", "1,2\r\n3,4\r\n0,0", "1,2\r\n3,4\r\n0,0\r\n", ""]),
        ("fields", &["1,2\r\n3", "1\r\n3,4", "1,2,0\r\n3,4", "1,2\r\n3,4,0", "1\r\n2,3,4", "1,2\r\n3,4\r\n0"]),
    ];
    for (fault, texts) in faults {
        for text in texts {
            assert_eq!(read_text(text), (16, [9; 4]), "{fault}: {text:?}");
        }
    }
}

#[test]
fn what_was_never_reached_is_named() {
    let missing: BTreeSet<String> = Tally::default().report(0).into_iter().collect();
    assert!(missing.contains("16 text breaks a rule"));
    assert!(FAULTS.iter().all(|(fault, _, _)| missing.contains(*fault)));
    assert!(EDGES.iter().all(|(edge, _)| missing.contains(*edge)));
    assert_eq!(
        EDGES.iter().map(|edge| edge.0).collect::<BTreeSet<&str>>().len(),
        EDGES.len(),
        "one name for two edges"
    );
    let names: BTreeSet<&str> = FAULTS.iter().map(|fault| fault.0).chain(SOUND.iter().map(|sound| sound.0)).collect();
    assert_eq!(names.len(), FAULTS.len() + SOUND.len(), "one name for two kinds of text");
}

/// The halves have seeds of their own, wherever they begin, and a seed that both have is found.
#[test]
fn halves_share_no_run() {
    for first in [0, 5, u64::MAX - 7] {
        let [one, other] = [0, 1].map(|half| seeds(first, half).take(1_000).collect::<Vec<u64>>());
        assert_eq!(shared(&one, &other), Vec::<u64>::new());
        let both: BTreeSet<u64> = one.iter().chain(&other).copied().collect();
        assert_eq!(both, (0..2_000).map(|turn| first.wrapping_add(turn)).collect());
        assert_eq!(shared(&one, &seeds(first + 6, 0).take(2).collect::<Vec<u64>>()).len(), 2);
    }
}

#[test]
fn counts_are_added_up() {
    let [mut sum, mut one, mut other] = [0; 3].map(|_| Tally::default());
    for tally in [&mut one, &mut sum] {
        runs::random_run::<Model>(1, tally).map_err(|failure| failure.to_string()).unwrap();
        inputs::compare::<Model>(1, &mut Random::new(1), tally).unwrap();
    }
    for tally in [&mut other, &mut sum] {
        covers::compare::<Model>(1, &mut Random::new(1), tally).unwrap();
        states::compare::<Model>(1, &mut Random::new(1), tally).unwrap();
    }
    one.add(&other);
    assert_eq!(one, sum);
}

#[test]
fn by_value_and_in_place_agree() {
    let mut tally = Tally::default();
    for seed in 0..40 {
        if let Err(failure) = runs::random_run::<Model>(seed, &mut tally) {
            panic!("{failure}");
        }
    }
    let mut random = Random::new(1);
    inputs::compare::<Model>(100, &mut random, &mut tally).unwrap();
    covers::compare::<Model>(100, &mut random, &mut tally).unwrap();
    states::compare::<Model>(50, &mut random, &mut tally).unwrap();
    assert_eq!(tally.report(tally.slots), Vec::<String>::new());
}

/// T = 4, rates 1 1 2: of the choices in slots 0 to 2 one each is right, and each wrong one is wrong for its own reason.
#[test]
fn wrong_choices_are_found() {
    let mut ties = Ties::default();
    let mut judged = |slot: u32, served: [u16; 3], chosen: Option<usize>| {
        let mut multiplexer = Multiplexer::ZERO;
        multiplexer.served[..3].copy_from_slice(&served);
        judge(chosen, &[1, 1, 2], &multiplexer, 4, slot, &mut ties)
    };
    let mut wrong = |slot: u32, served: [u16; 3], chosen: Option<usize>, what: &str| {
        let said = judged(slot, served, chosen).expect_err(what);
        assert!(said.contains(what), "{said:?} has no {what:?}");
    };
    wrong(0, [0, 0, 0], Some(0), "a smaller deadline");
    wrong(0, [0, 0, 0], None, "idles");
    wrong(1, [0, 0, 1], Some(1), "the same deadline and rate and a lower number");
    wrong(1, [0, 0, 1], Some(2), "not eligible");
    wrong(2, [1, 0, 1], Some(1), "the same deadline and a larger rate");
    wrong(2, [1, 0, 1], Some(3), "not eligible");
    for (slot, served, chosen) in [(0, [0, 0, 0], 2), (1, [0, 0, 1], 0), (2, [1, 0, 1], 2), (3, [1, 0, 2], 1)] {
        assert_eq!(judged(slot, served, Some(chosen)), Ok(()));
    }
}

/// Every record of up to six slots in which three numbers stand, for each of them and for one that doesn't.
#[test]
fn every_stretch_is_counted() {
    const NUMBERS: [u16; 3] = [0, 1, IDLE_SLOT];
    for slots in 0..=6 {
        for which in 0..3_usize.pow(slots) {
            let record: Vec<u16> = (0..slots).map(|slot| NUMBERS[which / 3_usize.pow(slot) % 3]).collect();
            for flow in [0, 1, IDLE_SLOT, 2] {
                for length in 0..=record.len() + 1 {
                    let found = Model::cover(&record, flow, length);
                    assert_eq!(found, counted(&record, flow, length), "record {record:?} flow {flow} l {length}");
                }
            }
        }
    }
}

/// One stretch after the other, slot by slot.
fn counted(record: &[u16], flow: u16, length: usize) -> CoverReply {
    let none = Stretch { services: 0, place: 0 };
    if length > record.len() {
        return CoverReply { verdict: 17, least: none, most: none };
    }
    let mut found = CoverReply { verdict: 0, least: Stretch { services: usize::MAX, place: 0 }, most: none };
    for place in 0..=record.len() - length {
        let mut services = 0;
        for slot in place..place + length {
            if record[slot] == flow {
                services += 1;
            }
        }
        if services < found.least.services {
            found.least = Stretch { services, place };
        }
        if services > found.most.services {
            found.most = Stretch { services, place };
        }
    }
    found
}

/// Rate 3 of 9: in 9 slots 2 to 4 services are promised, in 6 slots 1 to 3, and in 1 slot 0 or 1.
#[test]
fn services_that_break_the_promise_are_found() {
    let judged = |length: usize, least: usize, most: usize| {
        let stretch = |services| Stretch { services, place: 0 };
        let reply = CoverReply { verdict: 0, least: stretch(least), most: stretch(most) };
        recorded::judge(&reply, 3, 9, length, &mut Tally::default())
    };
    for (length, least, most) in [(9, 2, 4), (6, 1, 3), (1, 0, 1)] {
        assert_eq!(judged(length, least, most), Ok(()));
        assert!(judged(length, least, most + 1).expect_err("one service more").ends_with("at most"));
        if least > 0 {
            assert!(judged(length, least - 1, most).expect_err("one service less").ends_with("at least"));
        }
    }
}

/// One slot of one flow.
#[derive(Clone, Copy)]
struct Slot {
    rate: u64,
    board_empty: bool,
    head_sent: bool,
}

#[test]
fn shares_are_those_of_the_scope() {
    let mut random = Random::new(2);
    let mut outcomes = [0; 2];
    for _ in 0..20_000 {
        let frame = random.within(1, 12) as u64;
        let slots = random_slots(&mut random, frame);
        let holds = shares_hold(frame, &slots);
        assert_eq!(tracked_shares_hold(frame, &slots), holds);
        outcomes[usize::from(holds)] += 1;
    }
    assert!(outcomes.iter().all(|&count| count > 2_000), "{outcomes:?}");
}

fn random_slots(random: &mut Random, frame: u64) -> Vec<Slot> {
    let mut rate = random.below(frame as usize + 1) as u64;
    let haste = random.pick(&[0, 1, 1, 2]);
    let empty_odds = random.pick(&[5, 30, 1000]);
    let length = random.below(60);
    let slot = |_| {
        if random.one_in(25) {
            rate = random.below(frame as usize + 1) as u64;
        }
        Slot {
            rate,
            board_empty: random.one_in(empty_odds),
            head_sent: (random.below(2 * frame as usize) as u64) < (1 + haste) * rate,
        }
    };
    (0..length).map(slot).collect()
}

/// Both bounds over each stretch; the lower one as it is proved, which is more than the scope asks.
fn shares_hold(frame: u64, slots: &[Slot]) -> bool {
    for first in 0..slots.len() {
        for end in first + 1..=slots.len() {
            let stretch = &slots[first..end];
            let rate = stretch[0].rate;
            if stretch.iter().any(|slot| slot.rate != rate) {
                continue;
            }
            let sent = stretch.iter().filter(|slot| slot.head_sent).count() as u64;
            let services = stretch.len() as u64 * rate;
            let fed = stretch.iter().all(|slot| !slot.board_empty);
            if sent > services.div_ceil(frame) + 1 || fed && sent + 2 < services / frame {
                return false;
            }
        }
    }
    true
}

fn tracked_shares_hold(frame: u64, slots: &[Slot]) -> bool {
    let mut share = Share::new(frame as u32, slots.first().map_or(0, |slot| slot.rate as u16));
    let mut track = || {
        for (time, slot) in slots.iter().enumerate() {
            share.set_rate(time as u64, slot.rate as u16)?;
            if slot.board_empty || slot.head_sent {
                share.slot(time as u64, slot.board_empty, slot.head_sent)?;
            }
        }
        share.end(slots.len() as u64)
    };
    track().is_ok()
}
