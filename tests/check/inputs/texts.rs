//! Texts made for a verdict, damaged in each place, and too long.

use super::Inputs;
use crate::check::same::same;
use crate::check::texts::damage::{self, TELLING};
use crate::check::texts::faults::FAULTS;
use crate::check::texts::{PlanText, Writing, SOUND, WRITINGS};
use crate::model::plan::MOST_PORTS;
use crate::operations::Operations;

/// How often each fault is made for each N.
const ROUNDS: usize = 5;

impl<S: Operations> Inputs<'_, S> {
    /// Each fault by itself, in a text that is accepted without it; and texts without a fault.
    pub fn named_texts(&mut self) -> Result<(), String> {
        for round in 0..ROUNDS * MOST_PORTS {
            for (name, least_ports, spoil) in FAULTS {
                let mut text = PlanText::any(self.random, least_ports.max(1 + round % MOST_PORTS));
                self.made_text(&text, 0)?;
                spoil(self.random, &mut text);
                self.made_text(&text, 16).map_err(|what| format!("{name}: {what}"))?;
                self.tally.named_text(name);
            }
            for (name, verdict, make) in SOUND {
                let text = make(self.random);
                self.made_text(&text, verdict).map_err(|what| format!("{name}: {what}"))?;
                self.tally.named_text(name);
            }
        }
        Ok(())
    }

    /// With every byte where that is quick. Now and then the lent list is too long.
    pub fn damaged_texts(&mut self) -> Result<(), String> {
        let every_byte: Vec<u8> = (0..=255).collect();
        for (ports, bytes, writings) in [
            (1, &every_byte[..], &WRITINGS[..]),
            (2, &every_byte[..], &WRITINGS[..]),
            (3, TELLING, &WRITINGS[..]),
            (16, b"0,\"\r\n", &[Writing::Mixed]),
        ] {
            for &writing in writings {
                let text = PlanText::accepted(self.random, writing, ports);
                damage::each(&text.bytes(), bytes, |damaged| {
                    let out_length = ports * ports + usize::from(self.random.one_in(50));
                    self.read_text(ports, text.frame, damaged, out_length).map(|_| ())
                })?;
            }
        }
        Ok(())
    }

    /// For each N the longest text that is accepted, and the same with one byte more in each place.
    pub fn longest_texts(&mut self) -> Result<(), String> {
        for ports in 1..=MOST_PORTS {
            let longest = PlanText::accepted(self.random, Writing::QuotedFive, ports);
            self.made_text(&longest, 0)?;
            let text = longest.bytes();
            same("bytes of the longest text", &text.len(), &(8 * ports * ports + ports))?;
            for place in 0..=text.len() {
                let mut longer = text.clone();
                longer.insert(place, self.random.pick(TELLING));
                self.too_long_text(ports, longest.frame, &longer)?;
            }
        }
        Ok(())
    }

    /// Texts far longer than that, and counts of records and fields that 8 or 16 bits don't hold.
    pub fn long_texts(&mut self) -> Result<(), String> {
        for (ports, length) in [(1, 65_536), (3, 2_065), (16, 2_065), (16, 1 << 20)] {
            let text = PlanText::any(self.random, ports);
            let whole = text.bytes();
            for piece in [&whole[..], b"0", b",", b"\"", b"\r\n", b"0,", b"0\r\n", b"\0"] {
                let pieces: Vec<u8> = piece.iter().copied().cycle().take(length).collect();
                self.too_long_text(ports, text.frame, &pieces)?;
                self.too_long_text(ports, text.frame, &[&whole[..], &pieces].concat())?;
            }
        }
        for ports in [1, 2, 3] {
            for more in [256, 65_536] {
                let record = vec!["0"; ports].join(",") + "\r\n";
                let long_record = vec!["0"; ports + more].join(",") + "\r\n";
                self.too_long_text(ports, 1, record.repeat(ports + more).as_bytes())?;
                self.too_long_text(ports, 1, (long_record + &record.repeat(ports - 1)).as_bytes())?;
            }
        }
        Ok(())
    }

    fn too_long_text(&mut self, ports: usize, frame: u32, text: &[u8]) -> Result<(), String> {
        let (verdict, _) = self.read_text(ports, frame, text, ports * ports)?;
        same("verdict on a text that is too long", &verdict, &16)
    }
}
