//! Texts that break one rule.

use super::{PlanText, Record, Writing};
use crate::check::random::Random;

/// Spoils a text that would be accepted.
pub type Spoil = fn(&mut Random, &mut PlanText);

/// The name of a fault, the least N of a text that can have it, and how it is made. Each gets number 16.
pub const FAULTS: [(&str, usize, Spoil); 35] = [
    ("empty text", 1, |_, text| text.records.clear()),
    ("fewer records", 2, fewer_records),
    ("more records", 1, more_records),
    ("fewer fields", 2, fewer_fields),
    ("more fields", 1, more_fields),
    ("a field in another record", 2, field_in_another_record),
    ("trailing comma", 1, |random, text| any_record(random, text).fields.push(String::new())),
    ("leading comma", 1, |random, text| any_record(random, text).fields.insert(0, String::new())),
    ("two commas", 2, |random, text| join(random, text, ",,")),
    ("semicolon in the place of a comma", 2, |random, text| join(random, text, ";")),
    ("CR LF in the place of a comma", 2, |random, text| join(random, text, "\r\n")),
    ("comma in the place of CR LF", 2, |_, text| text.records[0].end = ","),
    ("empty line", 1, |random, text| insert_record(random, text, Vec::new())),
    ("LF alone", 1, |random, text| any_record(random, text).end = "\n"),
    ("CR alone", 1, |random, text| any_record(random, text).end = "\r"),
    ("LF CR", 1, |random, text| any_record(random, text).end = "\n\r"),
    ("CR CR LF", 1, |random, text| any_record(random, text).end = "\r\r\n"),
    ("byte after the last CR LF", 1, byte_after_the_end),
    ("BOM", 1, |_, text| text.records[0].fields[0].insert(0, '\u{FEFF}')),
    ("space", 1, |random, text| insert(random, text, &[' '])),
    ("sign", 1, sign),
    ("letter", 1, |random, text| insert(random, text, &['A', 'F', 'O', 'e', 'l', 'x'])),
    ("another byte", 1, |random, text| insert(random, text, &['\0', '\t', '.', '/', ':', ';', '\'', '\u{7F}', '²'])),
    ("quote inside a plain field", 1, |random, text| quote_inside(random, text, "", "\"")),
    ("quote inside a quoted field", 1, |random, text| quote_inside(random, text, "\"", "\"")),
    ("two quotes inside a quoted field", 1, |random, text| quote_inside(random, text, "\"", "\"\"")),
    ("unclosed quote", 1, |random, text| rewrite(random, text, |digits| format!("\"{digits}"))),
    ("unopened quote", 1, |random, text| rewrite(random, text, |digits| format!("{digits}\""))),
    ("comma or CR LF in quotes", 1, separator_in_quotes),
    ("empty plain field", 1, |random, text| rewrite(random, text, |_| String::new())),
    ("empty quoted field", 1, |random, text| rewrite(random, text, |_| "\"\"".to_string())),
    ("six digits", 1, |random, text| revalue(random, text, |value| format!("{value:06}"))),
    ("more than six digits", 1, many_digits),
    ("value above 65,535", 1, |random, text| revalue(random, text, |value| (65_536 + value).to_string())),
    ("one byte more than the longest text", 16, byte_more),
];

fn any_record<'a>(random: &mut Random, text: &'a mut PlanText) -> &'a mut Record {
    let place = random.below(text.records.len());
    &mut text.records[place]
}

fn any_field<'a>(random: &mut Random, text: &'a mut PlanText) -> &'a mut String {
    let fields = &mut any_record(random, text).fields;
    let place = random.below(fields.len());
    &mut fields[place]
}

/// Writes a field in another way, made of its digits.
fn rewrite(random: &mut Random, text: &mut PlanText, other: impl FnOnce(&str) -> String) {
    let field = any_field(random, text);
    *field = other(field.trim_matches('"'));
}

/// Writes other digits in a field, made of its value.
fn revalue(random: &mut Random, text: &mut PlanText, other: impl FnOnce(u128) -> String) {
    let quote = random.pick(&["", "\""]);
    rewrite(random, text, |digits| format!("{quote}{}{quote}", other(digits.parse().expect("digits"))));
}

/// Writes one of the characters into a field, at any place.
fn insert(random: &mut Random, text: &mut PlanText, characters: &[char]) {
    let character = random.pick(characters);
    let field = any_field(random, text);
    field.insert(random.within(0, field.len()), character);
}

/// Writes something else in the place of a comma.
fn join(random: &mut Random, text: &mut PlanText, between: &str) {
    let place = random.below(text.ports - 1);
    let fields = &mut any_record(random, text).fields;
    let second = fields.remove(place + 1);
    fields[place] += &(between.to_string() + &second);
}

fn fewer_records(random: &mut Random, text: &mut PlanText) {
    text.records.remove(random.below(text.ports));
}

fn more_records(random: &mut Random, text: &mut PlanText) {
    let fields = any_record(random, text).fields.clone();
    insert_record(random, text, fields);
}

/// Before, between or behind the others.
fn insert_record(random: &mut Random, text: &mut PlanText, fields: Vec<String>) {
    text.last().end = "\r\n";
    text.records.insert(random.within(0, text.ports), Record { fields, end: "\r\n" });
}

fn fewer_fields(random: &mut Random, text: &mut PlanText) {
    let place = random.below(text.ports);
    any_record(random, text).fields.remove(place);
}

fn more_fields(random: &mut Random, text: &mut PlanText) {
    let place = random.within(0, text.ports);
    any_record(random, text).fields.insert(place, "0".to_string());
}

/// There are N × N fields, but not N in each record.
fn field_in_another_record(random: &mut Random, text: &mut PlanText) {
    let from = random.below(text.ports);
    let to = (from + random.within(1, text.ports - 1)) % text.ports;
    let field = text.records[from].fields.pop().expect("a record has a field");
    text.records[to].fields.push(field);
}

fn byte_after_the_end(random: &mut Random, text: &mut PlanText) {
    text.last().end = random.pick(&["\r\n ", "\r\n0", "\r\n,", "\r\n\"", "\r\n\r", "\r\n\n", "\r\n\0", "\r\n\x1A"]);
}

/// Before the digits, also within quotes.
fn sign(random: &mut Random, text: &mut PlanText) {
    let sign = random.pick(&['+', '-']);
    let field = any_field(random, text);
    field.insert(usize::from(field.starts_with('"')), sign);
}

fn quote_inside(random: &mut Random, text: &mut PlanText, around: &str, inside: &str) {
    let place = random.within(1, 4);
    rewrite(random, text, |digits| {
        let five = format!("{digits:0>5}");
        let (first, second) = five.split_at(place);
        format!("{around}{first}{inside}{second}{around}")
    });
}

fn separator_in_quotes(random: &mut Random, text: &mut PlanText) {
    let separator = random.pick(&[",", "\r\n"]);
    rewrite(random, text, |digits| format!("\"{digits}{separator}{digits}\""));
}

/// As many digits, and values, as a count of 8, 16, 32 or 64 bits would take for few.
fn many_digits(random: &mut Random, text: &mut PlanText) {
    let zeros = random.pick(&[6, 256, 65_536]);
    let more = random.pick(&[0, 1 << 32, 1 << 64]);
    revalue(random, text, |value| "0".repeat(zeros) + &(value + more).to_string());
}

fn byte_more(random: &mut Random, text: &mut PlanText) {
    *text = PlanText::new(random, Writing::QuotedFive, text.ports, text.frame, &text.rates);
    insert(random, text, &['0', '"', ',', '\r', '\n', ' ']);
}
