#!/usr/bin/env bash
# The comparison put to the test: it has to catch each of these wrong versions of the switch. Each is the
# model with one edit, built as the stand-in for the proved library; the near misses of the scope come first.
# The unedited stand-in has to pass. With -v all that the comparison printed is shown. It takes eight to nine minutes,
# and no gate runs it.
set -euo pipefail
cd "$(dirname "$0")/.."
build=target/mutants
failed=0
found=0
verbose=${1:-}

# try NAME FILE SED-EDIT [SLOTS]
try() {
    rm -rf "$build" && mkdir -p "$build/lib" && cp -r tests "$build/tests"
    sed -i "$3" "$build/tests/model/$2"
    if [ "$1" != unedited ] && cmp -s "tests/model/$2" "$build/tests/model/$2"; then
        echo "$1: the edit changes nothing"; failed=1; return
    fi
    rustc --edition 2021 -O --crate-type staticlib "$build/tests/standin.rs" -o "$build/lib/libgambyre.a"
    rustc --edition 2021 -O tests/compare.rs -L "$build/lib" -o "$build/compare"
    status=0
    "$build/compare" "${4:-100000}" 1 > "$build/out" 2>&1 || status=$?
    if [ "$1" = unedited ]; then want=0; else want=1; fi
    if [ $((status != 0)) = $want ]; then echo "ok, $1:"; found=$((found + want)); else echo "WRONG, $1:"; failed=1; fi
    if [ "$verbose" = -v ]; then sed 's/^/    /' "$build/out"; else echo "    $(tail -n 1 "$build/out")"; fi
}

try unedited multiplexer.rs ''
try "a tie goes to the smaller rate" multiplexer.rs 's/Reverse(rate)/Reverse(u64::MAX - rate)/'
try "a tie goes to the lowest number, whatever the rates" multiplexer.rs 's/Reverse(rate)/Reverse(0)/'
try "a tie of equal rates goes to the highest number" multiplexer.rs 's/place < first/(place.0, place.1) <= (first.0, first.1)/'
try "the larger rate before the smaller deadline" multiplexer.rs 's/place < first/(place.1, place.0, place.2) < (first.1, first.0, first.2)/'
try "deadlines compared before rounding up" multiplexer.rs 's/((served + 1) \* frame).div_ceil(rate)/((served + 1) * frame << 24) \/ rate/'
try "one deadline of 64 slots is a slot late" multiplexer.rs 's/div_ceil(rate);/&\n            let deadline = if (frame, rate, served) == (64, 37, 20) { deadline + 1 } else { deadline };/'
try "deadlines of 64 slots by the count" multiplexer.rs 's/div_ceil(rate);/&\n            let deadline = if frame == 64 \&\& rate <= 64 \&\& served > 0 { (served * frame).div_ceil(rate) } else { deadline };/'
try "one deadline of 64 slots is a slot late in a step, and not in a choice" switch.rs 's/\.choose(\(.*\), plan\.frame, self\.slot)/.misread(\1, plan.frame, self.slot)/
    $ a impl Multiplexer {\
        fn misread(&self, rates: &[u16], frame: u32, slot: u32) -> Option<usize> {\
            let due = |flow: usize| (u32::from(self.served[flow]) + 1) * frame;\
            let may = |flow: usize| rates[flow] > 0 \&\& due(flow) - frame <= slot * u32::from(rates[flow]);\
            let late = |flow: usize| u32::from((frame, rates[flow], self.served[flow]) == (64, 37, 20));\
            let rank = |flow: usize| (due(flow).div_ceil(u32::from(rates[flow])) + late(flow), std::cmp::Reverse(rates[flow]));\
            (0..rates.len()).filter(|\&flow| may(flow)).min_by_key(|\&flow| rank(flow))\
        }\
    }' 1000000
try "rate 65 read from the table" multiplexer.rs 's/div_ceil(rate);/&\n            let deadline = if frame == 64 \&\& rate == 65 { ((served + 1) * frame).div_ceil(64) } else { deadline };/'
try "the table read at T = 65" multiplexer.rs 's/div_ceil(rate);/&\n            let deadline = if frame == 65 \&\& rate <= 64 { ((served + 1) * 64).div_ceil(rate) } else { deadline };/'
try "sending before moving" switch.rs 's/self.move_cells(&choices, store, &mut answer);/SWAP/; s/self.send_cells(&choices, &mut answer);/self.move_cells(\&choices, store, \&mut answer);/; s/SWAP/self.send_cells(\&choices, \&mut answer);/'
try "takeover in mid-frame" switch.rs 's/self.plan_waits() && self.slot == 0/self.plan_waits()/'
try "a load is refused while a plan waits" switch.rs 's/^        self.waiting.set(ports, frame, rates);/        refuse_if(self.plan_waits(), Refusal::OtherPortsOrFrame)?;\n&/'
try "the first of two plans is kept" switch.rs 's/^        self.waiting.set(ports, frame, rates);/        if !self.plan_waits() { self.waiting.set(ports, frame, rates); }/'
try "two plans are mixed" switch.rs 's/^        self.waiting.set(ports, frame, rates);/        let last = self.waiting.rates[ports * ports - 1]; &\n        if self.plan_waits() { self.waiting.rates[ports * ports - 1] = last; }/'
try "the plan that is replaced takes over" switch.rs 's/^        self.waiting.set(ports, frame, rates);/        if self.plan_waits() { self.take_over(); }\n&/'
try "a replaced plan is cleared for all ports" switch.rs 's/^        self.waiting.set(ports, frame, rates);/        if self.plan_waits() { self.waiting = Plan::ZERO; }\n&/'
try "boost from the sums taken before" regulator.rs 's/row_sum(ports, rates, input).max(column_sum(ports, rates, output))/row_sum(ports, given, input).max(column_sum(ports, given, output))/'
try "every period begins on diagonal 0" regulator.rs 's/period as usize % ports/period as usize % 1/'
try "the period added twice" regulator.rs 's/period as usize % ports/(2 * period as usize) % ports/'
try "a diagonal left out" regulator.rs 's/(first..ports).chain(0..first)/(first + 1..ports).chain(0..first)/'
try "a sum of 32 bits that wraps" regulator.rs 's/(first..ports).chain(0..first)/(0..ports as u32).map(|place| (period.wrapping_add(place) % ports as u32) as usize)/; s/let first = .*//'
try "diagonals from the period down" regulator.rs 's/(first..ports).chain(0..first)/(0..ports).map(|place| (first + ports - place) % ports)/'
try "a board passes over a flow with an empty queue" switch.rs 's/choose(plan.row(port), /choose(\&std::array::from_fn::<u16, MOST_PORTS, _>(|j| if j < plan.ports \&\& self.queues[port * plan.ports + j].count > 0 { plan.rate(port, j) } else { 0 }), /'
try "queue full one cell early" switch.rs 's/usize::from(queue.count) == self.depth/usize::from(queue.count) + 1 >= self.depth/'
try "a waiting plan is judged though none waits" switch.rs 's/(!self.plan_waits()$/(false/'
try "only byte 1 says that a plan waits" switch.rs 's/self.waits != 0/self.waits == 1/'
try "only 1 is a yes for the desk view" ../operations.rs 's/takeover != 0/takeover == 1/'
try "only 1 is the kind of a flow" ../operations.rs 's/self.kind != 0/self.kind == 1/'
try "a frame of 1,025 slots is accepted" plan.rs 's/LONGEST_FRAME: u32 = 1024/LONGEST_FRAME: u32 = 1025/'
try "a frame of 1,024 slots is refused" plan.rs 's/LONGEST_FRAME: u32 = 1024/LONGEST_FRAME: u32 = 1023/'
try "columns before rows" plan.rs 's/row_sum(ports, rates, input) > frame, Refusal::RowAboveFrame/column_sum(ports, rates, input) > frame, Refusal::ColumnAboveFrame/; s/column_sum(ports, rates, output) > frame, Refusal::ColumnAboveFrame/row_sum(ports, rates, output) > frame, Refusal::RowAboveFrame/'
try "the second place is cleared too" switch.rs 's/self.cells\[0\] = 0;/self.cells = [0, 0];/'
try "a sixth digit in a field" plantext.rs 's/usize = 5/usize = 6/'
try "a value modulo 2^16" plantext.rs 's/digits.parse()/digits.parse::<u32>().map(|value| value as u16)/'
try "a value above 65,535 taken for 65,535" plantext.rs 's/digits.parse()/digits.parse::<u32>().map(|value| value.min(65_535) as u16)/'
try "a sign before the digits" plantext.rs 's/ || !digits.bytes().all(|byte| byte.is_ascii_digit())//'
try "LF alone ends a record" plantext.rs 's/split("\\r\\n")/split("\\n").map(|record| record.strip_suffix("\\r").unwrap_or(record))/'
try "an empty line behind the records" plantext.rs 's/text.strip_suffix("\\r\\n").unwrap_or(text)/text.trim_end_matches("\\r\\n")/'
try "a quote that is not closed" plantext.rs "s/and_then(|rest| rest.strip_suffix('\"'))/map(|rest| rest.strip_suffix('\"').unwrap_or(rest))/"
try "a quote that was not opened" plantext.rs "s/field.strip_prefix('\"')/Some(field.strip_prefix('\"').unwrap_or(field))/"
try "an empty field is 0" plantext.rs 's/(1..=/(0..=/; s/digits.parse()/format!("0{digits}").parse()/'
try "a comma behind the last field" plantext.rs 's/record.split/record.strip_suffix(",").unwrap_or(record).split/'
try "a missing last record is 0" plantext.rs 's/fields.len() != ports/!(ports - 1..=ports).contains(\&fields.len())/; s/map(value)/map(value).chain(vec![Some(0); (ports - fields.len()) * ports])/'
try "fields counted in all records together" plantext.rs 's/fields.iter().any(|record| record.len() != ports)/fields.concat().len() != ports * ports/'
try "16 before 3" plantext.rs 's/^    check_length(ports, rates)?;//; s/^    check_sums/    check_length(ports, rates)?;\n&/'
try "the list is written by a call that is refused 16" plantext.rs 's/ok_or(Refusal::NotPlanText)/ok_or_else(|| { rates[0] = 0; Refusal::NotPlanText })/'
try "the list is written by a call that is refused 4 or 5" plantext.rs 's/^    check_sums/    rates.copy_from_slice(\&values);\n&/'
try "the last place is not looked at" meter.rs 's/0..=record.len() - length/0..(record.len() - length).max(1)/'
try "the first place is not looked at" meter.rs 's/0..=record.len() - length/(record.len() - length).min(1)..=record.len() - length/'
try "of equal places with the least the last is taken" meter.rs 's/(found.services, found.place)/(found.services, Reverse(found.place))/'
try "of equal places with the most the last is taken" meter.rs 's/(found.services, Reverse(found.place))/(found.services, found.place)/'
try "l = 0 is refused" meter.rs 's/length > record.len()/length == 0 || &/'
try "an empty record is refused" meter.rs 's/length > record.len()/record.is_empty() || &/'
try "l modulo 2^32" meter.rs 's/^    refuse_if(length/    let length = length as u32 as usize;\n&/'
try "a record of 65,536 slots is taken" meter.rs 's/LONGEST_RECORD: usize = 65_535/LONGEST_RECORD: usize = 65_536/'
try "a record of 65,535 slots is refused" meter.rs 's/LONGEST_RECORD: usize = 65_535/LONGEST_RECORD: usize = 65_534/'
try "flow 65,535 counts nothing" meter.rs 's/served == flow/served == flow \&\& flow != IDLE_SLOT/'
try "a refused measurement has a place" ../operations.rs 's/unwrap_or(Cover::ZERO)/unwrap_or(Cover { most: Stretch { services: 0, place: record.len() }, ..Cover::ZERO })/'
echo "$found wrong versions found"
exit $failed
