//! Random accepted plans.

use super::random::Random;
use crate::model::plan::{column_sum, row_sum};
use crate::model::regulator;

/// Sparse, scaled and boosted plans, permutations, even shares, multiples of one rate and the plan of no services.
pub fn accepted(random: &mut Random, ports: usize, frame: u32) -> Vec<u16> {
    match random.below(10) {
        0 => permutation(random, ports, frame),
        1 => vec![(frame as usize / ports) as u16; ports * ports],
        2 if random.one_in(3) => vec![0; ports * ports],
        2 | 3 => sparse(random, ports, frame),
        4 => scaled(random, ports, frame),
        5 => boosted(ports, frame, random.period(), &sparse(random, ports, frame)),
        6 | 7 => multiples(random, ports, frame),
        _ => boosted(ports, frame, random.period(), &scaled(random, ports, frame)),
    }
}

/// Differs from the given accepted plan in a few flows.
pub fn neighbour(random: &mut Random, ports: usize, frame: u32, plan: &[u16]) -> Vec<u16> {
    let mut rates = plan.to_vec();
    if random.flip() {
        exchange(random, ports, &mut rates);
    } else {
        let flow = random.below(ports * ports);
        rates[flow] = 0;
        grow(random, ports, frame, &mut rates, flow);
    }
    rates
}

pub fn boosted(ports: usize, frame: u32, period: u32, plan: &[u16]) -> Vec<u16> {
    let mut rates = vec![0; ports * ports];
    regulator::boost(ports, frame, period, plan, &mut rates).expect("the plan is accepted");
    rates
}

pub fn scaled(random: &mut Random, ports: usize, frame: u32) -> Vec<u16> {
    let most = random.pick(&[1, 3, 20, 65_535]);
    let demands = random.rates(ports * ports, most);
    let mut rates = vec![0; ports * ports];
    regulator::scale(ports, frame, &demands, &mut rates).expect("the shape is right");
    rates
}

/// Room for at least one more service in the flow's row and in its column.
pub fn sparse_with_room(random: &mut Random, ports: usize, frame: u32, flow: usize) -> Vec<u16> {
    let mut rates = sparse(random, ports, frame);
    for other in 0..ports {
        rates[flow / ports * ports + other] = 0;
        rates[other * ports + flow % ports] = 0;
    }
    rates
}

fn sparse(random: &mut Random, ports: usize, frame: u32) -> Vec<u16> {
    let mut rates = vec![0; ports * ports];
    for _ in 0..random.within(1, 2 * ports) {
        let flow = random.below(ports * ports);
        grow(random, ports, frame, &mut rates, flow);
    }
    rates
}

fn permutation(random: &mut Random, ports: usize, frame: u32) -> Vec<u16> {
    let outputs = random_order(random, ports);
    let rate = if random.flip() { frame } else { random.below(frame as usize + 1) as u32 };
    let mut rates = vec![0; ports * ports];
    for (input, output) in outputs.into_iter().enumerate() {
        rates[input * ports + output] = rate as u16;
    }
    rates
}

fn random_order(random: &mut Random, ports: usize) -> Vec<usize> {
    let mut order: Vec<usize> = (0..ports).collect();
    for last in (1..ports).rev() {
        order.swap(last, random.below(last + 1));
    }
    order
}

/// Multiples of one rate, the same ones in each line and in another order: many deadlines tie.
fn multiples(random: &mut Random, ports: usize, frame: u32) -> Vec<u16> {
    let mut left = frame;
    let shares: Vec<u32> = (0..ports)
        .map(|_| {
            let share = random.pick(&[0, 1, 1, 2, 2, 3, 4, 6]).min(left);
            left -= share;
            share
        })
        .collect();
    let unit = frame / (frame - left).max(1);
    let turns = random_order(random, ports);
    let flow = |flow: usize| shares[(turns[flow / ports] + flow % ports) % ports] * unit;
    (0..ports * ports).map(|number| flow(number) as u16).collect()
}

/// Gives a flow some of what its two lines have to spare.
fn grow(random: &mut Random, ports: usize, frame: u32, rates: &mut [u16], flow: usize) {
    let fuller = row_sum(ports, rates, flow / ports).max(column_sum(ports, rates, flow % ports));
    rates[flow] += random.below((frame - fuller) as usize + 1) as u16;
}

/// Moves services around the corners of a rectangle, which leaves every sum as it is.
fn exchange(random: &mut Random, ports: usize, rates: &mut [u16]) {
    let mut line = || random.below(ports);
    let (top, bottom, left, right) = (line(), line(), line(), line());
    if top == bottom || left == right {
        return;
    }
    let corner = |input: usize, output: usize| input * ports + output;
    let most = rates[corner(top, left)].min(rates[corner(bottom, right)]);
    let services = random.below(usize::from(most) + 1) as u16;
    rates[corner(top, left)] -= services;
    rates[corner(bottom, right)] -= services;
    rates[corner(top, right)] += services;
    rates[corner(bottom, left)] += services;
}
