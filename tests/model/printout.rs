//! What the program `frame` prints for a plan file.

use super::multiplexer::Multiplexer;
use super::plan::{Plan, MOST_PORTS};
use super::planfile;

pub fn printout(bytes: &[u8]) -> String {
    match planfile::read(bytes) {
        Err(refusal) => format!("refused {}\n", refusal as u8),
        Ok(plan) => frame_choices(&plan),
    }
}

/// A header, then a line a slot with the choices of inputs and outputs.
fn frame_choices(plan: &Plan) -> String {
    let ports = plan.ports;
    let mut header = vec!["slot".to_string()];
    header.extend((0..ports).map(|input| format!("in{input}")));
    header.extend((0..ports).map(|output| format!("out{output}")));
    let mut text = line(&header);

    let mut boards = [Multiplexer::ZERO; MOST_PORTS];
    let mut heads = [Multiplexer::ZERO; MOST_PORTS];
    for slot in 0..plan.frame {
        let mut fields = vec![slot.to_string()];
        for input in 0..ports {
            let choice = boards[input].choose(plan.row(input), plan.frame, slot);
            boards[input].count(choice);
            fields.push(field(choice));
        }
        for output in 0..ports {
            let choice = heads[output].choose(&plan.column(output)[..ports], plan.frame, slot);
            heads[output].count(choice);
            fields.push(field(choice));
        }
        text += &line(&fields);
    }
    text
}

fn field(choice: Option<usize>) -> String {
    choice.map_or("-".to_string(), |port| port.to_string())
}

fn line(fields: &[String]) -> String {
    fields.join(" ") + "\n"
}
