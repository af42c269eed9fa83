//! When an answer is right: against the Rust's answer, and what every answer must satisfy by document 01 whatever the input.

use crate::bench::{Answer, NUMBERS};
use crate::frame::Provable;
use crate::oracle::Said;

/// What is wrong with this answer for the proof of a $p of a good file, whatever the proof is.
pub fn strange(answer: Answer, text: &[u8]) -> Option<String> {
    let Answer { number, place, steps } = answer;
    let end = text.len() as u32;
    let good = match number {
        0 => place == end && steps > 0,
        20 => place == 0 && steps == 0,
        21 | 40 => place == end && steps == 0,
        39 | 41 | 42 => place == end && steps > 0,
        22 => place <= end,
        44 => place < end || place == 0,
        23..=38 | 43 | 45 | 46 => place < end,
        _ => false,
    };
    // a step takes at least a byte of the text
    (!good || steps > end).then(|| format!("{} is no answer that a proof can have", show(answer)))
}

/// What is wrong with this answer of a run for any file and any statement; 60 and 61 are for long forms alone.
pub fn no_answer(answer: Answer, file: &[u8]) -> Option<String> {
    let known = NUMBERS.iter().any(|row| row.0 == answer.number && row.0 < 60);
    let place = answer.place as usize <= file.len();
    let early = answer.number == 0 || answer.number > 8 || answer.steps == 0;
    (!known || !place || !early).then(|| format!("{} is no answer", show(answer)))
}

pub fn show(answer: Answer) -> String {
    format!("{} {} {}", answer.number, answer.place, answer.steps)
}

/// How an answer stands to the Rust's.
pub enum Stand {
    Agrees,
    /// Ours is 43 to 46, and the Rust passes that limit.
    Limit,
    Differs(String),
}

/// Compares with the Rust, whose run goes on past document 01's limits.
pub fn compare(answer: Answer, said: &Said, provable: &Provable, file: &[u8]) -> Stand {
    let text = &file[provable.text.clone()];
    if said.label != provable.label {
        return Stand::Differs(format!("the Rust answers for {}, the file has {}", said.label, provable.label));
    }
    if let Some(wrong) = strange(answer, text) {
        return Stand::Differs(wrong);
    }
    let earlier = answer.steps <= said.steps;
    let passes = match answer.number {
        43 => said.pool > 65_536,
        // the Rust counts no variables; only `vars` has so many
        44 => true,
        45 => said.stack > 1_024,
        46 => said.places.is_none_or(|places| places > 4_096),
        _ => false,
    };
    if passes && earlier {
        return Stand::Limit;
    }
    let within = said.pool <= 65_536 && said.stack <= 1_024 && said.places.is_none_or(|places| places <= 4_096);
    if within && said.number() == Some(answer.number) && said.steps == answer.steps {
        return Stand::Agrees;
    }
    Stand::Differs(format!("{} is answered {}, the Rust says {said:?}", provable.label, show(answer)))
}
