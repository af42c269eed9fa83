//! The known differences between the Rust and document 01 in the corpus, each with both answers and the reason (docs/DIFFERENCES.md).
//! Each must be met exactly as it stands here. Our answers are worked out by hand from document 01; for `theorem1u` the oracle's `room`
//! says at which token the buffer passes 65,536 bytes.

pub struct Known {
    pub file: &'static str,
    pub label: &'static str,
    /// The Rust's name and steps.
    pub rust: (&'static str, u32),
    /// Our number, place and steps.
    pub ours: (u8, u32, u32),
    pub reason: &'static str,
}

const TURNED: &str = "turned marks";
const VARIABLES: &str = "256 variables at most";
const LATER: &str = "a later $d";
const POOL: &str = "65,536 pool bytes at most";

const fn row(
    file: &'static str,
    label: &'static str,
    rust: (&'static str, u32),
    ours: (u8, u32, u32),
    reason: &'static str,
) -> Known {
    Known {
        file,
        label,
        rust,
        ours,
        reason,
    }
}

pub const TABLE: [Known; 17] = [
    row("row13", "th2", ("StepEssenWrongType", 4), (0, 28, 5), TURNED),
    row("turned-marks", "turn", ("StepEssenWrongType", 4), (0, 30, 5), TURNED),
    row("turned-marks", "line", ("Panic", 4), (0, 23, 5), TURNED),
    row("turned-marks", "line3", ("Panic", 4), (0, 27, 5), TURNED),
    // An unknown mark is 33, where the Rust hits `unwrap`.
    row("turned-marks", "unk2", ("Panic", 4), (33, 32, 4), TURNED),
    row("turned-marks", "unsound", ("Panic", 2), (35, 13, 2), TURNED),
    // False, and accepted by the Rust.
    row("turned-marks", "unsound3", ("Accepted", 7), (37, 44, 6), TURNED),
    row("later-dv", "th1", ("Accepted", 3), (38, 6, 2), LATER),
    row("later-dv", "th2", ("ProofDvViolation", 2), (0, 9, 3), LATER),
    row("vars", "n257", ("Accepted", 1284), (44, 5919, 1279), VARIABLES),
    row("vars", "n300", ("Accepted", 1499), (44, 5919, 1279), VARIABLES),
    row("vars", "r257", ("Accepted", 4), (44, 1181, 0), VARIABLES),
    row("vars", "e7", ("ProofDvViolation", 6), (44, 5, 1), VARIABLES),
    row("vars", "e8", ("Accepted", 12), (44, 26, 7), VARIABLES),
    row("vars", "g0", ("Accepted", 7), (44, 0, 0), VARIABLES),
    row("vars", "g1", ("ProofIncomplete", 0), (44, 0, 0), VARIABLES),
    row("big-unifier", "theorem1u", ("Accepted", 5847), (43, 6924, 2220), POOL),
];

pub fn find(file: &str, label: &str) -> Option<&'static Known> {
    TABLE.iter().find(|row| row.file == file && row.label == label)
}
