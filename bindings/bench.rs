//! The calls of the bench for a caller in Rust: a frame file's proofs are answered with number, place and steps, and a proof's long form
//! is written.
//!
//! Copy this file into a project as a module and link the static library of the crate bench_c (on x86-64: `rt lib` in crates/bench_c,
//! which writes crates/bench_c/out/libbench_c.a). Nothing here is unsafe to call. It needs neither the standard library nor a heap: the caller
//! lends all memory but the stack, of which `verify` and `verify_all` take about 325,000 bytes (319,752 for tables of their own) and
//! `long_form` about 931,000, as measured on x86-64 with an older kit.

/// The greatest sizes. What is lent above them is not used; of pool, stack, places and tree it is cleared, too.
pub const FILE_BYTES: usize = 1_048_576;
/// So many answers suffice for every file.
pub const ANSWERS: usize = 4_096;
/// Bytes of the pool.
pub const POOL_BYTES: usize = 65_536;
/// Entries of the stack.
pub const STACK_ENTRIES: usize = 1_024;
/// Places.
pub const PLACES: usize = 4_096;
/// So many entries of the tree suffice for every proof; each is one word.
pub const TREE_ENTRIES: usize = 131_071;
/// Bytes of the longest long form that is written.
pub const LONG_BYTES: usize = 65_536;
/// Words of an entry of the stack.
pub const ENTRY_WORDS: usize = 10;
/// Words of a place.
pub const PLACE_WORDS: usize = 10;
/// Words of the greatest stack.
pub const STACK_WORDS: usize = STACK_ENTRIES * ENTRY_WORDS;
/// Words of the most places.
pub const PLACES_WORDS: usize = PLACES * PLACE_WORDS;

/// The numbers of an answer, with their names. 1 to 7 are about the file, 8 about the statement that was asked for, 20 to 46 about its
/// proof, 60 and 61 about the room for its long form.
pub const NUMBERS: [(u8, &str); 38] = [
    (0, "Accepted"),
    (1, "BadRecord"),
    (2, "TooMany"),
    (3, "BadSymbol"),
    (4, "BadLabel"),
    (5, "BadReference"),
    (6, "BadFrame"),
    (7, "NoProof"),
    (8, "NotProvable"),
    (20, "BadByte"),
    (21, "ProofUnterminatedRoster"),
    (22, "ProofMalformedVarint"),
    (23, "ProofInvalidSave"),
    (24, "ProofIncomplete"),
    (25, "StepMissing"),
    (26, "LocalLabelAmbiguous"),
    (27, "LocalLabelDuplicate"),
    (28, "ChainBackref"),
    (29, "StepUsedBeforeDefinition"),
    (30, "StepUsedAfterScope"),
    (31, "StepOutOfRange"),
    (32, "ProofUnderflow"),
    (33, "BadExplicitLabel"),
    (34, "DuplicateExplicitLabel"),
    (35, "StepFloatWrongType"),
    (36, "StepEssenWrongType"),
    (37, "StepEssenWrong"),
    (38, "ProofDvViolation"),
    (39, "ProofExcessEnd"),
    (40, "ProofNoSteps"),
    (41, "ProofWrongTypeEnd"),
    (42, "ProofWrongExprEnd"),
    (43, "PoolFull"),
    (44, "TooManyVariables"),
    (45, "StackFull"),
    (46, "PlacesFull"),
    (60, "TreeFull"),
    (61, "LongFull"),
];

/// An answer: number 0 is accepted. The place is an offset in the file for 1 to 7, 0 for 8, else an offset in the proof's text; for 0 from `long_form` it is
/// the length of the long form.
#[derive(Clone, Copy, PartialEq, Eq, Debug)]
pub struct Answer {
    pub number: u8,
    pub place: u32,
    pub steps: u32,
}

impl Answer {
    /// The answer that a word of `verify_all`'s answers stands for.
    pub fn of(word: u64) -> Answer {
        Answer {
            number: (word & 255) as u8,
            place: (word >> 8 & 0xff_ffff) as u32,
            steps: (word >> 32) as u32,
        }
    }

    /// The name of the number; empty for one that is not in the table.
    pub fn name(self) -> &'static str {
        let row = NUMBERS.iter().find(|row| row.0 == self.number);
        row.map_or("", |row| row.1)
    }
}

/// The memory lent to a call, of any lengths, 0 too. What it holds is of no account; after the call all of it is zero.
pub struct Room<'a> {
    /// Bytes for expressions; at most `POOL_BYTES` are used.
    pub pool: &'a mut [u8],
    /// `ENTRY_WORDS` for each entry; at most `STACK_ENTRIES` entries are used.
    pub stack: &'a mut [u64],
    /// `PLACE_WORDS` for each place; at most `PLACES` are used.
    pub places: &'a mut [u64],
}

mod native {
    extern "C" {
        pub fn bench_verify(
            file: *const u8,
            file_length: usize,
            statement: usize,
            pool: *mut u8,
            pool_length: usize,
            stack: *mut u64,
            stack_length: usize,
            places: *mut u64,
            places_length: usize,
        ) -> u64;
        pub fn bench_verify_all(
            file: *const u8,
            file_length: usize,
            answers: *mut u64,
            answers_length: usize,
            pool: *mut u8,
            pool_length: usize,
            stack: *mut u64,
            stack_length: usize,
            places: *mut u64,
            places_length: usize,
        ) -> u64;
        pub fn bench_long(
            file: *const u8,
            file_length: usize,
            statement: usize,
            pool: *mut u8,
            pool_length: usize,
            stack: *mut u64,
            stack_length: usize,
            places: *mut u64,
            places_length: usize,
            tree: *mut u64,
            tree_length: usize,
            output: *mut u8,
            output_length: usize,
        ) -> u64;
    }
}

/// The answer for the proof of one statement (8 if it is no $p).
pub fn verify(file: &[u8], statement: usize, room: &mut Room) -> Answer {
    // Each pointer comes from a slice, with the slice's length: not null, aligned, and apart from the others.
    Answer::of(unsafe {
        native::bench_verify(
            file.as_ptr(),
            file.len(),
            statement,
            room.pool.as_mut_ptr(),
            room.pool.len(),
            room.stack.as_mut_ptr(),
            room.stack.len(),
            room.places.as_mut_ptr(),
            room.places.len(),
        )
    })
}

/// The number N of $p of a good file, or the refusal of a bad one (1 to 7). For a good file `answers[i]` is the answer of the i-th $p in
/// file order, to be read with `Answer::of`, for each i below N and below the length of `answers`; the rest of `answers` is untouched,
/// and so is all of it for a bad file.
pub fn verify_all(file: &[u8], answers: &mut [u64], room: &mut Room) -> Result<usize, Answer> {
    // As in `verify`.
    let word = unsafe {
        native::bench_verify_all(
            file.as_ptr(),
            file.len(),
            answers.as_mut_ptr(),
            answers.len(),
            room.pool.as_mut_ptr(),
            room.pool.len(),
            room.stack.as_mut_ptr(),
            room.stack.len(),
            room.places.as_mut_ptr(),
            room.places.len(),
        )
    };
    let answer = Answer::of(word);
    if answer.number == 0 {
        Ok(answer.steps as usize)
    } else {
        Err(answer)
    }
}

/// The long form of one statement's proof: the labels of its derivation in post-order, one space between. It answers the proof's refusal,
/// as `verify`; else 60 where 2 * steps - 1 is above the length of `tree`; else 61 where the long form is longer than `output` or than
/// `LONG_BYTES`, both with the place and steps of `verify`; else 0, its length as the place, and the steps of the proof that it is made
/// from. `tree` has one word for each entry (`TREE_ENTRIES` always suffice) and is zero after the call, as the room is. For 0 the long
/// form is `output[..place]` and the rest of `output` is untouched; for every other answer all of it is.
pub fn long_form(file: &[u8], statement: usize, room: &mut Room, tree: &mut [u64], output: &mut [u8]) -> Answer {
    // As in `verify`.
    Answer::of(unsafe {
        native::bench_long(
            file.as_ptr(),
            file.len(),
            statement,
            room.pool.as_mut_ptr(),
            room.pool.len(),
            room.stack.as_mut_ptr(),
            room.stack.len(),
            room.places.as_mut_ptr(),
            room.places.len(),
            tree.as_mut_ptr(),
            tree.len(),
            output.as_mut_ptr(),
            output.len(),
        )
    })
}
