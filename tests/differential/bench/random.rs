//! Random bytes as file and as proof. There is no stated answer here; what is checked is what must hold for every input.

use crate::bench::{Answer, LONG_BYTES, TREE_ENTRIES};
use crate::frame::provables;
use crate::inputs::{bases, input, Random};
use crate::guarded::{All, Lent, Size};
use crate::judge::{no_answer, show, strange};
use crate::long::{back, entries};
use crate::oracle::Oracle;
use crate::tally::{Case, Tally};
use std::path::{Path, PathBuf};

/// The answer for the statement among those for all.
fn among(all: &All, file: &[u8], statement: usize) -> Option<Answer> {
    match all {
        All::Refused(answer) => Some(*answer),
        All::Checked(_, answers) => {
            let proofs = provables(file);
            match proofs.iter().position(|proof| proof.statement == statement) {
                Some(ix) => answers.get(ix).copied(),
                None => Some(Answer { number: 8, place: 0, steps: 0 }),
            }
        }
    }
}

/// What is wrong with the long form on this input, given the answer of the run: each accepted proof is tried, and some others.
fn long_form(lent: &mut Lent, random: &mut Random, file: &[u8], statement: usize, size: Size, run: Answer) -> Result<(), String> {
    let (tree, output) = (random.below(20), random.below(40));
    let (answer, text) = lent.long_form(file, statement, size.with(tree, output), random.next() as u8)?;
    if run.number != 0 {
        return if answer == run { Ok(()) } else { Err(format!("{}, and its long form {}", show(run), show(answer))) };
    }
    let (most, whole) = lent.long_form(file, statement, size.with(TREE_ENTRIES, LONG_BYTES), 0x0f)?;
    let due = match () {
        () if tree < entries(run.steps) => Answer { number: 60, ..run },
        () if output < whole.len() => Answer { number: 61, ..run },
        () => most,
    };
    let length = whole.len() as u32;
    if answer != due || (answer.number == 0 && text != whole) || most != (Answer { number: 0, place: length, ..run }) {
        return Err(format!("with {tree} entries and {output} bytes the long form is {}, with the most {}", show(answer), show(most)));
    }
    let claim = provables(file).into_iter().find(|proof| proof.statement == statement).expect("accepted");
    back(lent, file, &claim, &whole).map(|_| ())
}

/// What is wrong with the calls on this input.
fn tried(lent: &mut Lent, random: &mut Random, file: &[u8], statement: usize, size: Size) -> Result<Answer, String> {
    let answer = lent.verify(file, statement, size, 0x5a)?;
    if let Some(wrong) = no_answer(answer, file) {
        return Err(wrong);
    }
    let again = lent.verify(file, statement, size, random.next() as u8)?;
    if again != answer {
        return Err(format!("{}, and {} when the memory held other bytes", show(answer), show(again)));
    }
    let all = lent.verify_all(file, random.below(6), size, random.next() as u8)?;
    if let All::Checked(count, _) = all {
        let proofs = provables(file);
        if proofs.len() != count {
            return Err(format!("{count} proofs counted, there are {}", proofs.len()));
        }
        let proof = proofs.iter().find(|proof| proof.statement == statement);
        if let Some(wrong) = proof.and_then(|proof| strange(answer, &file[proof.text.clone()])) {
            return Err(wrong);
        }
    }
    if among(&all, file, statement).is_some_and(|other| other != answer) {
        return Err(format!("alone {}, among all {all:?}", show(answer)));
    }
    if random.below(64) == 0 && ![43, 45, 46].contains(&answer.number) {
        let most = lent.verify(file, statement, Size::greatest(), 1)?;
        if most != answer {
            return Err(format!("{}, and {} with the greatest sizes", show(answer), show(most)));
        }
    }
    Ok(answer)
}

/// Compares the verdicts on sampled files with the oracle's file check.
fn verdicts(tally: &mut Tally, oracle: &Oracle, folder: &Path, samples: &[(Vec<u8>, Answer)]) {
    std::fs::create_dir_all(folder).expect("a folder for samples");
    for part in samples.chunks(200) {
        let paths: Vec<PathBuf> = (0..part.len()).map(|ix| folder.join(format!("{ix}.frames"))).collect();
        for (path, sample) in paths.iter().zip(part) {
            std::fs::write(path, &sample.0).expect("a sample can be written");
        }
        for (sample, due) in part.iter().zip(oracle.framecheck(&paths)) {
            let found = if (1..=7).contains(&sample.1.number) { (sample.1.number, sample.1.place) } else { (0, 0) };
            let case = Case {
                name: "sample",
                file: &sample.0,
                statement: None,
                size: Size::of(0, 0, 0),
            };
            tally.count((found != due).then(|| format!("file check {found:?}, oracle framecheck {due:?}")), &case);
        }
    }
    std::fs::remove_dir_all(folder).expect("the folder goes");
}

pub fn run(tally: &mut Tally, lent: &mut Lent, oracle: &Oracle, folders: (&Path, &Path, &Path), count: usize) {
    let (corpus, vectors, work) = folders;
    let bases = bases(corpus, vectors);
    let mut random = Random(0x1eaf);
    let (mut met, mut long) = ([0u64; 256], 0);
    let mut sizes = Random(0xf01d);
    let mut samples = Vec::new();
    let apart = (count / 2_000).max(1);
    for ix in 0..count {
        let (name, file, statement) = input(&mut random, &bases);
        let size = random.size();
        let mut found = tried(lent, &mut random, &file, statement, size);
        if let Some(answer) = found.as_ref().ok().copied().filter(|answer| answer.number == 0 || ix % 8 == 0) {
            long += 1;
            found = long_form(lent, &mut sizes, &file, statement, size, answer).map(|()| answer);
        }
        let case = Case {
            name,
            file: &file,
            statement: Some(statement),
            size,
        };
        if let Ok(answer) = &found {
            met[usize::from(answer.number)] += 1;
            if ix % apart == 0 || (1..=7).contains(&answer.number) && ix % apart < 3 {
                samples.push((file.clone(), *answer));
            }
        }
        tally.count(found.err(), &case);
    }
    let numbers: Vec<String> = (0..256).filter(|ix| met[*ix] > 0).map(|ix| format!("{ix}:{}", met[ix])).collect();
    tally.part("random", &format!("{count} inputs, three calls each, and long forms of {long}; answers met {}", numbers.join(" ")));
    verdicts(tally, oracle, &work.join("samples"), &samples);
    tally.part("random, file check", "a sample of them against oracle framecheck");
}
