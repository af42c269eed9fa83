//! Long forms of accepted proofs: each is the oracle's, is accepted in the old proof's place, and is its own long form. With an entry of
//! the tree or a byte of output less it is 60 or 61.

use crate::bench::{Answer, LONG_BYTES};
use crate::corpus::{alone, files, stem};
use crate::frame::{provables, with_text, Provable};
use crate::guarded::{All, Lent, Size};
use crate::judge::show;
use crate::known;
use crate::oracle::{stored_long, Oracle};
use crate::slice::slice;
use crate::tally::{Case, Tally};
use crate::vectors::read;
use std::collections::{HashMap, HashSet};
use std::path::{Path, PathBuf};

/// How the long form of an accepted proof came out.
#[derive(Clone, Copy, PartialEq)]
pub enum Came {
    /// Accepted in the old proof's place, and its own long form.
    Back,
    /// Longer than 65,536 bytes: 61.
    TooLong,
    /// Written, and as a proof it lacks room: this number.
    Lacks(u8),
}

/// Entries of the tree for so many steps.
pub fn entries(steps: u32) -> usize {
    2 * steps as usize - 1
}

/// What is due, or what was found instead.
fn same(what: &str, found: Answer, due: Answer) -> Result<(), String> {
    if found == due {
        return Ok(());
    }
    Err(format!("{what} is answered {} where {} is due", show(found), show(due)))
}

/// The long form put in the old proof's place.
pub fn back(lent: &mut Lent, file: &[u8], provable: &Provable, text: &[u8]) -> Result<Came, String> {
    let changed = with_text(file, provable, text);
    let labels = text.split(|byte| *byte == b' ').count() as u32;
    let due = Answer {
        number: 0,
        place: text.len() as u32,
        steps: labels,
    };
    let answer = lent.verify(&changed, provable.statement, Size::greatest(), 0x84)?;
    let size = Size::greatest().with(entries(labels), text.len());
    let (again, written) = lent.long_form(&changed, provable.statement, size, 0x48)?;
    if [43, 45].contains(&answer.number) {
        return same("the long form's long form", again, answer).map(|()| Came::Lacks(answer.number));
    }
    same("the long form", answer, due)?;
    same("the long form's long form", again, due)?;
    if written != text {
        return Err("the long form of the long form is another".into());
    }
    Ok(Came::Back)
}

/// An entry of the tree less is 60, a byte of output less 61, both less 60.
fn short(lent: &mut Lent, file: &[u8], statement: usize, accepted: Answer, length: usize) -> Result<(), String> {
    let tree = entries(accepted.steps);
    for (number, tree, output) in [(60, tree - 1, length), (61, tree, length - 1), (60, tree - 1, length - 1)] {
        let (answer, _) = lent.long_form(file, statement, Size::greatest().with(tree, output), 0x35)?;
        same(&format!("with {tree} entries and {output} bytes it"), answer, Answer { number, ..accepted })?;
    }
    Ok(())
}

/// The long form of an accepted proof; `stated` is the oracle's. With `tight`, also with less than is needed.
fn trip(lent: &mut Lent, file: &[u8], provable: &Provable, accepted: Answer, stated: Option<&str>, tight: bool) -> Result<Came, String> {
    let size = Size::greatest().with(entries(accepted.steps), LONG_BYTES);
    let (answer, text) = lent.long_form(file, provable.statement, size, 0x21)?;
    if stated == Some("TOOLONG") || stated.is_none() && answer.number == 61 {
        return same("its long form", answer, Answer { number: 61, ..accepted }).map(|()| Came::TooLong);
    }
    let place = text.len() as u32;
    same("its long form", answer, Answer { number: 0, place, ..accepted })?;
    if stated.is_some_and(|stated| stated.as_bytes() != text) {
        return Err("the oracle has another long form".into());
    }
    if tight {
        short(lent, file, provable.statement, accepted, text.len())?;
    }
    back(lent, file, provable, &text)
}

/// The same in a smaller file.
fn sliced(lent: &mut Lent, file: &[u8], provable: &Provable, accepted: Answer, stated: Option<&str>) -> Result<Came, String> {
    let (small, claim) = slice(file, provable);
    same("in a smaller file it", lent.verify(&small, claim.statement, Size::greatest(), 0x66)?, accepted)?;
    trip(lent, &small, &claim, accepted, stated, true)
}

/// A database whose long forms are compared: what the oracle writes, and what there is to know of each proof.
struct Database<'a> {
    path: &'a Path,
    file: Vec<u8>,
    stated: HashMap<String, String>,
    /// The labels for which the oracle's long form is of no account.
    apart: HashSet<String>,
    /// Where a database with long forms may be written.
    made: &'a Path,
}

/// How many came out how.
#[derive(Default)]
struct Counts {
    back: usize,
    too_long: usize,
    lacks: usize,
    refused: usize,
    /// How many were tried in the whole file, too.
    whole: usize,
    /// How many have the oracle's long form.
    stated: usize,
}

impl Counts {
    fn add(&mut self, came: Came, whole: bool, stated: bool) {
        self.whole += usize::from(whole);
        self.stated += usize::from(stated);
        match came {
            Came::Back => self.back += 1,
            Came::TooLong => self.too_long += 1,
            Came::Lacks(_) => self.lacks += 1,
        }
    }

    fn line(&self) -> String {
        format!(
            "{} accepted in the old proof's place, {} above 65,536 bytes, {} lack room there; {} of these equal the oracle's, {} are tried in the whole file, too; {} refusals",
            self.back, self.too_long, self.lacks, self.stated, self.whole, self.refused
        )
    }
}

impl Database<'_> {
    /// The Rust, which has no limits, needs more than the greatest sizes for the long form.
    fn passes(&self, oracle: &Oracle, label: &str, number: u8) -> Result<(), String> {
        let said = oracle.room_of_long(&self.path.with_extension("mm"), label, self.made);
        let passes = said.is_some_and(|said| said.name == "Accepted" && if number == 43 { said.pool > 65_536 } else { said.stack > 1_024 });
        if passes {
            return Ok(());
        }
        Err(format!("the long form is answered {number}, and by the oracle it needs no more room"))
    }

    /// What the oracle has for an accepted proof; nothing where that is of no account.
    fn due(&self, label: &str) -> Result<Option<&str>, String> {
        if self.apart.contains(label) {
            return Ok(None);
        }
        self.stated.get(label).map(|text| Some(text.as_str())).ok_or("the oracle has no long form".into())
    }

    /// The long form of an accepted proof, in a smaller file, and in the whole one as well if that is asked for.
    fn accepted(&self, lent: &mut Lent, oracle: &Oracle, provable: &Provable, answer: Answer, whole: bool) -> Result<Came, String> {
        let stated = self.due(&provable.label)?;
        let came = sliced(lent, &self.file, provable, answer, stated)?;
        if let Came::Lacks(number) = came {
            self.passes(oracle, &provable.label, number)?;
        }
        if whole && trip(lent, &self.file, provable, answer, stated, false)? != came {
            return Err("in the whole file it comes out otherwise".into());
        }
        Ok(came)
    }

    /// A refused proof: the refusal is the answer, and the oracle has no long form either, unless a limit is passed.
    fn refused(&self, lent: &mut Lent, provable: &Provable, answer: Answer) -> Result<(), String> {
        let size = Size::greatest().with(64, 64);
        same("its long form", lent.long_form(&self.file, provable.statement, size, 0x12)?.0, answer)?;
        let limit = (43..=46).contains(&answer.number);
        if limit || self.apart.contains(&provable.label) || !self.stated.contains_key(&provable.label) {
            return Ok(());
        }
        Err(format!("{} is answered, and the oracle has a long form", show(answer)))
    }

    /// All proofs; `whole` tells which ones are tried in the whole file, too, and of refused ones which are tried at all.
    fn run(&self, tally: &mut Tally, lent: &mut Lent, oracle: &Oracle, counts: &mut Counts, whole: impl Fn(usize) -> bool) {
        let size = Size::greatest();
        let mut case = Case {
            name: stem(self.path),
            file: &self.file,
            statement: None,
            size,
        };
        let answers = match lent.verify_all(&self.file, 4_096, size, 0x19) {
            Ok(All::Checked(_, answers)) => answers,
            other => return tally.disagree(&format!("{other:?}"), &case),
        };
        for (ix, (provable, answer)) in provables(&self.file).iter().zip(answers).enumerate() {
            case.statement = Some(provable.statement);
            let wrong = if answer.number == 0 {
                let came = self.accepted(lent, oracle, provable, answer, whole(ix));
                came.map(|came| counts.add(came, whole(ix), !self.apart.contains(&provable.label))).err()
            } else if whole(ix) {
                counts.refused += 1;
                self.refused(lent, provable, answer).err()
            } else {
                continue;
            };
            tally.count(wrong.map(|wrong| format!("{}: {wrong}", provable.label)), &case);
        }
    }
}

/// The corpus, with the stored long forms. Of no account are those of the known differences.
pub fn corpus(tally: &mut Tally, lent: &mut Lent, oracle: &Oracle, corpus: &Path, work: &Path) {
    let mut counts = Counts::default();
    for path in files(corpus) {
        let name = stem(&path);
        let known = known::TABLE.iter().filter(|row| row.file == name).map(|row| row.label.to_owned());
        let database = Database {
            path: &path,
            file: read(&path),
            stated: stored_long(&path.with_extension("long")),
            apart: known.collect(),
            made: &work.join("long.mm"),
        };
        database.run(tally, lent, oracle, &mut counts, |ix| alone(&database.file, ix));
    }
    tally.part("corpus, long forms", &counts.line());
}

/// These mutants, with the long forms that the oracle writes now. Of no account are those of proofs with marks turned. Of a file above
/// 4,096 bytes one proof is tried in the whole file.
pub fn mutants(tally: &mut Tally, lent: &mut Lent, oracle: &Oracle, paths: &[PathBuf], work: &Path) {
    let mut counts = Counts::default();
    for (number, path) in paths.iter().enumerate() {
        let database = Database {
            path,
            file: oracle.export(path),
            stated: oracle.long_forms(path),
            apart: oracle.turned(path),
            made: &work.join("long.mm"),
        };
        let (small, one) = (database.file.len() <= 4_096, 37 * number % provables(&database.file).len().max(1));
        database.run(tally, lent, oracle, &mut counts, |ix| small || ix == one);
    }
    tally.part("mutants, long forms", &format!("{} files: {}", paths.len(), counts.line()));
}
