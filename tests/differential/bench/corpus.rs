//! The corpus: every proof against the stored answers, by itself and with all the others; and, for every accepted one, just the room
//! that it needs and a little less.

use crate::bench::Answer;
use crate::frame::{provables, Provable};
use crate::guarded::{All, Lent, Size};
use crate::judge::{show, strange};
use crate::known::{self, TABLE};
use crate::oracle::{stored, Oracle, Said};
use crate::tally::{Case, Tally};
use crate::vectors::read;
use std::path::{Path, PathBuf};

/// Each call for one statement checks the whole file, which takes long for a large one: of a file above 65,536 bytes every twentieth proof is called alone.
pub fn alone(file: &[u8], ix: usize) -> bool {
    file.len() <= 65_536 || ix % 20 == 0
}

/// The corpus' frame files.
pub fn files(corpus: &Path) -> Vec<PathBuf> {
    let mut out = Vec::new();
    for folder in [corpus.to_owned(), corpus.join("bench-table"), corpus.join("handmade")] {
        let entries = std::fs::read_dir(&folder).unwrap_or_else(|why| panic!("{}: {why}", folder.display()));
        let paths = entries.map(|entry| entry.expect("an entry").path());
        out.extend(paths.filter(|path| path.extension().is_some_and(|end| end == "frames")));
    }
    out.sort();
    out
}

/// The name of a file without folder and ending.
pub fn stem(path: &Path) -> &str {
    path.file_stem().and_then(|stem| stem.to_str()).expect("a name of plain letters")
}

/// What is wrong with an answer, given the stored one; a known difference must be as its table says.
fn wrong(name: &str, provable: &Provable, file: &[u8], answer: Answer, stated: &(String, String, u32)) -> Option<String> {
    let rust = (stated.1.as_str(), stated.2);
    if stated.0 != provable.label {
        return Some(format!("the stored answers have {} where the file has {}", stated.0, provable.label));
    }
    if let Some(row) = known::find(name, &provable.label) {
        let same = (answer.number, answer.place, answer.steps) == row.ours && rust == row.rust;
        return (!same).then(|| format!("{} is answered {}, the Rust {rust:?}; known: {:?} and {:?}", provable.label, show(answer), row.ours, row.rust));
    }
    let same = answer.name() == rust.0 && answer.steps == rust.1;
    let strange = strange(answer, &file[provable.text.clone()]);
    strange.or_else(|| (!same).then(|| format!("{} is answered {} ({}), the Rust {rust:?}", provable.label, show(answer), answer.name())))
}

fn count(tally: &mut Tally, wrong: Option<String>, known: bool, case: &Case) {
    if wrong.is_none() && known {
        tally.known += 1;
    } else {
        tally.count(wrong, case);
    }
}

/// One file of the corpus.
fn one_file(tally: &mut Tally, lent: &mut Lent, path: &Path) -> usize {
    let (file, name, size) = (read(path), stem(path), Size::greatest());
    let stated = stored(&path.with_extension("answers"));
    let proofs = provables(&file);
    let mut case = Case {
        name,
        file: &file,
        statement: None,
        size,
    };
    let whole = match lent.verify_all(&file, 4_096, size, 0x5a) {
        Ok(All::Checked(count, answers)) if count == proofs.len() && count == stated.len() => answers,
        other => {
            tally.disagree(&format!("{} proofs, yet {other:?}", stated.len()), &case);
            return 0;
        }
    };
    for (ix, provable) in proofs.iter().enumerate() {
        let differs = known::find(name, &provable.label).is_some();
        case.statement = Some(provable.statement);
        count(tally, wrong(name, provable, &file, whole[ix], &stated[ix]), differs, &case);
        if !alone(&file, ix) {
            continue;
        }
        let apart = match lent.verify(&file, provable.statement, size, 0xa5) {
            Err(fault) => Some(fault),
            Ok(answer) if answer != whole[ix] => Some(format!("alone {}, among all {}", show(answer), show(whole[ix]))),
            Ok(_) => None,
        };
        tally.count(apart, &case);
    }
    proofs.len()
}

/// The answers with just enough room, and with one byte, entry or place less.
fn tight(said: &Said) -> Vec<(Size, u8)> {
    let places = said.places.expect("accepted");
    let mut out = vec![(Size::of(said.pool, said.stack, places), 0)];
    if said.pool > 0 {
        out.push((Size::of(said.pool - 1, said.stack, places), 43));
    }
    let mut short = Size::of(said.pool, said.stack, places);
    short.stack -= 1;
    out.push((short, 45));
    if places > 0 {
        short = Size::of(said.pool, said.stack, places);
        short.places -= 1;
        out.push((short, 46));
    }
    out
}

fn rooms(tally: &mut Tally, lent: &mut Lent, oracle: &Oracle, path: &Path) {
    let file = read(path);
    let said = oracle.room(&path.with_extension("mm"));
    for (ix, (provable, said)) in provables(&file).iter().zip(&said).enumerate() {
        if !alone(&file, ix) || said.name != "Accepted" || known::find(stem(path), &provable.label).is_some() {
            continue;
        }
        for (size, number) in tight(said) {
            let case = Case {
                name: stem(path),
                file: &file,
                statement: Some(provable.statement),
                size,
            };
            let wrong = match lent.verify(&file, provable.statement, size, 0x11) {
                Err(fault) => Some(fault),
                Ok(answer) if answer.number == number => strange(answer, &file[provable.text.clone()]),
                Ok(answer) => Some(format!("{} is answered {} where {number} is due", provable.label, show(answer))),
            };
            tally.count(wrong, &case);
        }
    }
}

pub fn run(tally: &mut Tally, lent: &mut Lent, oracle: &Oracle, corpus: &Path) {
    let files = files(corpus);
    let proofs: usize = files.iter().map(|path| one_file(tally, lent, path)).sum();
    let known = tally.known;
    tally.part("corpus", &format!("{} files, {proofs} proofs, each among all and, of files up to 65,536 bytes each, of larger ones every twentieth, alone", files.len()));
    let mut reasons: Vec<&str> = TABLE.iter().map(|row| row.reason).collect();
    reasons.dedup();
    for reason in reasons {
        let stated = TABLE.iter().filter(|row| row.reason == reason).count();
        println!("known differences, {reason}: {stated} stated");
    }
    println!("known differences met as stated: {known} of {}", TABLE.len());
    for path in &files {
        rooms(tally, lent, oracle, path);
    }
    tally.part("corpus, room", "accepted proofs, the same that are called alone, with just enough room and with less");
}
