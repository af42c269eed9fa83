//! Mutants of the corpus' databases, and databases of random proofs, against the Rust's answers. Proofs with marks turned are apart: only
//! there may the Rust be wrong.

use crate::bench::Answer;
use crate::corpus::stem;
use crate::frame::{provables, Provable};
use crate::guarded::{All, Lent, Size};
use crate::inputs::{proof_text, Random};
use crate::judge::{compare, show, strange, Stand};
use crate::oracle::{Oracle, Said};
use crate::tally::{Case, Tally};
use std::path::{Path, PathBuf};

/// How many mutants of which database; 2,000 in all.
const MUTANTS: [(&str, usize); 11] = [
    ("demo0", 250),
    ("miu", 200),
    ("hol", 250),
    ("big-unifier", 150),
    ("set-1000", 150),
    ("set-2500", 50),
    ("bench-table/row01", 200),
    ("handmade/scopes", 300),
    ("handmade/numbers", 150),
    ("handmade/turned-marks", 250),
    ("handmade/vars", 50),
];

/// A proof with marks turned: only that its answer can be one is checked; how often it is the Rust's is counted.
fn apart(tally: &mut Tally, stand: &Stand, wrong: Option<String>, case: &Case) {
    match wrong {
        Some(wrong) => tally.disagree(&wrong, case),
        None => {
            tally.apart += 1;
            tally.apart_alike += u64::from(matches!(stand, Stand::Agrees));
        }
    }
}

/// One proof: its answer beside the Rust's. 44 is a known difference in `vars` alone.
fn proof(tally: &mut Tally, said: &Said, turned: bool, provable: &Provable, answer: Answer, case: &Case) {
    let stand = compare(answer, said, provable, case.file);
    match stand {
        _ if turned => apart(tally, &stand, strange(answer, &case.file[provable.text.clone()]), case),
        Stand::Agrees => tally.agreements += 1,
        Stand::Limit if answer.number != 44 || case.name.starts_with("vars") => tally.known += 1,
        Stand::Limit => tally.disagree(&format!("{} is answered 44", provable.label), case),
        Stand::Differs(wrong) => tally.disagree(&wrong, case),
    }
}

/// Compares all proofs of a database, one of them also alone. Gives how many there are.
fn database(tally: &mut Tally, lent: &mut Lent, oracle: &Oracle, path: &Path, random: &mut Random) -> usize {
    let file = oracle.export(path);
    let said = oracle.room(path);
    let turned = oracle.turned(path);
    let proofs = provables(&file);
    let size = Size::greatest();
    let mut case = Case {
        name: stem(path),
        file: &file,
        statement: None,
        size,
    };
    let whole = match lent.verify_all(&file, proofs.len(), size, 0x77) {
        Ok(All::Checked(count, answers)) if count == said.len() => answers,
        other => {
            tally.disagree(&format!("{} proofs, yet {other:?}", said.len()), &case);
            return 0;
        }
    };
    for (ix, provable) in proofs.iter().enumerate() {
        case.statement = Some(provable.statement);
        proof(tally, &said[ix], turned.contains(&provable.label), provable, whole[ix], &case);
    }
    let ix = random.below(proofs.len());
    if let Some(provable) = proofs.get(ix) {
        case.statement = Some(provable.statement);
        let alone = lent.verify(&file, provable.statement, size, 0x33);
        let same = alone.as_ref().is_ok_and(|answer| *answer == whole[ix]);
        tally.count((!same).then(|| format!("alone {alone:?}, among all {}", show(whole[ix]))), &case);
    }
    proofs.len()
}

/// Gives every fourth mutant, for their long forms; the others are removed.
pub fn run(tally: &mut Tally, lent: &mut Lent, oracle: &Oracle, corpus: &Path, work: &Path, of_ten: usize) -> Vec<PathBuf> {
    let mut random = Random(2_026);
    let (mut files, mut proofs, mut fourth) = (0, 0, Vec::new());
    for (seed, (name, count)) in MUTANTS.iter().enumerate() {
        let out = work.join(format!("mutants-{seed}"));
        std::fs::create_dir_all(&out).expect("a folder for mutants");
        let base = corpus.join(format!("{name}.mm"));
        for path in oracle.mutate(&base, 4_000 + seed as u64, (count * of_ten).div_ceil(10), &out) {
            proofs += database(tally, lent, oracle, &path, &mut random);
            files += 1;
            if files % 4 == 0 {
                fourth.push(path);
            } else {
                std::fs::remove_file(&path).expect("the mutant goes");
            }
        }
    }
    tally.part("mutants", &format!("{files} files, {proofs} proofs; known: a limit is passed, apart: turned marks"));
    fourth
}

/// The bench table's database with random proofs of th1's and th2's claims, a hundred in a file.
fn made(random: &mut Random) -> Vec<u8> {
    let mut out = b"$c wff |- ( ) -> $. $v p q $. wp $f wff p $. wq $f wff q $. wi $a wff ( p -> q ) $.\n\
        ${ min $e |- p $. maj $e |- ( p -> q ) $. mp $a |- q $. $}\n"
        .to_vec();
    for number in 0..100 {
        let text = proof_text(random, false);
        let text = String::from_utf8(text).expect("name bytes").replace('$', "x");
        let (open, claim) = if random.below(2) == 0 {
            ("${", "wff ( ( p -> q ) -> ( p -> q ) )")
        } else {
            ("${ h1 $e |- p $. h2 $e |- ( p -> q ) $.", "|- q")
        };
        let open = open.replace("h1", &format!("h1.{number}")).replace("h2", &format!("h2.{number}"));
        let text = text.replace("h1", &format!("h1.{number}")).replace("h2", &format!("h2.{number}"));
        out.extend_from_slice(format!("{open} t{number} $p {claim} $= {text} $. $}}\n").as_bytes());
    }
    out
}

pub fn random_proofs(tally: &mut Tally, lent: &mut Lent, oracle: &Oracle, work: &Path, count: usize) {
    let mut random = Random(77);
    let mut proofs = 0;
    let path = work.join("random.mm");
    for _ in 0..count {
        std::fs::write(&path, made(&mut random)).expect("a database can be written");
        proofs += database(tally, lent, oracle, &path, &mut random);
    }
    tally.part("random proofs by the Rust", &format!("{count} files, {proofs} proofs; apart: turned marks"));
}
