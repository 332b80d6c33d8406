//! Compares verdicts with another judge's on random documents: fuzz FILE ROUNDS, where each line of FILE is a document
//! to begin with.
//!
//! Put your own judge in place of `peer`: it makes naga's module of a document, has naga's validator judge it, and
//! answers whether it is accepted; None where it can't be compared, as where another layer of naga refuses it.

use leafnurd::{Status, Verdict, judge};
use std::{env, fs};

/// Numbers that look random, by xorshift.
struct Random(u64);

impl Random {
    /// A number below this one.
    fn below(&mut self, most: usize) -> usize {
        self.0 ^= self.0 << 13;
        self.0 ^= self.0 >> 7;
        self.0 ^= self.0 << 17;
        (self.0 % most as u64) as usize
    }
}

/// The document with one of its numbers changed to a small one.
fn changed(document: &str, random: &mut Random) -> String {
    let is_digit = |at: &usize| document.as_bytes()[*at].is_ascii_digit();
    let digits: Vec<usize> = (0..document.len()).filter(is_digit).collect();
    let Some(at) = (!digits.is_empty()).then(|| digits[random.below(digits.len())]) else {
        return document.to_owned();
    };
    format!("{}{}{}", &document[..at], random.below(10), &document[at + 1..])
}

/// Judges random changes of the documents, and answers those that the other judge answers otherwise.
fn compare(documents: &[&str], rounds: usize, peer: impl Fn(&str) -> Option<bool>) -> Vec<(String, Verdict)> {
    let mut random = Random(0x9e37_79b9_7f4a_7c15);
    let mut different = Vec::new();
    for _ in 0..rounds {
        let mut document = documents[random.below(documents.len())].to_owned();
        for _ in 0..1 + random.below(3) {
            document = changed(&document, &mut random);
        }
        let verdict = judge(&document);
        let is_compared = matches!(verdict.status(), Status::Accepted | Status::Refused);
        if is_compared && peer(&document).is_some_and(|it| it != verdict.is_accepted()) {
            different.push((document, verdict));
        }
    }
    different
}

fn main() {
    let mut words = env::args().skip(1);
    let (Some(file), Some(rounds)) = (words.next(), words.next().and_then(|it| it.parse().ok())) else {
        eprintln!("fuzz FILE ROUNDS");
        std::process::exit(2);
    };
    let text = fs::read_to_string(&file).expect("a file with a document a line");
    let documents: Vec<&str> = text.lines().collect();
    // In place of naga: the same judge again, which never differs.
    let peer = |document: &str| Some(judge(document).is_accepted());
    let different = compare(&documents, rounds, peer);
    for (document, verdict) in &different {
        println!("{verdict}\n{document}");
    }
    println!("{rounds} documents, {} differ", different.len());
}
