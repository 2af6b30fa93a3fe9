//! Where the files compared jump, of change request 8.
use independent::report::Answer;
use independent::routine::{argument, line, Argument};

/// Numbers of files.
#[derive(Default)]
pub struct Jumps {
    /// refused by 13: a branch to its own address, to a lower one
    own: u64,
    lower: u64,
    /// by its kind
    kinds: [u64; 3],
    /// by 13, though a run would be refused by 11 too
    unknown: u64,
    /// refused by 6, though a line before it jumps backwards
    outside: u64,
    /// accepted, with a branch
    forward: u64,
}

const KINDS: [&[u8]; 3] = [b"BRANCH", b"BRANCHIF", b"BRANCHIFNOT"];

/// The kind, the address and the target of a line of code, if it is a branch.
fn branch(line: &[u8]) -> Option<(&[u8], u64, u64)> {
    let words: Vec<&[u8]> = line.split(|b| *b == b' ').collect();
    let number = |word: &[u8]| std::str::from_utf8(word).ok()?.parse().ok();
    match words[..] {
        [at, op, arg] if argument(op) == Some(Argument::Target) => Some((op, number(at)?, number(arg)?)),
        _ => None,
    }
}

impl Jumps {
    pub fn note(&mut self, text: &[u8], bound: &Answer) {
        let lines: Vec<&[u8]> = text.split(|b| *b == b'\n').collect();
        let number = bound.as_ref().err().map_or(0, |refusal| refusal.number);
        let code = lines.iter().skip(line::CODE - 1);
        if number == 0 {
            self.forward += code.clone().any(|l| branch(l).is_some()) as u64;
        }
        let place = bound.as_ref().err().map_or(0, |refusal| refusal.place as usize);
        if number == 6 {
            let mut before = lines[line::CODE - 1..place - 1].iter().filter_map(|l| branch(l));
            self.outside += before.any(|(_, at, to)| to <= at) as u64;
        }
        if number != 13 {
            return;
        }
        let (kind, at, to) = branch(lines[place - 1]).unwrap();
        self.own += (to == at) as u64;
        self.lower += (to < at) as u64;
        self.kinds[KINDS.iter().position(|k| *k == kind).unwrap()] += 1;
        let unknown = |n: usize| lines[n - 1].split(|b| *b == b' ').any(|word| word == b"?");
        self.unknown += (unknown(line::CELLS) || unknown(line::FIELDS)) as u64;
    }

    pub fn counts(&self) -> [(&'static str, u64); 8] {
        [
            ("a branch in an accepted file", self.forward),
            ("a branch to its own address, refused by 13", self.own),
            ("a branch to a lower address, refused by 13", self.lower),
            ("BRANCH refused by 13", self.kinds[0]),
            ("BRANCHIF refused by 13", self.kinds[1]),
            ("BRANCHIFNOT refused by 13", self.kinds[2]),
            ("an unknown cell beside a 13", self.unknown),
            ("a 13 before the line of a 6", self.outside),
        ]
    }
}
