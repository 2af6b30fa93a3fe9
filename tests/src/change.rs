//! Texts made from a base by one change each, with the answers that document 01 and the change requests give them.
use crate::report::MEMORY;

/// What a text is made from: a file, or one of the list before it, by its name.
#[derive(Clone, Copy)]
pub enum Base {
    File(fn() -> String),
    Named(&'static str),
}

/// One change of a text. Lines and words count from 1.
pub enum Change {
    Nothing,
    /// the lines from the first to the second become these
    Lines(usize, usize, Vec<u8>),
    /// a word of a line becomes this one
    Word(usize, usize, Vec<u8>),
    /// a line is left out
    Without(usize),
    Append(Vec<u8>),
    /// as many lines stay
    FirstLines(usize),
    /// as many bytes stay
    FirstBytes(usize),
}

pub fn lines(first: usize, last: usize, new: impl AsRef<[u8]>) -> Change {
    Change::Lines(first, last, new.as_ref().to_vec())
}

pub fn line(number: usize, new: impl AsRef<[u8]>) -> Change {
    lines(number, number, new)
}

pub fn word(line: usize, number: usize, new: impl AsRef<[u8]>) -> Change {
    Change::Word(line, number, new.as_ref().to_vec())
}

pub fn append(new: impl AsRef<[u8]>) -> Change {
    Change::Append(new.as_ref().to_vec())
}

impl Change {
    fn of(&self, base: &[u8]) -> Vec<u8> {
        let old: Vec<&[u8]> = base.split_inclusive(|b| *b == b'\n').collect();
        match self {
            Change::Nothing => base.to_vec(),
            Change::Lines(first, last, new) => {
                [&old[..first - 1].concat(), new, b"\n" as &[u8], &old[*last..].concat()].concat()
            }
            Change::Word(n, number, new) => {
                let line = old[n - 1].strip_suffix(b"\n").unwrap();
                let mut words: Vec<&[u8]> = line.split(|b| *b == b' ').collect();
                words[number - 1] = new;
                Change::Lines(*n, *n, words.join(&b' ')).of(base)
            }
            Change::Without(n) => [old[..n - 1].concat(), old[*n..].concat()].concat(),
            Change::Append(new) => [base, new].concat(),
            Change::FirstLines(n) => old[..*n].concat(),
            Change::FirstBytes(n) => base[..*n].to_vec(),
        }
    }
}

/// What is told: a report, by its line of figures, or a refusal, by its number and place.
#[derive(Clone, Copy)]
pub enum Told {
    Report(&'static str),
    Refusal(u32, u32),
}

/// The bound and the run refuse alike.
pub fn refused(number: u32, place: u32) -> [Told; 2] {
    [Told::Refusal(number, place); 2]
}

impl Told {
    pub fn printed_by_a_bound(&self) -> String {
        self.printed(BOUND_NAMES)
    }

    /// What is printed, with the names over a report.
    fn printed(&self, names: &str) -> String {
        match self {
            Told::Report(figures) => format!("{names}\n{figures}\n"),
            Told::Refusal(number, place) => format!("REFUSED {number} {place}\n"),
        }
    }
}

/// A name that says what is tried, the base, the change, and what the bound and the run tell.
pub type Entry<T = [Told; 2]> = (&'static str, Base, Change, T);

/// A text, and what is told of it.
pub struct Text<T = [Told; 2]> {
    pub name: &'static str,
    pub bytes: Vec<u8>,
    /// report memory lent
    pub lent: usize,
    pub told: T,
}

/// The names over a report of a bound.
const BOUND_NAMES: &str = "CYCLES WORDS DEPTH STEPS SHARE PATH";
/// The names over a report of a run.
const RUN_NAMES: &str = "CYCLES WORDS DEPTH STEPS";

impl Text {
    /// What the bound and the run print.
    pub fn printed(&self) -> [String; 2] {
        let [bound, run] = &self.told;
        [bound.printed(BOUND_NAMES), run.printed(RUN_NAMES)]
    }
}

/// What the bound and the merging bound tell.
#[derive(Clone, Copy)]
pub struct Bounds(pub Told, pub Told);

impl Text<Bounds> {
    /// What the bound and the merging bound print.
    pub fn printed(&self) -> [String; 2] {
        [self.told.0, self.told.1].map(|told| told.printed_by_a_bound())
    }
}

/// What the bound, the merging bound and the run tell.
#[derive(Clone, Copy)]
pub struct Three(pub Told, pub Told, pub Told);

impl Text<Three> {
    /// What the bound, the merging bound and the run print.
    pub fn printed(&self) -> [String; 3] {
        let Three(bound, merge, run) = self.told;
        [bound.printed_by_a_bound(), merge.printed_by_a_bound(), run.printed(RUN_NAMES)]
    }
}

/// The texts of a list. No two have one name, and each change changes something.
pub fn made<T>(entries: Vec<Entry<T>>) -> Vec<Text<T>> {
    let mut texts: Vec<Text<T>> = Vec::new();
    for (name, base, change, told) in entries {
        let named = |name| texts.iter().find(|text| text.name == name);
        assert!(named(name).is_none(), "{name} is there twice");
        let base = match base {
            Base::File(file) => file().into_bytes(),
            Base::Named(base) => named(base).unwrap_or_else(|| panic!("no text {base} before {name}")).bytes.clone(),
        };
        let bytes = change.of(&base);
        assert!(matches!(change, Change::Nothing) || bytes != base, "{name} is its base");
        texts.push(Text { name, bytes, lent: MEMORY, told });
    }
    texts
}
