//! Names and lines of the source: from the debugger's events of the file itself, or of another file that `--names` gives, which is the
//! same source compiled with -g. Its code is a little different, so that its instructions are laid beside those of this one.
use super::code::{Code, Function, Instruction};
use super::opcodes::{without_number, without_push};
use super::told;
use crate::failure::Failure;
use std::collections::BTreeMap;

/// Functions of more instructions than these multiplied are not laid side by side.
const LARGEST: usize = 1 << 24;

/// A file and the functions in it.
pub struct Compiled<'a> {
    pub code: &'a Code<'a>,
    pub functions: &'a [Function],
}

pub struct Source<'a> {
    own: &'a Compiled<'a>,
    /// the file with the names, and the number of the function there that each function is
    other: Option<(&'a Compiled<'a>, Vec<Option<usize>>)>,
}

impl<'a> Source<'a> {
    pub fn of(own: &'a Compiled<'a>) -> Source<'a> {
        Source { own, other: None }
    }

    /// With names from another file. The two must have the same functions.
    pub fn with_names(own: &'a Compiled<'a>, other: &'a Compiled<'a>) -> Result<Source<'a>, Failure> {
        if other.code.unit.events.is_empty() {
            return Err(Failure("the file of --names has no names: compile it by ocamlc -g -c".into()));
        }
        Ok(Source { own, other: Some((other, matched(own, other)?)) })
    }

    /// Whether there are names and lines.
    pub fn is_known(&self) -> bool {
        self.other.is_some() || !self.own.code.unit.events.is_empty()
    }

    pub fn name(&self, index: usize) -> Option<&[u8]> {
        let (compiled, index) = self.function(index)?;
        compiled.functions[index].name.as_deref()
    }

    /// The function that has the names of one.
    fn function(&self, index: usize) -> Option<(&Compiled<'a>, usize)> {
        match &self.other {
            Some((other, matches)) => matches[index].map(|index| (*other, index)),
            None => Some((self.own, index)),
        }
    }

    /// The names and lines of a function's instructions.
    pub fn lines(&self, index: usize) -> Lines<'a> {
        let own = &self.own.functions[index];
        match &self.other {
            None => Lines { compiled: self.own, index, beside: None },
            Some((other, matches)) => match matches[index] {
                Some(there) => {
                    let beside = beside((self.own, own), (other, &other.functions[there]));
                    Lines { compiled: other, index: there, beside: Some(beside) }
                }
                None => Lines { compiled: self.own, index, beside: None },
            },
        }
    }
}

pub struct Lines<'a> {
    compiled: &'a Compiled<'a>,
    index: usize,
    /// of the words of the function, those where the same stands in the file with the names
    beside: Option<BTreeMap<usize, usize>>,
}

impl Lines<'_> {
    /// The word in the file with the names that a word of the function is, or the one nearest before it, or else behind it.
    fn there(&self, at: usize) -> Option<usize> {
        match &self.beside {
            None => Some(at),
            Some(beside) => {
                beside.range(..=at).next_back().or_else(|| beside.range(at..).next()).map(|(_, there)| *there)
            }
        }
    }

    fn instruction(&self, at: usize) -> Option<&Instruction> {
        let code = self.compiled.code;
        self.there(at).and_then(|there| code.number(there)).map(|number| &code.instructions[number])
    }

    /// The file and the line of the source, or the word of the code.
    pub fn place(&self, at: usize) -> String {
        let function = &self.compiled.functions[self.index];
        let line = self.instruction(at).and_then(|instruction| {
            self.compiled.code.unit.events.line(&function.words, instruction.at..instruction.end)
        });
        match line {
            Some((file, line)) => format!("{}:{line}", told(&file)),
            None => format!("word {at}"),
        }
    }

    /// The name of the value that the ENVACC at a word reads.
    pub fn kept(&self, at: usize, place: i32) -> Option<Vec<u8>> {
        let function = &self.compiled.functions[self.index];
        let place = match &self.beside {
            None => place,
            Some(beside) => {
                beside.get(&at)?;
                let instruction = self.instruction(at)?;
                let (base, digit) = without_number(without_push(instruction.name()).1);
                (base == "ENVACC").then(|| digit.unwrap_or(instruction.word))?
            }
        };
        self.compiled.code.unit.events.kept(function.words.clone(), place)
    }
}

/// The functions that the beginning of a unit makes, and those that each of its functions makes.
fn made(compiled: &Compiled) -> (Vec<usize>, BTreeMap<usize, Vec<usize>>) {
    let mut tops = Vec::new();
    let mut within: BTreeMap<usize, Vec<usize>> = BTreeMap::new();
    let mut makers = BTreeMap::new();
    for (index, function) in compiled.functions.iter().enumerate() {
        for number in function.body.clone().filter(|number| compiled.code.instructions[*number].makes_functions()) {
            for target in &compiled.code.instructions[number].targets {
                makers.insert(*target, index);
            }
        }
    }
    for (index, function) in compiled.functions.iter().enumerate() {
        match makers.get(&function.address) {
            Some(maker) if *maker != index => within.entry(*maker).or_default().push(index),
            _ => tops.push(index),
        }
    }
    (tops, within)
}

/// The number in the other file of each function, in the order of the code. Functions within functions may be others, since the
/// compiler leaves some out.
fn matched(own: &Compiled, other: &Compiled) -> Result<Vec<Option<usize>>, Failure> {
    let ((own_tops, own_within), (other_tops, other_within)) = (made(own), made(other));
    let arguments = |compiled: &Compiled, list: &[usize]| -> Vec<usize> {
        list.iter().map(|index| compiled.functions[*index].arguments).collect()
    };
    // -g changes the arguments of a function that ends in another one, but not their number
    let pairs = arguments(own, &own_tops).into_iter().zip(arguments(other, &other_tops));
    let unlike = pairs.filter(|(here, there)| here != there).count();
    if own_tops.len() != other_tops.len() || 2 * unlike > own_tops.len() {
        return Err(Failure("the file of --names has other functions: compile both from the same source".into()));
    }
    let mut matches = vec![None; own.functions.len()];
    let mut next: Vec<(usize, usize)> = own_tops.into_iter().zip(other_tops).collect();
    while let Some((here, there)) = next.pop() {
        if matches[here].replace(there).is_some() {
            continue;
        }
        if let (Some(mine), Some(others)) = (own_within.get(&here), other_within.get(&there)) {
            if arguments(own, mine) == arguments(other, others) {
                next.extend(mine.iter().copied().zip(others.iter().copied()));
            }
        }
    }
    Ok(matches)
}

/// What is compared of an instruction, and where it stands.
type Token<'a> = ((&'static str, Option<i32>, Option<&'a [u8]>), usize);

fn tokens<'a>(compiled: &'a Compiled, function: &Function) -> Vec<Token<'a>> {
    let mut tokens = Vec::new();
    for number in &function.reached {
        let instruction = &compiled.code.instructions[*number];
        let (push, name) = without_push(instruction.name());
        let (base, digit) = without_number(name);
        if push {
            tokens.push((("PUSH", None, None), instruction.at));
        }
        let argument = digit.unwrap_or(instruction.word);
        let compared = ["CONST", "CONSTINT", "OFFSETINT", "GETFIELD", "SETFIELD"].contains(&base).then_some(argument);
        let primitive = compiled.code.primitive(instruction).ok().flatten().map(|name| name.as_slice());
        let base = if base == "CONSTINT" { "CONST" } else { base };
        tokens.push(((base, compared, primitive), instruction.at));
    }
    tokens
}

/// The words of a function where the same instruction stands in another: a longest common sequence of the two.
fn beside(own: (&Compiled, &Function), other: (&Compiled, &Function)) -> BTreeMap<usize, usize> {
    let (one, two) = (tokens(own.0, own.1), tokens(other.0, other.1));
    let mut beside = BTreeMap::new();
    let width = two.len() + 1;
    if one.len().saturating_add(1).saturating_mul(width) > LARGEST {
        return beside;
    }
    // how long the longest one is from each pair of places on
    let mut longest = vec![0u32; (one.len() + 1) * width];
    for i in (0..one.len()).rev() {
        for j in (0..two.len()).rev() {
            longest[i * width + j] = match one[i].0 == two[j].0 {
                true => longest[(i + 1) * width + j + 1] + 1,
                false => longest[(i + 1) * width + j].max(longest[i * width + j + 1]),
            };
        }
    }
    let (mut i, mut j) = (0, 0);
    while i < one.len() && j < two.len() {
        if one[i].0 == two[j].0 {
            beside.insert(one[i].1, two[j].1);
            (i, j) = (i + 1, j + 1);
        } else if longest[(i + 1) * width + j] >= longest[i * width + j + 1] {
            i += 1;
        } else {
            j += 1;
        }
    }
    beside
}
