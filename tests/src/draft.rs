//! A routine file in parts, and its text.

/// The parts of a routine file.
pub struct Draft {
    pub budget: u64,
    pub tick: u64,
    /// names with cycles, words and extra cycles of a jump
    pub kinds: Vec<(String, [usize; 3])>,
    /// names with cycles and words
    pub primitives: Vec<(String, [usize; 2])>,
    /// the accumulator, then the stack from the top
    pub cells: Vec<String>,
    /// the fields of each block
    pub blocks: Vec<Vec<String>>,
    pub first: usize,
    pub code: Vec<(&'static str, Arg)>,
    pub answers: Vec<i32>,
}

#[derive(Clone, Copy)]
pub enum Arg {
    Nothing,
    Number(i64),
    /// a line of the code, counted from 0
    Line(usize),
    Primitive(usize),
}

fn list(words: Vec<String>) -> String {
    if words.is_empty() {
        "-".to_string()
    } else {
        words.join(" ")
    }
}

/// The lines, each with its line feed.
fn joined(lines: &[String]) -> String {
    lines.iter().flat_map(|l| [l, "\n"]).collect()
}

/// The line of names and the lines of values of a price section.
fn section<const N: usize>(prices: &[(String, [usize; N])]) -> impl Iterator<Item = String> + '_ {
    let names = list(prices.iter().map(|p| p.0.clone()).collect());
    let values = (0..N).map(|i| list(prices.iter().map(|p| p.1[i].to_string()).collect()));
    std::iter::once(names).chain(values)
}

impl Draft {
    /// A price for a kind that has none.
    pub fn price(&mut self, kind: &str) {
        if self.kinds.iter().all(|k| k.0 != kind) {
            self.kinds.push((kind.to_string(), [3, 1, 0]));
        }
    }

    pub fn text(&self) -> String {
        self.with_code(&self.code_lines())
    }

    /// The text with other lines of code, under their line of names.
    pub fn with_code(&self, code: &str) -> String {
        let mut lines = vec!["BUDGET TICK".to_string(), format!("{} {}", self.budget, self.tick)];
        lines.extend(section(&self.kinds));
        lines.extend(section(&self.primitives));
        let stack = (0..self.cells.len() - 1).map(|i| format!("S{i}"));
        lines.push(list(std::iter::once("ACCU".to_string()).chain(stack).collect()));
        lines.push(list(self.cells.clone()));
        let fields = |b: usize| (0..self.blocks[b].len()).map(move |f| format!("B{b}.{f}"));
        lines.push(list((0..self.blocks.len()).flat_map(fields).collect()));
        lines.push(list(self.blocks.concat()));
        let mut text = joined(&lines) + code;
        if !self.answers.is_empty() {
            text += "ANSWER\n";
            text += &joined(&self.answers.iter().map(i32::to_string).collect::<Vec<_>>());
        }
        text
    }

    fn code_lines(&self) -> String {
        let mut lines = vec!["AT OP ARG".to_string()];
        for (i, (op, arg)) in self.code.iter().enumerate() {
            let arg = match arg {
                Arg::Nothing => "-".to_string(),
                Arg::Number(n) => n.to_string(),
                Arg::Line(n) => (self.first + n).to_string(),
                // a fault may have dropped the primitive
                Arg::Primitive(p) => self.primitives.get(*p).map_or("NONE".to_string(), |p| p.0.clone()),
            };
            lines.push(format!("{} {op} {arg}", self.first + i));
        }
        joined(&lines)
    }
}
