//! The routine file of a seed, of change request 11: written from `docs/GENERATOR.md` alone.
use crate::report::Answer;
use crate::routine::{refused, Argument, KINDS};

/// The memory that a file is written into.
pub const MEMORY: usize = 32_768;

const PRIMITIVES: [&str; 4] = ["READ", "WRITE", "CLOCK", "NOISE"];
const STOP: usize = 60;

/// All draws that a file has use for: one of the number of lines, two of each of them, and 258 of the lines before the code.
struct Draws {
    states: Vec<u64>,
}

impl Draws {
    fn of(seed: u32) -> Draws {
        let mut state = seed;
        let mut states = vec![seed as u64];
        while states.len() <= 2 * 199 + 1 + 258 {
            state ^= state << 13;
            state ^= state >> 17;
            state ^= state << 5;
            states.push(state as u64);
        }
        Draws { states }
    }

    /// Draw `i`, from 1 on.
    fn at(&self, i: usize) -> u64 {
        self.states[i]
    }
}

/// A number below `m` from a draw.
fn below(m: u64, draw: u64) -> u64 {
    draw % m / (1 + draw / m % 8)
}

/// A number of a range from a draw.
fn of_range(low: i64, high: i64, draw: u64) -> i64 {
    low + below((high - low + 1) as u64, draw) as i64
}

fn handle(draw: u64) -> String {
    format!("#{}", draw % 2)
}

fn plain(open: bool, draw: u64) -> String {
    if open && draw % 2 == 0 {
        "?".to_string()
    } else if draw / 2 % 2 == 0 {
        (draw / 4 % 8).to_string()
    } else {
        of_range(-1_073_741_824, 1_073_741_823, draw).to_string()
    }
}

/// The argument of line `k` of `n` before the closing STOP.
fn argument(kind: usize, k: usize, n: usize, draw: u64) -> String {
    match KINDS[kind].1 {
        Argument::Nothing => "-".to_string(),
        Argument::Number(low, high) => of_range(low, high, draw).to_string(),
        Argument::Target => {
            let m = (n - k) as u64;
            let target = if draw / m % 16 == 0 { n as u64 - draw % m } else { n as u64 };
            target.to_string()
        }
        Argument::Primitive => PRIMITIVES[draw as usize % 4].to_string(),
    }
}

/// The file of a seed, which is not 0.
pub fn file(seed: u32) -> Vec<u8> {
    let draws = Draws::of(seed);
    let n = draws.at(1) as usize % 200;
    let open = draws.at(1) / 200 % 2 == 1;
    let kind = |k: usize| if k < n { draws.at(k + 2) as usize % 61 } else { STOP };
    let b = 2 * n + 1;
    let numbers = |count: usize, m: u64, from: usize| -> Vec<String> {
        (0..count).map(|i| below(m, draws.at(b + from + i)).to_string()).collect()
    };
    let reads_a_block = |k: usize| (42..=51).contains(&kind(k));
    let cell = |is_handle: bool, from: usize| {
        let draw = draws.at(b + from);
        if is_handle {
            handle(draw)
        } else {
            plain(open, draw)
        }
    };

    let limits =
        vec![(1 + below(1_000, draws.at(b + 1))).to_string(), (1 + below(100_000, draws.at(b + 2))).to_string()];
    let extras = numbers(61, 100, 125);
    let extras = extras.into_iter().enumerate().map(|(i, n)| if [53, 54].contains(&i) { n } else { "0".to_string() });
    let mut cells = vec![cell(reads_a_block(0), 194)];
    cells.extend((0..32).map(|i| cell(reads_a_block(1), 195 + i)));
    let mut fields: Vec<String> = (0..16).map(|i| cell(false, 227 + i)).collect();
    fields.extend((0..16).map(|i| cell(true, 243 + i)));
    let mut lines = vec![
        "BUDGET TICK".to_string(),
        limits.join(" "),
        KINDS.map(|kind| kind.0).join(" "),
        numbers(61, 1_000, 3).join(" "),
        numbers(61, 16, 64).join(" "),
        extras.collect::<Vec<_>>().join(" "),
        PRIMITIVES.join(" "),
        numbers(4, 1_000, 186).join(" "),
        numbers(4, 16, 190).join(" "),
        format!("ACCU {}", (0..32).map(|i| format!("S{i}")).collect::<Vec<_>>().join(" ")),
        cells.join(" "),
        (0..32).map(|i| format!("B{}.{}", i / 16, i % 16)).collect::<Vec<_>>().join(" "),
        fields.join(" "),
        "AT OP ARG".to_string(),
    ];
    lines.extend((0..n).map(|k| {
        let written = argument(kind(k), k, n, draws.at(n + 2 + k));
        format!("{k} {} {written}", KINDS[kind(k)].0)
    }));
    lines.push(format!("{n} STOP -"));
    lines.iter().flat_map(|line| [line, "\n"]).collect::<String>().into_bytes()
}

/// The answer for a seed and a length of lent memory, which is looked at first.
pub fn generate_answer(seed: u32, lent: usize) -> Answer {
    if lent < MEMORY {
        return refused(10, 0);
    }
    if seed == 0 {
        return refused(3, 0);
    }
    Ok(file(seed))
}

/// A checksum of 64 bits (FNV-1a).
pub fn checksum(bytes: &[u8]) -> u64 {
    bytes.iter().fold(0xcbf2_9ce4_8422_2325, |sum, byte| (sum ^ *byte as u64).wrapping_mul(0x100_0000_01b3))
}

/// Seeds with the lengths and the checksums of their files, which stay: the first, the ends of 32 bits, those around the sign, one whose
/// code is the closing STOP alone, one with 199 lines before it, and the longest file of the seeds up to 10,000.
pub const PINNED: [(u32, usize, u64); 8] = [
    (1, 3_957, 0x3847_ffb2_fdb5_7fc3),
    (2_147_483_647, 3_397, 0xe3ee_43e0_6d53_c334),
    (2_147_483_648, 3_198, 0x6b94_cdd5_1d2b_a35e),
    (4_294_967_294, 3_917, 0xe36e_60c9_b317_ec93),
    (4_294_967_295, 4_100, 0x392d_c643_097d_1d19),
    (85, 1_647, 0x083e_23cb_a6a2_078f),
    (399, 4_553, 0x663f_b982_5367_821d),
    (7_624, 4_578, 0x4753_b0e6_e1ad_a7fb),
];
