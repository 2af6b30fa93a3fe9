//! Files for the costliest way through merged states: an accepted file with prices so small that sums are often alike, and with more STOPs.
use crate::random::Random;
use crate::routine::{argument, jumps_at_a_cost, line};

/// A line of values of a list, each drawn anew; an empty list stays.
fn drawn(names: &str, mut value: impl FnMut(&str) -> usize) -> String {
    match names {
        "-" => "-".to_string(),
        _ => names.split(' ').map(|name| value(name).to_string()).collect::<Vec<_>>().join(" "),
    }
}

/// A file that passes refusals 1 to 6 and 13, with other prices and, where STOP has one, with up to four STOPs in the place of lines of its
/// code.
pub fn nearly_alike(random: &mut Random, text: &[u8]) -> Vec<u8> {
    let mut lines: Vec<String> = std::str::from_utf8(text).unwrap().lines().map(str::to_string).collect();
    let most = *random.pick(&[0, 1, 1, 5]);
    let [kinds, primitives] = [line::KINDS, line::PRIMITIVES].map(|n| lines[n - 1].clone());
    lines[line::KIND_CYCLES - 1] = drawn(&kinds, |_| random.within(0, most));
    lines[line::KIND_WORDS - 1] = drawn(&kinds, |_| random.within(0, most));
    lines[line::KIND_EXTRAS - 1] =
        drawn(&kinds, |kind| if jumps_at_a_cost(kind.as_bytes()) { random.within(0, most) } else { 0 });
    lines[line::PRIMITIVE_CYCLES - 1] = drawn(&primitives, |_| random.within(0, most));
    lines[line::PRIMITIVE_WORDS - 1] = drawn(&primitives, |_| random.within(0, most));
    let is_code = |l: &String| l.split(' ').nth(1).is_some_and(|op| argument(op.as_bytes()).is_some());
    let code = lines[line::CODE - 1..].iter().take_while(|l| is_code(l)).count();
    if kinds.split(' ').any(|kind| kind == "STOP") {
        for _ in 0..random.below(5) {
            let n = line::CODE - 1 + random.below(code);
            let at = lines[n].split(' ').next().unwrap();
            lines[n] = format!("{at} STOP -");
        }
    }
    lines.iter().flat_map(|l| [l, "\n"]).collect::<String>().into_bytes()
}
