//! own-time FIRST LAST: the library alone makes the files of these seeds and answers their bounds, and prints nothing: what a batch is
//! held against.
use independent::analyser::{bound, generate};

fn main() {
    let seeds: Vec<u32> = std::env::args().skip(1).map(|word| word.parse().expect("a seed")).collect();
    let mut file = vec![0; 32768];
    let mut report = [0; 128];
    for seed in seeds[0]..=seeds[1] {
        let length = generate(seed, &mut file) as usize;
        std::hint::black_box(bound(&file[..length], &mut report));
    }
}
