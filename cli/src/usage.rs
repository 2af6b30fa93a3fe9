//! What the command says of itself.
use crate::place;

/// A command: how it is called, what it does in a few words, and the whole of it.
pub struct Usage {
    pub name: &'static str,
    pub call: &'static str,
    pub summary: &'static str,
    pub text: &'static str,
}

const WHY: &str = "--why explains a refusal on standard error";

pub const COMMANDS: [Usage; 19] = [
    Usage {
        name: "decide",
        call: "decide [--why] [FILE]",
        summary: "whether a routine fits in its tick: FITS, OVER or UNDECIDED",
        text: "\
Prints whether a routine fits in its tick, as DECISION BOUND CYCLES TICK WORDS DEPTH STEPS and their values.
FITS: no run of the routine, for any input that the file allows, spends more than TICK cycles, takes more than WORDS
words or is deeper than DEPTH. OVER: the bound over all paths is above TICK. UNDECIDED: there are too many paths to
walk, and the merging bound is above TICK. BOUND says which of the two bounds decided.
Exit status: 0 FITS, 4 OVER or UNDECIDED, 1 refused, 2 anything else.",
    },
    Usage {
        name: "bound",
        call: "bound [--why] [FILE]",
        summary: "the report over all paths",
        text: "\
Prints the report of a routine: CYCLES WORDS DEPTH STEPS SHARE PATH and their values, for every input that the routine
can meet: each `?` in the file is any number, each range, as 0..1008, any of its numbers.
Exit status: 0 a report, 1 refused, 2 anything else.",
    },
    Usage {
        name: "merge",
        call: "merge [--why] [FILE]",
        summary: "the report of the merging bound, for a routine with too many paths to walk",
        text: "\
Prints the report of the merging bound, for a routine with too many paths to walk: states are merged where ways meet.
CYCLES, WORDS and DEPTH are never below those of `bound`, STEPS is the number of addresses reached, and PATH is `-`.
BUDGET plays no part.
Exit status: 0 a report, 1 refused, 2 anything else.",
    },
    Usage {
        name: "run",
        call: "run [--why] [FILE]",
        summary: "the figures of the one run that a file gives",
        text: "\
Makes the one run that the file gives (no `?` in it and no range of more than one number) and prints CYCLES WORDS DEPTH
STEPS.
Exit status: 0 a report, 1 refused, 2 anything else.",
    },
    Usage {
        name: "explain",
        call: "explain [--why] [--merge] [FILE]",
        summary: "the report, and the steps of the worst path",
        text: "\
Prints the report of `bound`, and then the steps of the worst path, one to a line, under AT OP ARG CYCLES WORDS DEPTH
WAY: CYCLES and WORDS are the sums so far, DEPTH is the height before the step, and WAY is N or T at an unknown branch
and - elsewhere.
--merge prints the report of `merge`, and then a costliest way through the merged states under the same names: CYCLES and
WORDS are the sums on this way, DEPTH is the height of the merged state, and WAY is N or T where its step opens two ways.
Ways meet there, so a run need not take this way as a whole. Of several costliest ways it is the one whose STOP is lowest;
back from there the lowest origin counts, and T at a branch of which both ways lead to the same address.
Exit status: 0 a report, 1 refused, 2 anything else.",
    },
    Usage {
        name: "split",
        call: "split [--why] FILE CELL:N,N.. .. | split [--why] --cuts CUTS FILE",
        summary: "the report of the merging bound by cases, made by cutting cells at numbers",
        text: "\
Prints the report of the bound by cases. Each cell that is named is cut at its numbers, as S2:500,900 into the numbers
below 500, those from 500 to 899 and those from 900 on; each choice of one part of each cell is a case. The merging bound is
made of each case, and the largest of each figure is printed, under the names of `bound`, with PATH `-`. No figure is above
that of `merge`, and more cuts never give more. A handle, and a number that does not divide its cell, is passed over.
--cuts takes the cuts from a file: the line CELL FROM, and then at most 16 lines of a cell and a number.
K cuts make at most 2^K cases, so 65,536 at most, and each takes as long as `merge` does.
With a refusal it says on standard error where the place is: in the routine file, in the cuts, where CELL FROM is line 1
also if they were given as words, or an address of a case.
Exit status: 0 a report, 1 refused, 2 anything else.",
    },
    Usage {
        name: "tighten",
        call: "tighten [--why] [--passes N] FILE",
        summary: "chooses cuts that lower the merging bound, and prints `split` with them",
        text: "\
Chooses cuts for `split`, and prints its report and then the cuts, as a file for --cuts has them (tail -n +3 takes them
out). It tries the numbers that the code compares with and one more than each, in each cell with more than one number, and
takes the cut that lowers CYCLES most; if none does, one that leaves fewer cases with as many CYCLES, or the two that
separate one number from the others of its cell. It ends when none helps, when 16 are used, or after N merging bounds
(20,000 without --passes). The report of `split` is proved for all cuts; so how they are chosen is not proved, and need not
be. Other cuts may give less. --why adds to standard error how many cases and merging bounds there were, or explains a
refusal.
Exit status: 0 a report, 1 refused, 2 anything else.",
    },
    Usage {
        name: "sheet",
        call: "sheet [--why] [--html] [--nearest] [--card CARD] [--cells CELLS] [--cuts CUTS] FILE",
        summary: "the field sheet of a routine, as text or as a page",
        text: "\
Prints the field sheet of a routine, to be signed. The decision of `decide` comes first (FITS, OVER, NOT DECIDED or
REFUSED), then the lines of FIELD-SHEET.md with the figures, the inputs for which they hold and the numbers that they
assume, then the worst path or the code. The file's name, its SHA-256, the version and the page number are on every page.
--html prints it as a page for a browser and for paper, A4 or Letter. --card names the card on it, whose nine lines the
file must have; --cells prints the labels of a cells file. --nearest adds the nearest number that moves the bound, which
can take minutes. With --cuts the bound by cases (`split`) decides, FITS or NOT DECIDED, and the cuts stand on the sheet.
Exit status: 0 FITS, 4 OVER or NOT DECIDED, 1 refused, 2 anything else.",
    },
    Usage {
        name: "nearest",
        call: "nearest [--why] [FILE]",
        summary: "the nearest change of one number that moves the bound, or NONE",
        text: "\
Prints the nearest single change of a start or block cell that holds one number, of at least 1 and at most 64, that
alters CYCLES of `bound` or makes the routine refused by 7, 8 or 9: the cell's name and its new value; or NONE. The
smallest change comes first, then the cell earlier in the file, then downwards. It may calculate 19,738 bounds, each
under the file's BUDGET, so that a search takes milliseconds for most files and minutes for the largest.
--why prints on standard error what CYCLES becomes, or the refusal.
Exit status: 0 a change or NONE, 1 refused, 2 anything else.",
    },
    Usage {
        name: "preview",
        call: "preview [--why] ROUTINE ADDRESS INSTRUCTION",
        summary: "the report of a file as it would be with one instruction replaced",
        text: "\
Prints what `bound` would print of a copy of the routine file ROUTINE in which INSTRUCTION stands after ADDRESS and a
space, as preview FILE 4 'OFFSETINT 2'; the file stays as it is. An ADDRESS outside the code is refused by 4, with the
address as the place. If it is refused, standard error says whether the place is in the routine file, in the copy, or is
the address. ADDRESS is a number of 32 bits without leading zeros.
Exit status: 0 a report, 1 refused, 2 anything else.",
    },
    Usage {
        name: "trace",
        call: "trace [--why] [FILE]",
        summary: "the run of a file as a card would record it",
        text: "\
Makes the one run that the file gives (as for run) and prints it as a card would record it, for `replay`: a line for each
step under `AT CYCLES`, with the step's address and what it costs, its primitive and a jump that is taken included. STOP
is the last.
Exit status: 0 a trace, 1 refused, 2 anything else.",
    },
    Usage {
        name: "replay",
        call: "replay [--why] ROUTINE TRACE",
        summary: "whether a card's trace agrees with the run of a file",
        text: "\
Compares a card's trace (the file TRACE, lines under `AT CYCLES`) with the run of the routine file ROUTINE (as for run)
and prints AGREES, or DIFFERS and the number of the first line of the trace that differs. If it is refused, standard
error says which of the two files the place is in. --why prints the run's step and the trace's.
Exit status: 0 agrees, 3 differs, 1 refused, 2 anything else.",
    },
    Usage {
        name: "import",
        call: "import [--why] WORDS PRIMITIVES",
        summary: "lines of code made of the compiler's words",
        text: "\
Prints the lines of the code that the file WORDS holds as the compiler's words (32 bits, the lowest byte first, OCaml
4.13.1), from `AT OP ARG` on; PRIMITIVES is the line of primitives, as 'READ LOG', or '-' for none.
Exit status: 0 lines, 1 refused, 2 anything else.",
    },
    Usage {
        name: "export",
        call: "export [--why] [FILE]",
        summary: "the compiler's words of a file's code",
        text: "\
Prints the words of a routine's code, as bytes.
Exit status: 0 words, 1 refused, 2 anything else.",
    },
    Usage {
        name: "generate",
        call: "generate [--why] SEED",
        summary: "a routine file for tests from a seed",
        text: "\
Prints the routine file of a seed, a number of 32 bits without leading zeros and other than 0, as a test load: the same
seed gives the same file at every site and in every later version (GENERATOR.md). No file is refused by 1 to 6 or 13.
Exit status: 0 a file, 1 refused, 2 anything else.",
    },
    Usage {
        name: "price",
        call: "price [--cells CELLS] CARD FILE",
        summary: "a routine file with the prices of a card, and with its cells filled in",
        text: "\
Prints FILE, a routine file or what `extract` wrote, with the nine lines of the card file CARD in the place of its first
nine: BUDGET, TICK, and the kinds and primitives with their prices. Every kind and primitive that the code uses must have
a price there. --cells fills in the cells that the cells file CELLS has, on lines `CELL VALUE LABEL`, as
S1 0..1008 client count; a cell that is still `_` is an error. ROUTINE-FILE.md describes both files. FILE stays as it is.
Exit status: 0 the file is printed, 2 anything else.",
    },
    Usage {
        name: "extract",
        call: "extract [--unroll] [--names WITH_G.cmo] FILE.cmo | extract [--lower] [--unroll] [--names WITH_G.cmo] \
               [--card CARD] [--cells CELLS] FILE.cmo FUNCTION",
        summary: "a routine from an object file of the compiler",
        text: "\
Lists the functions of an object file of `ocamlc -c` (OCaml 4.13, one unit) under the names NUMBER NAME ADDRESS LENGTH
ARGUMENTS PRIMITIVES KINDS. KINDS is `yes` where a function is extracted as it stands, `lowered` where --lower does it,
or else how many faults it has. FUNCTION is a NUMBER or a NAME of that list. It is written into the working folder, as
FILE-FUNCTION.words and FILE-FUNCTION.primitives for `import`, and FILE-FUNCTION.txt, a routine file with the imported
code. TICK, the prices and the cells are `_` in it until they are filled in, and until then the file is refused by 2.
FILE-FUNCTION.cells is a cells file with every cell of the function. --card CARD and --cells CELLS fill the routine file
in, as `price` does. If the function uses what no card has, all faults are reported on standard error, with what to do,
and nothing is written.
--lower writes the function in the 61 kinds: comparisons that are joined with a branch, a match over constants, constants
of the module, and branches onto branches (EXTRACTION.md). It reports on standard error what it did. --unroll does that
too, and writes out a `for` between constants. --names takes names and lines from the same unit compiled with -g.
The extraction is tested and not proved: the bound holds for the routine file.
Exit status: 0 done, 2 not done.",
    },
    Usage {
        name: "batch",
        call: "batch [--why] COMMAND FILE.. | batch [--why] COMMAND --seeds A-B",
        summary: "bound, merge, run or decide of many files, or of many seeds",
        text: "\
Answers COMMAND (bound, merge, run or decide) for each file, or for the file of each seed from A to B, in one line:
the name or the seed, REPORT or REFUSED, and the values, separated by tabs. A file that cannot be read has a message on
standard error and no line. Control characters in a name are written as escapes. On a terminal standard error shows the
progress.
Exit status: 2 a file could not be read, else 1 any was refused, else 4 any is OVER or UNDECIDED, else 0.",
    },
    Usage {
        name: "install",
        call: "install PREFIX",
        summary: "puts the command and what belongs to it into a folder",
        text: "\
Copies the command into PREFIX/bin, the header and the static library for C into PREFIX/include and PREFIX/lib (with
PREFIX/lib/pkgconfig/tickbound.pc), the documents and examples into PREFIX/share/doc/tickbound, and the man page into
PREFIX/share/man/man1. A copy needs neither rt nor the repository, and it may be moved.
Exit status: 0 done, 2 not done.",
    },
];

/// Whether a command is asked for its help: before `--`.
pub fn is_asked(arguments: &[String]) -> bool {
    arguments.iter().take_while(|argument| *argument != "--").any(|argument| argument == "--help" || argument == "-h")
}

/// The help of one command.
pub fn of(name: &str) -> Option<String> {
    let usage = COMMANDS.iter().find(|usage| usage.name == name)?;
    let calls = usage.call.replace(" | ", "\n       tickbound ");
    let mut text = format!("usage: tickbound {calls}\n\n{}\n", usage.text);
    if usage.call.contains("[FILE]") {
        text += "\nFILE is a routine file; without it, or with -, the routine is read from standard input.";
        text += " After -- a name may begin with -.\n";
    }
    if usage.call.contains("[--why]") && !usage.text.contains("--why") {
        text += &format!("{WHY}.\n");
    }
    Some(text)
}

/// The help of the whole.
pub fn all() -> String {
    let line = |usage: &Usage| format!("  {:<9} {}\n", usage.name, usage.summary);
    let commands: String = COMMANDS.iter().map(line).collect();
    let documents = place::documents();
    format!(
        "\
usage: tickbound COMMAND [ARGUMENTS]
       tickbound COMMAND --help
       tickbound --version
       tickbound --help

{commands}
Most commands read one routine file, FILE; without it, or with -, they read standard input. Options stand anywhere before
--, after which every word is a name. A refusal prints `REFUSED`, a number and a place, and no figure.
{WHY}.

exit status: 0 what was asked for, 1 a refusal, 3 a trace that differs, 4 OVER or UNDECIDED (decide, sheet, batch),
2 anything else

documents: {documents}
"
    )
}

#[cfg(test)]
mod tests {
    use super::*;

    #[test]
    fn every_command_has_its_help() {
        for usage in &COMMANDS {
            let text = of(usage.name).unwrap();
            assert!(text.starts_with(&format!("usage: tickbound {}", usage.name)), "{text}");
            assert!(text.contains("Exit status: "), "{text}");
            assert!(text.lines().all(|line| line.len() <= 130), "{text}");
            assert!(all().contains(&format!("  {:<9} ", usage.name)));
        }
        assert!(of("bond").is_none());
    }

    #[test]
    fn help_is_asked_before_the_two_dashes() {
        let words = |words: &[&str]| words.iter().map(|word| word.to_string()).collect::<Vec<_>>();
        assert!(is_asked(&words(&["a", "--help"])));
        assert!(!is_asked(&words(&["--", "--help"])));
    }
}
