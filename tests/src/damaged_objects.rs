//! Object files that are cut off, changed, or such as no compiler writes: `extract` must end by itself, with status 2, a message on
//! standard error and no file written; or, where a change leaves a right file, with status 0 and all four files.
use crate::Folder;
use independent::random::Random;
use std::fs;
use std::path::Path;
use std::process::Command;
use std::time::Instant;

type Found = (String, Result<(), String>);

/// Changes tried on each file.
const CHANGES: usize = 250;
/// Lengths tried of each file.
const LENGTHS: usize = 250;

/// How the bytes are given to `extract`: as the object file, as it stands and lowered, and as the file of the names.
const WAYS: [&[&str]; 3] = [
    &["extract", "unit.cmo", "1"],
    &["extract", "--lower", "--unroll", "unit.cmo", "1"],
    &["extract", "--unroll", "--names", "unit.cmo", "whole.cmo", "1"],
];
/// A file that is whole, beside one of names that is not.
const WHOLE: &[u8] = include_bytes!("../outside/faults.cmo");
/// The file of its names, and a function of it with several faults, which are told with their lines.
const NAMES: &[u8] = include_bytes!("../outside/g/faults.cmo");
const WITH_FAULTS: &[&str] = &["extract", "--lower", "--names", "unit.cmo", "whole.cmo", "25"];
/// No file takes longer.
const SECONDS: u64 = 10;

/// The status, and what is said on standard error, of the extraction of function 1 from the bytes in one of the ways.
fn extract_by(root: &Path, folder: &Path, bytes: &[u8], way: &[&str]) -> Result<(i32, String), String> {
    fs::write(folder.join("unit.cmo"), bytes).unwrap();
    fs::write(folder.join("whole.cmo"), WHOLE).unwrap();
    let begun = Instant::now();
    let command = root.join("target/cli/release/tickbound");
    let output = Command::new(command).args(way).current_dir(folder).output().map_err(|error| error.to_string())?;
    let took = begun.elapsed();
    for name in ["unit.cmo", "whole.cmo"] {
        fs::remove_file(folder.join(name)).unwrap();
    }
    let left: Vec<_> = fs::read_dir(folder).unwrap().map(|entry| entry.unwrap().path()).collect();
    for path in &left {
        fs::remove_file(path).unwrap();
    }
    let said = String::from_utf8_lossy(&output.stderr).to_string();
    let last = said.lines().last().unwrap_or("");
    let is_told = last.starts_with("tickbound: unit.cmo: ") || last.starts_with("tickbound: whole.cmo: ");
    let wrong = || Err(format!("{way:?}: status {:?}, {} files, said {said:?}", output.status.code(), left.len()));
    if took.as_secs() >= SECONDS || said.contains("a fault of the command itself") {
        return wrong();
    }
    match output.status.code() {
        Some(0) if left.len() == 4 && !last.starts_with("tickbound: ") => Ok((0, said)),
        Some(2) if left.is_empty() && is_told && output.stdout.is_empty() => Ok((2, said)),
        _ => wrong(),
    }
}

/// The same in every way; what is handed back is of the second, which lowers.
fn extract(root: &Path, folder: &Path, bytes: &[u8]) -> Result<(i32, String), String> {
    let mut found = Vec::new();
    for way in WAYS {
        found.push(extract_by(root, folder, bytes, way)?);
    }
    Ok(found.swap_remove(1))
}

fn cut(root: &Path, folder: &Path, bytes: &[u8]) -> Result<(), String> {
    for n in 0..LENGTHS.min(bytes.len()) {
        let length = n * bytes.len() / LENGTHS.min(bytes.len());
        match extract(root, folder, &bytes[..length])? {
            (2, _) => {}
            (status, _) => return Err(format!("its first {length} bytes: status {status}")),
        }
    }
    Ok(())
}

/// Bytes with one change.
fn with_change(bytes: &[u8], random: &mut Random) -> Vec<u8> {
    let mut other = bytes.to_vec();
    let place = random.below(bytes.len());
    match random.below(4) {
        0 => other[place] = random.next() as u8,
        1 => other[place] ^= 1 << random.below(8),
        2 => {
            let end = (place + 4).min(bytes.len());
            other[place..end].fill(*random.pick(&[0, 0x7f, 0xff]));
        }
        _ => other.swap(place, random.below(bytes.len())),
    }
    other
}

fn changed(root: &Path, folder: &Path, bytes: &[u8], random: &mut Random) -> Result<(), String> {
    let mut statuses = [0, 0];
    for _ in 0..CHANGES {
        let other = with_change(bytes, random);
        let (status, _) =
            extract(root, folder, &other).map_err(|what| format!("{what} of {}", other.escape_ascii()))?;
        statuses[usize::from(status == 2)] += 1;
    }
    match statuses {
        [0, _] | [_, 0] => Err(format!("of all changes, {} extracted and {} refused", statuses[0], statuses[1])),
        _ => Ok(()),
    }
}

/// A file of names that is cut off or changed: what is said of the faults may be others' names and lines, and nothing else.
fn names(root: &Path, folder: &Path, random: &mut Random) -> Result<(), String> {
    let (_, whole) = extract_by(root, folder, NAMES, WITH_FAULTS)?;
    if !whole.contains("faults.ml:14: `*` (MULINT)") {
        return Err(format!("of the whole file: {whole}"));
    }
    let mut told = 0;
    for n in 0..CHANGES {
        let (_, said) = extract_by(root, folder, &with_change(NAMES, random), WITH_FAULTS)?;
        told += usize::from(said.contains("(MULINT)"));
        extract_by(root, folder, &NAMES[..n * NAMES.len() / CHANGES], WITH_FAULTS)?;
    }
    match told {
        0 | CHANGES => Err(format!("of all changes, {told} are told with faults")),
        _ => Ok(()),
    }
}

fn marshalled(data: &[u8]) -> Vec<u8> {
    [&[0x84, 0x95, 0xa6, 0xbe], &(data.len() as u32).to_be_bytes()[..], &[0; 12], data].concat()
}

/// An object file of code, with the length of the code and the list of relocations as they are marshalled.
fn object(code: &[i32], length: &[u8], relocations: &[u8]) -> Vec<u8> {
    let code: Vec<u8> = code.iter().flat_map(|word| word.to_le_bytes()).collect();
    // a block of ten fields: the name, the place and the length of the code, the relocations, and six that are empty or 0
    let data = [&[0x08, 0, 0, 0x28, 0, 0x21, b'U', 0x40 | 16], length, relocations, &[0x40; 6]].concat();
    let place = 16 + code.len() as u32;
    [b"Caml1999O030", &place.to_be_bytes()[..], &code, &marshalled(&data)].concat()
}

fn of_code(code: &[i32]) -> Vec<u8> {
    let length = [&[0x02], &(4 * code.len() as u32).to_be_bytes()[..]].concat();
    object(code, &length, &[0x40])
}

const NONE: &[u8] = &[0x40];

/// Files that no compiler writes, and a part of what is said of each.
fn strange() -> Vec<(&'static str, Vec<u8>, &'static str)> {
    let deep = [vec![0x90; 1_000_000], vec![0x40]].concat();
    // of the value behind the unit's name: a pair (the fields of a list), a pair in it, a relocation of tag 3 with a name, and its place
    let item = [0xa0, 0xa0, 0x93, 0x21, b'A', 0x40];
    let valid = of_code(&[84, 3, 40, 1, 43, 0, -4]);
    let with_magic = |magic: &[u8]| [magic, &valid[magic.len()..]].concat();
    vec![
        ("an empty file", vec![], "no object file"),
        ("a text", b"let f x = x\n".to_vec(), "no object file"),
        ("a library", with_magic(b"Caml1999A030"), "no object file"),
        ("a later version", with_magic(b"Caml1999O031"), "Caml1999O031, and that of 4.13 is Caml1999O030"),
        ("an earlier version", with_magic(b"Caml1999O029"), "Caml1999O029, and that of 4.13 is Caml1999O030"),
        (
            "a function that returns what it does not set",
            valid.clone(),
            "word 2: the accumulator is read before it is set",
        ),
        ("no function", of_code(&[99, 143]), "it defines no function"),
        ("a description far behind its end", with_magic(b"Caml1999O030\xff\xff\xff\xff"), "reaches past its end"),
        ("a description that is none", with_magic(b"Caml1999O030\0\0\0\0"), "the first four bytes are others"),
        ("bytes behind the description", [of_code(&[143]), vec![0]].concat(), "bytes follow its description"),
        ("code of 2 GB", object(&[143], &[0x02, 0x7f, 0xff, 0xff, 0xfc], NONE), "its code reaches past its end"),
        ("code of a negative length", object(&[143], &[0x00, 0xfc], NONE), "a size is negative"),
        ("code of half a word", object(&[143], &[0x42], NONE), "not made of whole words"),
        ("a list that does not end", object(&[143], &[0x44], &[&item[..], &[0x04, 4]].concat()), "a list does not end"),
        ("a list in a list, a million deep", object(&[143], &[0x44], &deep), "a record has other fields"),
        (
            "a block of 2^53 fields",
            object(&[], NONE, &[0x13, 0x80, 0, 0, 0, 0, 0, 0, 0]),
            "more fields than there are bytes",
        ),
        ("a string of 2^62 bytes", object(&[], NONE, &[0x15, 0x40, 0, 0, 0, 0, 0, 0, 0]), "it ends within a value"),
        ("floats of 2^64 bytes", object(&[], NONE, &[0x17, 0xff, 0, 0, 0, 0, 0, 0, 0]), "it ends within a value"),
        ("a value that refers to itself", object(&[], NONE, &[0x04, 0]), "one that is not there"),
        ("a value that refers past the first", object(&[], NONE, &[0x04, 9]), "one that is not there"),
        ("a value of no kind", object(&[], NONE, &[0x1f]), "the code 31, which is none"),
        ("a relocation outside the code", object(&[], NONE, &[&item[..], NONE].concat()), "not of a word of its code"),
        ("a relocation of no kind", object(&[143], &[0x44], &[0xa0, 0xa0, 0x94, 0x40, 0x40, 0x40]), "of no kind"),
        ("a word that is no opcode", of_code(&[149]), "the word at 0 of its code is no opcode"),
        ("a negative opcode", of_code(&[-1]), "the word at 0 of its code is no opcode"),
        ("an opcode without its argument", of_code(&[143, 103]), "its code ends within the instruction at 1"),
        ("2^32 - 1 functions", of_code(&[44, -1, 0]), "its code ends within the instruction at 0"),
        ("a match of 131,070 cases", of_code(&[87, -1]), "its code ends within the instruction at 0"),
        ("a function that is nowhere", of_code(&[43, 0, 90]), "a function at"),
        ("a function before the code", of_code(&[43, 0, -90]), "a function at"),
        ("a function within an instruction", of_code(&[84, 3, 40, 1, 43, 0, -3]), "a function at"),
        ("a function that does not end", of_code(&[43, 0, -2]), "an instruction of the function at 0 is outside it"),
        (
            "a branch out of the code",
            of_code(&[84, 3, 84, 99, 43, 0, -4]),
            "the target of a branch of the function at 2 is outside it",
        ),
        (
            "a branch into an instruction",
            of_code(&[84, 4, 84, 2, 19, 1, 43, 0, -6]),
            "the target of a branch of the function at 2 is outside it",
        ),
        (
            "a branch into another function",
            of_code(&[84, 5, 84, 1, 40, 1, 43, 0, -6, 43, 0, -7]),
            "an instruction of the function at 2 is outside it",
        ),
        (
            "a branch before the function",
            of_code(&[84, 5, 99, 84, -2, 40, 1, 43, 0, -6]),
            "an instruction of the function at 3 is outside it",
        ),
        (
            "a branch out of the code that is never reached",
            of_code(&[84, 8, 99, 84, 3, 84, 99, 40, 1, 43, 0, -9]),
            "word 5: BRANCH jumps out of the function",
        ),
        (
            "a branch to itself",
            of_code(&[84, 3, 84, -1, 43, 0, -4]),
            "word 2: a loop whose ends are no constants jumps backwards",
        ),
        ("a call of no primitive", of_code(&[84, 6, 99, 93, 0, 40, 1, 43, 0, -7]), "no relocation names the primitive"),
        ("2^32 arguments", of_code(&[84, 6, 42, -1, 99, 40, 1, 43, 0, -7]), "4294967296 arguments"),
        (
            "entry 64",
            of_code(&[84, 5, 8, 64, 40, 1, 43, 0, -6]),
            "word 2: ACC 64: its argument is at most 63 on the card",
        ),
        (
            "2^30",
            of_code(&[84, 5, 103, 1 << 30, 40, 1, 43, 0, -6]),
            "word 2: the constant 1073741824 is beyond 31 bits",
        ),
    ]
}

/// An object file of a function with these words, which keeps nothing.
fn of_body(body: &[i32]) -> Vec<u8> {
    let length = body.len() as i32;
    of_code(&[&[84, length + 1], body, &[43, 0, -(length + 2)]].concat())
}

/// Files that no compiler writes, and a part of what is said of each when it is lowered.
fn strange_lowered() -> Vec<(&'static str, Vec<u8>, &'static str)> {
    let count = |end: i32| {
        let head = [99, 108, end, 9, 12, 125, 85, 13];
        [&head[..], &[92, 99, 1, 9, 127, 1, 20, 2, 1, 122, 85, -11], &[99, 19, 2, 40, 1]].concat()
    };
    let pops =
        [99, 108, 3, 9, 12, 125, 85, 15, 92, 99, 19, -2_147_483_648, 1, 9, 127, 1, 20, 2, 1, 122, 85, -13, 99, 40, 3];
    vec![
        (
            "what is compared is read",
            of_body(&[0, 131, 3, 3, 40, 1, 40, 1]),
            "the accumulator is read before it is set",
        ),
        (
            "a negative number without sign",
            of_body(&[0, 139, -1, 4, 99, 40, 1, 99, 40, 1]),
            "a comparison without sign (BULTINT) with -1",
        ),
        ("two unknown numbers without sign", of_body(&[0, 10, 137, 40, 1]), "(ULTINT) with no constant"),
        ("a match without cases", of_body(&[0, 87, 0]), "a match over constructors with arguments (SWITCH)"),
        ("what no closure keeps", of_body(&[22, 40, 1]), "(ENVACC 2) is computed when the unit begins"),
        ("a place of a closure below all", of_body(&[25, -2_147_483_648, 40, 1]), "is computed when the unit begins"),
        ("a for of 2^30 turns", of_body(&count(1_073_741_823)), "makes more than 1024 lines"),
        ("a for of 400 turns", of_body(&count(399)), "instructions, and a routine file has at most 1024"),
        ("a for that pops -2^31 entries", of_body(&pops), "POP -2147483648: its argument is at most 64"),
        ("a jump backwards", of_body(&[0, 85, -2, 40, 1]), "jumps backwards"),
        (
            "a stack without an end when the unit begins",
            of_code(&[84, 4, 22, 40, 1, 9, 85, -2, 43, 1, -8]),
            "(ENVACC 2) is computed when the unit begins",
        ),
    ]
}

pub fn damaged(root: &Path, files: &[&str]) -> Vec<Found> {
    let folder = Folder::new("damaged");
    let mut random = Random::new(28);
    let mut found: Vec<Found> = Vec::new();
    for file in files {
        let bytes = fs::read(root.join(file)).unwrap_or_else(|error| panic!("{file}: {error}"));
        let whole = match extract(root, &folder.0, &bytes) {
            Ok((0, _)) => Ok(()),
            other => Err(format!("{other:?}")),
        };
        found.push((file.to_string(), whole));
        found.push((format!("{file}, cut off"), cut(root, &folder.0, &bytes)));
        found.push((format!("{file}, changed"), changed(root, &folder.0, &bytes, &mut random)));
    }
    found.push(("the file of names, cut off and changed".into(), names(root, &folder.0, &mut random)));
    let of_plain = |bytes: &[u8]| extract(root, &folder.0, bytes).and(extract_by(root, &folder.0, bytes, WAYS[0]));
    let plain = strange().into_iter().map(|(name, bytes, part)| (name, of_plain(&bytes), part));
    let lowered = strange_lowered().into_iter();
    let lowered = lowered.map(|(name, bytes, part)| (name, extract_by(root, &folder.0, &bytes, WAYS[1]), part));
    for (name, said, part) in plain.chain(lowered) {
        found.push((
            name.to_string(),
            match said {
                Ok((2, text)) if text.contains(part) => Ok(()),
                other => Err(format!("{other:?}, without {part:?}")),
            },
        ));
    }
    found
}
