//! The exported functions stand in three places: the `.rt` files, the C
//! header and the Rust declarations. Names, order and types of their
//! parameters are the same in all three, and each library has its own.

use std::collections::BTreeMap;
use std::fs;
use std::path::{Path, PathBuf};
use std::process::Command;

/// The crates that export functions, and their built libraries.
const EXPORTS: [(&str, &str); 3] = [
    ("ffi_numbers_c", env!("SECONDCOOP_NUMBERS_ARCHIVE")),
    ("ffi_plans", env!("SECONDCOOP_PLANS_ARCHIVE")),
    ("ffi_planner", env!("SECONDCOOP_PLANNER_ARCHIVE")),
];

fn root() -> PathBuf {
    Path::new(env!("CARGO_MANIFEST_DIR")).join("..")
}

fn read(path: &str) -> String {
    fs::read_to_string(root().join(path)).unwrap_or_else(|error| panic!("{path}: {error}"))
}

/// A function as C has it: name and type of each parameter, and what it
/// returns.
#[derive(Clone, Debug, PartialEq, Eq)]
struct Function {
    parameters: Vec<(String, String)>,
    returns: String,
}

type Functions = BTreeMap<String, Function>;

/// A text without comments between two marks.
fn without(text: &str, begin: &str, end: &str) -> String {
    let mut rest = text;
    let mut kept = String::new();
    while let Some((front, behind)) = rest.split_once(begin) {
        kept.push_str(front);
        rest = behind.split_once(end).map_or("", |(_, after)| after);
        kept.push(' ');
    }
    kept + rest
}

/// The text between parentheses that begins here, and what follows it.
fn parenthesized(text: &str) -> (&str, &str) {
    text.trim_start()
        .strip_prefix('(')
        .and_then(|inner| inner.split_once(')'))
        .expect("parameters stand between parentheses")
}

/// Parts between commas outside brackets, without what follows the last.
fn parts(list: &str) -> impl Iterator<Item = &str> {
    list.split(',')
        .map(str::trim)
        .filter(|part| !part.is_empty())
}

/// A number's type in C.
fn c_number(rust: &str) -> &'static str {
    match rust {
        "u8" => "uint8_t",
        "u32" => "uint32_t",
        "u64" => "uint64_t",
        "usize" => "size_t",
        _ => panic!("{rust} has no type in C"),
    }
}

/// What a function returns, as C has it; the text begins behind its
/// parameters.
fn returned(text: &str) -> String {
    match text.trim_start().strip_prefix("->") {
        Some(kind) => c_number(kind.split([';', '{', '\n']).next().unwrap_or("").trim()).into(),
        None => "void".into(),
    }
}

/// A parameter of an export as C has it: a slice is a pointer and a length,
/// an array or one number that is lent a pointer; C has no lifetimes.
fn in_c(name: &str, kind: &str) -> Vec<(String, String)> {
    let Some(pointed) = kind.strip_prefix('&') else {
        return vec![(name.into(), c_number(kind).into())];
    };
    let pointed = match pointed.strip_prefix('\'') {
        Some(lifetime) => lifetime.split_once(' ').expect("a lifetime ends").1,
        None => pointed,
    };
    let (pointed, constant) = match pointed.strip_prefix("mut ") {
        Some(pointed) => (pointed, ""),
        None => (pointed, "const "),
    };
    let pointer = |element| (name.into(), format!("{constant}{} *", c_number(element)));
    let list = pointed
        .strip_prefix('[')
        .and_then(|list| list.strip_suffix(']'));
    match list.map(|list| list.split_once("; ").ok_or(list)) {
        None => vec![pointer(pointed)],
        Some(Ok((element, _))) => vec![pointer(element)],
        Some(Err(element)) => vec![
            pointer(element),
            (format!("{name}_length"), "size_t".into()),
        ],
    }
}

#[test]
fn parameters_are_as_c_has_them() {
    for (kind, wanted) in [
        ("u32", &[("x", "uint32_t")][..]),
        ("&mut u32", &[("x", "uint32_t *")]),
        ("&u64", &[("x", "const uint64_t *")]),
        ("&[u8; 4]", &[("x", "const uint8_t *")]),
        ("&mut [u32; 32]", &[("x", "uint32_t *")]),
        (
            "&[u32]",
            &[("x", "const uint32_t *"), ("x_length", "size_t")],
        ),
        ("&mut [u64]", &[("x", "uint64_t *"), ("x_length", "size_t")]),
        (
            "&'a [u32]",
            &[("x", "const uint32_t *"), ("x_length", "size_t")],
        ),
        ("&'a mut u32", &[("x", "uint32_t *")]),
    ] {
        let parameters = in_c("x", kind);
        let parameters = parameters.iter().map(|(name, kind)| (&name[..], &kind[..]));
        assert!(parameters.eq(wanted.iter().copied()), "{kind}");
    }
}

/// The exports of a `.rt` file.
fn exported(source: &str) -> Functions {
    let source = without(source, "//", "\n");
    let mut functions = Functions::new();
    for text in source.split("#[unsafe(no_mangle)]").skip(1) {
        let text = text.trim_start().strip_prefix("pub extern \"C\" fn ");
        let (name, text) = text
            .and_then(|text| text.split_once('('))
            .expect("an export");
        let (name, _) = name.split_once('<').unwrap_or((name, "lifetimes"));
        let (list, after) = text.split_once(')').expect("parameters end");
        let parameter = |part: &str| {
            let (name, kind) = part.split_once(": ").expect("a parameter has a type");
            in_c(name, kind)
        };
        functions.insert(
            name.into(),
            Function {
                parameters: parts(list).flat_map(parameter).collect(),
                returns: returned(after),
            },
        );
    }
    functions
}

/// The functions of a C header.
fn declared_in_c(header: &str) -> Functions {
    let header = without(header, "/*", "*/").replace("\\\n", " ");
    let lines = header.lines().filter(|line| !line.starts_with('#'));
    let header = lines.collect::<Vec<_>>().join(" ");
    let mut functions = Functions::new();
    for text in header.split([';', '{', '}']) {
        let Some((front, list)) = text.split_once('(') else {
            continue;
        };
        let (returns, name) = front
            .trim()
            .rsplit_once(' ')
            .expect("a function has a type");
        let list = list.trim_end().strip_suffix(')').expect("parameters end");
        let parameter = |part: &str| {
            let at = part.rfind([' ', '*']);
            let (kind, name) = part.split_at(at.expect("a parameter has a type") + 1);
            let kind = kind.split_whitespace().collect::<Vec<_>>().join(" ");
            (name.to_string(), kind)
        };
        functions.insert(
            name.into(),
            Function {
                parameters: parts(list).map(parameter).collect(),
                returns: returns.trim().into(),
            },
        );
    }
    functions
}

/// The functions of a Rust file's `extern "C"` block.
fn declared_in_rust(source: &str) -> Functions {
    let (_, block) = source.split_once("extern \"C\" {").expect("a block");
    let (block, _) = block.split_once("\n}").expect("the block ends");
    let mut functions = Functions::new();
    for text in block.split("fn ").skip(1) {
        let at = text.find('(').expect("parameters begin");
        let (name, text) = text.split_at(at);
        let (list, after) = parenthesized(text);
        let parameter = |part: &str| {
            let (name, kind) = part.split_once(": ").expect("a parameter has a type");
            let kind = match (kind.strip_prefix("*const "), kind.strip_prefix("*mut ")) {
                (Some(element), _) => format!("const {} *", c_number(element)),
                (_, Some(element)) => format!("{} *", c_number(element)),
                _ => c_number(kind).into(),
            };
            (name.to_string(), kind)
        };
        functions.insert(
            name.into(),
            Function {
                parameters: parts(list).map(parameter).collect(),
                returns: returned(after),
            },
        );
    }
    functions
}

/// What differs, a line for each function.
fn differences(one: &Functions, other: &Functions) -> Vec<String> {
    let names = one.keys().chain(other.keys());
    let mut lines: Vec<String> = names
        .filter(|name| one.get(*name) != other.get(*name))
        .map(|name| format!("{name}: {:?} and {:?}", one.get(name), other.get(name)))
        .collect();
    lines.sort();
    lines.dedup();
    lines
}

/// The code of a crate: all its `.rt` files, `lib.rt` first.
fn code(name: &str) -> String {
    let directory = root().join(format!("crates/{name}/src"));
    let entries = fs::read_dir(directory).expect("the crate has code");
    let mut files: Vec<String> = entries
        .map(|entry| entry.expect("it can be listed").file_name())
        .map(|file| file.to_string_lossy().into_owned())
        .collect();
    files.sort_by_key(|file| (file != "lib.rt", file.clone()));
    let texts = files.iter();
    texts
        .map(|file| read(&format!("crates/{name}/src/{file}")))
        .collect()
}

/// All exports of the `.rt` files.
fn all_exported() -> Functions {
    let sources = EXPORTS.map(|(name, _)| code(name));
    sources.iter().flat_map(|source| exported(source)).collect()
}

#[test]
fn three_places_say_the_same() {
    let exported = all_exported();
    assert_eq!(exported.len(), 12);
    let header = declared_in_c(&read("include/secondcoop.h"));
    assert_eq!(differences(&exported, &header), Vec::<String>::new());
    let rust = declared_in_rust(&read("rust/src/ffi.rs"));
    assert_eq!(differences(&exported, &rust), Vec::<String>::new());
}

/// A text with one part in place of another, once.
fn changed(text: &str, old: &str, new: &str) -> String {
    assert!(text.contains(old), "{old}");
    text.replacen(old, new, 1)
}

/// Changes that must be found to differ.
fn all_found(read: impl Fn(&str) -> Functions, text: &str, changes: &[(&str, &str)]) {
    let whole = read(text);
    for (old, new) in changes {
        let other = read(&changed(text, old, new));
        assert!(!differences(&whole, &other).is_empty(), "{old} -> {new}");
    }
}

#[test]
fn a_change_in_the_header_is_found() {
    let header = read("include/secondcoop.h");
    let changes = [
        (
            "uint32_t start, uint32_t goal",
            "uint32_t goal, uint32_t start",
        ),
        (
            "uint32_t goal, uint32_t barred",
            "uint32_t barred, uint32_t goal",
        ),
        (
            "uint32_t *classes, size_t classes_length,",
            "uint32_t *classes,",
        ),
        ("uint32_t budget", "uint64_t budget"),
        ("const uint32_t *anchor", "uint32_t *anchor"),
        (
            "uint32_t *log, size_t log_length",
            "size_t log_length, uint32_t *log",
        ),
        ("uint64_t *wide", "uint32_t *wide"),
        ("uint64_t *wide, size_t wide_length,", ""),
        (
            "size_t at, uint64_t *figures",
            "uint64_t *figures, size_t at",
        ),
        ("size_t secondcoop_bench_text", "void secondcoop_bench_text"),
        ("void secondcoop_check_plan", "void secondcoop_check_plans"),
        ("uint32_t guide_count,", ""),
        (
            "void secondcoop_plan(",
            "void secondcoop_other(int i); void secondcoop_plan(",
        ),
    ];
    all_found(declared_in_c, &header, &changes);
}

/// The default schedule, which the interface calls a house, in all three.
#[test]
fn a_change_at_the_house_is_found() {
    let header = [
        (
            "const uint32_t *house, size_t house_length,",
            "const uint32_t *house,",
        ),
        ("const uint32_t *sheet", "uint32_t *sheet"),
        ("uint32_t secondcoop_load", "void secondcoop_load"),
        ("uint32_t *numbers, uint32_t *count", "uint32_t *numbers"),
    ];
    all_found(declared_in_c, &read("include/secondcoop.h"), &header);
    let declarations = [
        ("house: *const u32", "house: *mut u32"),
        ("count: *mut u32", "count: *mut u64"),
        (") -> u32;", ");"),
    ];
    all_found(declared_in_rust, &read("rust/src/ffi.rs"), &declarations);
    let exports = [
        ("count: &mut u32", "count: u32"),
        ("house: &'a [u32]", "house: &'a mut [u32]"),
        ("sheet: &[u32]", "sheet: &[u32; 32]"),
    ];
    all_found(exported, &code("ffi_planner"), &exports);
}

/// Both functions that explain, in all three.
#[test]
fn a_change_at_the_explanation_is_found() {
    let header = [
        (
            "uint32_t *places, size_t places_length,",
            "uint32_t *places,",
        ),
        ("uint32_t *places,", "const uint32_t *places,"),
        (
            "uint32_t *lanes, size_t lanes_length",
            "size_t lanes_length, uint32_t *lanes",
        ),
        (
            "size_t secondcoop_explain_text",
            "void secondcoop_explain_text",
        ),
        ("void secondcoop_explain(", "void secondcoop_explains("),
    ];
    all_found(declared_in_c, &read("include/secondcoop.h"), &header);
    let declarations = [
        ("places: *mut u32", "places: *const u32"),
        ("        lanes_length: usize,\n", ""),
        ("fn secondcoop_explain(", "fn secondcoop_explains("),
    ];
    all_found(declared_in_rust, &read("rust/src/ffi.rs"), &declarations);
    let exports = [
        ("places: &mut [u32]", "places: &[u32]"),
        ("lanes: &mut [u32]", "lanes: &mut [u64]"),
    ];
    all_found(exported, &code("ffi_planner"), &exports);
}

#[test]
fn a_change_in_the_rust_declarations_is_found() {
    let source = read("rust/src/ffi.rs");
    let changes = [
        (
            "start: u32,\n        goal: u32",
            "goal: u32,\n        start: u32",
        ),
        ("        barred: u32,\n", ""),
        ("wide: *mut u64", "wide: *mut u32"),
        ("        wide_length: usize,\n", ""),
        ("classes: *const u32", "classes: *mut u32"),
        ("budget: u32", "budget: u64"),
        ("anchor: *const u32", "anchor: *mut u32"),
        (") -> usize;", ");"),
        ("fn secondcoop_check_plan(", "fn secondcoop_check_plans("),
        ("        guide_count: u32,\n", ""),
    ];
    all_found(declared_in_rust, &source, &changes);
}

#[test]
fn a_change_in_the_exports_is_found() {
    let source = code("ffi_planner");
    let changes = [
        (
            "    start: u32,\n    goal: u32",
            "    goal: u32,\n    start: u32",
        ),
        ("log: &mut [u32]", "log: &[u32]"),
        ("work: &mut [u32]", "work: &mut [u64]"),
        ("wide: &mut [u64]", "wide: &mut [u32]"),
        ("-> usize", "-> u32"),
        ("#[unsafe(no_mangle)]", ""),
    ];
    all_found(exported, &source, &changes);
}

/// Symbols of a library by `nm`: kind and name of each.
fn symbols(archive: &str) -> Vec<(char, String)> {
    let output = Command::new("nm").arg(archive).output().expect("nm runs");
    assert!(output.status.success());
    let text = String::from_utf8(output.stdout).expect("plain text");
    let symbol = |line: &str| {
        let words: Vec<&str> = line.split_whitespace().collect();
        match words[..] {
            [.., kind, name] if kind.len() == 1 => Some((kind.chars().next()?, name.into())),
            _ => None,
        }
    };
    text.lines().filter_map(symbol).collect()
}

/// A figures list has as many numbers as the header's macro says.
#[test]
fn figures_are_as_many_as_the_header_says() {
    let header = read("include/secondcoop.h");
    let number = |macro_name: &str| {
        let line = format!("#define {macro_name} ");
        let text = header.split_once(&line).map(|(_, text)| text);
        let number = text.and_then(|text| text.lines().next());
        number.expect("a macro").to_string()
    };
    for (name, counts) in [
        ("ffi_numbers_c", &[("SECONDCOOP_FIGURES", 3)][..]),
        ("ffi_plans", &[("SECONDCOOP_FIGURES", 3)]),
        (
            "ffi_planner",
            &[
                ("SECONDCOOP_PLAN_FIGURES", 1),
                ("SECONDCOOP_EXPLAIN_FIGURES", 1),
            ],
        ),
    ] {
        let source = code(name);
        for (macro_name, functions) in counts {
            let figures = format!("figures: &mut [u64; {}]", number(macro_name));
            assert_eq!(source.matches(&figures).count(), *functions, "{name}");
        }
        let all = counts.iter().map(|(_, functions)| functions).sum::<usize>();
        assert_eq!(source.matches("figures: ").count(), all, "{name}");
    }
}

/// Sections of a library by `objdump`: name, size and flags of each.
fn sections(archive: &str) -> Vec<(String, u64, String)> {
    let output = Command::new("objdump").arg("-h").arg(archive).output();
    let output = output.expect("objdump runs");
    assert!(output.status.success());
    let text = String::from_utf8(output.stdout).expect("plain text");
    let lines: Vec<&str> = text.lines().collect();
    let section = |pair: &[&str]| {
        let words: Vec<&str> = pair[0].split_whitespace().collect();
        let [index, name, size, ..] = words[..] else {
            return None;
        };
        index.parse::<u32>().ok()?;
        let size = u64::from_str_radix(size, 16).ok()?;
        Some((name.into(), size, pair[1].trim().into()))
    };
    lines.windows(2).filter_map(section).collect()
}

/// No section that is loaded can be written: there is no global state.
#[test]
fn libraries_have_nothing_to_write() {
    for (name, archive) in EXPORTS {
        let sections = sections(archive);
        let loaded = sections
            .iter()
            .filter(|(_, size, flags)| *size > 0 && flags.contains("ALLOC"));
        assert!(loaded.clone().any(|(_, _, flags)| flags.contains("CODE")));
        for (section, _, flags) in loaded {
            assert!(flags.contains("READONLY"), "{name}: {section} {flags}");
            assert!(!section.contains("eh_frame"), "{name} has unwind tables");
        }
    }
}

/// All relocations are relative to the code: it is position-independent.
#[test]
fn libraries_are_position_independent() {
    let mut count = 0;
    for (name, archive) in EXPORTS {
        let output = Command::new("objdump").arg("-r").arg(archive).output();
        let text = String::from_utf8(output.expect("objdump runs").stdout);
        let text = text.expect("plain text");
        let words = text.split_whitespace();
        for kind in words.filter(|word| word.starts_with("R_X86_64")) {
            let relative = ["R_X86_64_PC32", "R_X86_64_PLT32"].contains(&kind);
            assert!(relative, "{name}: {kind}");
            count += 1;
        }
    }
    assert!(count > 0, "some library calls and reads its own parts");
}

/// Each library exports the functions of its crate, needs `memcpy` and
/// `memset` at most, and has no symbol for data that can be written.
#[test]
fn libraries_are_as_the_header_says() {
    let mut needed = Vec::new();
    for (name, archive) in EXPORTS {
        let symbols = symbols(archive);
        let exports = exported(&code(name));
        for function in exports.keys() {
            assert!(symbols.contains(&('T', function.clone())), "{function}");
        }
        for (kind, symbol) in symbols {
            match kind {
                'U' => needed.push(symbol),
                'T' => assert!(exports.contains_key(&symbol), "{name} exports {symbol}"),
                // Functions and constants of the library's own.
                't' | 'r' => {}
                _ => panic!("{name}: {symbol} is of kind {kind}"),
            }
        }
        // An ELF file of 64 bits, little end first, for x86-64.
        let bytes = fs::read(archive).expect("an archive");
        let elf: Vec<&[u8]> = bytes
            .windows(20)
            .filter(|bytes| bytes.starts_with(b"\x7FELF"))
            .collect();
        assert!(!elf.is_empty());
        for header in elf {
            assert_eq!((&header[4..6], &header[18..]), (&[2, 1][..], &[62, 0][..]));
        }
    }
    needed.sort();
    needed.dedup();
    assert_eq!(needed, ["memcpy", "memset"]);
}
