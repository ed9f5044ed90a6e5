//! docs/REFERENCE.md against what it tells of: the programs and bytes shown are the examples and are accepted as the page says, or
//! get guards if they are bare, the tables of numbers have every number under the header's name, every call of the header has its
//! row, the longest parcels and the words of a state are those of the header and of the crate, what the examples of figures, of
//! guards and of paths print is what they print, and the definitions that the page names are there. Every example, of either
//! edition, gets the verdicts that were worked out by hand.
use post_guard::{
    encode, narrowed, run, widened, Ending, Fault, Instruction::*, Place, Program, Refusal, Refusal::*, State, Stop, Technique,
    Verdict, WideProgram,
};
use std::fs;
use std::path::{Path, PathBuf};

fn repository() -> PathBuf {
    Path::new(env!("CARGO_MANIFEST_DIR")).join("..")
}

fn bytes_of(path: &str) -> Vec<u8> {
    fs::read(repository().join(path)).unwrap_or_else(|error| panic!("{path}: {error}"))
}

fn text_of(path: &str) -> String {
    String::from_utf8(bytes_of(path)).unwrap()
}

fn page() -> String {
    text_of("docs/REFERENCE.md")
}

/// A fenced block that a line `<!-- FILE -->` marks: the file, the last line of text before the marker, and the block.
struct Shown {
    file: String,
    before: String,
    block: String,
}

fn shown() -> Vec<Shown> {
    let page = page();
    let mut lines = page.lines();
    let mut before = "";
    let mut blocks = Vec::new();
    while let Some(line) = lines.next() {
        if let Some(file) = line.strip_prefix("<!-- ").and_then(|rest| rest.strip_suffix(" -->")) {
            assert_eq!(lines.next(), Some("```"), "a block follows directly on the marker of {file}");
            let block = lines.by_ref().take_while(|&line| line != "```").map(|line| format!("{line}\n")).collect();
            blocks.push(Shown { file: file.to_string(), before: before.to_string(), block });
        } else if !line.is_empty() {
            before = line;
        }
    }
    blocks
}

fn program(name: &str) -> Program {
    Program::from_parcel(&bytes_of(&format!("examples/{name}.parcel"))).unwrap_or_else(|refusal| panic!("{name}: {refusal}"))
}

#[test]
fn programs_shown_are_the_examples_and_accepted() {
    let mut techniques = Vec::new();
    let mut bare = 0;
    for Shown { file, before, block } in shown() {
        let Some(name) = file.strip_prefix("examples/").and_then(|rest| rest.strip_suffix(".txt")) else { continue };
        assert_eq!(block, text_of(&file), "{file}");
        let technique = if before.ends_with("Bare code:") {
            assert!(program(name).with_guards().is_ok(), "{file}");
            bare += 1;
            continue;
        } else if before.ends_with("Accepted, plain:") {
            Technique::Plain
        } else if before.ends_with("Accepted, with memory guards:") {
            Technique::MemoryGuards
        } else {
            panic!("the page does not say how {file} is accepted: {before}");
        };
        assert_eq!(program(name).check(technique), Verdict::Accepted, "{file}");
        techniques.push(technique);
    }
    assert!(techniques.contains(&Technique::Plain) && techniques.contains(&Technique::MemoryGuards), "{techniques:?}");
    assert_eq!(bare, 1, "the page shows bare code");
}

/// Bytes are shown to the end of the parcel: of the first edition from its first byte, of the second from any.
#[test]
fn bytes_shown_are_the_parcels() {
    let (mut first, mut second) = (0, 0);
    for Shown { file, block, .. } in shown() {
        let bytes = bytes_of(&file);
        let mut at = match file.rsplit_once('.') {
            Some((_, "parcel")) => {
                first += 1;
                0
            }
            Some((_, "wide")) => {
                second += 1;
                block.split_whitespace().next().unwrap().parse().unwrap()
            }
            _ => continue,
        };
        for line in block.lines() {
            let mut words = line.split_whitespace();
            assert_eq!(words.next(), Some(at.to_string().as_str()), "{file}: {line}");
            let hex = words.take_while(|word| word.len() == 2).map_while(|word| u8::from_str_radix(word, 16).ok());
            let shown: Vec<u8> = hex.collect();
            assert_eq!(bytes.get(at..at + shown.len()), Some(&shown[..]), "{file}: {line}");
            at += shown.len();
        }
        assert_eq!(at, bytes.len(), "{file}");
    }
    assert!(first > 0 && second > 0, "the page shows no parcel of one edition");
}

#[test]
fn examples_get_the_verdicts_worked_out_by_hand() {
    let edge = |refusal, place| Verdict::Refused(refusal, Some(Place::Edge(place)));
    let address = |refusal, place| Verdict::Refused(refusal, Some(Place::Address(place)));
    // the name, the verdict plain, the verdict with memory guards
    let expected = [
        // jd 3 leads into the guard at 1 to 6; with memory guards a guard of ten words does not fit at 0 to 6
        ("branch-into-guard", address(BranchTarget, 0), address(JumpUnguarded, 6)),
        // the bgt at 11 leads to 17, which is n; with memory guards the st at 14 has no guard, and 13 comes before 15
        ("branch-out", address(BranchTarget, 11), address(StoreUnguarded, 14)),
        // with memory guards the st at 14 has no guard
        ("clipping", Verdict::Accepted, address(StoreUnguarded, 14)),
        // bare code: the destination 4 has no label; 12 comes before 13 and 14
        ("clipping-bare", address(LabelCondition, 4), address(LabelCondition, 4)),
        // what comes out of it; with memory guards the st, which is at 14 again, has no guard
        ("clipping-guarded", Verdict::Accepted, address(StoreUnguarded, 14)),
        // the label at 9 is no destination; 12 comes before 13 and 14
        ("clipping-skipped", address(LabelCondition, 9), address(LabelCondition, 9)),
        // with memory guards the st at 21 has no guard
        ("credit-routine", Verdict::Accepted, address(StoreUnguarded, 21)),
        // with memory guards the st at 25 has no guard
        ("day-and-night", Verdict::Accepted, address(StoreUnguarded, 25)),
        // edge 1, from 11, comes after edge 0, from 22; 18 comes before 13
        ("edges-turned", edge(EdgeNotRising, 1), edge(EdgeNotRising, 1)),
        // the target 9 is n, the first address of data
        ("label-in-data", edge(TargetOutsideCode, 0), edge(TargetOutsideCode, 0)),
        // plain asks for addi r0, rs, 0 five words before the jmp at 15, where a bgt is
        ("memory-guards", address(JumpUnguarded, 15), Verdict::Accepted),
        // a plain guard is too short with memory guards
        ("post", Verdict::Accepted, address(JumpUnguarded, 6)),
        // the word at 6 is illegal, so the only edge starts at no jmp
        ("register-32", edge(EdgeFromNoJump, 0), edge(EdgeFromNoJump, 0)),
        // {13, 15} of the jmp at 6 and {13} of the jmp at 12 share 13 and differ
        ("shared-label", address(TargetSetsOverlap, 6), address(TargetSetsOverlap, 6)),
        // the routine's jump has the places of both callers, and the bus may swap them; with memory guards the st at 12 has no guard
        ("shared-return-by-jump", Verdict::Accepted, address(StoreUnguarded, 12)),
        // the same with call and ret; with memory guards the st at 8 has no guard
        ("shared-routine", Verdict::Accepted, address(StoreUnguarded, 8)),
        // plain, the st stops when it is run; with memory guards the st at 2 has no guard
        ("store-past-top", Verdict::Accepted, address(StoreUnguarded, 2)),
        // jmp r5 is not jmp r0
        ("target-read-again", address(JumpUnguarded, 6), address(JumpUnguarded, 6)),
    ];
    for (name, plain, guarded) in expected {
        let program = program(name);
        assert_eq!(program.check(Technique::Plain), plain, "{name}, plain");
        assert_eq!(program.check(Technique::MemoryGuards), guarded, "{name}, with memory guards");
    }
    let names = expected.map(|(name, _, _)| name);
    assert_eq!(examples(".parcel"), names);
    // the library makes clipping-guarded
    assert_eq!(examples(".txt"), names.into_iter().filter(|name| *name != "clipping-guarded").collect::<Vec<_>>());
}

/// clipping-guarded is what comes out of clipping-bare, word by word as it was worked out by hand, when the three movi words that
/// hold addresses are mapped. It bills as clipping does.
#[test]
fn guarded_example_is_what_comes_out() {
    let mut guarded = program("clipping-bare").with_guards().unwrap();
    assert_eq!(guarded.map, [0, 1, 2, 3, 9, 11, 12, 13, 14, 15, 16]);
    assert_eq!([0, 2, 7].map(|address| guarded.map_movi(address)), [Some(18), Some(9), Some(19)]);
    let code = [
        Movi { rd: 3, w: 18 },
        Ld { rd: 4, rs: 3, w: 0 },
        Movi { rd: 5, w: 9 },
        Addi { rd: 0, rs: 5, w: 0 },
        Ld { rd: 1, rs: 0, w: 0 },
        Movi { rd: 2, w: 9 },
        Bgt { rs: 1, rt: 2, w: 17 },
        Bgt { rs: 2, rt: 1, w: 17 },
        Jmp { rs: 0 },
        Label { w: 9 },
        Movi { rd: 6, w: 4094 },
        Bgt { rs: 4, rt: 6, w: 16 },
        Add { rd: 7, rs: 7, rt: 4 },
        Movi { rd: 8, w: 19 },
        St { rd: 8, rs: 7, w: 0 },
        Jd { w: 16 },
        Illegal,
        Illegal,
    ];
    let expected = Program { memory: [&code.map(encode)[..], &[1200, 0]].concat(), code_words: 18, edges: vec![8, 9] };
    assert_eq!(guarded.program, expected);
    assert_eq!(program("clipping-guarded"), expected);
    assert_eq!(expected.to_parcel(), Ok(bytes_of("examples/clipping-guarded.parcel")));

    for name in ["clipping", "clipping-guarded"] {
        // a reading is billed; one above the ceiling is not
        for (reading, bill) in [(1200, 1200), (4094, 4094), (4095, 0)] {
            let mut program = program(name);
            let n = program.code_words;
            program.memory[n] = reading;
            let ran = run(Technique::Plain, &mut State::fresh([0; 32]), &mut program.memory, n, 100).unwrap();
            assert_eq!(ran.ending, Ending::Stopped(Stop::Illegal), "{name}");
            assert_eq!(program.memory[n + 1], bill, "{name}");
        }
    }
}

/// the names of the examples with this ending, without it; `.txt` means the texts of the first edition
fn examples(ending: &str) -> Vec<String> {
    let files = fs::read_dir(repository().join("examples")).unwrap();
    let mut names: Vec<String> = files
        .filter_map(|file| Some(file.unwrap().file_name().to_str()?.strip_suffix(ending)?.to_string()))
        .filter(|name| !name.ends_with(".wide"))
        .collect();
    names.sort();
    names
}

#[test]
fn wide_examples_get_the_verdicts_worked_out_by_hand() {
    let edge = |refusal, place| Fault { refusal, place: Some(Place::Edge(place)) };
    let refused = |fault: Fault| Verdict::Refused(fault.refusal, fault.place);
    // the name, the verdicts plain and with memory guards, and what becomes of it when it is narrowed
    let expected = [
        // the same words and edges as day-and-night.txt has
        (
            "day-and-night",
            Verdict::Accepted,
            Verdict::Refused(StoreUnguarded, Some(Place::Address(25))),
            Ok(bytes_of("examples/day-and-night.parcel")),
        ),
        // the target 65,543 is above n, which is 9, and above 65,535
        ("far-edge", refused(edge(TargetOutsideCode, 0)), refused(edge(TargetOutsideCode, 0)), Err(edge(EdgeTooWide, 0))),
    ];
    assert_eq!(examples(".wide"), expected.clone().map(|(name, ..)| name), "the examples of the second edition");
    assert_eq!(examples(".wide.txt"), ["far-edge"], "the texts of the second edition");
    for (name, plain, guarded, narrow) in expected {
        let wide = bytes_of(&format!("examples/{name}.wide"));
        let program = WideProgram::from_parcel(&wide).unwrap_or_else(|refusal| panic!("{name}: {refusal}"));
        assert_eq!(program.check(Technique::Plain), plain, "{name}, plain");
        assert_eq!(program.check(Technique::MemoryGuards), guarded, "{name}, with memory guards");
        assert_eq!(narrowed(&wide), narrow, "{name}");
        if let Ok(parcel) = narrow {
            assert_eq!(widened(&parcel), Ok(wide), "{name}");
        }
    }
}

#[test]
fn longest_parcels_are_those_of_the_header_and_the_crate() {
    let (header, page) = (text_of("include/post_guard.h"), page());
    for (name, longest) in [("MAX_PARCEL", post_guard::MAX_PARCEL), ("MAX_WIDE_PARCEL", post_guard::MAX_WIDE_PARCEL)] {
        assert_eq!(defined(&header, &format!("PG_{name}")), longest.to_string());
        let bytes = format!("{},{:03} bytes", longest / 1000, longest % 1000);
        let row = format!(" | 20 to {bytes} | {bytes}: `PG_{name}`, in Rust `{name}` |");
        assert!(page.lines().any(|line| line.ends_with(&row)), "the page has no row that ends{row}");
    }
}

/// the first two cells of each row that begins with a number, of the tables in a section
fn rows(heading: &str) -> Vec<(u32, String)> {
    let page = page();
    let section = page.lines().skip_while(|line| *line != heading).skip(1).take_while(|line| !line.starts_with("## "));
    section
        .filter_map(|line| {
            let mut cells = line.strip_prefix("| ")?.split(" | ");
            Some((cells.next()?.parse().ok()?, cells.next()?.trim_matches('`').to_string()))
        })
        .collect()
}

#[test]
fn every_number_has_a_row_under_its_name() {
    let header = text_of("include/post_guard.h");
    let last_refusal = Refusal::ALL.len() as u32;
    assert_eq!(Refusal::ALL.map(Refusal::number).to_vec(), (1..=last_refusal).collect::<Vec<_>>(), "Refusal::ALL");
    let numbers = [
        ("## Numbers", (1..=last_refusal).collect()),
        ("## Figures and totals", vec![0, 256, 257]),
        ("## Shortest paths", vec![0, 258, 23, 5]),
    ];
    for (heading, numbers) in numbers {
        let rows = rows(heading);
        assert_eq!(rows.iter().map(|row| row.0).collect::<Vec<_>>(), numbers, "{heading}");
        for (number, name) in rows {
            let defined = header.lines().any(|line| {
                line.split_whitespace().take(3).eq(["#define", name.as_str(), number.to_string().as_str()])
            });
            assert!(defined, "the header does not define {name} as {number}");
        }
    }
}

/// The page has the stops in the order in which they are tested. The header's answer is the stop's number, or 256 more where that is
/// a refusal of the same calls.
#[test]
fn every_stop_has_a_row_in_its_order() {
    let header = text_of("include/post_guard.h");
    let order = [Stop::Fetch, Stop::Illegal, Stop::Access, Stop::Full, Stop::Empty, Stop::Next].map(Stop::number);
    assert_eq!(order, [1, 2, 3, 5, 6, 4]);
    let rows = rows("## Steps and stops");
    assert_eq!(rows.iter().map(|row| row.0).collect::<Vec<_>>(), order);
    for (number, name) in rows {
        let answer = if [Refusal::PlaceTooShort, Refusal::Shape].map(Refusal::number).contains(&number) { 256 + number } else { number };
        assert_eq!(defined(&header, &name), answer.to_string(), "{name}");
    }
    assert!(header.contains("#define PG_STOP_NUMBER(answer) ((answer) & 255)\n"));
}

#[test]
fn the_words_of_a_state_are_those_of_the_header_and_the_crate() {
    let (header, page) = (text_of("include/post_guard.h"), page());
    let (words, places) = (std::mem::size_of::<State>() / 8, State::fresh([0; 32]).stack.len());
    assert_eq!((words, places), (162, 128));
    assert_eq!(defined(&header, "PG_STATE_WORDS"), words.to_string());
    assert_eq!(defined(&header, "PG_STACK_PLACES"), places.to_string());
    assert!(page.lines().any(|line| line.ends_with(&format!(" | {words} words for a state in C |"))), "the page has no such row");
}

/// what the header defines the name as
fn defined(header: &str, name: &str) -> String {
    let mut definitions = header.lines().filter_map(|line| line.strip_prefix("#define ")?.split_once(' '));
    let (_, value) = definitions.find(|(other, _)| *other == name).unwrap_or_else(|| panic!("the header has no {name}"));
    value.split_whitespace().next().unwrap().to_string()
}

/// Every name of the header's that the page has is defined there; where a number of figures or totals stands in the same cell, as in
/// `figures[10]`, at `PG_FIGURE_SETS`, the names are defined as these numbers, in their sequence.
#[test]
fn names_are_those_of_the_header() {
    let (header, page) = (text_of("include/post_guard.h"), page());
    let mut places = 0;
    for cell in page.lines().flat_map(|line| line.split(" | ")) {
        let quoted: Vec<&str> = cell.split('`').skip(1).step_by(2).collect();
        let names: Vec<&str> = quoted.iter().copied().filter(|text| text.starts_with("PG_")).collect();
        let numbers: Vec<&str> =
            quoted.iter().filter_map(|text| text.split_once('[')?.1.strip_suffix(']')).filter(|at| !at.starts_with("PG_")).collect();
        let values: Vec<String> = names.iter().map(|name| defined(&header, name)).collect();
        if cell.contains(", at `PG_") {
            assert_eq!(values, numbers, "{cell}");
            places += names.len();
        }
    }
    assert_eq!(places, 10, "names of places of figures and totals");
}

#[test]
fn every_call_has_a_row() {
    let (header, page) = (text_of("include/post_guard.h"), page());
    let calls: Vec<&str> = header
        .lines()
        .filter(|line| line.starts_with("uint"))
        .filter_map(|line| line.split_whitespace().nth(1)?.split('(').next())
        .collect();
    let rows: Vec<&str> =
        page.lines().filter_map(|line| line.strip_prefix("| `pg_").and(line.split('`').nth(1))).collect();
    assert!(calls.contains(&"pg_check") && calls.contains(&"pg_add_parcel"), "{calls:?}");
    assert_eq!(rows, calls);
}

#[test]
fn output_shown_is_what_the_examples_print() {
    let mut files = Vec::new();
    for Shown { file, block, .. } in shown().into_iter().filter(|shown| shown.file.ends_with(".out")) {
        assert!(!block.is_empty() && text_of(&file).contains(&block), "{file} does not have\n{block}");
        files.push(file);
    }
    files.sort();
    assert_eq!(files, ["rust/examples/figures.out", "rust/examples/guards.out", "rust/examples/paths.out"]);
}

#[test]
fn definitions_named_are_there() {
    let page = page();
    let mut count = 0;
    for section in page.split("\n## ").skip(1) {
        let title = section.lines().next().unwrap();
        let told: Vec<&str> = section.lines().filter(|line| line.starts_with("Defined in ")).collect();
        assert!(!told.is_empty() || title == "Where the rules come from", "'{title}' names no definition");
        for line in told {
            let mut file = ("", String::new());
            for name in line.split('`').skip(1).step_by(2) {
                if name.contains('/') {
                    file = (name, text_of(name));
                } else {
                    assert!(defines(&file.1, name), "{} does not define {name}", file.0);
                    count += 1;
                }
            }
        }
    }
    assert!(count > 0);
}

/// a line of the text begins with the name, after the words that a definition may begin with
fn defines(text: &str, name: &str) -> bool {
    let opening = ["abbrev", "unfoldable", "pub", "record", "data", "enum"];
    text.lines().any(|line| line.split_whitespace().find(|word| !opening.contains(word)) == Some(name))
}
