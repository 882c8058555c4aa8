//! Runs the built program as a user does: what it prints, and its exit status.

use std::ffi::OsStr;
use std::fs::{self, File};
use std::os::fd::OwnedFd;
use std::os::unix::ffi::OsStrExt;
use std::os::unix::fs::PermissionsExt;
use std::os::unix::net::UnixStream;
use std::path::{Path, PathBuf};
use std::process::{Command, Output, Stdio};

const TRACES: [&str; 4] = ["lane 1, left front brake", "lane 1, right front brake", "lane 2, left rear brake", "lane 2, parking brake"];
/// What fits a terminal of 80 columns whatever it does in its last one.
const WIDTH: usize = 79;
/// Bytes of a block in the demonstration.
const BLOCK: usize = 64;
/// Shapes with one to four parity rows; with straight stripes, with swapped ones and with both; the smallest is the second.
const SHAPES: [[usize; 3]; 8] = [[4, 2, 1], [2, 1, 1], [3, 1, 3], [3, 2, 1], [4, 1, 1], [5, 1, 1], [6, 4, 5], [8, 4, 2]];

struct Run {
    status: Option<i32>,
    out: String,
    err: String,
}

impl From<Output> for Run {
    fn from(output: Output) -> Run {
        let text = |bytes| String::from_utf8(bytes).unwrap();
        Run { status: output.status.code(), out: text(output.stdout), err: text(output.stderr) }
    }
}

fn program() -> Command {
    Command::new(env!("CARGO_BIN_EXE_taldrimsu"))
}

/// Runs the program with the words of a line.
fn run(words: &str) -> Run {
    program().args(words.split_whitespace()).output().unwrap().into()
}

/// What `demo` prints when all is well.
fn demo(words: &str) -> String {
    let run = run(&format!("demo {words}"));
    assert_eq!((run.status, run.err.as_str()), (Some(0), ""), "demo {words}");
    for line in run.out.lines() {
        assert!(line.chars().count() <= WIDTH, "demo {words}: {line}");
    }
    run.out
}

fn demo_of([n, k, s]: [usize; 3], seed: u64) -> String {
    demo(&format!("--seed {seed} --shape {n} {k} {s}"))
}

/// The lines of the section with this number, without its heading.
fn section(out: &str, number: usize) -> Vec<&str> {
    let heading = |line: &&str, number| line.starts_with(&format!("{number}. "));
    out.lines().skip_while(|line| !heading(line, number)).skip(1).take_while(|line| !heading(line, number + 1)).collect()
}

/// What stands behind `start` in the one line that starts so.
fn after<'a>(lines: &[&'a str], start: &str) -> &'a str {
    let found: Vec<&str> = lines.iter().filter_map(|line| line.trim_start().strip_prefix(start)).collect();
    assert_eq!(found.len(), 1, "'{start}' in {lines:#?}");
    found[0].trim()
}

fn numbers(line: &str) -> Vec<usize> {
    line.split(|c: char| !c.is_ascii_digit()).filter_map(|word| word.parse().ok()).collect()
}

/// The rows of the table of nodes in a section: node, kind, data blocks, parity blocks, empty cells, bytes used, checksum.
fn nodes<'a>(lines: &[&'a str]) -> Vec<Vec<&'a str>> {
    let rows = lines.iter().map(|line| line.split_whitespace().collect::<Vec<_>>());
    rows.filter(|row| row.len() == 7 && ["old", "new"].contains(&row[1])).collect()
}

#[test]
fn every_trace_is_compared_and_ok() {
    for shape in SHAPES {
        for seed in [0, 7, 123456789] {
            let out = demo_of(shape, seed);
            let (stored, compared) = (section(&out, 1), section(&out, 6));
            let mut all = 0;
            for name in TRACES {
                let bytes = numbers(after(&stored, name))[1];
                assert_eq!(after(&compared, name), format!("ok, {bytes} bytes compared"));
                all += bytes;
            }
            let [n, k, s] = shape;
            let rest = numbers(after(&compared, "data without a trace, still zero"))[0];
            assert_eq!(all + rest, n * (n + s) * (k + s) * k * BLOCK, "every data byte is compared");
            assert_eq!(after(&section(&out, 3), "every trace read when half was accepted"), format!("ok, {all} bytes compared"));
            assert!(out.ends_with("\nEvery check held.\n"));
        }
    }
}

#[test]
fn every_transfer_is_accepted_once() {
    for shape in SHAPES {
        let [n, k, s] = shape;
        let out = demo_of(shape, 3);
        let lines = section(&out, 3);
        let (kept, each) = (n * k * (n + s), s + n - k - 1);
        let all = kept * each;
        assert_eq!(after(&lines, "every transfer accepted exactly once"), format!("ok, {all} transfers"));
        let parts = numbers(after(&lines, &format!("{kept} stripes x {each}:")));
        assert_eq!(parts[0] + parts[1], all);
        // The last row of each part: sent, lost, repeated, shuffled, astray, already, accepted of all, released of all.
        let last = |by: &str| numbers(lines.iter().rfind(|line| line.trim_start().starts_with(&format!("{by} "))).unwrap());
        assert_eq!(last("chance")[6..8], [all / 2, all]);
        assert_eq!(last("again")[6..8], [parts[0], all]);
        assert_eq!(last("drive")[6..], [all, all, kept, kept]);
        assert!(lines.len() < 25, "a log stays readable: {lines:#?}");
    }
}

#[test]
fn the_link_is_bad_in_every_way() {
    let out = demo("");
    let last = section(&out, 3).into_iter().find(|line| line.contains("80/80")).unwrap();
    assert!(numbers(last)[..6].iter().all(|count| *count >= 10), "{last}");
}

#[test]
fn every_node_is_even_after_the_growth() {
    for shape in SHAPES {
        let [n, k, s] = shape;
        let out = demo_of(shape, 11);
        let (before, grown) = (section(&out, 2), section(&out, 4));
        let (old_rows, new_rows) = (nodes(&before), nodes(&grown));
        assert_eq!((old_rows.len(), new_rows.len()), (n + s, n + s));
        let (data, parity) = (n * k * (k + s), n * k * (n - k));
        for node in 0..n + s {
            let slots = if node < n { n * (n + s) * (k + s) } else { n * k * (n + s) };
            let used = if node < n { slots } else { 0 };
            let row = &old_rows[node];
            assert_eq!(row[0..2], [node.to_string().as_str(), if node < n { "old" } else { "new" }]);
            assert_eq!(row[4..6], [(slots - used).to_string(), (used * BLOCK).to_string()]);
            let row = &new_rows[node];
            assert_eq!(row[2..6], [data, parity, slots - data - parity, (data + parity) * BLOCK].map(|number| number.to_string()));
            assert_ne!(row[6], old_rows[node][6], "the checksum tells that the node's cells changed");
        }
        assert_eq!(after(&grown, "every node has as many blocks as the others"), format!("ok, {data} data, {parity} parity"));
        let old_blocks = n * (n + s) * (k + s) * k;
        assert_eq!(after(&grown, "every old block is in a data cell of its own"), format!("ok, {old_blocks} blocks"));
        assert_eq!(after(&grown, "every parity block is fresh encoding"), format!("ok, {} blocks", parity * (n + s)));
    }
}

#[test]
fn as_many_nodes_die_as_there_are_parity_rows() {
    for shape in SHAPES {
        let [n, k, s] = shape;
        let out = demo_of(shape, 5);
        let lines = section(&out, 5);
        let line = lines.iter().find(|line| line.contains("dead and rebuilt")).unwrap();
        let (dead, told) = line.split_once("dead and rebuilt").unwrap();
        let mut dead = numbers(dead);
        dead.dedup();
        assert!(dead.len() == n - k && dead.iter().all(|node| *node < n + s), "{line}");
        let cells = n * n * (n + s) * (k + s) + s * n * k * (n + s);
        let blocks = (n - k) * n * k * (n + s);
        assert_eq!(told.trim(), format!("ok, {blocks} blocks"));
        assert_eq!(after(&lines, "every byte of every node as before"), format!("ok, {} bytes compared", cells * BLOCK));
    }
}

#[test]
fn nodes_that_cannot_die_together_are_told() {
    let out = demo_of([6, 2, 2], 2);
    let lines = section(&out, 5);
    assert_eq!(lines.iter().filter(|line| line.contains("cannot die together: rebuild refuses stripe")).count(), 2, "{lines:#?}");
    assert!(lines.iter().any(|line| line.contains("dead and rebuilt")));
}

#[test]
fn the_old_mistake_gives_other_bytes_and_the_library_does_not() {
    for shape in SHAPES.into_iter().filter(|[n, k, _]| n - k > 1) {
        let out = demo_of(shape, 2);
        let lines = section(&out, 7);
        let stored = numbers(after(&lines, "stored first"));
        assert_eq!(stored.len(), 8);
        assert_eq!(numbers(after(&lines, "repeat as the library has it")), stored);
        assert_ne!(numbers(after(&lines, "repeat added twice")), stored);
        let wrong = numbers(after(&lines, "Added twice: rebuilt without any refusal, and"));
        assert!(wrong[0] > 0 && wrong[1] == BLOCK);
        assert!(out.contains("Here: the library answered the same repeat with 'already' and changed none"));
    }
}

#[test]
fn with_one_parity_row_there_is_no_change_to_repeat() {
    assert!(demo("--shape 3 2 1").contains("This growth sends no change of a parity row"));
}

#[test]
fn the_seed_fixes_every_byte() {
    assert_eq!(demo(""), demo("--shape 4 2 1 --seed 1"));
    assert_eq!(demo("--seed 8"), demo("--seed 8"));
    assert_ne!(demo("--seed 8"), demo("--seed 9"));
    let largest = u64::MAX;
    assert!(demo(&format!("--seed {largest}")).contains(&format!("seed {largest})")));
}

#[test]
fn a_log_has_no_carriage_returns() {
    assert!(!demo("").contains('\r'));
}

const SHAPE_421: &str = "\
shape 4 2 1
                      before     after
  nodes                    4         5
  data columns             2         3
  parity rows              2         2
  stripes                 60        40

stripes of the growth
  kept                    40
  straight                24  of the kept ones
  swapped                 16  of the kept ones
  dissolved               20
  transfers moved         80  2 for each kept stripe

blocks of a node        data    parity     empty cells
  old, before             30        30               0
  new, before              0         0              40
  old, after              24        16              20
  new, after              24        16               0

losses of a grown stripe
  Every loss of up to two blocks can be repaired.

sizes, for blocks of 1 byte
  area                   280  bytes, times B for blocks of B bytes
  journal                 84  words of 32 bits
  message                 17  bytes, 16 and the block
  receipt                 16  bytes
";

#[test]
fn a_shape_is_told_in_numbers() {
    let run = run("shape 4 2 1");
    assert_eq!((run.status, run.out.as_str(), run.err.as_str()), (Some(0), SHAPE_421, ""));
}

#[test]
fn other_shapes_have_other_numbers() {
    // Kept, straight, swapped, dissolved, transfers; area and journal.
    let cases = [
        ("3 2 1", [24, 18, 6, 12, 24], [132, 52]),
        ("4 1 2", [24, 0, 24, 48, 96], [336, 52]),
        ("19 18 1", [6840, 6498, 342, 380, 6840], [144020, 13684]),
    ];
    for (words, stripes, sizes) in cases {
        let run = run(&format!("shape {words}"));
        assert_eq!((run.status, run.err.as_str()), (Some(0), ""));
        let lines: Vec<&str> = run.out.lines().collect();
        let told = |name| numbers(after(&lines, name))[0];
        assert_eq!(["kept", "straight", "swapped", "dissolved", "transfers moved"].map(told), stripes, "{words}");
        assert_eq!(["area", "journal"].map(told), sizes, "{words}");
    }
}

#[test]
fn losses_that_cannot_be_repaired_are_named() {
    let cases = [
        ("3 2 1", "Every loss of one block can be repaired."),
        ("6 4 2", "Every loss of up to two blocks can be repaired."),
        ("5 2 1", "Every loss of up to three blocks can be repaired."),
        ("6 3 1", "The grown code has losses of three blocks that cannot be repaired: columns 0, 1 and 3,"),
        ("6 2 2", "The grown code has losses of four blocks that cannot be repaired: columns 0, 1 and 3 and parity row 3,"),
    ];
    for (words, sentence) in cases {
        let told = run(&format!("shape {words}")).out.split_whitespace().collect::<Vec<_>>().join(" ");
        assert!(told.contains(sentence), "{words}: {told}");
    }
}

#[test]
fn a_refused_shape_is_told_with_its_sentence() {
    let out_of_range = "is refused (1): the shape is outside its ranges";
    let cases = [
        ("4 1 3", "is refused (2): there are too many new nodes"),
        ("20 19 1", out_of_range),
        ("0 0 0", out_of_range),
        ("4 4 1", out_of_range),
        ("4 2 0", out_of_range),
        ("6 1 1", out_of_range),
        ("18446744073709551615 2 1", out_of_range),
        ("4 2 18446744073709551615", out_of_range),
    ];
    for (words, line) in cases {
        for command in ["shape", "demo --shape"] {
            let run = run(&format!("{command} {words}"));
            assert_eq!((run.status, run.out.as_str()), (Some(1), ""), "{words}");
            assert!(run.err.starts_with(&format!("taldrimsu: shape {words} {line}")) && run.err.lines().count() == 1, "{}", run.err);
        }
    }
}

#[test]
fn a_wrong_command_line_gets_one_clear_line() {
    let cases = [
        ("grow", "'grow' is not a command; the commands are demo, shape and help"),
        ("--seed 1", "'--seed' is not a command; the commands are demo, shape and help"),
        ("help me", "unexpected argument 'me'"),
        ("--help demo", "unexpected argument 'demo'"),
        ("shape", "shape needs 3 numbers, not 0"),
        ("shape 4 2", "shape needs 3 numbers, not 2"),
        ("shape 4 2 1 64", "unexpected argument '64'"),
        ("shape 4 two 1", "'two' is not a whole number in digits"),
        ("shape 4 -2 1", "'-2' is not a whole number in digits"),
        ("shape +4 2 1", "'+4' is not a whole number in digits"),
        ("shape 4 2 1.0", "'1.0' is not a whole number in digits"),
        ("shape 4 2 18446744073709551616", "18446744073709551616 is too large"),
        ("demo 5", "'5' is not an option of demo; the options are --seed and --shape"),
        ("demo --sed 5", "'--sed' is not an option of demo; the options are --seed and --shape"),
        ("demo --seed", "--seed needs 1 number, not 0"),
        ("demo --seed x", "'x' is not a whole number in digits"),
        ("demo --seed -1", "'-1' is not a whole number in digits"),
        ("demo --seed 18446744073709551616", "18446744073709551616 is too large"),
        ("demo --seed 1 --seed 1", "--seed stands twice"),
        ("demo --shape", "--shape needs 3 numbers, not 0"),
        ("demo --shape 4 2", "--shape needs 3 numbers, not 2"),
        ("demo --shape 4 2 --seed 1", "'--seed' is not a whole number in digits"),
        ("demo --shape 4 2 1 1", "'1' is not an option of demo; the options are --seed and --shape"),
        ("demo --shape 4 2 1 --shape 4 2 1", "--shape stands twice"),
    ];
    for (words, line) in cases {
        let run = run(words);
        assert_eq!((run.status, run.out.as_str()), (Some(2), ""), "{words}");
        assert_eq!(run.err, format!("taldrimsu: {line}\n"), "{words}");
    }
}

#[test]
fn arguments_that_are_empty_or_no_text_are_refused() {
    let empty: Run = program().args(["shape", "4", "", "1"]).output().unwrap().into();
    assert_eq!((empty.status, empty.err.as_str()), (Some(2), "taldrimsu: '' is not a whole number in digits\n"));
    let no_text: Run = program().arg(OsStr::from_bytes(b"\xFFdemo")).output().unwrap().into();
    assert_eq!((no_text.status, no_text.out.as_str()), (Some(2), ""));
    assert!(no_text.err.contains("is not a command"));
}

/// The demonstration's lines are held to this wherever it is run.
#[test]
fn shapes_and_help_fit_the_screen() {
    for words in ["help", "shape 4 2 1", "shape 19 18 1", "shape 16 12 4"] {
        let run = run(words);
        assert!(run.status == Some(0) && run.out.lines().all(|line| line.chars().count() <= WIDTH), "{}", run.out);
    }
}

#[test]
fn help_is_given_where_it_is_asked_for() {
    let help = run("help");
    assert_eq!((help.status, help.err.as_str()), (Some(0), ""));
    for command in ["taldrimsu demo [--seed SEED] [--shape N K S]", "taldrimsu shape N K S", "taldrimsu help"] {
        assert!(help.out.contains(command));
    }
    for words in ["--help", "-h", "demo --help", "demo -h", "shape --help", "shape -h"] {
        let run = run(words);
        assert_eq!((run.status, &run.out, run.err.as_str()), (Some(0), &help.out, ""), "{words}");
    }
    let none = run("");
    assert_eq!((none.status, none.out.as_str(), none.err), (Some(2), "", help.out));
}

#[test]
fn output_that_cannot_be_written_is_a_failure() {
    for words in ["demo", "shape 4 2 1", "help"] {
        let full = File::options().write(true).open("/dev/full").unwrap();
        let child = program().args(words.split_whitespace()).stdout(full).stderr(Stdio::piped()).spawn().unwrap();
        let run: Run = child.wait_with_output().unwrap().into();
        assert_eq!(run.status, Some(1), "{words}");
        assert!(run.err.starts_with("taldrimsu: the output cannot be written: "), "{words}: {}", run.err);
    }
}

/// Standard output is a socket whose other end is gone, which fails as a pipe does after `head` has ended.
#[test]
fn output_that_nobody_reads_any_more_ends_the_program_without_a_word() {
    for words in ["demo", "shape 4 2 1", "help"] {
        let (ours, theirs) = UnixStream::pair().unwrap();
        drop(ours);
        let child = program().args(words.split_whitespace()).stdout(OwnedFd::from(theirs)).stderr(Stdio::piped()).spawn().unwrap();
        let run: Run = child.wait_with_output().unwrap().into();
        assert_eq!((run.status, run.err.as_str()), (Some(1), ""), "{words}");
    }
}

#[test]
fn complaints_that_cannot_be_written_leave_the_exit_status() {
    for (words, status) in [("", 2), ("grow", 2), ("shape 4 1 3", 1)] {
        let full = File::options().write(true).open("/dev/full").unwrap();
        let run: Run = program().args(words.split_whitespace()).stderr(full).output().unwrap().into();
        assert_eq!((run.status, run.out.as_str()), (Some(status), ""), "{words}");
    }
}

/// Runs the script `demo` with the words of a line, on a machine that has no programs but those in this directory.
fn script(programs: &Path, words: &str) -> Run {
    let script = Path::new(env!("CARGO_MANIFEST_DIR")).join("../demo");
    Command::new("/bin/bash").arg(script).args(words.split_whitespace()).env("PATH", programs).output().unwrap().into()
}

/// An empty directory for programs.
fn programs(name: &str) -> PathBuf {
    let programs = Path::new(env!("CARGO_TARGET_TMPDIR")).join(name);
    let _ = fs::remove_dir_all(&programs);
    fs::create_dir_all(&programs).unwrap();
    programs
}

#[test]
fn the_script_says_which_toolchain_is_missing() {
    let programs = programs("toolchains");
    for words in ["", "--seed 7 --shape 6 4 2", "--shape 4 2 1", "--seed 0"] {
        let none = script(&programs, words);
        assert_eq!((none.status, none.out.as_str()), (Some(2), ""));
        assert_eq!(none.err, "demo: the Rattle toolchain (rt) is not on this machine\n");
    }

    let rt = programs.join("rt");
    fs::write(&rt, "").unwrap();
    fs::set_permissions(&rt, fs::Permissions::from_mode(0o755)).unwrap();
    let rt_alone = script(&programs, "");
    assert_eq!((rt_alone.status, rt_alone.out.as_str()), (Some(2), ""));
    assert_eq!(rt_alone.err, "demo: the Rust toolchain (cargo) is not on this machine\n");
}

/// With no program at hand the script can have proved and built nothing.
#[test]
fn the_script_gives_help_and_refuses_wrong_words_before_it_builds() {
    let programs = programs("none");
    for words in ["--help", "-h", "help"] {
        let help = script(&programs, words);
        assert_eq!((help.status, help.out, help.err.as_str()), (Some(0), run("help").out, ""), "{words}");
    }
    for words in ["5", "--seed", "--seed x", "--seed -1", "--sed 5", "--shape 4 2", "--shape 4 2 1 1", "--seed 1 --help"] {
        let wrong = script(&programs, words);
        assert_eq!((wrong.status, wrong.out.as_str()), (Some(2), ""), "{words}");
        assert_eq!(wrong.err, format!("demo: '{words}' is not of the form [--seed SEED] [--shape N K S]; see ./demo --help\n"));
    }
}
