//! The built program `convert` against document 01, run as rt runs it (`host/program.sh`).

use std::fs::{self, File};
use std::process::{Command, Output};

use reading::{Random, Settings};

use super::common::pictures::{Kind, picture_modes, row_of};
use super::common::say;
use super::sheets::{Sheet, longest, marked};

const SCRIPT: &str = concat!(env!("CARGO_MANIFEST_DIR"), "/program.sh");
const EXAMPLES: &str = concat!(env!("CARGO_MANIFEST_DIR"), "/../examples");
const FOLDER: &str = env!("CARGO_TARGET_TMPDIR");
/// The script's status where there is no program, or nothing to run it with.
const ABSENT: i32 = 3;

/// The program on these bytes, which it reads from a file: it need not read them all.
fn program(input: &[u8]) -> Output {
    let path = format!("{FOLDER}/sheet");
    fs::write(&path, input).expect("cargo makes a folder for tests");
    let file = File::open(&path).expect("the file was written");
    Command::new("sh").arg(SCRIPT).stdin(file).output().expect("there is a shell")
}

/// The sheets that the README converts.
fn examples() -> Vec<Vec<u8>> {
    let folder = fs::read_dir(EXAMPLES).expect("the repository has examples");
    let paths = folder.map(|entry| entry.expect("the folder can be read").path());
    let sheets = paths.filter(|path| path.extension().is_some_and(|extension| extension == "sheet"));
    sheets.map(|path| fs::read(path).expect("the file can be read")).collect()
}

/// A picture in every mode and depth, flips on where the mode has them.
fn pictures(random: &mut Random) -> Vec<Vec<u8>> {
    let settings = picture_modes().map(|mode| Settings { flip: row_of(mode).flips, columns: 5, rows: 3, ..mode });
    settings.map(|settings| Sheet::new(settings, Kind::Near.picture(settings, random)).bytes()).collect()
}

/// Sheets that are refused, each for another reason.
fn refused() -> Vec<Vec<u8>> {
    let texts = [
        (0, "pce_sprite"),
        (0, "Snes"),
        (1, "7"),
        (1, "02"),
        (2, "2"),
        (3, "+1"),
        (4, "4294967296"),
        (5, "8"),
        (6, "33"),
        (6, "0"),
        (7, "1\r"),
    ];
    let (sheet, good) = (marked(), marked().bytes());
    let mut inputs: Vec<Vec<u8>> = texts.map(|(line, text)| sheet.with_text(line, text.as_bytes()).bytes()).into();
    // no columns and no pixels is 4
    inputs.push(sheet.with_text(6, b"0").settings());
    // the second tile has no room
    inputs.push(sheet.with_text(2, b"0").with_text(4, b"1").bytes());
    inputs.extend([&good[1..], &good[..good.len() - 1], &good[..0]].map(<[u8]>::to_vec));
    inputs.push([&good[..], b"\n"].concat());
    inputs
}

/// The longest text, and more input than any sheet has.
fn long() -> [Vec<u8>; 3] {
    let good = longest().bytes();
    [good.clone(), [&good[..], b"\0"].concat(), good.repeat(4)]
}

#[test]
fn the_program_writes_what_is_read() {
    let mut random = Random::new(91);
    let inputs = [vec![marked().bytes()], examples(), pictures(&mut random), refused(), long().into()].concat();
    for (turn, input) in inputs.iter().enumerate() {
        let Output { status, stdout, stderr } = program(input);
        let said = String::from_utf8_lossy(&stderr);
        if status.code() == Some(ABSENT) {
            return say(&format!("the built program, skipped: {}", said.trim_end()));
        }
        let case = || format!("sheet {turn}, {}", input[..input.len().min(120)].escape_ascii());
        // "answers on standard output and ends with status 0 also when it refuses"
        assert_eq!((status.code(), &*said), (Some(0), ""), "{}", case());
        assert!(stdout == reading::run(input).bytes, "{}", case());
    }
    println!("document 01, the built program: {} sheets", inputs.len());
}
