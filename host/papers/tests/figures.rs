//! Numbers that stand in several places, held to one: the stack of the calls, and the number of the interface.

use papers::read;

const HEADER: &str = "host/c/rumchivoat.h";

/// The number that a macro of the header stands for.
fn in_header(name: &str) -> usize {
    let start = format!("#define RUMCHIVOAT_{name} ");
    let text = read(HEADER);
    let line = text.lines().find_map(|line| line.strip_prefix(&start)).unwrap_or_else(|| panic!("{HEADER}: no {name}"));
    line.split_whitespace().next().and_then(|word| word.parse().ok()).unwrap_or_else(|| panic!("{HEADER}: {name}"))
}

/// As the papers write a number: 311,296.
fn written(number: usize) -> String {
    let digits = number.to_string();
    let groups: Vec<&str> =
        digits.as_bytes().rchunks(3).rev().map(|g| std::str::from_utf8(g).expect("digits")).collect();
    groups.join(",")
}

#[test]
fn the_stack_is_stated_alike_everywhere() {
    let in_rust = read("host/src/stack.rs");
    let readme = read("README.md");
    for name in ["CONVERT", "STRIP", "RUN", "OTHERS"] {
        let bytes = in_header(&format!("STACK_{name}"));
        let kib = bytes / 1024;
        assert_eq!(bytes % 1024, 0, "{HEADER}: STACK_{name} is no whole KiB");
        assert!(in_rust.contains(&format!("pub const {name}: usize = {kib} * 1024;")), "host/src/stack.rs: {name}");
        assert!(readme.contains(&format!("{kib} KiB")), "README.md does not state {kib} KiB, {name}");
        for paper in ["docs/PROMISES.md", "docs/ASSUMPTIONS.md"] {
            let bytes = written(bytes);
            assert!(read(paper).contains(&bytes), "{paper} does not state {bytes}, {name}");
        }
    }
}

#[test]
fn the_interface_has_one_number() {
    let number = in_header("INTERFACE");
    for (place, line) in [
        ("crates/rumchivoat/specs/Station.antt", format!("\ninterface = {number}\n")),
        ("host/src/interface.rs", format!("pub const INTERFACE: u32 = {number};")),
        ("CHANGELOG.md", format!("\n## Interface {number}\n")),
    ] {
        assert!(read(place).contains(&line), "{place} does not say that the interface is {number}");
    }
}
