//! The archive's exports held to the functions of the interface: the crate `rumchivoat_c` says of each what `rumchivoat`
//! says, word for word.

use papers::read;

/// Each exported function up to its body, and what its contract cites from where.
fn stated(path: &str) -> (Vec<String>, Vec<String>) {
    let text = read(path);
    let heads = text.split("pub extern \"C\" fn ").skip(1);
    let heads = heads.map(|part| part.split_once("\n{").expect("an export has a body").0.to_string()).collect();
    let cited = text.lines().filter(|line| line.starts_with("ghost use ")).map(str::to_string).collect();
    (heads, cited)
}

#[test]
fn the_archive_promises_what_the_interface_does() {
    let (interface, cited) = stated("crates/rumchivoat/src/lib.rt");
    let (archive, cited_there) = stated("crates/rumchivoat_c/src/lib.rt");
    assert!(interface.len() > 20, "only {} functions were found", interface.len());
    assert_eq!(archive, interface);
    assert_eq!(cited_there, cited);
}
