//! docs/PROMISES.md held to the proofs: each export has its theorems of one result, every law named there is there, and
//! the definitions that a reader must believe are those that a promise or a law reaches.

use std::collections::{BTreeMap, BTreeSet};

use papers::{Place, exports, laws, modules, reached, read, rows, scope, ticked};

const PROMISES: &str = "docs/PROMISES.md";
const THEOREMS: &str = "crates/promises/proofs/OneResult.antt";

/// The rows of every table of laws, whose heading begins so: a law's row ends with the names of its theorems.
fn law_rows(text: &str) -> Vec<Vec<String>> {
    let headings: Vec<&str> = text.lines().filter(|line| line.starts_with("## Laws ")).collect();
    assert!(headings.len() >= 6, "{PROMISES} has lost tables of laws: {headings:?}");
    headings.into_iter().flat_map(|heading| rows(text, heading)).collect()
}

/// A text in which no name is told from another by its dashes.
fn dashed(text: &str) -> String {
    text.replace('_', "-")
}

#[test]
fn every_export_has_its_theorems() {
    let theorems = read(THEOREMS);
    let stated: Vec<&str> = theorems.lines().filter(|line| line.starts_with("pub ")).collect();
    let listed = rows(&read(PROMISES), "## Calls");
    let (exports, _) = exports();
    for export in &exports {
        let posts = dashed(&format!(" {}.Post", export.name));
        let of =
            |kind: &str| stated.iter().filter(|s| s.contains(kind) && dashed(s).contains(&posts)).collect::<Vec<_>>();
        let (results, contents, records) = (of(": OneResult "), of(": OneContent "), of(": OneLent "));
        assert_eq!(results.len(), 1, "rumchivoat_{} has no theorem of one result in {THEOREMS}", export.name);
        assert_eq!(contents.len(), export.lent, "rumchivoat_{}: a theorem for each lent slice", export.name);
        assert_eq!(records.len(), export.records, "rumchivoat_{}: a theorem for each lent record", export.name);
        let call = format!("`rumchivoat_{}`", export.name);
        let row = listed.iter().find(|row| row[0] == call).unwrap_or_else(|| panic!("{PROMISES} does not list {call}"));
        for theorem in results.into_iter().chain(contents).chain(records) {
            let theorem = theorem.trim_start_matches("pub ").split(' ').next().expect("a name");
            assert!(ticked(row.last().expect("a cell")).contains(&theorem.into()), "{PROMISES}, {call}: no {theorem}");
        }
    }
    assert_eq!(listed.len(), exports.len(), "{PROMISES} lists a call that is not exported");
}

#[test]
fn every_law_that_is_named_is_there() {
    let modules = modules();
    let text = read(PROMISES);
    let is_there = |law: &str, floors: &[String]| {
        modules.iter().any(|((floor, part, _), module)| {
            let said = floors.is_empty() || floors.contains(floor);
            said && part == "proofs" && module.declarations.iter().any(|d| d.place.name == law && d.public)
        })
    };
    let named = rows(&text, "## Calls").into_iter().chain(law_rows(&text));
    let missing: Vec<String> = named
        .flat_map(|row| laws(row.last().expect("a cell")))
        .filter(|(law, floors)| !is_there(law, floors))
        .map(|(law, floors)| format!("{law} {floors:?}"))
        .collect();
    assert!(missing.is_empty(), "{PROMISES} names laws that are not there: {missing:?}");
}

/// What the exports' contracts and the laws of the tables reach.
fn trusted() -> BTreeSet<Place> {
    let modules = modules();
    let mut found = BTreeSet::new();
    let (exports, known) = exports();
    for export in exports {
        reached(&export.promise, &known, &modules, &mut found);
    }
    let text = read(PROMISES);
    let named: Vec<(String, Vec<String>)> =
        law_rows(&text).iter().flat_map(|row| laws(row.last().expect("a cell"))).collect();
    for ((floor, part, _), module) in &modules {
        let is_named = |name: &String| {
            named.iter().any(|(law, floors)| law == name && (floors.is_empty() || floors.contains(floor)))
        };
        for law in module.declarations.iter().filter(|d| part == "proofs" && d.public && is_named(&d.place.name)) {
            reached(&law.text, &scope(module), &modules, &mut found);
        }
    }
    found
}

#[test]
fn the_definitions_to_believe_are_listed() {
    let mut due: BTreeMap<(String, String), BTreeSet<String>> = BTreeMap::new();
    for place in trusted() {
        due.entry((place.floor, format!("{}/{}", place.part, place.module))).or_default().insert(place.name);
    }
    let listed: BTreeMap<(String, String), BTreeSet<String>> = rows(&read(PROMISES), "## What a reader must believe")
        .into_iter()
        .map(|row| ((row[0].clone(), row[1].clone()), ticked(&row[2]).into_iter().collect()))
        .collect();
    if listed != due {
        for ((floor, file), names) in &due {
            let names: Vec<String> = names.iter().map(|name| format!("`{name}`")).collect();
            println!("| {floor} | {file} | {} |", names.join(" "));
        }
        panic!("{PROMISES} does not list the definitions that promises and laws reach; the table that is due is above");
    }
}

#[test]
fn what_is_inner_is_told_apart() {
    let trusted = trusted();
    let is_inner = |module: &str| module.starts_with("Inner");
    let stray: Vec<String> = modules()
        .iter()
        .filter(|((_, part, module), _)| part == "specs" && !is_inner(module))
        .flat_map(|(_, module)| &module.declarations)
        .filter(|declaration| declaration.definition && !trusted.contains(&declaration.place))
        .map(|declaration| {
            format!("{} {} {}", declaration.place.floor, declaration.place.module, declaration.place.name)
        })
        .collect();
    assert!(
        stray.is_empty(),
        "no promise and no law reaches these, so that they are inner shapes:\n{}",
        stray.join("\n")
    );
    let inner: Vec<&Place> = trusted.iter().filter(|place| place.part == "specs" && is_inner(&place.module)).collect();
    assert!(inner.is_empty(), "a promise or a law reaches these, so that they are no inner shapes: {inner:?}");
}
