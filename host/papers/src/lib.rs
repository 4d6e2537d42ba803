//! The repository's proofs as a reader meets them: which definition cites which, which laws there are, what is quoted.
//!
//! This reads text and proves nothing. It is for the tests beside it, which hold docs/PROMISES.md and the quotations of
//! document 01 to what stands in `crates`.

use std::collections::{BTreeMap, BTreeSet};
use std::fs;
use std::path::{Path, PathBuf};

/// The top folder of the repository.
pub fn top() -> PathBuf {
    Path::new(env!("CARGO_MANIFEST_DIR")).join("../..")
}

/// A text file of the repository, by its path from the top.
pub fn read(path: &str) -> String {
    fs::read_to_string(top().join(path)).unwrap_or_else(|e| panic!("{path} cannot be read: {e}"))
}

/// All files below a folder of the repository with an ending, as paths from the top, in order.
pub fn files(folder: &str, ending: &str) -> Vec<String> {
    let mut found = Vec::new();
    let mut left = vec![folder.to_string()];
    while let Some(folder) = left.pop() {
        for entry in fs::read_dir(top().join(&folder)).expect("a folder of the repository") {
            let entry = entry.expect("an entry of a folder");
            let path = format!("{folder}/{}", entry.file_name().to_string_lossy());
            if entry.file_type().expect("a file's type").is_dir() {
                left.push(path);
            } else if path.ends_with(ending) {
                found.push(path);
            }
        }
    }
    found.sort();
    found
}

/// Where a definition or a law stands: its crate, `specs` or `proofs`, its module, and its name.
#[derive(Clone, Debug, PartialEq, Eq, PartialOrd, Ord)]
pub struct Place {
    /// The crate.
    pub floor: String,
    /// `specs` or `proofs`.
    pub part: String,
    /// The file, without its ending.
    pub module: String,
    /// The name.
    pub name: String,
}

/// One declaration of an antt file.
#[derive(Clone, Debug)]
pub struct Declaration {
    /// Where it stands.
    pub place: Place,
    /// Whether other modules may name it.
    pub public: bool,
    /// Whether it is a definition (`abbrev`, `unfoldable`, `record`, `data`) and not a law.
    pub definition: bool,
    /// What it says: a definition's whole text, a law's statement, with the parameters of the sections around it.
    pub text: String,
}

/// An antt file: its declarations, and what the names that it imports stand for.
#[derive(Debug, Default)]
pub struct Module {
    /// In the order of the file.
    pub declarations: Vec<Declaration>,
    /// Imported names, and modules imported under a name of their own (that name, with a dot).
    pub imports: BTreeMap<String, Place>,
}

fn is_name(c: char) -> bool {
    c.is_alphanumeric() || "-_'→⁻₀₁₂".contains(c)
}

/// What stands before the first dot of a word: a module's name, or what has the field that follows.
fn head(word: &str) -> &str {
    word.split('.').next().expect("a split has a first part")
}

/// The names that a text cites, those behind a module's name (`entry.pack_says`) with it, and those before a field
/// (`row.top`): no field of something longer (`(row m).top`), and nothing that the text binds itself (`(z : Set)`).
pub fn names(text: &str) -> BTreeSet<String> {
    let words = |text: &str| -> Vec<String> {
        text.split(|c: char| !(is_name(c) || c == '.')).filter(|w| !w.is_empty()).map(str::to_string).collect()
    };
    let bound: BTreeSet<String> = text
        .split(['(', '{'])
        .filter_map(|part| part.split_once(" : "))
        .filter(|(names, _)| names.chars().all(|c| is_name(c) || c == ' '))
        .flat_map(|(names, _)| words(names))
        .collect();
    words(text)
        .into_iter()
        .filter(|word| !word.starts_with('.') && !bound.contains(head(word)))
        .map(|word| word.trim_end_matches('.').to_string())
        .collect()
}

/// The text of a line that is no comment.
fn code(line: &str) -> &str {
    if line.trim_start().starts_with("--") {
        return "";
    }
    line.split_once("  -- ").map_or(line, |(code, _)| code)
}

/// What an import line brings: `use Rattle.tile.specs.Tile.{packed, widths as w}`, `use Rattle.tile.specs.Tile as tile`.
fn imports(line: &str, into: &mut BTreeMap<String, Place>) {
    let line = line.trim_start_matches("ghost ").trim_end_matches(';');
    let Some(path) = line.strip_prefix("use Rattle.") else { return };
    let (path, list) = match path.split_once(".{") {
        Some((path, list)) => (path, Some(list.trim_end_matches('}'))),
        None => (path, None),
    };
    let mut parts: Vec<&str> = path.split('.').collect();
    let alias = parts.last().and_then(|last| last.split_once(" as ")).map(|(_, alias)| alias.to_string());
    if let Some(last) = parts.last_mut() {
        *last = last.split_once(" as ").map_or(last, |(name, _)| name);
    }
    let floor = parts[0].to_string();
    let Some(part) = parts.iter().find(|p| **p == "specs" || **p == "proofs").map(|p| p.to_string()) else { return };
    let Some(module) = parts.last().map(|m| m.to_string()) else { return };
    if parts.contains(&"declared") {
        return;
    }
    let place =
        |name: &str| Place { floor: floor.clone(), part: part.clone(), module: module.clone(), name: name.into() };
    match (list, alias) {
        (Some(list), _) => {
            for name in list.split(", ") {
                let (name, known) = name.split_once(" as ").unwrap_or((name, name));
                into.insert(bare(known), place(&bare(name)));
            }
        }
        (None, Some(alias)) => {
            into.insert(format!("{alias}."), place(""));
        }
        (None, None) => {}
    }
}

/// An operator's name without its places: `◌when◌` is cited as `when`.
fn bare(name: &str) -> String {
    name.trim_matches('◌').to_string()
}

/// What a line declares, if it begins a declaration: the name, whether it is public, and whether it is a definition.
fn declares(line: &str) -> Option<(String, bool, bool)> {
    let mut rest = line.trim_start();
    let mut definition = false;
    let mut public = false;
    for (word, defines) in
        [("abbrev ", true), ("unfoldable ", true), ("pub ", false), ("record ", true), ("data ", true)]
    {
        if let Some(more) = rest.strip_prefix(word) {
            rest = more;
            definition |= defines;
            public |= word == "pub ";
        }
    }
    if ["use ", "mod ", "module ", "infix", "where", "unfolding "].iter().any(|w| rest.starts_with(w)) {
        return None;
    }
    let (name, more) = rest.split_once(' ')?;
    let named = !bare(name).is_empty() && bare(name).chars().all(is_name);
    let declared =
        more.starts_with(": ") || more == ":" || (definition && (more.contains(':') || more.contains("where")));
    (named && declared).then(|| (bare(name), public, definition))
}

/// Reads an antt file.
pub fn module(floor: &str, part: &str, path: &str) -> Module {
    let name = path.rsplit('/').next().expect("a file's name").trim_end_matches(".antt");
    parsed(floor, part, name, &read(path))
}

/// Reads the text of an antt file of this name.
fn parsed(floor: &str, part: &str, name: &str, text: &str) -> Module {
    let mut result = Module::default();
    let mut sections: Vec<(usize, String)> = Vec::new();
    let mut stated = false;
    for line in text.lines() {
        let line = code(line);
        if line.trim().is_empty() {
            continue;
        }
        let depth = line.len() - line.trim_start().len();
        imports(line, &mut result.imports);
        if line.trim_start().starts_with("module _ ") {
            sections.retain(|(at, _)| *at < depth);
            sections.push((depth, line.to_string()));
            continue;
        }
        if let Some((declared, public, definition)) = declares(line) {
            // a field of a record, or a local of a `where`, belongs to what it stands in
            let inside = result.declarations.last().is_some_and(|d: &Declaration| d.definition && depth > 0)
                && sections.iter().all(|(at, _)| at + 2 != depth);
            if !inside {
                // what stands further out than a section, or level with it, ends it
                sections.retain(|(at, _)| *at < depth);
                let around: Vec<&str> = sections.iter().map(|(_, header)| header.as_str()).collect();
                result.declarations.push(Declaration {
                    place: Place { floor: floor.into(), part: part.into(), module: name.into(), name: declared },
                    public,
                    definition,
                    text: format!("{}\n{}", around.join("\n"), line),
                });
                stated = false;
                continue;
            }
        }
        if let Some((_, header)) =
            sections.last_mut().filter(|(at, header)| depth > *at + 2 && !header.contains(" where"))
        {
            header.push_str(line);
            continue;
        }
        if let Some(last) = result.declarations.last_mut() {
            let own = line.trim_start().starts_with(&format!("{} ", last.place.name));
            stated |= !last.definition && (own || line.trim_start().starts_with("unfolding "));
            if last.definition || !stated {
                last.text.push('\n');
                last.text.push_str(line);
            }
        }
    }
    result
}

/// Every specs and laws file of every crate, by crate, part and module. A function's own proof, in a folder below proofs/,
/// states nothing for others; `Lib.antt` only lists the others.
pub fn modules() -> BTreeMap<(String, String, String), Module> {
    let mut found = BTreeMap::new();
    for path in files("crates", ".antt") {
        let parts: Vec<&str> = path.split('/').collect();
        let [_, floor, part @ ("specs" | "proofs"), file] = parts.as_slice() else { continue };
        if *file == "Lib.antt" {
            continue;
        }
        let name = file.trim_end_matches(".antt").to_string();
        found.insert((floor.to_string(), part.to_string(), name), module(floor, part, &path));
    }
    found
}

/// One export of the station's interface.
#[derive(Debug)]
pub struct Export {
    /// Its name without `rumchivoat_`.
    pub name: String,
    /// How many slices it is lent to write.
    pub lent: usize,
    /// How many records it is lent to write.
    pub records: usize,
    /// Its contract.
    pub promise: String,
}

/// The exports, in order, and what the names in their contracts stand for.
pub fn exports() -> (Vec<Export>, BTreeMap<String, Place>) {
    let text = read("crates/rumchivoat/src/lib.rt");
    let mut known = BTreeMap::new();
    text.lines().for_each(|line| imports(line, &mut known));
    let mut found = Vec::new();
    for part in text.split("pub extern \"C\" fn rumchivoat_").skip(1) {
        let (name, rest) = part.split_once('(').expect("an export has parameters");
        // lifetimes are no part of the name
        let name = name.split('<').next().expect("a split has a first part");
        let (head, _) = rest.split_once("\n{").expect("an export has a body");
        let (parameters, promise) = head.split_once("ensures").unwrap_or((head, ""));
        assert!(!head.contains("requires"), "rumchivoat_{name} asks something of its caller");
        let lent = parameters.matches("&mut [").count();
        let records = parameters.matches("&mut ").count() - lent;
        found.push(Export { name: name.into(), lent, records, promise: promise.into() });
    }
    (found, known)
}

/// What a name stands for: an imported one, one of a module that is imported under a name of its own, or what has the
/// field that is told.
fn cited(name: &str, known: &BTreeMap<String, Place>) -> Option<Place> {
    let of_module = || {
        let (alias, name) = name.split_once('.')?;
        let place = known.get(&format!("{alias}."))?;
        Some(Place { name: head(name).into(), ..place.clone() })
    };
    known.get(name).cloned().or_else(of_module).or_else(|| known.get(head(name)).cloned())
}

/// The definitions that a text reaches, by what its names stand for and what those cite in turn.
pub fn reached(
    text: &str,
    known: &BTreeMap<String, Place>,
    modules: &BTreeMap<(String, String, String), Module>,
    into: &mut BTreeSet<Place>,
) {
    for name in names(text) {
        let Some(place) = cited(&name, known) else { continue };
        let key = (place.floor.clone(), place.part.clone(), place.module.clone());
        let Some(module) = modules.get(&key) else { continue };
        let Some(declaration) = module.declarations.iter().find(|d| d.place.name == place.name && d.definition) else {
            continue;
        };
        if into.insert(place) {
            reached(&declaration.text, &scope(module), modules, into);
        }
    }
}

/// What the names in a module stand for: its own, and those that it imports.
pub fn scope(module: &Module) -> BTreeMap<String, Place> {
    let mut known = module.imports.clone();
    for declaration in &module.declarations {
        known.insert(declaration.place.name.clone(), declaration.place.clone());
    }
    known
}

/// The names between backticks in a text.
pub fn ticked(text: &str) -> Vec<String> {
    text.split('`').skip(1).step_by(2).map(str::to_string).collect()
}

/// The laws that a cell names, each with the crates that the cell says it stands in; none where it does not say.
///
/// `` `a`, `b` (tile, Laws; color, Laws), `c` `` names a and b of tile or color, and c of any crate.
pub fn laws(cell: &str) -> Vec<(String, Vec<String>)> {
    let mut found: Vec<(String, Vec<String>)> = Vec::new();
    let mut said = 0;
    for (i, part) in cell.split('`').enumerate() {
        if i % 2 == 1 {
            found.push((part.to_string(), Vec::new()));
        } else if let Some((_, place)) = part.split_once('(') {
            let place = place.split(')').next().expect("a split has a part");
            let floors: Vec<String> =
                place.split("; ").filter_map(|p| p.split(", ").next()).map(str::to_string).collect();
            found[said..].iter_mut().for_each(|law| law.1.clone_from(&floors));
            said = found.len();
        }
    }
    found
}

/// The rows of the tables below a heading of a Markdown text, up to the next heading of its kind; without the two head rows.
pub fn rows(text: &str, heading: &str) -> Vec<Vec<String>> {
    let level = heading.split(' ').next().expect("a heading").to_string() + " ";
    let below = text.split_once(&format!("{heading}\n")).unwrap_or_else(|| panic!("no heading {heading}")).1;
    let below = below.lines().take_while(|line| !line.starts_with(&level));
    let cells = |line: &str| line.trim_matches('|').split('|').map(|cell| cell.trim().to_string()).collect::<Vec<_>>();
    let rows: Vec<Vec<String>> = below.filter(|line| line.starts_with('|')).map(cells).collect();
    rows.split(|row| row.iter().all(|cell| cell.starts_with("---"))).skip(1).flat_map(|part| part.to_vec()).collect()
}

#[cfg(test)]
mod tests {
    use super::*;

    #[test]
    fn sections_end_where_the_text_goes_further_out() {
        let text = "\
module _ (a : ℕ) where
  pub first : a ≡ a
  first = refl

  module _ (b : ℕ) where
    pub second : b ≡ a
    second = refl

abbrev third : ℕ
third = 3

pub fourth : third ≡ 3
fourth = refl
";
        let declared = parsed("words", "proofs", "Order", text).declarations;
        let told: Vec<(&str, bool)> = declared.iter().map(|d| (d.place.name.as_str(), d.definition)).collect();
        assert_eq!(told, [("first", false), ("second", false), ("third", true), ("fourth", false)]);
        assert!(declared[1].text.contains("(a : ℕ)") && declared[1].text.contains("(b : ℕ)"));
        assert!(!declared[2].text.contains("(a : ℕ)"));
    }
}
