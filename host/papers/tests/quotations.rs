//! What definitions, code and documents quote of documents 01 and 02, held to them.

use std::fs;
use std::io::Write;

use papers::{files, read, top};

/// The paper, and what customers asked of it since.
const DOCUMENTS: [&str; 2] = ["../shared/docs/01-scope.md", "../shared/docs/02-change-requests.md"];

/// White space folded, and the marks of Markdown left out.
fn folded(text: &str) -> String {
    text.replace('`', "").split_whitespace().collect::<Vec<_>>().join(" ")
}

/// The comments of a file, those that follow each other joined.
fn comments(text: &str, mark: &str) -> Vec<String> {
    let mut found: Vec<String> = Vec::new();
    let mut joined = false;
    for line in text.lines() {
        let line = line.trim_start();
        match line.strip_prefix(mark) {
            Some(comment) if joined => {
                let last = found.last_mut().expect("a comment before");
                last.push(' ');
                last.push_str(comment);
            }
            Some(comment) => found.push(comment.to_string()),
            None => {}
        }
        joined = line.starts_with(mark);
    }
    found
}

/// Whether a quotation stands in a document: each of its parts between marks of a cut, in this order. Its first letter
/// may be small or great, and a point or comma that ends it may be the sentence's that quotes it.
fn stands(document: &str, quotation: &str) -> bool {
    let mut rest = document;
    for part in quotation.split(" .. ") {
        let part = part.trim_start_matches(".. ").trim_end_matches(" ..").trim_end_matches(['.', ',', ';', ':']);
        let mut letters = part.chars();
        let Some(first) = letters.next() else { continue };
        let tail = letters.as_str();
        let at = [first.to_lowercase().to_string(), first.to_uppercase().to_string()]
            .iter()
            .filter_map(|first| rest.find(&format!("{first}{tail}")))
            .min();
        let Some(at) = at else { return false };
        rest = &rest[at..];
    }
    true
}

#[test]
fn quotations_are_the_documents() {
    let mut documents = Vec::new();
    for path in DOCUMENTS {
        let Ok(document) = fs::read_to_string(top().join(path)) else {
            let words = format!("skipped: {path} is not there, so no quotation was compared\n");
            std::io::stderr().write_all(words.as_bytes()).expect("standard error takes a line");
            return;
        };
        documents.push(folded(&document));
    }
    let mut wrong = Vec::new();
    let mut count = 0;
    for (ending, mark) in [(".antt", "-- "), (".rt", "// ")] {
        for path in files("crates", ending) {
            for comment in comments(&read(&path), mark) {
                for quotation in comment.split('"').skip(1).step_by(2) {
                    count += 1;
                    let quotation = folded(quotation);
                    if !documents.iter().any(|document| stands(document, &quotation)) {
                        wrong.push(format!("{path}: \"{quotation}\""));
                    }
                }
            }
        }
    }
    assert!(wrong.is_empty(), "not the words of documents 01 and 02:\n{}", wrong.join("\n"));
    assert!(count > 100, "only {count} quotations were found");
}
