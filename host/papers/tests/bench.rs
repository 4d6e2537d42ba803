//! docs/BENCH.md held to its own tables: what it says of each call, by processor, is counted from the rows of the runs.

use papers::{read, rows};

const BENCH: &str = "docs/BENCH.md";
const SUMMARY: &str = "## In short";

/// One row of a run: the call, and how many times as long as the port the Rust took.
struct Timed {
    call: String,
    ratio: f64,
}

/// A run: the processor's name, as its first line begins, and its rows.
struct Run {
    processor: String,
    timed: Vec<Timed>,
}

/// The runs that the page keeps: each a block of text that begins with its processor. The rows end where a line says the
/// least ratio; what follows is no comparison with the unchanged Rust.
fn runs(page: &str) -> Vec<Run> {
    let blocks = page.split("\n```\n").skip(1).step_by(2);
    blocks.filter_map(|block| run(block.trim_start_matches("```\n"))).collect()
}

fn run(block: &str) -> Option<Run> {
    let (processor, _) = block.lines().next()?.split_once(": ")?;
    let timed: Vec<Timed> =
        block.lines().take_while(|line| !line.starts_with("least ratio")).filter_map(timed).collect();
    (!timed.is_empty()).then(|| Run { processor: processor.to_string(), timed })
}

/// A row ends with the port's time, the Rust's and their ratio; the ratio is taken from the two times, since the printed
/// one is rounded.
fn timed(line: &str) -> Option<Timed> {
    let numbers: Vec<f64> = line.split_whitespace().rev().take(3).map_while(|word| word.parse().ok()).collect();
    let &[_, rust, port] = numbers.as_slice() else { return None };
    let call = line.get(..15)?.trim().to_string();
    Some(Timed { call, ratio: rust / port })
}

fn summary(runs: &[Run]) -> Vec<Vec<String>> {
    let mut lines = Vec::new();
    for run in runs {
        let mut calls: Vec<&str> = run.timed.iter().map(|row| row.call.as_str()).collect();
        calls.dedup();
        calls.sort_unstable();
        calls.dedup();
        for call in calls {
            let ratios: Vec<f64> = run.timed.iter().filter(|row| row.call == call).map(|row| row.ratio).collect();
            let below = ratios.iter().filter(|ratio| **ratio < 1.0).count();
            let least = ratios.iter().copied().fold(f64::INFINITY, f64::min);
            let most = ratios.iter().copied().fold(0.0, f64::max);
            lines.push(vec![
                call.to_string(),
                run.processor.clone(),
                ratios.len().to_string(),
                below.to_string(),
                format!("{least:.2}"),
                format!("{most:.2}"),
            ]);
        }
    }
    lines.sort();
    lines
}

#[test]
fn what_is_said_in_short_is_counted_from_the_runs() {
    let page = read(BENCH);
    let runs = runs(&page);
    assert!(!runs.is_empty(), "{BENCH} keeps no run");
    let due = summary(&runs);
    let told = rows(&page, SUMMARY);
    let text: Vec<String> = due.iter().map(|row| format!("| {} |", row.join(" | "))).collect();
    assert!(told == due, "{BENCH}, {SUMMARY}: the table should be\n{}", text.join("\n"));
}
