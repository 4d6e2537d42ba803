//! The list while it is made.

/// Lines, each with its newline.
#[derive(Debug, Default)]
pub struct List {
    text: String,
}

impl List {
    /// Adds a line.
    pub fn line(&mut self, line: &str) {
        self.text.push_str(line);
        self.text.push('\n');
    }

    /// All lines.
    pub fn text(&self) -> &str {
        &self.text
    }
}
