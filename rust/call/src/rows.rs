//! Lines with comments beside them, the comments under each other.

#[derive(Default)]
pub struct Rows(Vec<(String, String)>);

impl Rows {
    /// Adds a line and its comment, which may be empty.
    pub fn add(&mut self, line: String, comment: String) {
        self.0.push((line, comment));
    }

    pub fn text(&self) -> String {
        let width = self
            .0
            .iter()
            .map(|(line, _)| line.chars().count())
            .max()
            .unwrap_or(0);
        let row = |(line, comment): &(String, String)| match comment.is_empty() {
            true => format!("{line}\n"),
            false => format!("{line:width$}  # {comment}\n"),
        };
        self.0.iter().map(row).collect()
    }
}

/// A mark for a figure that breaks its bound.
pub fn mark(broken: bool) -> &'static str {
    if broken {
        " !"
    } else {
        ""
    }
}
