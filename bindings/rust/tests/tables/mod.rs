//! README.md and its tables.

pub const README: &str = include_str!("../../../../README.md");

/// The cells of the rows of a section's table, without its head.
pub fn rows(section: &str) -> Vec<Vec<&'static str>> {
    let title = format!("\n## {section}\n");
    let text = README.split(&title).nth(1).unwrap_or_else(|| panic!("README.md has no section {section}"));
    let rows = text.split("\n## ").next().unwrap_or(text).lines().filter(|line| line.starts_with('|'));
    rows.skip(2).map(|row| row.split(" | ").map(|cell| cell.trim_matches(['|', ' ', '`'])).collect()).collect()
}
