//! Strokes as they are typed.

/// The lines of so many strokes of so many bytes.
pub fn lines(count: usize, bytes: usize) -> String {
    format!("{}\n", "x".repeat(bytes)).repeat(count)
}
