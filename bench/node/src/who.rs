//! What a live member says of itself when `/who` is typed.

/// The beginning of the line that says what passed the member's wire.
const BEGINNING: &str = "srm: heard ";

/// What passed a member's wire.
#[derive(Clone, Copy, Default)]
pub struct Who {
    /// Datagrams that it sent. Each goes to every other member.
    pub sent: u64,
    /// Copies that the network refused to take, and datagrams that came and that it dropped.
    pub lost: u64,
}

impl Who {
    /// What a line says. None if it is another line.
    pub fn of(line: &str) -> Option<Who> {
        let line = line.strip_prefix(BEGINNING)?;
        let losses = line.find(", lost: ").or(line.find(", dropped: "));
        let (counts, losses) = line.split_at(losses.unwrap_or(line.len()));
        let sent = counts
            .split(", ")
            .find_map(|count| count.strip_prefix("sent "))?;
        Some(Who {
            sent: sent.parse().ok()?,
            lost: losses.split(", ").filter_map(last_number).sum(),
        })
    }
}

// Each kind of loss ends with its count.
fn last_number(kind: &str) -> Option<u64> {
    kind.rsplit(' ').next()?.parse().ok()
}
