//! The receive buffer that the system grants a socket.

use crate::number::grouped;
use std::fs;

/// What Linux calls the most that a socket gets, and where it says how much that is.
const NAME: &str = "net.core.rmem_max";
const FILE: &str = "/proc/sys/net/core/rmem_max";

/// One line: how many bytes a socket gets at most.
pub fn line() -> Result<String, String> {
    let text = fs::read_to_string(FILE).map_err(|error| format!("cannot read {FILE}: {error}"))?;
    let text = text.trim();
    let bytes = text
        .parse()
        .map_err(|_| format!("{FILE} holds no number: '{text}'"))?;
    Ok(format!(
        "A socket gets at most {} bytes of receive buffer (`{NAME}`).",
        grouped(bytes)
    ))
}
