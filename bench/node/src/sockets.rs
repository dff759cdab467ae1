//! The system's table of UDP sockets.

use std::fs;

const TABLE: &str = "/proc/net/udp";

/// How many datagrams the system dropped at the IPv4 sockets with this local port since they were made. None if there is no such socket.
pub fn drops_at(port: u16) -> Result<Option<u64>, String> {
    let table =
        fs::read_to_string(TABLE).map_err(|error| format!("cannot read {TABLE}: {error}"))?;
    let mut all = None;
    for line in table.lines().skip(1) {
        let (own, drops) =
            port_and_drops(line).ok_or(format!("{TABLE}: a line that isn't known: '{line}'"))?;
        if own == port {
            all = Some(all.unwrap_or(0) + drops);
        }
    }
    Ok(all)
}

// The local port is behind the colon of the second column, in hexadecimal; the last column counts drops.
fn port_and_drops(line: &str) -> Option<(u16, u64)> {
    let mut columns = line.split_whitespace();
    let (_, port) = columns.nth(1)?.split_once(':')?;
    let port = u16::from_str_radix(port, 16).ok()?;
    Some((port, columns.last()?.parse().ok()?))
}
