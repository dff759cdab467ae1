//! Addresses of loopback that nobody has.

use std::net::{SocketAddr, UdpSocket};

/// So many addresses, each with a port that the system chose and that nobody has by now.
pub fn free(count: usize) -> Vec<SocketAddr> {
    let sockets: Vec<UdpSocket> = (0..count)
        .map(|_| UdpSocket::bind("127.0.0.1:0").expect("a socket"))
        .collect();
    sockets
        .iter()
        .map(|socket| socket.local_addr().expect("an address"))
        .collect()
}
