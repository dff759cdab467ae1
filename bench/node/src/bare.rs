//! The bare calls: one `sendto` for each of two receivers, and one `recvfrom` at each.

use crate::usage;
use std::net::UdpSocket;

/// Datagrams between two changes of side: as many as a turn of a node hears or draws.
const BATCH: usize = 64;

/// Processor time of all calls, in microseconds: of the sends to both receivers, and of the receives of one.
pub struct Bare {
    pub send: f64,
    pub receive: f64,
}

/// Sends so many datagrams of so many bytes to two sockets each, and receives them.
pub fn measure(bytes: usize, messages: usize) -> Bare {
    let bind = || UdpSocket::bind("127.0.0.1:0").expect("a socket");
    let (sender, receivers) = (bind(), [bind(), bind()]);
    let addresses = receivers
        .each_ref()
        .map(|receiver| receiver.local_addr().expect("an address"));
    let datagram = vec![b'x'; bytes];
    let mut buffer = [0; 4_096];
    let mut bare = Bare {
        send: 0.0,
        receive: 0.0,
    };
    let mut left = messages;
    while left > 0 {
        let batch = left.min(BATCH);
        let before = usage::of_thread();
        for _ in 0..batch {
            for address in addresses {
                sender.send_to(&datagram, address).expect("a send");
            }
        }
        let sent = usage::of_thread();
        for receiver in &receivers {
            for _ in 0..batch {
                receiver.recv_from(&mut buffer).expect("a datagram");
            }
        }
        bare.send += sent - before;
        bare.receive += (usage::of_thread() - sent) / receivers.len() as f64;
        left -= batch;
    }
    bare
}
