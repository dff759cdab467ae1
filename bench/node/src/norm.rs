//! The same messages over NORM: `bench/peers` as processes, one sender and two receivers.

use crate::usage::{self, Cost};
use std::io::{BufRead, BufReader};
use std::net::UdpSocket;
use std::path::Path;
use std::process::{Child, Command, Stdio};
use std::time::{Duration, Instant};

/// The receivers, as NORM numbers its nodes; the sender is the first.
const RECEIVERS: [u32; 2] = [2, 3];

const SEND: &str = "norm_send";
const RECEIVE: &str = "norm_receive";

/// What a session over NORM cost, and how long its sender needed until both receivers had all.
pub struct Norm {
    pub sender: Cost,
    pub receivers: Vec<Cost>,
    pub whole: Duration,
}

/// Sends so many messages of so many bytes with the peers in this folder.
pub fn run(peers: &Path, messages: usize, bytes: usize) -> Result<Norm, String> {
    let port = free_port().to_string();
    let size = [messages.to_string(), bytes.to_string()];
    let mut receivers = Vec::new();
    for node in RECEIVERS {
        receivers.push(start_receiver(peers, &port, node, &size)?);
    }
    let begun = Instant::now();
    let sender = Command::new(peers.join(SEND))
        .arg(&port)
        .args(&size)
        .spawn()
        .map_err(|error| format!("cannot start {SEND}: {error}"))?;
    let sender = cost_of(SEND, &sender)?;
    let whole = begun.elapsed();
    let receivers = receivers.iter().map(|child| cost_of(RECEIVE, child));
    Ok(Norm {
        sender,
        receivers: receivers.collect::<Result<_, _>>()?,
        whole,
    })
}

/// Starts a receiver, and waits until it hears.
fn start_receiver(peers: &Path, port: &str, node: u32, size: &[String]) -> Result<Child, String> {
    let mut child = Command::new(peers.join(RECEIVE))
        .args([port, &node.to_string()])
        .args(size)
        .stdout(Stdio::piped())
        .spawn()
        .map_err(|error| format!("cannot start {RECEIVE}: {error}"))?;
    let mut line = String::new();
    let mut output = BufReader::new(child.stdout.as_mut().expect("its output"));
    match output.read_line(&mut line) {
        Ok(_) if line == "ready\n" => Ok(child),
        _ => Err(format!("{RECEIVE} doesn't hear at port {port}")),
    }
}

fn cost_of(name: &str, child: &Child) -> Result<Cost, String> {
    usage::of_process(child.id()).map_err(|why| format!("{name}: {why}"))
}

fn free_port() -> u16 {
    let socket = UdpSocket::bind("127.0.0.1:0").expect("a socket");
    socket.local_addr().expect("an address").port()
}
