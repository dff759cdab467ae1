//! The table of what a message costs.

use crate::arguments::Arguments;
use crate::bare;
use crate::costs::{self, Each};
use crate::members::Session;

/// Bytes of a stroke, and strokes of a session of such: an input of `srm node` has at most 1,000,000 bytes.
pub const SIZES: [(usize, usize); 3] = [(64, 4_000), (200, 4_000), (1_000, 900)];

/// So many bytes a datagram has beside its stroke.
const HEAD: usize = 27;

/// Prints it.
pub fn print(arguments: &Arguments) -> Result<(), String> {
    println!("Processor time in microseconds a message:\n");
    println!(
        "| bytes | | node | NORM | bare calls | node to NORM | node to bare | sleeps: node, NORM |"
    );
    println!("|---|---|---|---|---|---|---|---|");
    for (bytes, strokes) in SIZES {
        print_size(arguments, bytes, strokes)?;
    }
    println!();
    Ok(())
}

// Prints what strokes of a size cost.
fn print_size(arguments: &Arguments, bytes: usize, strokes: usize) -> Result<(), String> {
    let sessions = arguments.sessions;
    let messages = (strokes * sessions) as f64;
    let bare = bare::measure(bytes + HEAD, strokes * sessions);
    let bare = [bare.send / messages, bare.receive / messages];
    let session = |members| Session {
        program: &arguments.program,
        members,
        strokes,
        bytes,
    };
    let node = costs::at_both_ends(&costs::of_node(session(3), sessions)?);
    let norm = match &arguments.peers {
        Some(peers) => {
            let costs = costs::of_norm(peers, strokes, bytes, sessions)?;
            costs::at_both_ends(&costs).map(Some)
        }
        None => [None; 2],
    };
    for (end, name) in ["sender", "a receiver"].into_iter().enumerate() {
        print_end(
            &format!("{bytes} | {name}"),
            node[end],
            norm[end],
            bare[end],
        );
    }
    let alone = costs::of_node(session(1), sessions)?[0].micros;
    println!("| {bytes} | alone, dealing and printing | {alone:.2} | | | | | |");
    Ok(())
}

// Prints what a message costs at one end.
fn print_end(title: &str, node: Each, norm: Option<Each>, bare: f64) {
    let [cost, ratio, sleeps] = match norm {
        Some(norm) => {
            [norm.micros, node.micros / norm.micros, norm.sleeps].map(|it| format!("{it:.2}"))
        }
        None => [const { String::new() }; 3],
    };
    println!(
        "| {title} | {:.2} | {cost} | {bare:.2} | {ratio} | {:.2} | {:.2}, {sleeps} |",
        node.micros,
        node.micros / bare,
        node.sleeps
    );
}
