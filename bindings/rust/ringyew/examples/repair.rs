//! Two members of one session in one program: of three strokes the second is lost, asked for and repaired.
//!
//! The program is the network too. One of your own sends what a tick leaves to all others.

use ringyew::{Agent, Config, Error, Message, Page};
use std::env::args_os;
use std::process::exit;

/// The last moment, in microseconds: by then what was lost is repaired.
const END: u64 = 900_000;

fn main() -> Result<(), Error> {
    if let Some(word) = args_os().nth(1) {
        eprintln!("repair: {}: it takes no argument\nusage: repair", word.to_string_lossy());
        exit(2)
    }
    let mut drawer = Agent::new(&Config::new(0, 2, 7), 0, 0)?;
    let mut listener = Agent::new(&Config::new(1, 2, 7), 1, 0)?;
    for stroke in ["a line", "a circle", "an arrow"] {
        drawer.draw(Page::FIRST, stroke.as_bytes(), 0)?;
    }
    drawer.tick(0)?;
    carry(&mut drawer, &mut listener, Some(1), 0)?;
    while let Some(now) = drawer.next_due().min(listener.next_due()).filter(|now| *now <= END) {
        tick(&mut drawer, &mut listener, now)?;
        tick(&mut listener, &mut drawer, now)?;
    }
    for message in listener.messages(0) {
        println!("given {}", told(&message?));
    }
    Ok(())
}

fn tick(from: &mut Agent, to: &mut Agent, now: u64) -> Result<(), Error> {
    from.tick(now)?;
    for name in from.requests() {
        println!("{now}: asked for stroke {}", name.number);
    }
    for name in from.repairs() {
        println!("{now}: repaired stroke {}", name.number);
    }
    carry(from, to, None, now)
}

/// A member hears what a tick of another left to be sent, but for one datagram that is lost.
fn carry(from: &mut Agent, to: &mut Agent, lost: Option<usize>, now: u64) -> Result<(), Error> {
    for (place, datagram) in from.datagrams().enumerate() {
        if lost != Some(place) {
            to.hear(&datagram, now)?;
        }
    }
    Ok(())
}

fn told(message: &Message) -> String {
    match message {
        Message::Open(page) => format!("page {} of member {}", page.number, page.creator),
        Message::Draw { name, body, .. } => {
            format!("stroke {} of member {}: {}", name.number, name.source, String::from_utf8_lossy(body))
        }
        Message::Left(source) => format!("that member {source} left"),
        Message::Close => "the close".to_string(),
    }
}
