//! A member over UDP: it joins a room, draws each line of its input on the first page, and prints what it is given, as `srm node` does.
//!
//!     cargo run --example node -- --room FILE --me NAME     the name, or the place from 0
//!
//! Once its input ended it stays until nobody asked for anything for as long as the room says, and then leaves.

use ringyew::{Agent, Guard, Message, Page, Room, RoomError, SEALED_MAX, SLOTS, State};
use std::env::args_os;
use std::error::Error;
use std::fs;
use std::io::{BufRead, stdin};
use std::net::{SocketAddr, ToSocketAddrs, UdpSocket};
use std::process::exit;
use std::sync::mpsc::{Receiver, SyncSender, channel, sync_channel};
use std::thread;
use std::time::{Duration, Instant, SystemTime};

/// What a member waits for.
enum Event {
    Datagram(Vec<u8>),
    Line(Vec<u8>),
    End,
}

/// The moment, in microseconds since the program began.
fn now(begun: Instant) -> u64 {
    begun.elapsed().as_micros() as u64
}

/// Reads lines, the next one once that before was drawn.
fn read_lines(events: &SyncSender<Event>, drawn: &Receiver<()>) {
    for line in stdin().lock().split(b'\n').map_while(Result::ok) {
        if events.send(Event::Line(line)).is_err() || drawn.recv().is_err() {
            return;
        }
    }
    let _ = events.send(Event::End);
}

fn receive(udp: &UdpSocket, events: &SyncSender<Event>) {
    let mut buffer = [0; SEALED_MAX + 1]; // what is longer than the longest is no datagram
    loop {
        let Ok(length) = udp.recv(&mut buffer) else { continue };
        if events.send(Event::Datagram(buffer[..length].to_vec())).is_err() {
            return;
        }
    }
}

fn print_given(agent: &mut Agent, me: u8) -> Result<(), ringyew::Error> {
    for slot in 0..SLOTS {
        for message in agent.messages(slot) {
            match message? {
                Message::Open(page) => println!("took {me} {slot} open {page}"),
                Message::Draw { name, body, .. } => println!("took {me} {slot} draw {} {} {}", name.source, name.number, String::from_utf8_lossy(&body)),
                Message::Left(source) => println!("took {me} {slot} left {source}"),
                Message::Close => println!("took {me} {slot} close"),
            }
        }
    }
    Ok(())
}

/// Reads the room of a file, or says what is wrong with it.
fn read(path: &str) -> Result<Room, String> {
    let text = fs::read(path).map_err(|why| format!("cannot read room {path}: {why}"))?;
    Room::read(&text).map_err(|why| match &why {
        RoomError::Fault(fault) => match fault.line {
            Some(line) => format!("room {path}, line {line}: {why}"),
            None => format!("room {path}: {why}"),
        },
        RoomError::Memory => why.to_string(),
    })
}

/// Finds a member's place, or tells whom the room has.
fn find(room: &mut Room, path: &str, me: &str) -> Result<u8, String> {
    room.find(me).ok_or_else(|| {
        let names: Vec<String> = (0..room.members()).filter_map(|place| room.name(place).ok()).collect();
        format!("room {path} has no member {me}: write --me with one of {}", names.join(" "))
    })
}

/// Resolves the members' addresses, each once. All are to be of one kind.
fn addresses(room: &mut Room) -> Result<Vec<SocketAddr>, Box<dyn Error>> {
    let mut addresses: Vec<SocketAddr> = Vec::new();
    for place in 0..room.members() {
        let text = room.address(place)?;
        let found = text.to_socket_addrs().map_err(|why| format!("cannot find {text}: {why}"))?;
        let mut of_kind = found.filter(|address| addresses.first().is_none_or(|first| first.is_ipv4() == address.is_ipv4()));
        let address = of_kind.next().ok_or_else(|| format!("cannot find {text}: give all members an address of the same kind"))?;
        addresses.push(address);
    }
    Ok(addresses)
}

fn main() {
    let words: Vec<String> = args_os().skip(1).map(|word| word.to_string_lossy().into_owned()).collect();
    let [room, path, me, name] = &words[..] else { refuse() };
    if room != "--room" || me != "--me" {
        refuse();
    }
    if let Err(why) = run(path, name) {
        eprintln!("node: {why}");
        exit(1);
    }
}

fn refuse() -> ! {
    eprintln!("node: name a room and a member of it\nusage: node --room FILE --me NAME");
    exit(2)
}

fn run(path: &str, name: &str) -> Result<(), Box<dyn Error>> {
    let mut room = read(path)?;
    let me = find(&mut room, path, name)?;
    let addresses = addresses(&mut room)?;
    let begun = Instant::now();
    let since_1970 = SystemTime::UNIX_EPOCH.elapsed()?;
    let mut agent = Agent::new(&room.config(me)?, since_1970.as_nanos() as u64 ^ u64::from(me) << 56, now(begun))?;
    let mut guard = room.guard(me, since_1970.as_micros() as u64)?;
    let linger = room.linger().as_micros() as u64;

    let udp = UdpSocket::bind(addresses[usize::from(me)])?;
    let (events, came) = sync_channel(256);
    let (draw_next, drawn) = channel();
    thread::spawn({
        let events = events.clone();
        move || read_lines(&events, &drawn)
    });
    let from = udp.try_clone()?;
    thread::spawn(move || receive(&from, &events));

    // When somebody last asked for something, or got it; and whether the input ended.
    let (mut line, mut asked, mut ended): (Option<Vec<u8>>, u64, bool) = (None, now(begun), false);
    while agent.state() != State::Gone {
        let leaves = (ended && agent.state() == State::Active).then_some(asked + linger);
        let wake = line.as_ref().map_or(leaves, |line| agent.admits_from(line.len()));
        let wait = [wake, agent.next_due()].into_iter().flatten().min().map_or(Duration::MAX, |moment| Duration::from_micros(moment.saturating_sub(now(begun))));
        match came.recv_timeout(wait.min(Duration::from_secs(60))) {
            Ok(Event::Datagram(bytes)) => {
                // Without the key, or for the second time: dropped. Out of memory: it counts as lost.
                let heard = guard.open(&bytes).and_then(|datagram| agent.hear(datagram, now(begun)));
                if heard.is_ok_and(|heard| heard.timers > 0) {
                    asked = now(begun);
                }
            }
            Ok(Event::Line(typed)) => line = Some(typed),
            Ok(Event::End) => (ended, asked) = (true, now(begun)),
            Err(_) => {}
        }
        if let Some(typed) = line.take_if(|line| agent.admits(line.len(), now(begun))) {
            agent.draw(Page::FIRST, &typed, now(begun))?;
            asked = now(begun);
            draw_next.send(())?;
        }
        if ended && agent.state() == State::Active && asked + linger <= now(begun) {
            agent.leave(now(begun))?;
        }
        if agent.tick(now(begun))?.repairs > 0 {
            asked = now(begun);
        }
        send_all(&mut agent, &mut guard, &udp, &addresses, me);
        print_given(&mut agent, me)?;
    }
    println!("gone {me}");
    Ok(())
}

/// Sends what a tick left to all others, sealed for each.
fn send_all(agent: &mut Agent, guard: &mut Guard, udp: &UdpSocket, addresses: &[SocketAddr], me: u8) {
    for datagram in agent.datagrams() {
        for (to, address) in (0..).zip(addresses).filter(|(to, _)| *to != me) {
            if let Ok(sealed) = guard.seal(to, &datagram) {
                let _ = udp.send_to(&sealed, address); // what is lost, here too, is asked for again
            }
        }
    }
}
