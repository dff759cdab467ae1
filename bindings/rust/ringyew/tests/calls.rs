//! The crate's calls, at worked values.

use ringyew::{Agent, BODY_MAX, Cause, Config, DATAGRAM_MAX, Error, Guard, MOMENT_MAX, Message, Name, Page, Room, RoomError, RoomFaultKind, State};
use std::time::Duration;

fn agent(me: u8) -> Agent {
    Agent::new(&Config::new(me, 2, 7), me.into(), 0).unwrap()
}

#[test]
fn settings_that_are_out_of_range_are_refused() {
    let config = Config::new(0, 2, 7);
    for bad in [
        Config { me: 2, ..config },
        Config { members: 33, ..config },
        Config { rate: 0, ..config },
        Config { depth: 1_050, ..config },
        Config { c1: 17, ..config },
        Config { least_distance: 0, ..config },
        Config { least_distance: 10_000_001, ..config },
    ] {
        assert_eq!(Agent::new(&bad, 0, 0).unwrap_err(), Error::Config, "{bad:?}");
    }
    assert_eq!(Agent::new(&config, 0, MOMENT_MAX + 1).unwrap_err(), Error::Moment);
}

#[test]
fn calls_that_break_a_rule_are_refused() {
    let mut agent = agent(0);
    let far = Page { creator: 32, number: 0 };
    assert_eq!(agent.draw(far, b"", 0), Err(Error::Page));
    assert_eq!(agent.show(far, 0), Err(Error::Page));
    assert_eq!(agent.draw(Page::FIRST, &[0; BODY_MAX + 1], 0), Err(Error::BodyLong));
    assert_eq!(agent.draw(Page::FIRST, b"", MOMENT_MAX + 1), Err(Error::Moment));
    assert_eq!(agent.hear(b"", MOMENT_MAX + 1), Err(Error::Moment));
    assert_eq!(agent.tick(MOMENT_MAX + 1), Err(Error::Moment));
    assert_eq!(agent.leave(MOMENT_MAX + 1), Err(Error::Moment));
    assert_eq!(agent.show(Page::FIRST, MOMENT_MAX + 1), Err(Error::Moment));
    assert_eq!(agent.give(8), Err(Error::Slot));
    assert_eq!(agent.distance(32), Err(Error::Member));
    assert_eq!(agent.known(far, 32), Err(Error::Page));
    assert_eq!(agent.missing(Page::FIRST, 32), Err(Error::Member));
    assert_eq!(agent.next_missing(Page::FIRST, 32, 0), Err(Error::Member));
    assert_eq!(agent.messages(8).next(), Some(Err(Error::Slot)));
}

#[test]
fn pages_run_out() {
    let mut agent = agent(0);
    assert_eq!(agent.new_page(), Some(Page { creator: 0, number: 1 }));
    for number in 1..8 {
        agent.show(Page { creator: 1, number }, 0).unwrap();
    }
    assert_eq!(agent.new_page(), None);
    assert_eq!(agent.show(Page { creator: 1, number: 8 }, 0), Err(Error::PageLimit));
}

#[test]
fn a_room_that_is_too_short_loses_nothing() {
    let mut agent = agent(0);
    agent.draw(Page::FIRST, b"a line", 0).unwrap();
    agent.tick(0).unwrap();
    let mut room = [0; DATAGRAM_MAX];
    assert_eq!(agent.next_datagram(&mut room[..5]), Err(Error::Buffer(33)));
    assert_eq!(agent.next_datagram(&mut room), Ok(Some(33)));
    assert!(room[..33].ends_with(b"a line"));
    assert_eq!(agent.next_datagram(&mut room), Ok(None));
}

#[test]
fn strokes_are_given_in_order() {
    let (mut drawer, mut listener) = (agent(0), agent(1));
    let name = drawer.draw(Page::FIRST, b"a line", 5).unwrap();
    assert_eq!(name, Name { page: Page::FIRST, source: 0, number: 1 });
    drawer.draw(Page::FIRST, b"", 6).unwrap();
    let ticked = drawer.tick(6).unwrap();
    assert_eq!((ticked.datagrams, ticked.requests, ticked.repairs, ticked.state), (2, 0, 0, State::Active));
    let mut sent: Vec<_> = drawer.datagrams().collect();
    sent.reverse();
    for datagram in &sent {
        assert_eq!(listener.hear(datagram, 9).unwrap().ignored, None);
        assert_eq!(drawer.hear(datagram, 9).unwrap().ignored, Some(Cause::Own));
    }
    assert_eq!(listener.hear(b"noise", 9).unwrap().ignored, Some(Cause::Decode(2)));
    let given: Result<Vec<_>, _> = listener.messages(0).collect();
    let draw = |number, stamp, body: &[u8]| Message::Draw { name: Name { page: Page::FIRST, source: 0, number }, stamp, body: body.to_vec() };
    assert_eq!(given.unwrap(), [Message::Open(Page::FIRST), draw(1, 5, b"a line"), draw(2, 6, b"")]);
    assert_eq!(listener.distance(1), Ok(0));
    assert_eq!(listener.distance(0), Ok(100_000));
}

#[test]
fn a_loss_is_requested_and_repaired() {
    let (mut drawer, mut listener) = (agent(0), agent(1));
    for _ in 0..3 {
        drawer.draw(Page::FIRST, b"x", 0).unwrap();
    }
    drawer.tick(0).unwrap();
    let last = drawer.datagrams().last().unwrap();
    assert_eq!(listener.hear(&last, 0).unwrap().timers, 2);
    let due = listener.next_due().unwrap();
    assert!((200_000..=400_000).contains(&due));
    assert_eq!(listener.wait(due - 5), Some(Duration::from_micros(5)));
    assert_eq!(listener.wait(due + 5), Some(Duration::ZERO));
    let ticked = listener.tick(400_000).unwrap();
    assert_eq!((ticked.requests, ticked.repairs, ticked.datagrams), (2, 0, 1));
    let names = [1, 2].map(|number| Name { page: Page::FIRST, source: 0, number });
    assert!(listener.requests().eq(names));
    let request = listener.datagrams().next().unwrap();
    assert_eq!(drawer.hear(&request, 400_000).unwrap().timers, 2);
    let ticked = drawer.tick(600_000).unwrap();
    assert_eq!((ticked.requests, ticked.repairs, ticked.datagrams), (0, 2, 2));
    assert!(drawer.repairs().eq(names));
    assert_eq!(drawer.datagrams().count(), 2);
}

#[test]
fn a_member_is_asked_what_it_misses() {
    let (mut drawer, mut listener) = (agent(0), agent(1));
    for _ in 0..4 {
        drawer.draw(Page::FIRST, b"x", 0).unwrap();
    }
    assert_eq!(drawer.outstanding().waiting_new, 4);
    drawer.tick(0).unwrap();
    for datagram in drawer.datagrams().skip(1).step_by(2) {
        listener.hear(&datagram, 0).unwrap();
    }
    assert_eq!((listener.known(Page::FIRST, 0), listener.missing(Page::FIRST, 0)), (Ok(4), Ok(2)));
    let above = [0, 1, 3].map(|after| listener.next_missing(Page::FIRST, 0, after));
    assert_eq!(above, [Ok(Some(1)), Ok(Some(3)), Ok(None)]);
    let outstanding = listener.outstanding();
    assert_eq!((outstanding.missing, outstanding.next_request_at, outstanding.next_repair_at), (2, listener.next_due(), None));
    assert_eq!((outstanding.waiting_shown, outstanding.waiting_new, outstanding.waiting_other), (0, 0, 0));
    listener.leave(0).unwrap();
    assert_eq!(listener.outstanding().state, State::Leaving);
}

#[test]
fn the_rate_says_from_when_on_it_admits() {
    let mut agent = agent(0);
    assert!(agent.admits(BODY_MAX, 0));
    for _ in 0..5 {
        agent.draw(Page::FIRST, &[0; BODY_MAX], 0).unwrap();
    }
    assert_eq!(agent.admits_from(13), None);
    agent.tick(0).unwrap();
    assert_eq!(agent.admits_from(13), Some(136_375));
    assert!(!agent.admits(13, 136_374) && agent.admits(13, 136_375));
}

#[test]
fn an_agent_leaves_in_another_thread() {
    let mut agent = agent(0);
    let mut agent = std::thread::spawn(move || {
        agent.leave(5).unwrap();
        agent
    })
    .join()
    .unwrap();
    assert_eq!(agent.state(), State::Leaving);
    assert_eq!(agent.leave(5), Err(Error::Leaving));
    let ticked = agent.tick(5).unwrap();
    assert_eq!((ticked.state, ticked.datagrams), (State::Gone, 1));
    assert_eq!(agent.next_due(), None);
    assert_eq!(agent.wait(5), None);
    assert_eq!(agent.draw(Page::FIRST, b"", 5), Err(Error::Gone));
}

const OUR_ROOM: &str = r#"
ringyew = 1
session = 7
key = "000102030405060708090a0b0c0d0e0f"
[[member]]
name = "ada"
address = "192.0.2.7:47100"
[[member]]
name = "gräce"
address = "[2001:db8::7]:47101"
[settings]
waits = [2, 3, 1, 4]
least-distance = 5000
rate = 64000
depth = 4204
linger = 2000000
most-missing = 9
"#;

#[test]
fn a_room_is_read() {
    let mut room = Room::read(OUR_ROOM.as_bytes()).unwrap();
    assert_eq!(room.members(), 2);
    assert_eq!((room.name(1).as_deref(), room.address(1).as_deref()), (Ok("gräce"), Ok("[2001:db8::7]:47101")));
    assert_eq!((room.name(2), room.address(u8::MAX)), (Err(Error::Member), Err(Error::Member)));
    assert_eq!(["ada", "gräce", "0", "1", "2", "eve", "", "ada\0"].map(|who| room.find(who)), [Some(0), Some(1), Some(0), Some(1), None, None, None, None]);
    assert_eq!((room.linger(), room.most_missing()), (Duration::from_secs(2), 9));
    let config = room.config(1).unwrap();
    assert_eq!(config, Config { rate: 64_000, depth: 4_204, c1: 2, c2: 3, d1: 1, d2: 4, least_distance: 5_000, ..Config::new(1, 2, 7) });
    assert!(Agent::new(&config, 0, 0).is_ok());
    assert_eq!(room.config(2), Err(Error::Member));
    assert_eq!(room.guard(2, 0).unwrap_err(), Error::Member);
}

#[test]
fn a_text_that_is_no_room_is_refused() {
    for (text, kind, line, words) in [
        (OUR_ROOM.replace("ringyew = 1", "ringyew = 2"), RoomFaultKind::Wrong, Some(2), "`ringyew` is of another kind or out of its range: write the format, ringyew = 1"),
        (OUR_ROOM.replace("gräce", "ada"), RoomFaultKind::NameTwice, Some(9), "member 1: a member before has its `name` too: give it another"),
        (String::new(), RoomFaultKind::Lacks, None, "there is no `ringyew`: write the format, ringyew = 1"),
        ("#".repeat(70_000), RoomFaultKind::NoText, None, "that is no text of at most 65536 bytes: write a room as srm room new does"),
    ] {
        let Err(RoomError::Fault(fault)) = Room::read(text.as_bytes()) else { panic!("{text}") };
        assert_eq!((fault.kind, fault.line, fault.to_string().as_str()), (kind, line, words));
    }
}

#[test]
fn what_is_sealed_opens_once() {
    let mut room = Room::read(OUR_ROOM.as_bytes()).unwrap();
    let (mut from, mut to) = (room.guard(0, 258).unwrap(), room.guard(1, 258).unwrap());
    drop(room);
    let sealed = from.seal(1, b"hi").unwrap();
    // As Python's hmac has it.
    assert_eq!(sealed, [&b"hi\x00\x00\x00\x00\x00\x00\x00\x01\x02"[..], b"\x5d\x3a\x92\x72\xa4\x33\x67\x0d\x94\x35\x62\x2c\x43\xba\xd6\x78"].concat());
    assert_eq!(to.open(&sealed[..26]), Err(Error::Untagged));
    assert_eq!(from.open(&sealed), Err(Error::Untagged));
    assert_eq!(to.open(&sealed), Ok(&b"hi"[..]));
    assert_eq!(to.open(&sealed), Err(Error::Again));
    assert_eq!(to.open(b"hi\x9d\x33\xd0\x1c\x1f\x90\x24\x45\x8f\xf7\xdb\x4a\x21\x56\xae\xc5"), Err(Error::Older));
    assert_eq!(from.seal(32, b"hi"), Err(Error::Member));
    let longest = from.seal(1, &[0; DATAGRAM_MAX]).unwrap();
    assert_eq!(longest.len(), ringyew::SEALED_MAX);
    let mut to = std::thread::spawn(move || to).join().unwrap();
    assert_eq!(to.open(&longest).map(<[u8]>::len), Ok(DATAGRAM_MAX));
}

#[test]
fn guards_by_keys_of_each_length() {
    for length in [0, 15, 1_025] {
        assert_eq!(Guard::new(&vec![0; length], 0, 0).unwrap_err(), Error::Key);
    }
    assert_eq!(Guard::new(&[0; 16], 32, 0).unwrap_err(), Error::Member);
    assert!(Guard::new(&[0; 1_024], 31, 0).is_ok());
    let mut last = Guard::new(&[0; 16], 0, u64::MAX).unwrap();
    assert_eq!(last.seal(1, b""), Err(Error::Counters));
}

#[test]
fn errors_tell_their_code_and_cause() {
    for (error, code, text) in [
        (Error::Leaving, 1, "the member is leaving"),
        (Error::BodyLong, 5, "the body is too long"),
        (Error::Memory, 6, "out of memory"),
        (Error::Buffer(33), 20, "the buffer is too short"),
        (Error::Member, 26, "there is no such member"),
        (Error::Counters, 32, "all counters to the member were used"),
        (Error::Other(99), 99, "an unknown code"),
    ] {
        assert_eq!((error.code(), error.to_string().as_str()), (code, text));
    }
    assert_eq!(ringyew::library_version(), env!("CARGO_PKG_VERSION"));
}
