//! `srm.h` in Rust, and its calls as safe functions. All unsafe code of the crate is here.
#![allow(unsafe_code)]

use std::ffi::{CStr, c_char, c_int, c_uint, c_void};
use std::marker::{PhantomData, PhantomPinned};
use std::mem::MaybeUninit;
use std::ptr::{NonNull, null_mut};

/// Members of a session, at most. They are numbered from 0.
pub const MEMBERS_MAX: u8 = 32;
/// Pages that a member holds, in slots from 0.
pub const SLOTS: u8 = 8;
/// Bytes of a stroke, at most.
pub const BODY_MAX: usize = 1_024;
/// Strokes of one member on one page, at most. They are numbered from 1.
pub const STROKES_MAX: u32 = 65_536;
/// Bytes of a datagram, at most.
pub const DATAGRAM_MAX: usize = 6_398;
/// The greatest moment, in microseconds: 2^48.
pub const MOMENT_MAX: u64 = 281_474_976_710_656;
pub const NEVER: u64 = u64::MAX;
/// Bytes of a room's text, at most.
pub const ROOM_TEXT_MAX: usize = 65_536;
/// Bytes of a member's name, at most.
pub const NAME_MAX: usize = 160;
/// Bytes of a key, at least.
pub const KEY_MIN: usize = 16;
/// Bytes of a key, at most.
pub const KEY_MAX: usize = 1_024;
/// Bytes that a guard puts behind a datagram.
pub const SEAL_BYTES: usize = 25;
/// Bytes of a datagram that is sealed, at most.
pub const SEALED_MAX: usize = 6_423;
const FAULT_TEXT_MAX: usize = 256;

pub const OK: c_int = 0;
pub const BUFFER: c_int = 20;
pub const NOTHING: c_int = 23;
pub const FAULT: c_int = 27;

#[repr(C)]
struct Agent {
    _opaque: [u8; 0],
    // It is neither `Send` nor `Sync` nor `Unpin` by itself; `Handle` says what holds.
    _marker: PhantomData<(*mut u8, PhantomPinned)>,
}

#[repr(C)]
struct Room {
    _opaque: [u8; 0],
    _marker: PhantomData<(*mut u8, PhantomPinned)>,
}

#[repr(C)]
struct Guard {
    _opaque: [u8; 0],
    _marker: PhantomData<(*mut u8, PhantomPinned)>,
}

#[repr(C)]
#[derive(Clone, Copy, Default)]
pub struct Page {
    pub creator: u8,
    pub number: u16,
}

#[repr(C)]
#[derive(Clone, Copy, Default)]
pub struct Name {
    pub page: Page,
    pub source: u8,
    pub number: u32,
}

#[repr(C)]
#[derive(Clone, Copy, Default)]
pub struct Config {
    pub size: u32,
    pub session: u32,
    pub rate: u32,
    pub depth: u32,
    pub me: u8,
    pub members: u8,
    pub c1: u8,
    pub c2: u8,
    pub d1: u8,
    pub d2: u8,
    pub least_distance: u64,
}

#[repr(C)]
#[derive(Clone, Copy, Default)]
pub struct Heard {
    pub timers: usize,
    pub cause: u8,
    pub fault: u8,
}

#[repr(C)]
#[derive(Clone, Copy, Default)]
pub struct Ticked {
    pub requests: usize,
    pub repairs: usize,
    pub datagrams: usize,
    pub state: u8,
}

#[repr(C)]
#[derive(Clone, Copy, Default)]
pub struct Outstanding {
    pub next_request_at: u64,
    pub next_repair_at: u64,
    pub waiting_shown: usize,
    pub waiting_new: usize,
    pub waiting_other: usize,
    pub missing: u32,
    pub state: u8,
}

#[repr(C)]
#[derive(Clone, Copy)]
pub struct Message {
    pub stamp: u64,
    pub length: usize,
    pub name: Name,
    pub kind: u8,
    pub body: [u8; BODY_MAX],
}

#[repr(C)]
#[derive(Clone, Copy)]
pub struct RoomFault {
    pub line: usize,
    pub length: usize,
    pub kind: u8,
    pub text: [c_char; FAULT_TEXT_MAX],
}

unsafe extern "C" {
    fn srm_version_string() -> *const c_char;
    fn srm_strerror(code: c_int) -> *const c_char;
    fn srm_config_init(config: *mut Config, size: usize);
    fn srm_agent_new(agent: *mut *mut Agent, config: *const Config, seed: u64, now: u64) -> c_int;
    fn srm_agent_free(agent: *mut Agent);
    fn srm_agent_draw(agent: *mut Agent, page: Page, body: *const c_void, length: usize, now: u64, name: *mut Name) -> c_int;
    fn srm_agent_admits(agent: *mut Agent, length: usize, now: u64) -> bool;
    fn srm_agent_admits_from(agent: *mut Agent, length: usize) -> u64;
    fn srm_agent_new_page(agent: *mut Agent, page: *mut Page) -> c_int;
    fn srm_agent_show(agent: *mut Agent, page: Page, now: u64) -> c_int;
    fn srm_agent_leave(agent: *mut Agent, now: u64) -> c_int;
    fn srm_agent_hear(agent: *mut Agent, bytes: *const c_void, length: usize, now: u64, heard: *mut Heard) -> c_int;
    fn srm_agent_tick(agent: *mut Agent, now: u64, ticked: *mut Ticked) -> c_int;
    fn srm_agent_next_datagram(agent: *mut Agent, buffer: *mut c_void, size: usize, length: *mut usize) -> c_int;
    fn srm_agent_next_request(agent: *mut Agent, name: *mut Name) -> c_int;
    fn srm_agent_next_repair(agent: *mut Agent, name: *mut Name) -> c_int;
    fn srm_agent_next_due(agent: *mut Agent) -> u64;
    fn srm_agent_state(agent: *mut Agent) -> c_int;
    fn srm_agent_distance(agent: *mut Agent, member: c_uint, distance: *mut u64) -> c_int;
    fn srm_agent_known(agent: *mut Agent, page: Page, source: c_uint, known: *mut u32) -> c_int;
    fn srm_agent_missing(agent: *mut Agent, page: Page, source: c_uint, count: *mut u32) -> c_int;
    fn srm_agent_next_missing(agent: *mut Agent, page: Page, source: c_uint, after: u32, number: *mut u32) -> c_int;
    fn srm_agent_outstanding(agent: *mut Agent, outstanding: *mut Outstanding) -> c_int;
    fn srm_agent_give(agent: *mut Agent, slot: c_uint, message: *mut Message) -> c_int;
    fn srm_room_read(room: *mut *mut Room, text: *const c_void, length: usize, fault: *mut RoomFault) -> c_int;
    fn srm_room_free(room: *mut Room);
    fn srm_room_members(room: *mut Room) -> c_uint;
    fn srm_room_find(room: *mut Room, who: *const c_char, place: *mut c_uint) -> c_int;
    fn srm_room_name(room: *mut Room, place: c_uint, buffer: *mut c_char, size: usize, length: *mut usize) -> c_int;
    fn srm_room_address(room: *mut Room, place: c_uint, buffer: *mut c_char, size: usize, length: *mut usize) -> c_int;
    fn srm_room_config(room: *mut Room, me: c_uint, config: *mut Config) -> c_int;
    fn srm_room_linger(room: *mut Room) -> u32;
    fn srm_room_most_missing(room: *mut Room) -> u32;
    fn srm_room_guard(guard: *mut *mut Guard, room: *mut Room, me: c_uint, start: u64) -> c_int;
    fn srm_guard_new(guard: *mut *mut Guard, key: *const c_void, length: usize, me: c_uint, start: u64) -> c_int;
    fn srm_guard_free(guard: *mut Guard);
    fn srm_guard_seal(guard: *mut Guard, to: c_uint, datagram: *const c_void, length: usize, buffer: *mut c_void, size: usize, sealed: *mut usize) -> c_int;
    fn srm_guard_open(guard: *mut Guard, bytes: *const c_void, length: usize, opened: *mut usize) -> c_int;
}

fn text(at: *const c_char) -> &'static str {
    // Sound: both callers pass a static text that ends in 0.
    unsafe { CStr::from_ptr(at) }.to_str().unwrap_or_default()
}

pub fn version() -> &'static str {
    // Sound: it takes nothing.
    text(unsafe { srm_version_string() })
}

pub fn describe(code: c_int) -> &'static str {
    // Sound: any number may be asked for.
    text(unsafe { srm_strerror(code) })
}

pub fn defaults() -> Config {
    let mut config = Config::default();
    // Sound: it writes this many bytes.
    unsafe { srm_config_init(&mut config, size_of::<Config>()) };
    config
}

/// An agent, which is freed as it is dropped.
///
/// In each call: the pointer is an agent's, `&mut self` keeps other calls out, and the pointers that are passed live through the call.
pub struct Handle {
    agent: NonNull<Agent>,
}

// Sound: an agent shares nothing with any other and isn't tied to a thread. It isn't `Sync`, as no two calls may run at once.
unsafe impl Send for Handle {}

impl Handle {
    pub fn new(config: &Config, seed: u64, now: u64) -> Result<Handle, c_int> {
        let mut agent = null_mut();
        let code = unsafe { srm_agent_new(&mut agent, config, seed, now) };
        NonNull::new(agent).map(|agent| Handle { agent }).ok_or(code)
    }

    fn at(&mut self) -> *mut Agent {
        self.agent.as_ptr()
    }

    pub fn draw(&mut self, page: Page, body: &[u8], now: u64) -> Result<Name, c_int> {
        let mut name = Name::default();
        let code = unsafe { srm_agent_draw(self.at(), page, body.as_ptr().cast(), body.len(), now, &mut name) };
        done(code, name)
    }

    pub fn admits(&mut self, length: usize, now: u64) -> bool {
        unsafe { srm_agent_admits(self.at(), length, now) }
    }

    pub fn admits_from(&mut self, length: usize) -> u64 {
        unsafe { srm_agent_admits_from(self.at(), length) }
    }

    pub fn new_page(&mut self) -> Result<Page, c_int> {
        let mut page = Page::default();
        let code = unsafe { srm_agent_new_page(self.at(), &mut page) };
        done(code, page)
    }

    pub fn show(&mut self, page: Page, now: u64) -> Result<(), c_int> {
        done(unsafe { srm_agent_show(self.at(), page, now) }, ())
    }

    pub fn leave(&mut self, now: u64) -> Result<(), c_int> {
        done(unsafe { srm_agent_leave(self.at(), now) }, ())
    }

    pub fn hear(&mut self, bytes: &[u8], now: u64) -> Result<Heard, c_int> {
        let mut heard = Heard::default();
        let code = unsafe { srm_agent_hear(self.at(), bytes.as_ptr().cast(), bytes.len(), now, &mut heard) };
        done(code, heard)
    }

    pub fn tick(&mut self, now: u64) -> Result<Ticked, c_int> {
        let mut ticked = Ticked::default();
        let code = unsafe { srm_agent_tick(self.at(), now, &mut ticked) };
        done(code, ticked)
    }

    /// The code, and the length of the datagram where there is one.
    pub fn next_datagram(&mut self, buffer: &mut [u8]) -> (c_int, usize) {
        let mut length = 0;
        let code = unsafe { srm_agent_next_datagram(self.at(), buffer.as_mut_ptr().cast(), buffer.len(), &mut length) };
        (code, length)
    }

    pub fn next_request(&mut self) -> Option<Name> {
        let mut name = Name::default();
        let code = unsafe { srm_agent_next_request(self.at(), &mut name) };
        done(code, name).ok()
    }

    pub fn next_repair(&mut self) -> Option<Name> {
        let mut name = Name::default();
        let code = unsafe { srm_agent_next_repair(self.at(), &mut name) };
        done(code, name).ok()
    }

    pub fn next_due(&mut self) -> u64 {
        unsafe { srm_agent_next_due(self.at()) }
    }

    pub fn state(&mut self) -> c_int {
        unsafe { srm_agent_state(self.at()) }
    }

    pub fn distance(&mut self, member: u8) -> Result<u64, c_int> {
        let mut distance = 0;
        let code = unsafe { srm_agent_distance(self.at(), member.into(), &mut distance) };
        done(code, distance)
    }

    pub fn known(&mut self, page: Page, source: u8) -> Result<u32, c_int> {
        let mut known = 0;
        let code = unsafe { srm_agent_known(self.at(), page, source.into(), &mut known) };
        done(code, known)
    }

    pub fn missing(&mut self, page: Page, source: u8) -> Result<u32, c_int> {
        let mut count = 0;
        let code = unsafe { srm_agent_missing(self.at(), page, source.into(), &mut count) };
        done(code, count)
    }

    pub fn next_missing(&mut self, page: Page, source: u8, after: u32) -> Result<u32, c_int> {
        let mut number = 0;
        let code = unsafe { srm_agent_next_missing(self.at(), page, source.into(), after, &mut number) };
        done(code, number)
    }

    pub fn outstanding(&mut self) -> Outstanding {
        let mut outstanding = Outstanding::default();
        // It is refused only where there is no agent.
        let _ = unsafe { srm_agent_outstanding(self.at(), &mut outstanding) };
        outstanding
    }

    pub fn give(&mut self, slot: u8) -> Result<Message, c_int> {
        let mut message = MaybeUninit::<Message>::zeroed();
        let code = unsafe { srm_agent_give(self.at(), slot.into(), message.as_mut_ptr()) };
        // Sound: each field may be zeroes, and so may what the call doesn't write.
        done(code, unsafe { message.assume_init() })
    }
}

impl Drop for Handle {
    fn drop(&mut self) {
        // Sound: nothing has the pointer any more.
        unsafe { srm_agent_free(self.agent.as_ptr()) }
    }
}

/// A room, which is freed as it is dropped. What holds of an agent's pointer holds of its.
pub struct RoomHandle {
    room: NonNull<Room>,
}

// Sound: as of an agent.
unsafe impl Send for RoomHandle {}

/// What copies a text of a member, without its 0, and its code.
type CopyText = unsafe extern "C" fn(*mut Room, c_uint, *mut c_char, usize, *mut usize) -> c_int;

impl RoomHandle {
    /// Why not, if the code is `FAULT`.
    pub fn read(text: &[u8]) -> Result<RoomHandle, (c_int, RoomFault)> {
        let mut room = null_mut();
        let mut fault = RoomFault { line: 0, length: 0, kind: 0, text: [0; FAULT_TEXT_MAX] };
        let code = unsafe { srm_room_read(&mut room, text.as_ptr().cast(), text.len(), &mut fault) };
        NonNull::new(room).map(|room| RoomHandle { room }).ok_or((code, fault))
    }

    fn at(&mut self) -> *mut Room {
        self.room.as_ptr()
    }

    pub fn members(&mut self) -> c_uint {
        unsafe { srm_room_members(self.at()) }
    }

    pub fn find(&mut self, who: &CStr) -> Result<c_uint, c_int> {
        let mut place = 0;
        let code = unsafe { srm_room_find(self.at(), who.as_ptr(), &mut place) };
        done(code, place)
    }

    pub fn name(&mut self, place: c_uint) -> Result<Vec<u8>, c_int> {
        self.text(srm_room_name, place)
    }

    pub fn address(&mut self, place: c_uint) -> Result<Vec<u8>, c_int> {
        self.text(srm_room_address, place)
    }

    fn text(&mut self, copy: CopyText, place: c_uint) -> Result<Vec<u8>, c_int> {
        let mut length = 0;
        // It copies nothing and tells the length.
        let code = unsafe { copy(self.at(), place, null_mut(), 0, &mut length) };
        if code != BUFFER {
            return Err(code);
        }
        let mut text = vec![0; length + 1];
        let code = unsafe { copy(self.at(), place, text.as_mut_ptr().cast(), text.len(), &mut length) };
        text.truncate(length);
        done(code, text)
    }

    pub fn config(&mut self, me: c_uint) -> Result<Config, c_int> {
        let mut config = defaults();
        let code = unsafe { srm_room_config(self.at(), me, &mut config) };
        done(code, config)
    }

    pub fn linger(&mut self) -> u32 {
        unsafe { srm_room_linger(self.at()) }
    }

    pub fn most_missing(&mut self) -> u32 {
        unsafe { srm_room_most_missing(self.at()) }
    }

    pub fn guard(&mut self, me: c_uint, start: u64) -> Result<GuardHandle, c_int> {
        let mut guard = null_mut();
        let code = unsafe { srm_room_guard(&mut guard, self.at(), me, start) };
        NonNull::new(guard).map(|guard| GuardHandle { guard }).ok_or(code)
    }
}

impl Drop for RoomHandle {
    fn drop(&mut self) {
        // Sound: nothing has the pointer any more.
        unsafe { srm_room_free(self.room.as_ptr()) }
    }
}

/// The text of a fault.
pub fn text_of(fault: &RoomFault) -> String {
    let bytes: Vec<u8> = fault.text.iter().take(fault.length).map(|byte| *byte as u8).collect();
    String::from_utf8_lossy(&bytes).into_owned()
}

/// A guard, which is freed as it is dropped. What holds of an agent's pointer holds of its.
pub struct GuardHandle {
    guard: NonNull<Guard>,
}

// Sound: as of an agent.
unsafe impl Send for GuardHandle {}

impl GuardHandle {
    pub fn new(key: &[u8], me: c_uint, start: u64) -> Result<GuardHandle, c_int> {
        let mut guard = null_mut();
        let code = unsafe { srm_guard_new(&mut guard, key.as_ptr().cast(), key.len(), me, start) };
        NonNull::new(guard).map(|guard| GuardHandle { guard }).ok_or(code)
    }

    fn at(&mut self) -> *mut Guard {
        self.guard.as_ptr()
    }

    /// The code, and how many bytes the datagram has, sealed, where that is told.
    pub fn seal(&mut self, to: c_uint, datagram: &[u8], buffer: &mut [u8]) -> (c_int, usize) {
        let mut sealed = 0;
        let code = unsafe { srm_guard_seal(self.at(), to, datagram.as_ptr().cast(), datagram.len(), buffer.as_mut_ptr().cast(), buffer.len(), &mut sealed) };
        (code, sealed)
    }

    pub fn open(&mut self, bytes: &[u8]) -> Result<usize, c_int> {
        let mut opened = 0;
        let code = unsafe { srm_guard_open(self.at(), bytes.as_ptr().cast(), bytes.len(), &mut opened) };
        done(code, opened)
    }
}

impl Drop for GuardHandle {
    fn drop(&mut self) {
        // Sound: nothing has the pointer any more.
        unsafe { srm_guard_free(self.guard.as_ptr()) }
    }
}

fn done<A>(code: c_int, answer: A) -> Result<A, c_int> {
    if code == OK { Ok(answer) } else { Err(code) }
}
