//! A live member as a process: what is typed to it, which strokes it takes, and what it tells.

use crate::reading::{lines_of, moments_of_strokes};
use crate::sockets;
use crate::ticks::Counting;
use crate::who::Who;
use std::io::Write;
use std::net::SocketAddr;
use std::path::Path;
use std::process::{Child, ChildStdin, Command, Stdio};
use std::sync::mpsc::Receiver;
use std::thread;
use std::time::{Duration, Instant};

/// So long a member may take to bind its socket, or to tell something.
const LIMIT: Duration = Duration::from_secs(10);

/// How long until the socket of a member is looked for again.
const LOOK: Duration = Duration::from_millis(10);

/// A live member. It ends at once when it is dropped.
pub struct LiveMember {
    number: usize,
    port: u16,
    child: Child,
    input: ChildStdin,
    // The moments at which it took strokes, and the lines of its standard error.
    taken: Receiver<Instant>,
    told: Receiver<String>,
}

/// How many strokes a member took, and when the last.
pub struct Taken {
    pub count: usize,
    pub last: Instant,
}

impl LiveMember {
    /// Starts the member with this number and these options. It counts its ticks if that is asked for.
    pub fn start(
        program: &Path,
        number: usize,
        addresses: &[SocketAddr],
        options: &[&str],
        counting: Option<&Counting>,
    ) -> Result<LiveMember, String> {
        let mut command = Command::new(program);
        if let Some(counting) = counting {
            command
                .env("LD_PRELOAD", &counting.shim)
                .env("TICKS", counting.file(number));
        }
        let mut child = command
            .args(["node", "--live", "--session", "7"])
            .args(["--me", &number.to_string()])
            .args(options)
            .args(addresses.iter().map(SocketAddr::to_string))
            .stdin(Stdio::piped())
            .stdout(Stdio::piped())
            .stderr(Stdio::piped())
            .spawn()
            .map_err(|error| format!("cannot start {}: {error}", program.display()))?;
        Ok(LiveMember {
            number,
            port: addresses[number].port(),
            input: child.stdin.take().expect("its input"),
            taken: moments_of_strokes(child.stdout.take().expect("its output")),
            told: lines_of(child.stderr.take().expect("its standard error")),
            child,
        })
    }

    /// The number of its process.
    pub fn pid(&self) -> u32 {
        self.child.id()
    }

    /// Waits until it has its socket.
    pub fn await_socket(&mut self) -> Result<(), String> {
        let begun = Instant::now();
        while sockets::drops_at(self.port)?.is_none() {
            let has_ended = matches!(self.child.try_wait(), Ok(Some(_)));
            if has_ended || begun.elapsed() > LIMIT {
                return Err(self.fault(&format!("has no socket with port {}", self.port)));
            }
            thread::sleep(LOOK);
        }
        Ok(())
    }

    /// How many datagrams the system dropped at its socket so far.
    pub fn drops(&mut self) -> Result<u64, String> {
        match sockets::drops_at(self.port)? {
            Some(drops) => Ok(drops),
            None => Err(self.fault(&format!("has no socket with port {} any more", self.port))),
        }
    }

    /// Types a text to it.
    pub fn type_in(&mut self, text: &str) -> Result<(), String> {
        match self.input.write_all(text.as_bytes()) {
            Ok(()) => Ok(()),
            Err(error) => Err(self.fault(&format!("can't be typed to: {error}"))),
        }
    }

    /// Waits until it took so many strokes more, but no longer than this.
    pub fn await_strokes(&self, count: usize, limit: Duration) -> Taken {
        let until = Instant::now() + limit;
        let mut taken = Taken {
            count: 0,
            last: Instant::now(),
        };
        while taken.count < count {
            let left = until.saturating_duration_since(Instant::now());
            match self.taken.recv_timeout(left) {
                Ok(moment) => taken.last = moment,
                Err(_) => break,
            }
            taken.count += 1;
        }
        taken
    }

    /// What it says of itself, once it has read all that was typed before.
    pub fn ask_who(&mut self) -> Result<Who, String> {
        self.type_in("/who\n")?;
        let until = Instant::now() + LIMIT;
        loop {
            let left = until.saturating_duration_since(Instant::now());
            match self.told.recv_timeout(left) {
                Ok(line) => {
                    if let Some(who) = Who::of(&line) {
                        return Ok(who);
                    }
                }
                Err(_) => return Err(self.fault("doesn't answer /who")),
            }
        }
    }

    /// What is wrong with it, with how it ended if it did, and what it told.
    pub fn fault(&mut self, what: &str) -> String {
        let mut text = format!("member {} {what}", self.number);
        let told: Vec<String> = match self.child.try_wait() {
            Ok(Some(status)) => {
                text.push_str(&format!("; it ended with {status}"));
                self.told.iter().collect()
            }
            _ => self.told.try_iter().collect(),
        };
        for line in told {
            text.push_str(&format!("\n  it told: {line}"));
        }
        text
    }
}

impl Drop for LiveMember {
    fn drop(&mut self) {
        // One that has ended already needs neither.
        let _ = self.child.kill();
        let _ = self.child.wait();
    }
}
