//! Members of one session as processes, which draw what they are given and print at their end.

use crate::usage::Cost;
use crate::{addresses, strokes, usage};
use std::fs::{self, File};
use std::io::Write;
use std::net::SocketAddr;
use std::path::{Path, PathBuf};
use std::process::{Child, Command, Stdio};
use std::{env, process};

/// Microseconds that a member stays: time for repairs, where a receiver lagged behind and its socket ran over.
const STAY: &str = "4000000";

/// A session, in which the first member draws so many strokes of so many bytes.
#[derive(Clone, Copy)]
pub struct Session<'a> {
    pub program: &'a Path,
    pub members: usize,
    pub strokes: usize,
    pub bytes: usize,
}

/// What became of a member.
pub struct Ended {
    pub cost: Cost,
    /// How many strokes of the first member its page worker took.
    pub taken: usize,
}

impl Session<'_> {
    /// Runs it to its end. What became of each member.
    pub fn run(&self) -> Result<Vec<Ended>, String> {
        let addresses = addresses::free(self.members);
        // The receivers come first, so that the first stroke finds them.
        let mut children = Vec::new();
        for me in (0..self.members).rev() {
            children.push(self.start(me, &addresses)?);
        }
        children.reverse();
        let mut costs = Vec::new();
        for (me, child) in children.iter().enumerate() {
            let cost = usage::of_process(child.id());
            costs.push(cost.map_err(|why| format!("member {me}: {why}"))?);
        }
        let ended = costs.into_iter().enumerate();
        ended
            .map(|(me, cost)| taken(me).map(|taken| Ended { cost, taken }))
            .collect()
    }

    fn start(&self, me: usize, addresses: &[SocketAddr]) -> Result<Child, String> {
        let path = output(me);
        let file = File::create(&path)
            .map_err(|error| format!("cannot create {}: {error}", path.display()))?;
        let mut child = Command::new(self.program)
            .args(["node", "--session", "7", "--me", &me.to_string()])
            .args(["--stay", STAY, "--rate", "12500000", "--depth", "1000000"])
            .args(addresses.iter().map(SocketAddr::to_string))
            .stdin(Stdio::piped())
            .stdout(file)
            .spawn()
            .map_err(|error| format!("cannot start {}: {error}", self.program.display()))?;
        let count = if me == 0 { self.strokes } else { 0 };
        let mut input = child.stdin.take().expect("its input");
        input
            .write_all(strokes::lines(count, self.bytes).as_bytes())
            .map_err(|error| format!("member {me} doesn't read its input: {error}"))?;
        Ok(child)
    }
}

fn taken(me: usize) -> Result<usize, String> {
    let path = output(me);
    let printed = fs::read_to_string(&path)
        .map_err(|error| format!("cannot read {}: {error}", path.display()))?;
    fs::remove_file(&path).map_err(|error| format!("cannot remove {}: {error}", path.display()))?;
    let strokes = printed.lines().filter(|line| line.contains(" draw 0 "));
    Ok(strokes.count())
}

fn output(me: usize) -> PathBuf {
    env::temp_dir().join(format!("srm-bench-node-{}-{me}", process::id()))
}
