//! What members over UDP cost and how fast they are, beside the bare calls of the system and NORM, all in one run.
//!
//! Three members of a session run as processes on loopback. `bench/node/run` builds and runs this.

mod addresses;
mod arguments;
mod bare;
mod before_table;
mod buffer;
mod cost_table;
mod costs;
mod feeding;
mod idle;
mod live;
mod live_member;
mod loss_table;
mod losses;
mod members;
mod moments;
mod norm;
mod number;
mod reading;
mod sockets;
mod speed_table;
mod spread;
mod strokes;
mod switches;
mod tick_table;
mod ticks;
mod usage;
mod who;

use arguments::{Arguments, USAGE};
use std::env;
use std::process::ExitCode;

fn main() -> ExitCode {
    let arguments = match arguments::read(env::args_os().skip(1)) {
        Ok(arguments) => arguments,
        Err(why) => {
            eprintln!("bench/node: {why}\n\n{USAGE}");
            return ExitCode::from(2);
        }
    };
    match print(&arguments) {
        Ok(()) => ExitCode::SUCCESS,
        Err(why) => {
            eprintln!("bench/node: {why}");
            ExitCode::FAILURE
        }
    }
}

fn print(arguments: &Arguments) -> Result<(), String> {
    println!("{}\n", buffer::line()?);
    if let Some(before) = &arguments.before {
        return before_table::print(arguments, before);
    }
    cost_table::print(arguments)?;
    speed_table::print(arguments)?;
    tick_table::print(arguments)?;
    loss_table::print(arguments)
}
