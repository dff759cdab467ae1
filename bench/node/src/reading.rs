//! Reading what a live member prints, in a thread for each stream.

use std::io::{BufRead, BufReader, Read};
use std::sync::mpsc::{self, Receiver};
use std::thread;
use std::time::Instant;

/// The moments at which a live member prints that it took a stroke, by its output.
pub fn moments_of_strokes(output: impl Read + Send + 'static) -> Receiver<Instant> {
    let (send, moments) = mpsc::channel();
    thread::spawn(move || {
        for line in BufReader::new(output).split(b'\n').map_while(Result::ok) {
            let is_stroke = line.windows(6).any(|word| word == b" draw ");
            if is_stroke && send.send(Instant::now()).is_err() {
                return;
            }
        }
    });
    moments
}

/// The lines that it tells, by its standard error.
pub fn lines_of(errors: impl Read + Send + 'static) -> Receiver<String> {
    let (send, lines) = mpsc::channel();
    thread::spawn(move || {
        for line in BufReader::new(errors).lines().map_while(Result::ok) {
            if send.send(line).is_err() {
                return;
            }
        }
    });
    lines
}
