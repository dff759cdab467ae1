//! Compares the proved agent and a plain one at the same calls: what they answer, and what it costs.

use srm_bench::meter::{Agent, Meter, Run};
use srm_bench::moments::TURNS;
use srm_bench::workload::{SETUP, Workload, workloads};

fn main() {
    let words: Vec<String> = std::env::args().skip(1).collect();
    match Run::read(&words) {
        Some(run) => run.make(),
        None => report(&words),
    }
}

/// Prints a line for each workload whose title contains the words, if there are any, and one for moments by name.
fn report(words: &[String]) {
    let meter = Meter::find();
    println!("{}", meter.unit());
    println!("{:<48} {:>9} {:>9} {:>9}", "each", "proved", "plain", "ratio");
    let wanted = words.join(" ");
    for (place, workload) in workloads().iter().enumerate() {
        if workload.title.contains(&wanted) {
            compare(workload);
            report_workload(meter, place, workload);
        }
    }
    if wanted.is_empty() {
        report_moments(meter);
    }
}

/// Both agents tell the same of each call.
fn compare(workload: &Workload) {
    let [calls, _] = workload.both();
    let wanted = calls.plain(SETUP, true);
    let mut told = vec![0; wanted.len() + 1];
    let count = calls.proved(SETUP, &mut told);
    assert!(told[..count] == wanted, "{}: the agents answer the same", workload.title);
}

fn report_workload(meter: Meter, place: usize, workload: &Workload) {
    let cost = |agent| {
        let run = |rests| Run::Calls { place, agent, rests };
        meter.beyond(run(false), run(true)) / f64::from(workload.each)
    };
    let (proved, plain) = (cost(Agent::Proved), cost(Agent::Plain));
    println!("{:<48} {proved:>9.0} {plain:>9.0} {:>9.2}", workload.title, proved / plain);
}

fn report_moments(meter: Meter) {
    let cost = |names| {
        let run = |sets| Run::Moments { names, sets };
        meter.beyond(run(true), run(false)) / f64::from(TURNS)
    };
    let (many, few) = (cost(65_536), cost(1_000));
    println!("clear and set a moment, proved: {many:.0} among 65,536 names, {few:.0} among 1,000, ratio {:.2}", many / few);
}
