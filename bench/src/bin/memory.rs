//! What memory both agents take above the bodies that they hold.

#[path = "../memory.rs"]
mod memory;

use memory::counted;
use srm_bench::workload::{BODY, DRAWOPS, SETUP, fillings};

fn main() {
    println!("bytes a drawop above its body of {BODY}, at most, of {DRAWOPS}");
    println!("{:<24} {:>9} {:>9}", "", "proved", "plain");
    for (title, calls) in fillings() {
        let above = |most: i64| most as f64 / f64::from(DRAWOPS) - BODY as f64;
        let (_, proved, left) = counted(|| calls.proved(SETUP, &mut []));
        assert_eq!(left, 0, "{title}: the agent gives back all memory");
        let (_, plain, _) = counted(|| calls.plain(SETUP, false));
        println!("{title:<24} {:>9.0} {:>9.0}", above(proved), above(plain));
    }
}
