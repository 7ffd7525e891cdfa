//! `compare` holds the port to the Rust; `record` prints the list of answers that the program `replay_slots` replays.

pub fn run() -> bool {
    crate::original::silence_panics();
    match std::env::args().nth(1).as_deref() {
        Some("compare") => {
            let mut judgement = crate::judgement::Judgement::default();
            judgement.run();
            let mut comparison = crate::compare::Comparison::new();
            comparison.run();
            judgement.report() & comparison.report()
        }
        Some("record") => {
            print!("{}", crate::record::List::recorded());
            true
        }
        _ => {
            eprintln!("compare or record");
            false
        }
    }
}
