//! Checks a bundle, and goes through the failing schedule move by move:
//! `cargo run --example step < ../../examples/broken-counter.bundle`
use std::io::Read;
use std::process::ExitCode;

fn main() -> Result<ExitCode, Box<dyn std::error::Error>> {
    let mut bundle = String::new();
    std::io::stdin().read_to_string(&mut bundle)?;
    let case = lineup::Case::of_bundle(&bundle).ok_or("two parts are wanted")?;
    let report = case.check(40, 40)?;
    print!("{}", report.text);
    if report.status == 1 {
        for state in case.states(&report.text)? {
            println!("{} {:?} cells {:?} {:?}", state.made, state.status, state.cells, state.events.last());
        }
    }
    Ok(ExitCode::from(report.status))
}
