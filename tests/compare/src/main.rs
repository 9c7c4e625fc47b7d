//! Checks the second implementation by annex C, document 01's cases, what named cases have written down and sealings of
//! prepared keystreams, then holds `cardrun` against it on the named cases and on command lists from a seed, and `sheet` on the named sheets and on
//! files of records from that seed. Ends with 0 if all agree and every number was met, else with 1; its last line says
//! which, as `tests/second`.

#![forbid(unsafe_code)]

use compare::args::{self, Options};
use compare::cardrun::Cardrun;
use compare::report;
use compare::subject::{self, Subject, Which};
use compare::{annex, cases, named, sealing, sheet};
use std::path::PathBuf;
use std::process::ExitCode;

fn main() -> ExitCode {
    let outcome = args::read(std::env::args().skip(1)).map_err(|told| format!("{told}\n{}", args::USAGE));
    match outcome.and_then(|options| run(&options).map_err(|told| format!("{told}\nsecond: failed"))) {
        Ok(()) => ExitCode::SUCCESS,
        Err(told) => {
            eprintln!("{told}");
            ExitCode::FAILURE
        }
    }
}

fn run(options: &Options) -> Result<(), String> {
    if options.help {
        println!("{}", args::USAGE);
        return Ok(());
    }
    println!("annex C: {} keystreams and sample states agree", annex::check()?);
    println!("document 01: {} cases hold", cases::check()?);
    println!("named cases: {} hold of the second implementation", named::check()?);
    println!("named sheets: {} hold of the second implementation", sheet::named::check()?);
    println!("sealing: {} cases hold of the second implementation", sealing::check()?);
    if options.lists == 0 {
        println!("second: its own checks passed, no program was run");
        return Ok(());
    }
    let usual = |path: &Option<PathBuf>, name| path.clone().unwrap_or_else(|| args::usual_place(name));
    let mut subject = Cardrun::new(&usual(&options.cardrun, "cardrun"), options.keep)?;
    println!("seed {}, {}", options.seed, subject.name());
    let which = Which { seed: options.seed, lists: options.lists, only: options.only };
    let mut tally = subject::hold_all(&mut subject, &which, "compare")?;
    tally.add(&sheet::held::hold_all(&usual(&options.sheet, "sheet"), options.keep, &which)?);
    print!("{}", report::summary(&tally));
    let missing = report::missing(&tally, false);
    if options.only.is_none() && !missing.is_empty() {
        return Err(format!("never met: {}", missing.join("; ")));
    }
    println!("{}", report::verdict("second", &tally));
    Ok(())
}
