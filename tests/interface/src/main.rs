//! Holds the card's C interface, linked as a program in C or Rust links it, against the second implementation: cards
//! that are damaged, card buffers and counts of other lengths, sealed records, the named cases, and call lists from a seed;
//! and pairs of lists that are alike against each other. Ends with 0 if all agree and every number was met, else with 1;
//! its last line says which, as `tests/linked`.

#![forbid(unsafe_code)]

mod alike;
mod args;
mod base;
mod change;
mod changes;
mod damages;
mod edges;
mod held;
mod lengths;
mod lent;
mod linked;
mod loaded;
mod loads;
mod long;
mod numbers;
mod records;
mod room;
mod struck;
mod waiting;

use args::Options;
use compare::report;
use compare::subject::{self, Tally, Which};
use linked::Interface;
use std::process::ExitCode;

fn main() -> ExitCode {
    let outcome = args::read(std::env::args().skip(1)).map_err(|told| format!("{told}\n{}", args::USAGE));
    match outcome.and_then(|options| run(&options).map_err(|told| format!("{told}\nlinked: failed"))) {
        Ok(()) => ExitCode::SUCCESS,
        Err(told) => {
            eprintln!("{told}");
            ExitCode::FAILURE
        }
    }
}

fn run(options: &Options) -> Result<(), String> {
    if options.help {
        println!("{}", args::USAGE);
        return Ok(());
    }
    let mut tally = Tally::default();
    if options.only.is_none() {
        tally.add(&named()?);
    }
    println!("seed {}, libpipeshear.a", options.seed);
    let which = Which { seed: options.seed, lists: options.lists, only: options.only };
    tally.add(&subject::hold_all(&mut Interface::default(), &which, "tests/linked")?);
    print!("{}", report::summary(&tally));
    let missing = report::missing(&tally, true);
    if options.only.is_none() && !missing.is_empty() {
        return Err(format!("never met: {}", missing.join("; ")));
    }
    println!("{}", report::verdict("linked", &tally));
    Ok(())
}

/// The named cards, each with calls that would meet every other code, and the named records.
fn named() -> Result<Tally, String> {
    let groups = [
        ("cards with a damaged line", damages::hold()?),
        ("cards with a damaged change that waits", waiting::damaged()?),
        ("cards with a damaged loaded line", loaded::damaged()?),
        ("cards with a held number above its line's count", numbers::above()?),
        ("cards that are just well formed", edges::hold()?),
        ("cards with a change that waits", waiting::well_formed()?),
        ("cards with a loaded line", loaded::well_formed()?),
        ("long frames with a change in them", long::hold()?),
        ("other lengths of card and counts", lengths::hold()?),
        ("pairs of lists that are alike but for data, keys and IVs", alike::hold()?),
    ];
    let mut sum = Tally::default();
    for (name, tally) in groups.into_iter().chain(records::named()?) {
        println!("{name}: {} agree", tally.named);
        sum.add(&tally);
    }
    Ok(sum)
}
