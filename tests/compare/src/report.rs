//! What is said while lists run and at the end.

use crate::changes::Change;
use crate::ledger::{Parked, Resume};
use crate::loads::Load;
use crate::sealing;
use crate::sheet::REFUSALS;
use crate::subject::Tally;
use std::fmt::Display;
use std::io::{self, IsTerminal};

/// A line on standard error now and then, if someone is watching or the run is long.
pub struct Progress {
    all: u64,
    every: u64,
    what: &'static str,
}

impl Progress {
    /// For so many of what is named.
    pub fn new(all: u64, what: &'static str) -> Progress {
        let every = match (io::stderr().is_terminal(), all) {
            (_, 2_000..) => 1_000,
            (true, _) => 100,
            _ => u64::MAX,
        };
        Progress { all, every, what }
    }

    /// Says how far the run is, if it is time.
    pub fn at(&self, done: u64) {
        if done.is_multiple_of(self.every) {
            eprintln!("{done} of {} {}", self.all, self.what);
        }
    }
}

/// The summary: named cases, lists, calls, bytes enciphered, how often each number was met, 255 only if it was, and how
/// often each kind of park, of resume, of change and of load; and of the programs' records and sheets, and of sealings, if
/// there are any.
pub fn summary(tally: &Tally) -> String {
    let mut text = format!("named cases {}\nlists {}\ncalls {}\n", tally.named, tally.lists, tally.calls);
    text.push_str(&format!("bytes enciphered {}\n", tally.bytes));
    text.push_str("number met\n");
    for (number, count) in tally.codes.iter().enumerate() {
        text.push_str(&format!("{number} {count}\n"));
    }
    if tally.damaged > 0 {
        text.push_str(&format!("255 {}\n", tally.damaged));
    }
    text.push_str(&part("park", &Parked::NAMES, &tally.parks));
    text.push_str(&part("resume", &Resume::NAMES, &tally.resumes));
    text.push_str(&part("change of key", &Change::NAMES, &tally.changes));
    text.push_str(&part("load", &Load::NAMES, &tally.loads));
    if tally.records + tally.sheets > 0 {
        text.push_str(&format!("records {}\nsheets {}\nsheet met\n", tally.records, tally.sheets));
        for (name, count) in sheet_names().zip(tally.reports) {
            text.push_str(&format!("{name}: {count}\n"));
        }
    }
    if tally.sealings.iter().any(|&count| count > 0) {
        text.push_str(&part("sealing", &sealing::CODES.map(|code| code.to_string()), &tally.sealings));
    }
    text
}

/// What becomes of a sheet, as the report names it.
fn sheet_names() -> impl Iterator<Item = String> {
    ["reported".to_string()].into_iter().chain(REFUSALS.map(|number| number.to_string()))
}

/// A heading, and how often each kind was met.
fn part(what: &str, names: &[impl Display], counts: &[u64]) -> String {
    let lines = names.iter().zip(counts).map(|(name, count)| format!("{name}: {count}\n"));
    [format!("{what} met\n")].into_iter().chain(lines).collect()
}

/// The numbers and the kinds of park, of resume, of change and of load that were never met. Number 15, the parks beside it
/// and up to it, 255 and an image from before the list are asked for only if cards are handed in: a fresh card doesn't come
/// to them. Records, and a sheet that is reported and one for each of its numbers, are asked for only if they aren't: these
/// are of the programs. The codes of sealings are asked for only if cards are: no program seals.
pub fn missing(tally: &Tally, handed_in: bool) -> Vec<String> {
    let numbers = (0..).zip(tally.codes).chain([(255, tally.damaged)]);
    let numbers = numbers.filter(|&(number, count)| count == 0 && (handed_in || ![15, 255].contains(&number)));
    let handed = |&(kind, _): &(usize, &&str)| Parked::HANDED_IN.iter().any(|&parked| parked as usize == kind);
    let parks = Parked::NAMES.iter().enumerate().filter(|&(kind, _)| tally.parks[kind] == 0);
    let parks = parks.filter(|park| handed_in || !handed(park));
    let resumes = Resume::NAMES.iter().enumerate().filter(|&(kind, _)| tally.resumes[kind] == 0);
    let resumes = resumes.filter(|&(kind, _)| handed_in || kind != Resume::Earlier as usize);
    let changes = Change::NAMES.iter().zip(tally.changes).filter(|&(_, count)| count == 0);
    let loads = Load::NAMES.iter().zip(tally.loads).filter(|&(_, count)| count == 0);
    let sheets = sheet_names().zip(tally.reports).filter(|&(_, count)| count == 0 && !handed_in);
    let records = (tally.records == 0 && !handed_in).then(|| "a record".to_string());
    let sealings = sealing::CODES.iter().zip(tally.sealings).filter(|&(_, count)| count == 0 && handed_in);
    let sealings = sealings.map(|(code, _)| format!("sealing: {code}"));
    let numbers = numbers.map(|(number, _)| number.to_string());
    let parks = parks.map(|(_, name)| format!("park: {name}"));
    let resumes = resumes.map(|(_, name)| format!("resume: {name}"));
    let changes = changes.map(|(name, _)| format!("change of key: {name}"));
    let loads = loads.map(|(name, _)| format!("load: {name}"));
    let sheets = sheets.map(|(name, _)| format!("sheet: {name}"));
    numbers
        .chain(parks)
        .chain(resumes)
        .chain(changes)
        .chain(loads)
        .chain(records)
        .chain(sheets)
        .chain(sealings)
        .collect()
}

/// The last line of a run in which nothing differed, for the part of the tests that it is: the named cases, the lists and
/// the sheets that were run; of what there was none it says nothing, but for the lists.
pub fn verdict(part: &str, tally: &Tally) -> String {
    let cases = (tally.named > 0).then(|| counted(tally.named, "case"));
    let sheets = (tally.sheets > 0).then(|| counted(tally.sheets, "sheet"));
    let all: Vec<String> = cases.into_iter().chain([counted(tally.lists, "list")]).chain(sheets).collect();
    let run = match all.split_last() {
        Some((last, before)) if !before.is_empty() => format!("{} and {last}", before.join(", ")),
        _ => all.concat(),
    };
    format!("{part}: {run}, no difference")
}

/// A number and what it counts, as "1 list" and "1,142 cases".
fn counted(count: u64, what: &str) -> String {
    let ending = if count == 1 { "" } else { "s" };
    format!("{} {what}{ending}", grouped(count))
}

/// A number in decimal, with a comma before each three digits from the right.
fn grouped(number: u64) -> String {
    match (number / 1_000, number % 1_000) {
        (0, rest) => rest.to_string(),
        (above, rest) => format!("{},{rest:03}", grouped(above)),
    }
}

#[cfg(test)]
mod tests {
    use super::*;

    #[test]
    fn what_was_never_met_is_told() {
        let (parks, resumes, changes, loads) = ([1; 5], [1; 11], [1; 9], [1; 16]);
        let mut tally = Tally { codes: [1; 20], damaged: 1, parks, resumes, changes, loads, ..Tally::default() };
        assert_eq!(missing(&tally, true).len(), sealing::CODES.len());
        sealing::CODES.into_iter().for_each(|code| tally.count_sealing(code));
        assert!(missing(&tally, true).is_empty());
        let programs = ["a record", "sheet: reported", "sheet: 20", "sheet: 21", "sheet: 22"];
        assert_eq!(missing(&tally, false), owned(&programs));
        (tally.records, tally.reports) = (1, [1, 1, 0, 1]);
        tally.codes[14..].fill(0);
        (tally.damaged, tally.resumes[4], tally.resumes[10], tally.changes[1]) = (0, 0, 0, 0);
        tally.parks[1..].fill(0);
        tally.loads[..3].fill(0);
        tally.sealings[7] = 0;
        let (zero, earlier) = ("resume: 14, number 0", "resume: 14, from before the list");
        let (same, beside) =
            ("park: with the number of another line's last", "park: beside a line with no number left");
        let (last, used_up) = ("park: with its line's last number", "park: 15");
        let change = "change of key: due within a crypt";
        let loads = ["load: loaded", "load: started by the next call", "load: started after other calls"];
        let fresh = [&["14", "16", "17", "18", "19", same, zero, change][..], &loads, &["sheet: 21"]].concat();
        let numbers = ["14", "15", "16", "17", "18", "19", "255"];
        let kinds = [same, beside, last, used_up, zero, earlier, change];
        let other = [&numbers[..], &kinds, &loads, &["sealing: 24"]].concat();
        assert_eq!((missing(&tally, false), missing(&tally, true)), (owned(&fresh), owned(&other)));
    }

    fn owned(texts: &[&str]) -> Vec<String> {
        texts.iter().map(|text| text.to_string()).collect()
    }

    #[test]
    fn the_verdict_has_what_was_run() {
        let said = |named, lists, sheets| verdict("second", &Tally { named, lists, sheets, ..Tally::default() });
        assert_eq!(said(1_142, 500, 0), "second: 1,142 cases and 500 lists, no difference");
        assert_eq!(said(1_142, 500, 1_000), "second: 1,142 cases, 500 lists and 1,000 sheets, no difference");
        assert_eq!(said(1, 0, 0), "second: 1 case and 0 lists, no difference");
        assert_eq!(said(0, 1, 0), "second: 1 list, no difference");
        assert_eq!(said(0, 1, 1), "second: 1 list and 1 sheet, no difference");
    }

    #[test]
    fn digits_stand_in_threes() {
        let pairs = [(0, "0"), (999, "999"), (1_000, "1,000"), (20_000, "20,000"), (1_002_030, "1,002,030")];
        pairs.iter().for_each(|&(number, text)| assert_eq!(grouped(number), text));
    }
}
