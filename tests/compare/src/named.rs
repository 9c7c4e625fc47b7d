//! Named cases: fixed command lists, each with its end and often its table or the bytes of `out.bin` written down
//! beside it. What is written down is held of the second implementation, and the subject is held against that.

mod altered;
mod blank;
mod case;
mod changes;
mod counts;
mod examples;
mod frames;
mod full;
mod images;
mod late;
mod limits;
mod loads;
mod numbers;
mod order;
mod parks;
mod positions;
mod published;
mod records;
mod refusals;
mod reuse;
mod script;
mod waiting;

pub use case::Case;

/// All named cases.
pub fn all() -> Vec<Case> {
    let groups = [
        examples::cases(),
        refusals::cases(),
        order::cases(),
        blank::cases(),
        changes::cases(),
        waiting::cases(),
        late::cases(),
        loads::cases(),
        frames::cases(),
        parks::cases(),
        numbers::cases(),
        counts::cases(),
        reuse::cases(),
        positions::cases(),
        images::cases(),
        limits::cases(),
        full::cases(),
        records::cases(),
    ];
    groups.into_iter().flatten().collect()
}

/// Holds all cases of the second implementation; tells how many there are, or the first that fails.
pub fn check() -> Result<usize, String> {
    let cases = all();
    cases.iter().try_for_each(Case::check)?;
    Ok(cases.len())
}

#[cfg(test)]
mod tests {
    use super::*;
    use std::collections::HashSet;

    #[test]
    fn cases_hold_and_have_names_of_their_own() {
        assert_eq!(check(), Ok(3138));
        let cases = all();
        let names: HashSet<&str> = cases.iter().map(Case::name).collect();
        assert_eq!(names.len(), cases.len());
    }
}
