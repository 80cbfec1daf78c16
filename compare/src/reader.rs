//! The mode `reader`.

use crate::cases;
use crate::judge::Judge;
use crate::options::Options;
use crate::reading::Case;
use crate::replay;

/// What a case has in a script beside its text, at most.
const HEADER: usize = 64;

pub fn run(words: &[String]) -> Result<bool, String> {
    let options = Options::read(words)?;
    let mut judge = Judge::default();
    let size = |case: &Case| case.text.len() + HEADER;
    let differences = replay::run(&options, cases::all(&options), size, &mut judge)?;
    let (cases, calls) = (judge.cases, judge.calls);
    println!(
        "reader: {cases} cases, {calls} calls, {} differences",
        differences.count
    );
    let same = differences.print("the first one:");
    let agree = judge.print();
    Ok(same && agree)
}
