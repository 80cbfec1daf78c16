//! The mode `tree`.

use crate::options::Options;
use crate::replay;
use crate::tree_case;
use crate::tree_cases;
use crate::tree_examples;
use crate::tree_judge::TreeJudge;
use crate::writer_judge::silenced;

pub fn run(words: &[String]) -> Result<bool, String> {
    let options = Options::read(words)?;
    let examples_hold = silenced(tree_examples::check);
    let mut judge = TreeJudge::default();
    let cases = tree_cases::all(&options);
    let differences = silenced(|| replay::run(&options, cases, tree_case::size, &mut judge))?;
    let (cases, calls) = (judge.cases, judge.calls);
    println!(
        "tree: {cases} cases, {calls} calls, {} differences",
        differences.count
    );
    let same = differences.print("the first one:");
    let agree = judge.print();
    Ok(same && agree && examples_hold)
}
