//! The mode `writer`.

use crate::options::Options;
use crate::replay;
use crate::writer_cases;
use crate::writer_judge::{silenced, WriterJudge};
use crate::writing;

pub fn run(words: &[String]) -> Result<bool, String> {
    let options = Options::read(words)?;
    let mut judge = WriterJudge::default();
    let cases = writer_cases::all(&options);
    let differences = silenced(|| replay::run(&options, cases, writing::size, &mut judge))?;
    let (lists, calls) = (judge.cases, judge.calls);
    println!(
        "writer: {lists} lists, {calls} calls, {} differences",
        differences.count
    );
    let same = differences.print("the first one:");
    let agree = judge.print();
    Ok(same && agree)
}
