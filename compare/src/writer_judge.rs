//! What is expected of a writer's case, by the model; on the way, the model is held against the crate.

use crate::differences::{Described, Differences};
use crate::replay::Judges;
use crate::serializer::{Kept, Serializer, SerializerStyle};
use crate::writer_model::{Model, Phase};
use crate::writing::{put_case, Call, WriterCase};
use std::panic::{catch_unwind, AssertUnwindSafe};

#[derive(Default)]
pub struct WriterJudge {
    pub cases: usize,
    pub calls: usize,
    accepted: usize,
    panics: usize,
    pub disagreements: Differences,
}

impl WriterJudge {
    /// The lines after `CASE` that replay has to print.
    fn expected(&mut self, case: &WriterCase) -> Vec<u8> {
        self.cases += 1;
        self.calls += case.calls.len();
        let style = SerializerStyle {
            line_break: case.style.line_break,
            indentation: case.style.indentation,
        };
        let mut text = String::new();
        let mut original = Some(Serializer::new(style, &mut text));
        let mut model = Model::new(case.style, case.room);
        let mut lines = Vec::new();
        for (number, call) in case.calls.iter().enumerate() {
            let answer = model.call(call);
            put_line(&mut lines, answer, &model);
            original = self.follow(case, number, answer, original);
            if let Some(serializer) = &original {
                self.hold(case, number, agree(&model, serializer));
            }
        }
        // The crate's text is at hand again once its writer is gone.
        drop(original);
        let crate_text = text.as_bytes() == model.text;
        self.hold(case, case.calls.len(), crate_text);
        lines.extend_from_slice(b"= ");
        lines.extend_from_slice(&model.text);
        lines.push(b'\n');
        lines
    }

    /// Makes an accepted call on the crate's writer; where the model refuses with a panic's number, sees that the crate panics. 22 is added,
    /// and so is 19 once `finish` has used the crate's writer up: there is nothing to hold them against.
    fn follow<'a, 'b>(
        &mut self,
        case: &WriterCase,
        number: usize,
        answer: Result<usize, u8>,
        original: Option<Serializer<'a, 'b>>,
    ) -> Option<Serializer<'a, 'b>> {
        let serializer = original?;
        let call = &case.calls[number];
        match answer {
            Ok(_) => {
                self.accepted += 1;
                call_original(serializer, call)
            }
            Err(refusal) => {
                if matches!(refusal, 17..=20) {
                    self.panics += 1;
                    self.hold(case, number, panics(&serializer, call));
                }
                Some(serializer)
            }
        }
    }

    fn hold(&mut self, case: &WriterCase, number: usize, holds: bool) {
        if !holds {
            self.disagreements
                .note(|| format!("at call {number} (from 0): {}", case.describe()));
        }
    }

    /// Prints the count of agreement; answers whether it is whole.
    pub fn print(&self) -> bool {
        let (accepted, panics) = (self.accepted, self.panics);
        let count = self.disagreements.count;
        println!(
            "model against crate: {accepted} accepted calls and {panics} panics, {count} disagreements"
        );
        self.disagreements
            .print("the first one, where the crate does otherwise:")
    }
}

impl Judges<WriterCase> for WriterJudge {
    fn put_script(&self, script: &mut Vec<u8>, case: &WriterCase) {
        put_case(script, case);
    }

    fn lines(&mut self, case: &WriterCase) -> Vec<u8> {
        self.expected(case)
    }
}

/// A call's answer and the record after it.
pub fn put_line(out: &mut Vec<u8>, answer: Result<usize, u8>, model: &Model) {
    let words = match answer {
        Ok(offset) => format!("@ {offset}"),
        Err(number) => format!("! {number}"),
    };
    out.extend_from_slice(words.as_bytes());
    out.extend_from_slice(model.record().as_bytes());
}

/// The crate's thresholds and indices are `usize`, here as wide as document 01's.
pub fn wide(number: u64) -> usize {
    usize::try_from(number).expect("a target of 64 bits")
}

/// Makes the call, which `finish` uses the writer up for.
pub fn call_original<'a, 'b>(
    mut serializer: Serializer<'a, 'b>,
    call: &Call,
) -> Option<Serializer<'a, 'b>> {
    match call {
        Call::PutAtom(atom, threshold) => {
            let atom = std::str::from_utf8(atom).expect("an accepted atom");
            serializer.put_atom(atom, wide(*threshold));
        }
        Call::BeginList(threshold) => serializer.begin_list(wide(*threshold)),
        Call::EndList => serializer.end_list(),
        Call::Finish(wish) => {
            serializer.finish(*wish);
            return None;
        }
    }
    Some(serializer)
}

/// Whether the crate panics on the call, made on a copy. Bytes that are no `&str` cannot be handed to it.
fn panics(serializer: &Serializer, call: &Call) -> bool {
    if let Call::PutAtom(atom, _) = call {
        if std::str::from_utf8(atom).is_err() {
            return true;
        }
    }
    let mut text = String::from(serializer.text());
    let copy = serializer.copy(&mut text);
    catch_unwind(AssertUnwindSafe(|| {
        call_original(copy, call);
    }))
    .is_err()
}

/// Whether the crate has the model's text and, while it writes, its record.
pub fn agree(model: &Model, serializer: &Serializer) -> bool {
    let kept = (model.phase == Phase::Writing).then(|| Kept {
        flags: model.flags.clone(),
        list_beginning: model.list_beginning,
        line_len: model.line_len,
    });
    serializer.text().as_bytes() == model.text
        && serializer.kept() == kept
        && serializer.is_finished() == (model.phase == Phase::Finished)
}

/// Runs with panics unprinted: they are expected.
pub fn silenced<T>(run: impl FnOnce() -> T) -> T {
    let hook = std::panic::take_hook();
    std::panic::set_hook(Box::new(|_| {}));
    let result = run();
    std::panic::set_hook(hook);
    result
}
