//! The desk's lines, by what the proved code tells of a session with the desk's run.

use jobdesk::{Answered, Call, Kind, Refusal, Tables};
use second::desk::STEPS;

/// The lines that the desk prints for a job, each with its line end.
pub fn lines(job: &[u8], tables: &mut Tables) -> String {
    match tables.session(job, &[Call::run_each(STEPS)]) {
        Ok(session) => {
            let Answered { answer, thread, steps } = session.answers[0];
            let value = session.value.map_or(String::new(), |value| match value.kind {
                Kind::Number => format!(" number {}", value.data),
                kind => format!(" {}", kind.word()),
            });
            let (effect, kind) = (session.accepted.effect(), session.accepted.kind().word());
            let (words, count) = (answer.words(), steps[thread]);
            format!("accepted {effect:016x} {kind}\n{words} {count}{value}\n")
        }
        Err(Refusal { number, place }) => format!("refused {number} at {place}\n"),
    }
}
