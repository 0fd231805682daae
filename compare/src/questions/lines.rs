//! Questions about the line program's answers: a line in each of its modes.

use crate::hex;
use crate::lines::list;
use crate::random::Random;

pub fn questions(random: &mut Random) -> Vec<String> {
    let mut questions = Vec::new();
    for (mode, name) in [("parts", "parts"), ("instant", "instants"), ("date", "days"), ("write", "moments")] {
        let (known, generator) = list(name).expect(name);
        let lines = known.into_iter().chain((0..100).map(|_| generator(random)));
        // as long as a question may hold
        let lines = lines.filter(|line| line.len() <= 1024);
        questions.extend(lines.map(|line| format!("{mode}_line {}", hex::encode(&line))));
    }
    questions
}
