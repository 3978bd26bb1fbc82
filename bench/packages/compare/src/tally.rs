//! The line that is printed for a subject.
use reference::Refusal;

/// How many calls of a subject were compared, how many differ, and how often each answer came.
pub struct Tally {
    subject: &'static str,
    compared: usize,
    different: usize,
    answers: Vec<(&'static str, usize)>,
}

impl Tally {
    /// A subject, and the answers that are to come.
    pub fn new(subject: &'static str, answers: &[&'static str]) -> Tally {
        Tally {
            subject,
            compared: 0,
            different: 0,
            answers: answers.iter().map(|answer| (*answer, 0)).collect(),
        }
    }

    /// Counts a call by the reference's answer.
    pub fn count(&mut self, answer: &'static str, same: bool) {
        self.compared += 1;
        self.different += !same as usize;
        match self.answers.iter_mut().find(|(name, _)| *name == answer) {
            Some((_, count)) => *count += 1,
            None => self.answers.push((answer, 1)),
        }
    }

    /// Prints the line, and tells whether no call differs and each answer came.
    pub fn report(self) -> bool {
        let shown = |(name, count): &(&str, usize)| format!("{name}: {count}");
        let counts: Vec<String> = self.answers.iter().map(shown).collect();
        let all_came = self.answers.iter().all(|(_, count)| *count > 0);
        let rest = if all_came {
            ""
        } else {
            "; not every answer came"
        };
        println!(
            "{}: {} compared, {} differ; answers {}{rest}",
            self.subject,
            self.compared,
            self.different,
            counts.join(", ")
        );
        self.different == 0 && all_came
    }
}

/// The number that is answered, as a word.
pub fn number_of<T>(answer: &Result<T, Refusal>) -> &'static str {
    const NUMBERS: [&str; 11] = ["0", "1", "2", "3", "4", "5", "6", "7", "8", "9", "10"];
    NUMBERS[answer.as_ref().map_or_else(|refusal| refusal.number, |_| 0) as usize]
}
