//! What differed, with all that is needed to see it.
use generate::layout::{ENTITY_WORDS, FIRST_ENTITY_WORD, USER_WORDS};
use ordinary::Reply;

/// Words of tables that are named one by one where they differ; of more, only the number is given.
const NAMED_WORDS: usize = 8;

/// What differed in which call.
pub struct Difference {
    pub call: &'static str,
    pub complaint: String,
    pub details: Vec<String>,
}

impl Difference {
    /// A difference of which nothing further is said yet.
    pub fn new(call: &'static str, complaint: &str) -> Difference {
        Difference { call, complaint: complaint.to_string(), details: Vec::new() }
    }

    /// Adds a line.
    pub fn with(mut self, detail: String) -> Difference {
        self.details.push(detail);
        self
    }

    /// Adds the two replies.
    pub fn with_replies(self, ordinary: Reply, proved: Reply) -> Difference {
        self.with(format!(
            "answers: ordinary {} (number {}), proved {} (number {})",
            ordinary.answer, ordinary.number, proved.answer, proved.number
        ))
    }

    /// Adds the first place at which two rows of answers differ, and how many there are.
    pub fn with_answers(self, ordinary: &[u32], proved: &[u32]) -> Difference {
        let differing: Vec<usize> = (0..ordinary.len()).filter(|&i| ordinary[i] != proved[i]).collect();
        match differing.first() {
            None => self,
            Some(&i) => self.with(format!(
                "answers to requests, from 0 on: at {} ordinary {}, proved {}; {} of {} differ",
                i,
                ordinary[i],
                proved[i],
                differing.len(),
                ordinary.len()
            )),
        }
    }

    /// Adds the words in which two tables differ.
    pub fn with_tables(mut self, ordinary: &[u32], proved: &[u32]) -> Difference {
        let differing: Vec<usize> = (0..ordinary.len()).filter(|&i| ordinary[i] != proved[i]).collect();
        for &i in differing.iter().take(NAMED_WORDS) {
            self.details.push(format!("{}: ordinary {}, proved {}", word_name(i), ordinary[i], proved[i]));
        }
        self.with(format!("{} words of the tables differ", differing.len()))
    }
}

/// What a word of the tables is a word of.
fn word_name(index: usize) -> String {
    if index < FIRST_ENTITY_WORD {
        return format!("user {} word {}", index / USER_WORDS + 1, index % USER_WORDS);
    }
    let index = index - FIRST_ENTITY_WORD;
    format!("entity {} word {}", index / ENTITY_WORDS + 1, index % ENTITY_WORDS)
}
