//! What the calls for one sentence and for the sentences from an instruction on answer and leave.

use crate::check::{Accepted, Refused};

/// What a call asks for.
#[derive(Clone, Copy, Debug, PartialEq, Eq)]
pub enum Asked {
    /// The sentence of this instruction.
    One(u64),
    /// The sentences from this instruction on, a line each, as many whole lines as fit.
    From(u64),
}

impl Asked {
    pub fn number(self) -> u64 {
        match self {
            Asked::One(number) | Asked::From(number) => number,
        }
    }
}

/// The answer of either call as the C interface gives it, the text itself apart.
#[derive(Clone, Copy, Debug, PartialEq, Eq)]
pub struct ReasonNumbers {
    /// The refusal's number, 0 for an answer.
    pub number: u32,
    pub at: u64,
    /// The first instruction whose line was not written, which the call for one does not say.
    pub next: Option<u64>,
    /// Bytes of the sentence, or of all lines written.
    pub length: u64,
}

/// What a call answers, and what it leaves at the front of the text, all else being as it was.
#[derive(Clone, Debug, PartialEq, Eq)]
pub struct Outcome {
    pub numbers: ReasonNumbers,
    /// Empty on refusal.
    pub text: String,
}

/// What must come of a call on a file with this answer of the check and, if accepted, these
/// sentences of its instructions, with so many bytes of text lent.
pub fn outcome(
    checked: Result<Accepted, Refused>,
    sentences: &[Option<String>],
    asked: Asked,
    text_len: usize,
) -> Outcome {
    let answer = |number, at, next, text: String| {
        let next = match asked {
            Asked::One(_) => None,
            Asked::From(_) => Some(next),
        };
        let length = text.len() as u64;
        let numbers = ReasonNumbers {
            number,
            at,
            next,
            length,
        };
        Outcome { numbers, text }
    };
    if let Err(refusal) = checked {
        return answer(refusal.number, refusal.at, 0, String::new());
    }
    let named = usize::try_from(asked.number()).ok();
    let Some(first) = named.filter(|&n| n < sentences.len()) else {
        return answer(9, 0, 0, String::new());
    };
    let (text, left) = match asked {
        Asked::One(_) => one(&sentences[first], text_len),
        Asked::From(_) => lines(sentences, first, text_len),
    };
    match left {
        Some(_) if text.is_empty() => answer(10, 0, 0, text),
        Some(next) => answer(0, 0, next as u64, text),
        None => answer(0, 0, sentences.len() as u64, text),
    }
}

/// A sentence, where there is one and it fits, and whether it was left.
fn one(sentence: &Option<String>, room: usize) -> (String, Option<usize>) {
    match sentence {
        Some(said) if said.len() > room => (String::new(), Some(0)),
        said => (said.clone().unwrap_or_default(), None),
    }
}

/// The lines from an instruction on up to the first that does not fit, and the instruction of that
/// line.
fn lines(sentences: &[Option<String>], first: usize, room: usize) -> (String, Option<usize>) {
    let mut text = String::new();
    for (n, sentence) in sentences.iter().enumerate().skip(first) {
        let Some(said) = sentence else {
            continue;
        };
        if said.len() + 1 > room - text.len() {
            return (text, Some(n));
        }
        text.push_str(said);
        text.push('\n');
    }
    (text, None)
}
