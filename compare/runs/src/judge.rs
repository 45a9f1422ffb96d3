//! One request put to the library, to bitvec and to the model.

use crate::{
    answer::Answer,
    expected,
    fault::Fault,
    guarded::Guarded,
    library::{Exported, Places},
    request::Request,
    rust::{self, Stopped},
};

/// What came of a request.
pub struct Verdict {
    /// The model's answer.
    pub expected: Answer,
    /// Whether bitvec was asked.
    pub with_rust: bool,
    /// Whether bitvec stopped.
    pub stopped: bool,
    /// Whether bitvec goes below zero here, as docs/DIFFERENCES.md lists first.
    pub below_zero: bool,
    /// Who disagrees with the model, and in what.
    pub complaint: Option<String>,
}

/// Puts requests to the three and compares.
pub struct Judge<T> {
    words: Guarded<T>,
    other: Guarded<T>,
    expected_words: Vec<T>,
    expected_other: Vec<T>,
    rust_words: Vec<T>,
    rust_other: Vec<T>,
    pattern: u64,
    fault: Option<Fault>,
}

/// What the library left, canaries included.
pub struct Outcome<'a, T> {
    pub code: u8,
    pub places: &'a mut Places,
    pub words: &'a mut Guarded<T>,
    pub other: &'a mut Guarded<T>,
}

impl<T: Exported> Judge<T> {
    /// A judge of the library or, with a fault, of its answers made wrong.
    pub fn new(fault: Option<Fault>) -> Self {
        Judge {
            words: Guarded::default(),
            other: Guarded::default(),
            expected_words: Vec::new(),
            expected_other: Vec::new(),
            rust_words: Vec::new(),
            rust_other: Vec::new(),
            pattern: 0x0123_4567_89AB_CDEF,
            fault,
        }
    }

    /// Compares the three on one request.
    pub fn judge(&mut self, request: &Request<T>) -> Verdict {
        self.expected_words.clone_from(&request.words);
        if request.lends_other() {
            self.expected_other.clone_from(&request.other);
        }
        let expected = expected::answer(request, &mut self.expected_words, &mut self.expected_other);
        let mut verdict = Verdict { expected, with_rust: false, stopped: false, below_zero: false, complaint: None };
        verdict.complaint = self.library_complaint(request, expected);
        if verdict.complaint.is_none() {
            self.ask_rust(request, &mut verdict);
        }
        verdict
    }

    /// What the library does otherwise than the model, if anything.
    fn library_complaint(&mut self, request: &Request<T>, expected: Answer) -> Option<String> {
        self.pattern = self.pattern.wrapping_mul(6_364_136_223_846_793_005).wrapping_add(1_442_695_040_888_963_407);
        let pattern = self.pattern.rotate_left(32);
        let mut places = Places::holding(pattern);
        self.words.lend(&request.words, pattern);
        let words = self.words.pointer();
        let other = if request.lends_other() {
            self.other.lend(&request.other, !pattern);
            self.other.pointer()
        } else {
            words
        };
        let mut code = unsafe { T::call(request, words, other, &mut places) };
        if let Some(fault) = self.fault {
            let outcome = Outcome { code, places: &mut places, words: &mut self.words, other: &mut self.other };
            code = fault.spoil(request, outcome);
        }

        let mut owed = Places::holding(pattern);
        owed.write(expected.results());
        let words_agree = self.words.words() == self.expected_words && self.words.is_intact();
        let other_agree = !request.lends_other() || self.other.words() == self.expected_other && self.other.is_intact();
        if code == expected.code() && places == owed && words_agree && other_agree {
            return None;
        }
        let mut text = format!("the rules:   {expected}\n    the library: returned {code}");
        places.tell_differences(&owed, &mut text);
        differing_words(&mut text, "words", self.words.words(), &self.expected_words);
        if request.lends_other() {
            differing_words(&mut text, "second words", self.other.words(), &self.expected_other);
        }
        if !self.words.is_intact() || request.lends_other() && !self.other.is_intact() {
            text += "\n      memory outside the lent words is changed";
        }
        Some(text)
    }

    /// Compares bitvec with the model where the rules accept, and holds it to stopping where it has
    /// the same refusal.
    fn ask_rust(&mut self, request: &Request<T>, verdict: &mut Verdict) {
        let expected = verdict.expected;
        let must_stop = rust::stops_on(request.call, expected.code());
        if expected.code() != 0 && !must_stop {
            return;
        }
        self.rust_words.clone_from(&request.words);
        if request.lends_other() {
            self.rust_other.clone_from(&request.other);
        }
        let answer = rust::answer(request, &mut self.rust_words, &mut self.rust_other);
        verdict.with_rust = true;
        verdict.stopped = answer == Err(Stopped);
        verdict.below_zero = rust::goes_below_zero(request, expected);
        let agrees = match answer {
            Err(Stopped) => must_stop || cfg!(debug_assertions) && verdict.below_zero,
            Ok(answer) => {
                answer == expected
                    && self.rust_words == self.expected_words
                    && (!request.lends_other() || self.rust_other == self.expected_other)
            }
        };
        if !agrees {
            let answer = answer.map_or("stopped".to_string(), |answer| answer.to_string());
            let mut text = format!("the rules: {expected}\n    bitvec:    {answer}");
            differing_words(&mut text, "words", &self.rust_words, &self.expected_words);
            if request.lends_other() {
                differing_words(&mut text, "second words", &self.rust_other, &self.expected_other);
            }
            verdict.complaint = Some(text);
        }
    }
}

/// The words where two buffers differ, the first sixteen of them.
fn differing_words<T: Exported>(text: &mut String, name: &str, found: &[T], owed: &[T]) {
    let pairs = found.iter().zip(owed).enumerate().filter(|(_, (found, owed))| found != owed);
    for (at, (found, owed)) in pairs.take(16) {
        *text += &format!("\n      {name}[{at}] is {:X}, owed {:X}", found.number(), owed.number());
    }
}
