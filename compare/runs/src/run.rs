//! A run: requests judged and counted, disagreements shrunk and printed.

use crate::{call::Call, fault::Fault, judge::Judge, library::Exported, request::Request, shrink::shrink, tally::Tally};

/// The requests of one width.
pub struct Run<T> {
    judge: Judge<T>,
    pub tally: Tally,
    /// The calls of which a disagreement was printed.
    printed: Vec<Call>,
}

impl<T: Exported> Run<T> {
    /// A run that holds the library, or its answers made wrong by a fault.
    pub fn new(fault: Option<Fault>) -> Self {
        Run { judge: Judge::new(fault), tally: Tally::default(), printed: Vec::new() }
    }

    /// Judges and counts one request. Of the first disagreement of each call it prints the smallest
    /// request that it finds.
    pub fn hold(&mut self, request: &Request<T>) {
        let verdict = self.judge.judge(request);
        self.tally.note(request, &verdict);
        if verdict.complaint.is_some() && !self.printed.contains(&request.call) {
            self.printed.push(request.call);
            println!("disagreement, its smallest request:\n{}\n", self.smallest(request));
        }
    }

    /// Whether someone disagrees on the request.
    pub fn disagrees(&mut self, request: &Request<T>) -> bool {
        self.judge.judge(request).complaint.is_some()
    }

    /// The smallest request found that still disagrees, with the answers.
    pub fn smallest(&mut self, request: &Request<T>) -> String {
        let smallest = shrink(request, |smaller| self.disagrees(smaller));
        let complaint = self.judge.judge(&smallest).complaint.unwrap_or_default();
        format!("    {smallest}\n    {complaint}")
    }
}
