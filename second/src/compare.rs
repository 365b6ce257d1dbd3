//! The comparison: every call goes to the model and to the library, and their whole answers must be the same.

use std::collections::VecDeque;

use crate::calls::{Call, FUNCTION_NAMES};
use crate::framing::{put_expected, put_request};
use crate::generate::{Set, EXHAUSTIVE, GENERATED};
use crate::host::{Host, Verb};
use crate::random::Random;
use crate::report;

/// A batch is sent when it has this many calls, or this many bytes in either direction.
const BATCH_CALLS: usize = 4096;
const BATCH_BYTES: usize = 1 << 20;

/// The host works on one batch while the next one waits for it and a third one is made.
const MOST_PENDING: usize = 2;

/// A call that was asked, with the end of its answer among those of its batch.
struct Asked {
    kind: &'static str,
    call: Box<dyn Call>,
    answer_end: usize,
}

/// Calls that go to the host in one message, and the answers that the model expects.
#[derive(Default)]
struct Batch {
    asked: Vec<Asked>,
    request: Vec<u8>,
    request_ends: Vec<usize>,
    expected: Vec<u8>,
}

impl Batch {
    fn add(&mut self, kind: &'static str, call: Box<dyn Call>, pattern: u64) {
        put_request(&mut self.request, call.as_ref(), pattern);
        put_expected(&mut self.expected, call.as_ref(), pattern);
        self.request_ends.push(self.request.len());
        self.asked.push(Asked { kind, call, answer_end: self.expected.len() });
    }

    fn is_full(&self) -> bool {
        self.asked.len() >= BATCH_CALLS || self.request.len().max(self.expected.len()) >= BATCH_BYTES
    }

    /// How many calls agree before the first that differs, and what is to be said about that one if there is one.
    fn compare(&self, answers: &[u8]) -> (usize, Option<String>) {
        if self.expected == answers {
            return (self.asked.len(), None);
        }
        if self.expected.len() != answers.len() {
            let (expected, got) = (self.expected.len(), answers.len());
            return (0, Some(format!("the host's reply has {got} bytes of answers where {expected} were expected")));
        }
        let starts = std::iter::once(0).chain(self.asked.iter().map(|asked| asked.answer_end));
        for (agreed, (start, asked)) in starts.zip(&self.asked).enumerate() {
            let model = &self.expected[start..asked.answer_end];
            let library = &answers[start..asked.answer_end];
            if model != library {
                let call = asked.call.as_ref();
                let (question, answers) = (report::call(asked.kind, call), report::answers(call, model, library));
                return (agreed, Some(format!("an answer differs\n{question}{answers}")));
            }
        }
        unreachable!("answers of the same length that differ do so in one of the calls")
    }

    /// The first call that a fresh host does not answer when it is asked alone.
    fn unanswered(&self, command: &[String]) -> Result<Option<&Asked>, String> {
        let mut host = Host::start(command)?;
        let mut start = 0;
        for (asked, end) in self.asked.iter().zip(&self.request_ends) {
            host.ask(Verb::Calls, 1, &self.request[start..*end]);
            if host.reply(Verb::Calls, 1).is_err() {
                return Ok(Some(asked));
            }
            start = *end;
        }
        Ok(None)
    }
}

/// How many calls agree, by function and by kind of input.
struct Tally {
    functions: [u64; FUNCTION_NAMES.len()],
    kinds: Vec<(&'static str, u64)>,
}

impl Tally {
    fn new() -> Tally {
        let kinds = EXHAUSTIVE.iter().chain(GENERATED).map(|set| (set.kind, 0)).collect();
        Tally { functions: [0; FUNCTION_NAMES.len()], kinds }
    }

    fn count(&mut self, asked: &Asked) {
        self.functions[asked.call.function() as usize] += 1;
        if let Some((_, calls)) = self.kinds.iter_mut().find(|(kind, _)| *kind == asked.kind) {
            *calls += 1;
        }
    }

    fn calls(&self) -> u64 {
        self.functions.iter().sum()
    }

    /// A function or a kind of input that no call was made for.
    fn unasked(&self) -> Option<&'static str> {
        let functions = FUNCTION_NAMES.iter().copied().zip(self.functions);
        functions.chain(self.kinds.iter().copied()).find(|(_, calls)| *calls == 0).map(|(name, _)| name)
    }

    fn print(&self) {
        for (name, calls) in FUNCTION_NAMES.iter().zip(self.functions) {
            println!("{name}: {calls} calls agree");
        }
        for (kind, calls) in &self.kinds {
            println!("  {kind}: {calls} calls");
        }
    }
}

struct Comparison<'a> {
    command: &'a [String],
    host: Host,
    random: Random,
    asked: u64,
    filling: Batch,
    pending: VecDeque<Batch>,
    tally: Tally,
}

impl Comparison<'_> {
    /// Compares the calls of one set; an error says what differs.
    fn run_set(&mut self, set: &Set) -> Result<(), String> {
        for call in (set.make)(&mut self.random) {
            let pattern = self.random.number();
            self.filling.add(set.kind, call, pattern);
            self.asked += 1;
            if self.filling.is_full() {
                self.send()?;
            }
        }
        Ok(())
    }

    fn send(&mut self) -> Result<(), String> {
        let batch = std::mem::take(&mut self.filling);
        self.host.ask(Verb::Calls, batch.asked.len(), &batch.request);
        self.pending.push_back(batch);
        while self.pending.len() > MOST_PENDING {
            self.settle()?;
        }
        Ok(())
    }

    /// Compares the oldest pending batch with the host's reply to it.
    fn settle(&mut self) -> Result<(), String> {
        let Some(batch) = self.pending.pop_front() else {
            return Ok(());
        };
        let answers = match self.host.reply(Verb::Calls, batch.asked.len()) {
            Ok(answers) => answers,
            Err(why) => return Err(self.no_reply(&batch, why)),
        };
        let (agreed, difference) = batch.compare(&answers);
        batch.asked[..agreed].iter().for_each(|asked| self.tally.count(asked));
        match difference {
            None => Ok(()),
            Some(difference) => Err(difference),
        }
    }

    /// Why a batch has no reply, and which of its calls is to blame.
    fn no_reply(&self, batch: &Batch, why: String) -> String {
        let calls = batch.asked.len();
        match batch.unanswered(self.command) {
            Err(error) => format!("{why}\n{error}\n"),
            Ok(None) => format!("{why}\neach of the {calls} calls in question is answered when asked alone\n"),
            Ok(Some(asked)) => {
                let call = report::call(asked.kind, asked.call.as_ref());
                format!("{why}\nthe first of the {calls} calls in question that has no answer:\n{call}")
            }
        }
    }

    /// Compares all exhaustive sets, then generated ones until so many calls were asked.
    fn run(&mut self, calls: u64) -> Result<(), String> {
        for set in EXHAUSTIVE {
            self.run_set(set)?;
        }
        while self.asked < calls {
            for set in GENERATED {
                self.run_set(set)?;
            }
        }
        if !self.filling.asked.is_empty() {
            self.send()?;
        }
        while !self.pending.is_empty() {
            self.settle()?;
        }
        Ok(())
    }
}

/// Compares at least so many calls and prints the outcome; whether nothing differs.
pub fn compare(seed: u64, calls: u64, command: &[String]) -> Result<bool, String> {
    println!("second: seed {seed}");
    let host = Host::start(command)?;
    let mut comparison = Comparison {
        command,
        host,
        random: Random::new(seed),
        asked: 0,
        filling: Batch::default(),
        pending: VecDeque::new(),
        tally: Tally::new(),
    };
    let outcome = comparison.run(calls);
    let tally = comparison.tally;
    let outcome = outcome.and_then(|()| comparison.host.finish());
    let outcome = outcome.and_then(|()| match tally.unasked() {
        Some(name) => Err(format!("no call was made for: {name}")),
        None => Ok(()),
    });
    match outcome {
        Ok(()) => {
            tally.print();
            println!("second: {} calls compared, 0 differ", tally.calls());
            Ok(true)
        }
        Err(difference) => {
            println!("second: {}", difference.trim_end());
            println!("second: {} calls agree before this", tally.calls());
            Ok(false)
        }
    }
}
