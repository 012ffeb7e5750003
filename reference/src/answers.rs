//! Answers, and the six words that each stands for.

/// Why a lookup failed; it travels inside the answer with its own details.
#[derive(Clone, Copy, PartialEq, Eq, Debug)]
pub enum Failure {
    InvalidRoot,
    Missing { bits: u32 },
    DepthMismatch { bits: u32, resolved: u32 },
    GuardMismatch { bits: u32, guard: u32, size: u32 },
}

/// The answers of the paper's table.
#[derive(Clone, Copy, PartialEq, Eq, Debug)]
pub enum Answer {
    Success { count: u32 },
    InvalidArgument { argument: u32 },
    InvalidCapability,
    IllegalOperation,
    RangeError { least: u32, greatest: u32 },
    FailedLookup { source: bool, failure: Failure },
    TruncatedMessage,
    DeleteFirst,
    RevokeFirst,
    NotEnoughMemory { free: u32 },
    CapFault { word: u32, failure: Failure },
    BadTables,
}

/// A failure as four words: its number and its details.
pub fn failure_words(failure: Failure) -> [u32; 4] {
    match failure {
        Failure::InvalidRoot => [1, 0, 0, 0],
        Failure::Missing { bits } => [2, bits, 0, 0],
        Failure::DepthMismatch { bits, resolved } => [3, bits, resolved, 0],
        Failure::GuardMismatch { bits, guard, size } => [4, bits, guard, size],
    }
}

/// An answer as six words, unused ones 0.
pub fn six_words(answer: Answer) -> [u32; 6] {
    let with_failure = |number, first, failure| {
        let [kind, a, b, c] = failure_words(failure);
        [number, first, kind, a, b, c]
    };
    match answer {
        Answer::Success { count } => [0, count, 0, 0, 0, 0],
        Answer::InvalidArgument { argument } => [1, argument, 0, 0, 0, 0],
        Answer::InvalidCapability => [2, 0, 0, 0, 0, 0],
        Answer::IllegalOperation => [3, 0, 0, 0, 0, 0],
        Answer::RangeError { least, greatest } => [4, least, greatest, 0, 0, 0],
        Answer::FailedLookup { source, failure } => with_failure(6, u32::from(source), failure),
        Answer::TruncatedMessage => [7, 0, 0, 0, 0, 0],
        Answer::DeleteFirst => [8, 0, 0, 0, 0, 0],
        Answer::RevokeFirst => [9, 0, 0, 0, 0, 0],
        Answer::NotEnoughMemory { free } => [10, free, 0, 0, 0, 0],
        Answer::CapFault { word, failure } => with_failure(64, word, failure),
        Answer::BadTables => [65, 0, 0, 0, 0, 0],
    }
}
