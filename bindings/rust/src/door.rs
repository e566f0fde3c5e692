//! The only unsafe room: the C functions and the calls of them. A Rust slice is what
//! they ask for: never null, as long as it says, and a mutable one overlaps no other.

use crate::{
    Literal, Numbers, Page, Ran, Reader, Reason, Refusal, Revision, Session, State, Stepped, Unread,
};

mod c {
    extern "C" {
        pub fn moki_check(block: *const i32, block_length: usize) -> u32;
        pub fn moki_open(
            block: *const i32,
            block_length: usize,
            lits: *mut i32,
            lits_length: usize,
            kinds: *mut u8,
            kinds_length: usize,
            reasons: *mut u32,
            reasons_length: usize,
            first: u64,
            answer: &mut [u64; 3],
        ) -> u32;
        pub fn moki_step(
            length: usize,
            revision: u64,
            state: u32,
            block: *const i32,
            block_length: usize,
            lits: *mut i32,
            lits_length: usize,
            kinds: *mut u8,
            kinds_length: usize,
            reasons: *mut u32,
            reasons_length: usize,
            seen: u64,
            proposal: i32,
            answer: &mut [u64; 4],
        ) -> u32;
        pub fn moki_run(
            length: usize,
            revision: u64,
            state: u32,
            block: *const i32,
            block_length: usize,
            lits: *mut i32,
            lits_length: usize,
            kinds: *mut u8,
            kinds_length: usize,
            reasons: *mut u32,
            reasons_length: usize,
            seen: u64,
            budget: u32,
            preferred: *const i32,
            preferred_length: usize,
            answer: &mut [u64; 5],
        ) -> u32;
        pub fn moki_counted(
            length: usize,
            revision: u64,
            state: u32,
            block: *const i32,
            block_length: usize,
            lits: *mut i32,
            lits_length: usize,
            kinds: *mut u8,
            kinds_length: usize,
            reasons: *mut u32,
            reasons_length: usize,
            trues: *mut u32,
            trues_length: usize,
            opens: *mut u32,
            opens_length: usize,
            index: *mut u32,
            index_length: usize,
            seen: u64,
            budget: u32,
            preferred: *const i32,
            preferred_length: usize,
            answer: &mut [u64; 5],
        ) -> u32;
        pub fn moki_page(
            block: *const i32,
            block_length: usize,
            lits: *mut i32,
            lits_length: usize,
            kinds: *mut u8,
            kinds_length: usize,
            start: u32,
            preferred: *const i32,
            preferred_length: usize,
            budget: u32,
            output: *mut u32,
            output_length: usize,
            answer: &mut [u64; 3],
        ) -> u32;
        pub fn moki_shown(
            length: usize,
            revision: u64,
            state: u32,
            block: *const i32,
            block_length: usize,
            lits: *const i32,
            lits_length: usize,
            kinds: *const u8,
            kinds_length: usize,
            output: *mut i32,
            output_length: usize,
            answer: &mut [u64; 1],
        ) -> u32;
        pub fn moki_plain(block: *const i32, block_length: usize, answer: &mut [u64; 1]) -> u32;
        pub fn moki_read(
            bytes: *const u8,
            bytes_length: usize,
            output: *mut i32,
            output_length: usize,
            answer: &mut [u64; 1],
        ) -> u32;
        pub fn moki_read_begin(reader: &mut [u64; 12]);
        pub fn moki_read_piece(
            reader: &mut [u64; 12],
            bytes: *const u8,
            bytes_length: usize,
            output: *mut i32,
            output_length: usize,
        );
        pub fn moki_read_end(
            reader: &[u64; 12],
            output: *mut i32,
            output_length: usize,
            answer: &mut [u64; 1],
        ) -> u32;
        pub fn moki_write(
            block: *const i32,
            block_length: usize,
            output: *mut u8,
            output_length: usize,
            answer: &mut [u64; 1],
        ) -> u32;
    }
}

/// A status is 0, or the refusal's number.
fn accepted(status: u32) -> Result<(), Refusal> {
    match status {
        0 => Ok(()),
        number => Err(Refusal(number)),
    }
}

/// A session as its three numbers: length, revision, state.
fn numbers_of(session: Session) -> (usize, u64, u32) {
    let state = match session.state {
        State::Open => 0,
        State::Valid => 1,
        State::Unsat => 2,
    };
    (session.length, session.revision.0, state)
}

/// The session of the first three numbers of an answer.
fn session(answer: &[u64]) -> Session {
    Session {
        length: answer[0] as usize,
        revision: Revision(answer[1]),
        state: match answer[2] {
            0 => State::Open,
            1 => State::Valid,
            _ => State::Unsat,
        },
    }
}

/// What the five numbers of a run's answer tell.
fn ran(answer: &[u64; 5]) -> Ran {
    Ran {
        session: session(answer),
        steps: answer[3] as u32,
        reason: Reason(answer[4] as u32),
    }
}

/// Calls a C function: `in` a slice that it reads, `out` one that it writes, each as
/// pointer and length; a number, or the answer's array, as it is.
macro_rules! call {
    ($name:ident($($given:tt)*)) => { call!(@ $name [] $($given)*,) };
    (@ $name:ident [$($c:tt)*] in $slice:ident, $($rest:tt)*) => {
        call!(@ $name [$($c)* $slice.as_ptr(), $slice.len(),] $($rest)*)
    };
    (@ $name:ident [$($c:tt)*] out $slice:ident, $($rest:tt)*) => {
        call!(@ $name [$($c)* $slice.as_mut_ptr(), $slice.len(),] $($rest)*)
    };
    (@ $name:ident [$($c:tt)*] $plain:expr, $($rest:tt)*) => {
        call!(@ $name [$($c)* $plain,] $($rest)*)
    };
    (@ $name:ident [$($c:tt)*]) => { unsafe { c::$name($($c)*) } };
}

/// Whether the block is accepted; refusals 1 to 10 and 23.
pub fn check(block: &[i32]) -> Result<(), Refusal> {
    accepted(call!(moki_check(in block)))
}

/// A fresh session; refusals 1 to 11 and 23. The first V places of the record
/// become 0.
pub fn open(
    block: &[i32],
    lits: &mut [i32],
    kinds: &mut [u8],
    reasons: &mut [u32],
    first: Revision,
) -> Result<Session, Refusal> {
    let mut answer = [0; 3];
    let status = call!(moki_open(in block, out lits, out kinds, out reasons, first.0, &mut answer));
    accepted(status)?;
    Ok(session(&answer))
}

impl Session {
    /// One step; refusals 1 to 17 and 23.
    pub fn step(
        self,
        block: &[i32],
        lits: &mut [i32],
        kinds: &mut [u8],
        reasons: &mut [u32],
        seen: Revision,
        proposal: Literal,
    ) -> Result<Stepped, Refusal> {
        let (length, revision, state) = numbers_of(self);
        let mut answer = [0; 4];
        let status = call!(moki_step(length, revision, state, in block, out lits, out kinds, out reasons, seen.0, proposal.0, &mut answer));
        accepted(status)?;
        Ok(Stepped {
            session: session(&answer),
            reason: Reason(answer[3] as u32),
        })
    }

    /// At most `budget` steps; refusals 1 to 15 and 23.
    #[allow(clippy::too_many_arguments)]
    pub fn run(
        self,
        block: &[i32],
        lits: &mut [i32],
        kinds: &mut [u8],
        reasons: &mut [u32],
        seen: Revision,
        budget: u32,
        preferred: &[i32],
    ) -> Result<Ran, Refusal> {
        let (length, revision, state) = numbers_of(self);
        let mut answer = [0; 5];
        let status = call!(moki_run(length, revision, state, in block, out lits, out kinds, out reasons, seen.0, budget, in preferred, &mut answer));
        accepted(status)?;
        Ok(ran(&answer))
    }

    /// What a session that has ended shows: the value of each variable of the first
    /// group, written to the output's first places in prefix order; refusals 1 to 12,
    /// 23, 30 and 32. Reached by calls from an opening on, they are an opening that
    /// wins where the session is `Valid`, a counter-example where it is `Unsat`. The
    /// output has V places or more; the answer is how many were written.
    pub fn shown(
        self,
        block: &[i32],
        lits: &[i32],
        kinds: &[u8],
        output: &mut [i32],
    ) -> Result<usize, Refusal> {
        let (length, revision, state) = numbers_of(self);
        let mut answer = [0; 1];
        let status = call!(moki_shown(length, revision, state, in block, in lits, in kinds, out output, &mut answer));
        accepted(status)?;
        Ok(answer[0] as usize)
    }

    /// The same as `run`, faster on long runs; refusals 1 to 15 and 23. Its numbers by
    /// clause have C places or more, and its index V+T.
    #[allow(clippy::too_many_arguments)]
    pub fn counted(
        self,
        block: &[i32],
        lits: &mut [i32],
        kinds: &mut [u8],
        reasons: &mut [u32],
        numbers: Numbers,
        seen: Revision,
        budget: u32,
        preferred: &[i32],
    ) -> Result<Ran, Refusal> {
        let (length, revision, state) = numbers_of(self);
        let Numbers {
            trues,
            opens,
            index,
        } = numbers;
        let mut answer = [0; 5];
        let status = call!(moki_counted(length, revision, state, in block, out lits, out kinds, out reasons, out trues, out opens, out index, seen.0, budget, in preferred, &mut answer));
        accepted(status)?;
        Ok(ran(&answer))
    }
}

/// The openings from `start` on that win, two words of output each: the opening, and
/// how many ones its number has; refusals 1 to 11, 18 to 21 and 23. The literals and
/// kinds are for work: their first V places become 0.
pub fn page(
    block: &[i32],
    lits: &mut [i32],
    kinds: &mut [u8],
    start: u32,
    preferred: &[i32],
    budget: u32,
    output: &mut [u32],
) -> Result<Page, Refusal> {
    let mut answer = [0; 3];
    let status = call!(moki_page(in block, out lits, out kinds, start, in preferred, budget, out output, &mut answer));
    accepted(status)?;
    Ok(Page {
        next: answer[0] as u32,
        entries: answer[1] as u32,
        paused: answer[2] == 1,
    })
}

/// A second opinion, by the definition of truth alone: whether the formula is true;
/// refusals 1 to 10, 22 and 23. It takes at most 24 variables, and may try all of their
/// values.
pub fn plain(block: &[i32]) -> Result<bool, Refusal> {
    let mut answer = [0; 1];
    let status = call!(moki_plain(in block, &mut answer));
    accepted(status)?;
    Ok(answer[0] == 1)
}

/// What reading answers: the block's length, or why the text was refused.
fn told(status: u32, number: u64) -> Result<usize, Unread> {
    match status {
        0 => Ok(number as usize),
        27 => Err(Unread::Misfit(number)),
        31 => Err(Unread::Row(number as u32)),
        other => Err(Unread::Refused(other)),
    }
}

/// Reads a formula's text into a block, and answers the block's length; refusals 27 to
/// 31. The whole output is written: the block and then zeros, or zeros alone.
pub fn read(bytes: &[u8], output: &mut [i32]) -> Result<usize, Unread> {
    let mut answer = [0; 1];
    let status = call!(moki_read(in bytes, out output, &mut answer));
    told(status, answer[0])
}

impl Reader {
    /// Before the first byte.
    pub fn begin() -> Reader {
        let mut words = [0; 12];
        call!(moki_read_begin(&mut words));
        Reader { words }
    }

    /// One more piece. The output is for work: each piece and the end are lent the
    /// same one.
    pub fn piece(&mut self, bytes: &[u8], output: &mut [i32]) {
        call!(moki_read_piece(&mut self.words, in bytes, out output))
    }

    /// The end: answers and leaves what `read` does of the pieces joined.
    pub fn end(self, output: &mut [i32]) -> Result<usize, Unread> {
        let mut answer = [0; 1];
        let status = call!(moki_read_end(&self.words, out output, &mut answer));
        told(status, answer[0])
    }
}

/// Writes the block as a formula's text, and answers the text's length; refusals 1 to
/// 10, 23, and 30 if the text doesn't fit. The bytes behind the text stay as they were.
pub fn write(block: &[i32], output: &mut [u8]) -> Result<usize, Refusal> {
    let mut answer = [0; 1];
    let status = call!(moki_write(in block, out output, &mut answer));
    accepted(status)?;
    Ok(answer[0] as usize)
}
