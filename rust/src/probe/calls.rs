//! Lists of calls, encoded in words, replayed on a fresh store or on a loaded one.
use super::State;
use crate::host::Shape;
use crate::plain::image::STATE;

/// The words of a call.
pub const CALL_SIZE: usize = 15;

/// The words of an answer: its number, and three more. Of an insert, a delete and a lookup the last one is the depth;
/// with number 14 the first of the three is the attribute.
pub const ANSWER_SIZE: usize = 4;

/// The number of Fresh's or the load's refusal, 0 where it is accepted, the attribute that 14 names, and the words of
/// the state after the calls.
#[derive(Clone, Debug)]
pub struct Replayed {
    pub number: u32,
    pub attribute: u32,
    pub state: [u32; STATE],
}

#[repr(C)]
struct ReplayFields {
    number: u32,
    attribute: u32,
    state: State,
}

extern "C" {
    fn probe_replay(
        shape: Shape,
        dir: *mut u32,
        words: usize,
        pages: *mut u8,
        bytes: usize,
        calls: *const u32,
        call_words: usize,
        answers: *mut u64,
        answer_words: usize,
        out: *mut u8,
        out_bytes: usize,
    ) -> ReplayFields;
    fn probe_replay_file(
        file: *const u8,
        file_bytes: usize,
        dir: *mut u32,
        words: usize,
        pages: *mut u8,
        bytes: usize,
        calls: *const u32,
        call_words: usize,
        answers: *mut u64,
        answer_words: usize,
        out: *mut u8,
        out_bytes: usize,
    ) -> ReplayFields;
}

/// Makes a store in lent memory and runs the calls on it, as many as there are whole ones and as many as the answers
/// have room for. Refused as Fresh is; then nothing is changed.
pub fn replay(
    shape: Shape,
    dir: &mut [u32],
    pages: &mut [u8],
    calls: &[u32],
    answers: &mut [u64],
    out: &mut [u8],
) -> Replayed {
    // SAFETY: nothing is required; each pointer and length are of one slice, and no two slices overlap.
    let ReplayFields { number, attribute, state } = unsafe {
        probe_replay(
            shape,
            dir.as_mut_ptr(),
            dir.len(),
            pages.as_mut_ptr(),
            pages.len(),
            calls.as_ptr(),
            calls.len(),
            answers.as_mut_ptr(),
            answers.len(),
            out.as_mut_ptr(),
            out.len(),
        )
    };
    Replayed { number, attribute, state: state.words() }
}

/// The same on a store made of a file. Refused as load is; then nothing is changed.
pub fn replay_file(
    file: &[u8],
    dir: &mut [u32],
    pages: &mut [u8],
    calls: &[u32],
    answers: &mut [u64],
    out: &mut [u8],
) -> Replayed {
    // SAFETY: nothing is required; each pointer and length are of one slice, and no two slices overlap.
    let ReplayFields { number, attribute, state } = unsafe {
        probe_replay_file(
            file.as_ptr(),
            file.len(),
            dir.as_mut_ptr(),
            dir.len(),
            pages.as_mut_ptr(),
            pages.len(),
            calls.as_ptr(),
            calls.len(),
            answers.as_mut_ptr(),
            answers.len(),
            out.as_mut_ptr(),
            out.len(),
        )
    };
    Replayed { number, attribute, state: state.words() }
}
