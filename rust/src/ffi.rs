//! The C functions of the library as `include/mopekihua.h` declares them, each
//! behind a safe function over slices. All `unsafe` of this crate is here.

use crate::{Refusal, Tally};

/// `mopekihua_answer`.
#[repr(C)]
pub(crate) struct Answer {
    /// 0 where the call was accepted.
    pub(crate) refusal: u32,
    /// 0 beside a refusal.
    pub(crate) count: usize,
}

impl Answer {
    /// The count, or the refusal by its name.
    pub(crate) fn into_result(self) -> Result<usize, Refusal> {
        accepted(self.refusal, self.count)
    }
}

/// `mopekihua_tally_answer`.
#[repr(C)]
pub(crate) struct TallyAnswer {
    /// 0 where the call was accepted.
    pub(crate) refusal: u32,
    /// 0 beside a refusal.
    pub(crate) count: usize,
    /// All 0 beside a refusal.
    pub(crate) by_length: [u64; 32],
}

impl TallyAnswer {
    /// The tally, or the refusal by its name.
    pub(crate) fn into_result(self) -> Result<Tally, Refusal> {
        let TallyAnswer {
            refusal,
            count,
            by_length,
        } = self;
        accepted(refusal, Tally { by_length, count })
    }
}

/// `mopekihua_first_answer`.
#[repr(C)]
pub(crate) struct FirstAnswer {
    /// 0 where the call was accepted.
    pub(crate) refusal: u32,
    /// 0 where no position is found, and beside a refusal.
    pub(crate) position: u32,
}

impl FirstAnswer {
    /// The position, if one is found, or the refusal by its name.
    ///
    /// # Panics
    ///
    /// On a position that no text has, which the proved library never answers.
    pub(crate) fn into_result(self) -> Result<Option<u16>, Refusal> {
        let position = accepted(self.refusal, self.position)?;
        match u16::try_from(position) {
            Ok(0) => Ok(None),
            Ok(position) => Ok(Some(position)),
            Err(_) => panic!("libmopekihua.a answered {position}, which is no position of a text"),
        }
    }
}

/// The value where the number is 0, else the refusal by its name.
///
/// # Panics
///
/// On a number that is no refusal, which the proved library never answers.
fn accepted<T>(number: u32, value: T) -> Result<T, Refusal> {
    match (number, Refusal::from_number(number)) {
        (0, _) => Ok(value),
        (_, Some(refusal)) => Err(refusal),
        (_, None) => {
            panic!("libmopekihua.a answered {number}, which is no refusal of this version")
        }
    }
}

/// Declares C functions, and for each a safe function over slices. The slices
/// lent to be read come first; those lent to be written follow the semicolon.
macro_rules! functions {
    ($(
        $name:ident calls $function:ident($($read:ident),*; $($written:ident),*) -> $answer:ident;
    )*) => {
        unsafe extern "C" {
            $(
                fn $function(
                    $($read: *const u16, _: usize,)*
                    $($written: *mut u16, _: usize,)*
                ) -> $answer;
            )*
        }

        $(
            pub(crate) fn $name(
                $($read: &[u16],)*
                $($written: &mut [u16],)*
            ) -> $answer {
                // SAFETY: The library has this function with this signature.
                // Each pointer and length are those of a slice that outlives
                // the call: the pointer is aligned and not null, and that many
                // elements can be read behind it, also for an empty slice. What
                // is borrowed to be written nothing else refers to during the
                // call. The function reads and writes within the lengths and
                // keeps no pointer.
                unsafe {
                    $function(
                        $($read.as_ptr(), $read.len(),)*
                        $($written.as_mut_ptr(), $written.len(),)*
                    )
                }
            }
        )*
    };
}

functions! {
    admit calls mopekihua_admit(chars, lengths;) -> Answer;
    build calls mopekihua_build(chars, lengths, text; output, work) -> Answer;
    tally calls mopekihua_tally(chars, lengths, index;) -> TallyAnswer;
    receive calls mopekihua_receive(chars, lengths, index; work) -> Answer;
    recover calls mopekihua_recover(chars, lengths, index; output, work) -> Answer;
    search calls mopekihua_search(chars, lengths, index, string; output) -> Answer;
    first calls mopekihua_first(chars, lengths, index, string;) -> FirstAnswer;
    cut calls mopekihua_cut(chars, lengths, index, string; output) -> Answer;
    to_gaps calls mopekihua_to_gaps(chars, lengths, index; output) -> Answer;
    from_gaps calls mopekihua_from_gaps(chars, lengths, gaps; output) -> Answer;
}
