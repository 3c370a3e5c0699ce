//! The unit's library, proved in Rattle (crates/unit) and linked as a static library.

/// What a draft answers to a pressed key: how many items stand then, and how many keys are lit.
#[repr(C)]
#[derive(Clone, Copy, Debug, Default, PartialEq, Eq)]
pub struct PressAnswer {
    pub items: usize,
    pub lit: u32,
}

/// How many words a reading is of, and how many moves it has.
#[repr(C)]
#[derive(Clone, Copy, Debug, Default)]
pub struct ReadingSize {
    pub words: usize,
    pub moves: usize,
}

// The declarations fit crates/unit/src/lib.rt by hand: a slice crosses as a pointer and a length, and the heap's handle has no
// bytes.
unsafe extern "C" {
    fn unit_rounds(
        text: *const u8,
        text_len: usize,
        keys: *const u16,
        keys_len: usize,
        count: u32,
        answers: *mut PressAnswer,
        answers_len: usize,
    ) -> u16;

    fn unit_readings(
        text: *const u8,
        text_len: usize,
        keys: *const u16,
        keys_len: usize,
        count: u32,
        size: *mut ReadingSize,
    ) -> u16;
}

/// Presses the keys on one draft and rubs them out again, so many times; the answer to each key in the last round.
pub fn rounds(text: &str, keys: &[u16], count: u32) -> Vec<PressAnswer> {
    let mut answers = vec![PressAnswer::default(); keys.len()];
    // SAFETY: each pointer and length are those of one slice, which is borrowed for the call; the function has no `requires`.
    let number = unsafe {
        unit_rounds(
            text.as_ptr(),
            text.len(),
            keys.as_ptr(),
            keys.len(),
            count,
            answers.as_mut_ptr(),
            answers.len(),
        )
    };
    assert_eq!(
        number, 0,
        "the unit refuses the book or a key, or is out of memory"
    );
    answers
}

/// The number of the refusal where no prefix of the keys is a programme.
const NOT_WHOLE: u16 = 25;

/// Writes the first reading of the longest prefix of the keys that is a programme, so many times; none where none is one.
pub fn readings(text: &str, keys: &[u16], count: u32) -> Option<ReadingSize> {
    let mut size = ReadingSize::default();
    // SAFETY: as above, and `size` is borrowed for the call.
    let number = unsafe {
        unit_readings(
            text.as_ptr(),
            text.len(),
            keys.as_ptr(),
            keys.len(),
            count,
            &mut size,
        )
    };
    match number {
        0 => Some(size),
        NOT_WHOLE => None,
        _ => panic!("the unit refuses the book or a key, or is out of memory ({number})"),
    }
}
