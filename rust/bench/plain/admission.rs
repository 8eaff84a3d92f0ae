//! Admission: a pass over the lengths without branches, neighbours compared by their
//! first three characters in one number, and a pass over the characters for
//! full-width forms.

use super::width::holds_full_width;

pub fn admit(chars: &[u16], lengths: &[u16]) -> Result<usize, u32> {
    if lengths.len() > 4096 || chars.len() > 65_535 {
        return Err(1);
    }
    if !lengths_fit(lengths, chars.len()) {
        return Err(2);
    }
    if !words_ascend(chars, lengths) {
        return Err(3);
    }
    if holds_full_width(chars) {
        return Err(12);
    }
    Ok(lengths.len())
}

fn lengths_fit(lengths: &[u16], count: usize) -> bool {
    let mut sum = 0;
    let mut good = true;
    for &length in lengths {
        good &= (1..=32).contains(&length);
        sum += u32::from(length);
    }
    good & (sum as usize == count)
}

fn words_ascend(chars: &[u16], lengths: &[u16]) -> bool {
    let Some((&first, rest)) = lengths.split_first() else {
        return true;
    };
    let mut at = 0;
    let mut next = usize::from(first);
    let mut at_code = prefix_code(chars, at, next);
    for &length in rest {
        let end = next + usize::from(length);
        let next_code = prefix_code(chars, next, end);
        let ascend =
            at_code < next_code || at_code == next_code && chars[at..next] < chars[next..end];
        if !ascend {
            return false;
        }
        at = next;
        next = end;
        at_code = next_code;
    }
    true
}

/// The first three characters of a word as one number, 17 bits each; the end of
/// a word is below every character. A read past the word is not used.
fn prefix_code(chars: &[u16], at: usize, end: usize) -> u64 {
    let last = chars.len() - 1;
    let second = (at + 1).min(last);
    let third = (second + 1).min(last);
    let len = end - at;
    let digit = |present: bool, at: usize| {
        let number = u64::from(chars[at]) + 1;
        if present { number } else { 0 }
    };
    (digit(true, at) << 34) + (digit(1 < len, second) << 17) + digit(2 < len, third)
}
