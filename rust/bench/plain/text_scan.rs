//! Search by a text scan: where no two entries of an index contradict one
//! another, a text is reconstructed from them, and Z-search finds in one pass
//! where the string stands, whatever its characters are.

use super::directory::Directory;

/// Whether extending reaches would visit many positions, so that a text scan
/// costs less: an estimate, from the keys that agree with the string at every so
/// many of its offsets.
pub fn prefers_text_scan(directory: &Directory, n: usize, string: &[u16]) -> bool {
    let lines = &directory.lines;
    let stride = 1 + string.len() / 32;
    let mut visits = 0;
    // At the string's start a word may agree at as many offsets as it has
    // characters.
    lines.each_that_starts(string, |line, len| {
        visits += directory.count(line) * len;
    });
    for at in (0..string.len()).step_by(stride) {
        if 6 * n < visits {
            return true;
        }
        lines.each_that_starts(&string[at..], |line, _| {
            visits += stride * directory.count(line);
        });
    }
    6 * n < visits
}

/// Fills `reach` with the length of the longest prefix of the string that matches
/// at each start of the reconstructed text of `n` characters, or answers that
/// entries contradict one another. The text is reconstructed over a sentinel, a
/// character absent from the string.
pub fn reach_reconstructed(
    directory: &Directory,
    n: usize,
    string: &[u16],
    reach: &mut [u16],
) -> bool {
    let Some(sentinel) = (0..=256).find(|sentinel| !string.contains(sentinel)) else {
        return false;
    };
    let mut text = [0; 65_535];
    let text = &mut text[..n];
    text.fill(sentinel);
    reconstruct(directory, text);
    if !entries_match(directory, text) {
        return false;
    }
    let mut zarray = [0; 256];
    fill_prefix_lengths(string, string, 1, &[], &mut zarray[..string.len()]);
    fill_prefix_lengths(text, string, 0, &zarray, reach);
    true
}

/// Reconstructs the text: each entry's characters at its position.
fn reconstruct(directory: &Directory, text: &mut [u16]) {
    let mut rest = directory.positions;
    for (spelt, count) in directory.lines.keys() {
        let (positions, after) = rest.split_at(count);
        rest = after;
        for &position in positions {
            let start = usize::from(position) - 1;
            for (character, &shown) in text[start..start + spelt.len()].iter_mut().zip(spelt) {
                *character = shown;
            }
        }
    }
}

/// Whether every entry stands in the text.
fn entries_match(directory: &Directory, text: &[u16]) -> bool {
    let mut rest = directory.positions;
    directory.lines.keys().all(|(spelt, count)| {
        let (positions, after) = rest.split_at(count);
        rest = after;
        stands_at_all(spelt, positions, text)
    })
}

/// Where the distance to the next position is a period of the key, only the
/// characters beyond the overlap are compared there.
fn stands_at_all(spelt: &[u16], positions: &[u16], text: &[u16]) -> bool {
    let len = spelt.len();
    let mut gap = len;
    let mut last = None;
    positions.iter().all(|&position| {
        let start = usize::from(position) - 1;
        let step = last.map_or(len, |last| start - last);
        last = Some(start);
        if step < len && step != gap && spelt[step..] == spelt[..len - step] {
            gap = step;
        }
        let known = if step == gap { len - step } else { 0 };
        (known..len).all(|at| text[start + at] == spelt[at])
    })
}

/// For each start of the text from `from` on, the length of the longest prefix
/// of the string that matches there. Within the Z-box, the match that reaches
/// furthest, the string's Z-array tells what is known: `zarray`, or if that is
/// empty the one being filled, where the text is the string itself.
fn fill_prefix_lengths(
    text: &[u16],
    string: &[u16],
    from: usize,
    zarray: &[u16],
    reach: &mut [u16],
) {
    let (mut left, mut right) = (0, 0);
    for at in from..reach.len() {
        let mut len = 0;
        if at < right {
            let table = if zarray.is_empty() { &*reach } else { zarray };
            len = usize::from(table[at - left]).min(right - at);
        }
        while len < string.len() && at + len < text.len() && text[at + len] == string[len] {
            len += 1;
        }
        reach[at] = len as u16;
        if right < at + len {
            (left, right) = (at, at + len);
        }
    }
}
