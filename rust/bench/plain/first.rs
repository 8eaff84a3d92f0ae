//! The first found position: windows of starts that grow, until one is found.

use super::Query;
use super::directory::Directory;
use super::searching::{Leading, reach_laid};
use super::text_scan::{prefers_text_scan, reach_reconstructed};

/// The position, or 0 where there is none.
pub fn first(query: Query) -> Result<usize, u32> {
    let mut replaced = [0; 256];
    let query = query.admit(&mut replaced)?;
    let string = query.string;
    let directory = Directory::new(query.chars, query.lengths, query.index);
    let n = usize::from(query.index[0]);
    let starts = (n + 1).saturating_sub(string.len());
    let found = match prefers_text_scan(&directory, n, string) {
        true => by_text(&directory, string, n, starts),
        false => None,
    };
    Ok(found.unwrap_or_else(|| by_windows(&directory, string, starts)))
}

/// By a scan of the reconstructed text, if no two entries contradict one another.
fn by_text(directory: &Directory, string: &[u16], n: usize, starts: usize) -> Option<usize> {
    let mut reach = [0; 65_535];
    let reach = &mut reach[..starts];
    reach_reconstructed(directory, n, string, reach).then(|| found(reach, string, 1))
}

/// By the entries: the first 8,192 starts, then the rest. Fewer have a shorter
/// array, so that a short sheet does not pay for clearing it.
fn by_windows(directory: &Directory, string: &[u16], starts: usize) -> usize {
    let leading = Leading::new(directory, string);
    let search = (directory, string, &leading);
    if starts <= 1_024 {
        return in_window::<1_024>(search, 1, starts);
    }
    let near = in_window::<8_192>(search, 1, starts);
    if near != 0 || starts <= 8_192 {
        return near;
    }
    in_window::<65_535>(search, 8_193, starts - 8_192)
}

/// The first found of at most `N` starts from `first` on, 0 where there is none.
fn in_window<const N: usize>(
    (directory, string, leading): (&Directory, &[u16], &Leading),
    first: usize,
    starts: usize,
) -> usize {
    let mut reach = [0; N];
    let reach = &mut reach[..starts.min(N)];
    if reach_laid(directory, string, leading, first, reach) < string.len() {
        return 0;
    }
    found(reach, string, first)
}

fn found(reach: &[u16], string: &[u16], first: usize) -> usize {
    let whole = string.len() as u16;
    let start = reach.iter().position(|&reach| reach >= whole);
    start.map_or(0, |start| first + start)
}
