//! Building: the replaced text written once, one token a position, positions of equal
//! keys chained, and the chains written out in the order of the keys.

use mopekihua::HEADER;

use super::admission::admit;
use super::matching::MatchTable;
use super::width::copy_replaced;

/// The token of a lone character; other tokens are 0 or the number of a word + 1.
pub const LONE: u16 = 4_097;

/// A key as one number, its word number or 4,096 + its character: codes in order
/// are keys in order.
const CODES: usize = 4_096 + 65_536;

/// A page of codes without a key is passed over.
const PAGE: usize = 64;

pub fn build(
    chars: &[u16],
    lengths: &[u16],
    text: &[u16],
    output: &mut [u16],
    work: &mut [u16],
) -> Result<usize, u32> {
    let answer = admit(chars, lengths).and_then(|_| {
        if text.len() > 65_535 {
            return Err(4);
        }
        if work.len() < 8 * text.len() {
            return Err(7);
        }
        let (replaced, tokens) = work[..2 * text.len()].split_at_mut(text.len());
        copy_replaced(text, replaced);
        scan(&MatchTable::new(chars, lengths), replaced, tokens);
        write_tokens(replaced, tokens, output)
    });
    work.fill(0);
    answer
}

/// Writes the index that the tokens stand for. They become links.
fn write_tokens(text: &[u16], tokens: &mut [u16], output: &mut [u16]) -> Result<usize, u32> {
    let chains = Chains::link(text, tokens);
    let size = HEADER + 3 * chains.keys + chains.entries;
    if output.len() < size {
        return Err(8);
    }
    output[0] = text.len() as u16;
    output[1] = chains.keys as u16;
    let (directory, positions) = output[HEADER..size].split_at_mut(3 * chains.keys);
    chains.write_directory(tokens, directory);
    chains.write_positions(tokens, positions);
    Ok(size)
}

/// Writes one token a position: what is registered there.
fn scan(table: &MatchTable, text: &[u16], tokens: &mut [u16]) {
    let mut last = 0;
    for (at, token) in tokens.iter_mut().enumerate() {
        (*token, last) = step(table, text, at, last);
    }
}

/// The token at an index of the text, and the last registered end after it.
pub fn step(table: &MatchTable, text: &[u16], at: usize, last: usize) -> (u16, usize) {
    let found = table.longest(text, at, last);
    if found != 0 {
        (found, at + table.length(found))
    } else if at + 1 > last {
        (LONE, at + 1)
    } else {
        (0, last)
    }
}

/// The first position of each key; the tokens have become links to the next.
struct Chains {
    heads: [u16; CODES],
    pages: [bool; CODES / PAGE],
    keys: usize,
    entries: usize,
}

impl Chains {
    /// Links from the last position to the first.
    fn link(text: &[u16], tokens: &mut [u16]) -> Chains {
        let mut chains = Chains {
            heads: [0; CODES],
            pages: [false; CODES / PAGE],
            keys: 0,
            entries: 0,
        };
        for (at, (token, &character)) in tokens.iter_mut().zip(text).enumerate().rev() {
            if *token == 0 {
                continue;
            }
            let code = if *token == LONE {
                4_096 + usize::from(character)
            } else {
                usize::from(*token - 1)
            };
            let head = chains.heads[code];
            chains.keys += usize::from(head == 0);
            chains.entries += 1;
            chains.pages[code / PAGE] = true;
            chains.heads[code] = at as u16 + 1;
            *token = head;
        }
        chains
    }

    /// The code and the first position of each key in order.
    fn each(&self, mut visit: impl FnMut(usize, u16)) {
        for (page, heads) in self.heads.chunks_exact(PAGE).enumerate() {
            if self.pages[page] {
                for (number, &head) in heads.iter().enumerate() {
                    if head != 0 {
                        visit(page * PAGE + number, head);
                    }
                }
            }
        }
    }

    fn write_directory(&self, links: &[u16], directory: &mut [u16]) {
        let mut lines = directory.chunks_exact_mut(3);
        self.each(|code, head| {
            let mut count = 0;
            let mut position = head;
            while position != 0 {
                count += 1;
                position = links[usize::from(position - 1)];
            }
            if let Some([kind, value, counted]) = lines.next() {
                *kind = u16::from(code >= 4_096);
                *value = if code >= 4_096 { code - 4_096 } else { code } as u16;
                *counted = count;
            }
        });
    }

    fn write_positions(&self, links: &[u16], positions: &mut [u16]) {
        let mut slots = positions.iter_mut();
        self.each(|_, head| {
            let mut position = head;
            while position != 0 {
                if let Some(slot) = slots.next() {
                    *slot = position;
                }
                position = links[usize::from(position - 1)];
            }
        });
    }
}
