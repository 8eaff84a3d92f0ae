//! An opened index: the directory by line, and the positions of each line.

use mopekihua::HEADER;

/// The directory lines with what their keys spell.
pub struct Lines<'a> {
    chars: &'a [u16],
    lengths: &'a [u16],
    starts: [u16; 4096],
    lines: &'a [u16],
    /// How many lines are those of words.
    pub words: usize,
}

impl<'a> Lines<'a> {
    pub fn new(chars: &'a [u16], lengths: &'a [u16], lines: &'a [u16]) -> Self {
        Lines {
            chars,
            lengths,
            starts: word_starts(lengths),
            lines,
            words: first_line(0, lines.len() / 3, |line| lines[3 * line] == 0),
        }
    }

    /// What the key of each line spells, with the number of its positions.
    pub fn keys(&self) -> impl Iterator<Item = (&'a [u16], usize)> {
        self.lines.chunks_exact(3).map(|line| {
            let spelt = match line[0] {
                0 => self.word_numbered(line[1]),
                _ => &line[1..2],
            };
            (spelt, usize::from(line[2]))
        })
    }

    /// What the key of a line of a word spells.
    pub fn word(&self, line: usize) -> &'a [u16] {
        self.word_numbered(self.lines[3 * line + 1])
    }

    fn word_numbered(&self, number: u16) -> &'a [u16] {
        let number = usize::from(number);
        let start = usize::from(self.starts[number]);
        &self.chars[start..start + usize::from(self.lengths[number])]
    }

    /// The line of a lone character.
    pub fn lone(&self, character: u16) -> Option<usize> {
        let keys = self.lines.len() / 3;
        let line = first_line(self.words, keys, |line| {
            self.lines[3 * line + 1] < character
        });
        (line < keys && self.lines[3 * line + 1] == character).then_some(line)
    }

    /// Of the lines from `low` to `high`, whose words ascend and share their
    /// first `depth` characters, those that have this one next.
    fn equal_range(
        &self,
        (low, high): (usize, usize),
        depth: usize,
        character: u16,
    ) -> (usize, usize) {
        if low < high {
            let ends = [low, high - 1];
            if ends.iter().all(|&line| self.word(line)[depth] == character) {
                return (low, high);
            }
        }
        let low = first_line(low, high, |line| self.word(line)[depth] < character);
        let high = first_line(low, high, |line| self.word(line)[depth] <= character);
        (low, high)
    }

    /// Every line whose key agrees with what begins with it, and how long it is.
    /// The words from `low` to `high` share `depth` characters with it.
    pub fn each_that_starts(&self, string: &[u16], mut visit: impl FnMut(usize, usize)) {
        let (mut low, mut high) = (0, self.words);
        let mut depth = 0;
        while low < high {
            if self.word(low).len() == depth {
                visit(low, depth);
                low += 1;
                continue;
            }
            let Some(&character) = string.get(depth) else {
                break;
            };
            (low, high) = self.equal_range((low, high), depth, character);
            depth += 1;
        }
        for line in low..high {
            visit(line, self.word(line).len());
        }
        if let Some(line) = self.lone(string[0]) {
            visit(line, 1);
        }
    }
}

/// How many lines share one stored sum of counts.
const PAGE: usize = 64;

/// The directory lines, and where the positions of each are.
pub struct Directory<'a> {
    pub lines: Lines<'a>,
    pub positions: &'a [u16],
    /// Where the positions of each 64th line start.
    pages: [u32; 65_536 / PAGE],
}

impl<'a> Directory<'a> {
    pub fn new(chars: &'a [u16], lengths: &'a [u16], index: &'a [u16]) -> Self {
        let (lines, positions) = index[HEADER..].split_at(3 * usize::from(index[1]));
        let mut pages = [0; 65_536 / PAGE];
        let mut sum = 0;
        for (page, lines) in pages.iter_mut().zip(lines.chunks(3 * PAGE)) {
            *page = sum;
            for line in lines.chunks_exact(3) {
                sum += u32::from(line[2]);
            }
        }
        Directory {
            lines: Lines::new(chars, lengths, lines),
            positions,
            pages,
        }
    }

    /// The positions of one line.
    pub fn positions(&self, line: usize) -> &'a [u16] {
        let at = self.start(line);
        &self.positions[at..at + self.count(line)]
    }

    /// How many positions a line has.
    pub fn count(&self, line: usize) -> usize {
        usize::from(self.lines.lines[3 * line + 2])
    }

    /// How many positions the lines before this one have.
    fn start(&self, line: usize) -> usize {
        let first = line / PAGE * PAGE;
        let before = self.lines.lines[3 * first..3 * line].chunks_exact(3);
        let inside: usize = before.map(|line| usize::from(line[2])).sum();
        self.pages[line / PAGE] as usize + inside
    }
}

/// Where the characters of each word start.
fn word_starts(lengths: &[u16]) -> [u16; 4096] {
    let mut starts = [0; 4096];
    let mut start: u16 = 0;
    for (slot, &length) in starts.iter_mut().zip(lengths) {
        *slot = start;
        start = start.wrapping_add(length);
    }
    starts
}

/// The first line from `low` to `high` that is not below; those below come first.
fn first_line(low: usize, high: usize, below: impl Fn(usize) -> bool) -> usize {
    let (mut low, mut high) = (low, high);
    while low < high {
        let middle = low + (high - low) / 2;
        if below(middle) {
            low = middle + 1;
        } else {
            high = middle;
        }
    }
    low
}
