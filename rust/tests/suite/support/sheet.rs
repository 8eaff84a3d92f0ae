//! Job sheets: how one is written, and what the program prints for it, read
//! plainly from the definition.

use super::dictionary::Dictionary;
use super::oracle::{self, Key};

/// What a sheet says.
#[derive(Clone, Debug, Default)]
pub struct Sheet {
    pub words: Vec<Vec<u16>>,
    pub text: Vec<u16>,
    pub finds: Vec<Vec<u16>>,
}

impl Sheet {
    /// A sheet of exactly this many bytes: forms of some hundred words, the text
    /// and finds. A form takes 7 bytes and 5 for each character.
    pub fn of_length(bytes: usize) -> Sheet {
        let mut sheet = Sheet {
            words: (0..200).map(|number| vec![number; 8]).collect(),
            text: vec![0; 2_000],
            finds: vec![vec![7; 50]; 46],
        };
        while (bytes - 7 * (201 + sheet.finds.len())) % 5 != 0 {
            sheet.finds.push(vec![9]);
        }
        let missing = (bytes - sheet.bytes().len()) / 5;
        for i in 0..missing {
            sheet.finds[i % 46].push(8);
        }
        assert_eq!(sheet.bytes().len(), bytes);
        sheet
    }

    /// The sheet as it is handed to the program.
    pub fn bytes(&self) -> Vec<u8> {
        let words = self.words.iter().map(|word| form("word", word));
        let finds = self.finds.iter().map(|find| form("find", find));
        let text = form("text", &self.text);
        words.chain([text]).chain(finds).collect::<String>().into()
    }
}

/// A line with one form.
pub fn form(head: &str, characters: &[u16]) -> String {
    let characters: String = characters.iter().map(|c| format!(" {c:04X}")).collect();
    format!("({head}{characters})\n")
}

/// What the program prints for these bytes.
pub fn answer(bytes: &[u8]) -> String {
    match read(bytes).and_then(tested) {
        Ok(sheet) => printed(&sheet),
        Err(number) => format!("(refused {number})\n"),
    }
}

/// The sheet, or 10 or 11.
fn read(bytes: &[u8]) -> Result<Sheet, u32> {
    if bytes.len() > 32_768 {
        return Err(10);
    }
    let sheet = in_form(bytes).ok_or(11u32)?;
    if sheet.words.len() > 200 || sheet.text.len() > 2_000 || sheet.finds.len() > 50 {
        return Err(11);
    }
    Ok(sheet)
}

/// The sheet, if it has its form: words, one text, finds, each on a line.
fn in_form(bytes: &[u8]) -> Option<Sheet> {
    let lines = bytes.strip_suffix(b"\n")?.split(|&byte| byte == b'\n');
    let mut forms = lines
        .map(read_form)
        .collect::<Option<Vec<_>>>()?
        .into_iter();
    let mut sheet = Sheet::default();
    loop {
        match forms.next()? {
            ("word", characters) => sheet.words.push(characters),
            ("text", characters) => {
                sheet.text = characters;
                break;
            }
            _ => return None,
        }
    }
    for (head, characters) in forms {
        if head != "find" {
            return None;
        }
        sheet.finds.push(characters);
    }
    Some(sheet)
}

/// The head of a form, and its characters.
fn read_form(line: &[u8]) -> Option<(&str, Vec<u16>)> {
    let line = std::str::from_utf8(line).ok()?;
    let mut parts = line.strip_prefix('(')?.strip_suffix(')')?.split(' ');
    let head = parts.next()?;
    let characters = parts.map(character).collect::<Option<_>>()?;
    Some((head, characters))
}

/// The character that four upper-case hexadecimal digits stand for.
fn character(digits: &str) -> Option<u16> {
    let upper = |digit: u8| digit.is_ascii_digit() || (b'A'..=b'F').contains(&digit);
    let four = digits.len() == 4 && digits.bytes().all(upper);
    u16::from_str_radix(digits, 16).ok().filter(|_| four)
}

/// The sheet, or the number that refuses its words as a dictionary, or 6 over its
/// finds. It is too short to meet 1.
fn tested(sheet: Sheet) -> Result<Sheet, u32> {
    let Dictionary { chars, lengths } = Dictionary::of(&sheet.words);
    oracle::admit(&chars, &lengths)?;
    if sheet
        .finds
        .iter()
        .any(|find| !(1..=256).contains(&find.len()))
    {
        return Err(6);
    }
    Ok(sheet)
}

/// The index of the replaced text, key after key, and where each replaced string
/// stands in it.
fn printed(sheet: &Sheet) -> String {
    let lines = oracle::lines_of(&sheet.words, &sheet.text);
    let entries: usize = lines.iter().map(|(_, positions)| positions.len()).sum();
    let mut printed = format!("(index {} {} {entries})\n", sheet.text.len(), lines.len());
    for (key, positions) in &lines {
        let key = match key {
            Key::Word(number) => format!("word {number}"),
            Key::Lone(character) => format!("lone {character:04X}"),
        };
        printed += &format!("(key {key} ({}))\n", spaced(positions));
    }
    for find in &sheet.finds {
        let positions = oracle::positions_in_text(&sheet.text, find);
        printed += &format!("(found {} ({}))\n", positions.len(), spaced(&positions));
    }
    printed
}

/// Positions with a space between.
fn spaced(positions: &[u16]) -> String {
    let positions: Vec<String> = positions.iter().map(u16::to_string).collect();
    positions.join(" ")
}
