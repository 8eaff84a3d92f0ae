//! Sheets in an FTS5 table with the trigram tokenizer.

use crate::library::{Database, Sqlite, Statement};

/// Equal numbers are equal characters, as in our index: no case is folded.
const CREATE: &str =
    "CREATE VIRTUAL TABLE sheets USING fts5(body, tokenize = 'trigram case_sensitive 1')";

/// A table of sheets, each a row by its number.
pub struct Table(Database);

impl Table {
    /// An empty table in memory, or why there can be none.
    pub fn new(sqlite: Sqlite) -> Result<Table, String> {
        let database = sqlite.in_memory();
        database.run(CREATE)?;
        Ok(Table(database))
    }

    /// Adds sheets in one transaction.
    pub fn add(&self, sheets: &[String]) {
        self.0.run("BEGIN").expect("a transaction");
        let insert = "INSERT INTO sheets(rowid, body) VALUES (?1, ?2)";
        let mut insert = self.0.prepare(insert).expect("a table");
        for (number, sheet) in (0..).zip(sheets) {
            insert.bind_integer(1, number);
            insert.bind_text(2, sheet);
            assert_eq!(insert.step(), Some(false));
            insert.reset();
        }
        drop(insert);
        self.0.run("COMMIT").expect("a transaction");
    }

    /// Puts all of the index into one tree, the smallest form of it.
    pub fn optimize(&self) {
        let optimize = "INSERT INTO sheets(sheets) VALUES ('optimize')";
        self.0.run(optimize).expect("a table");
    }

    /// The bytes of the index.
    pub fn index_bytes(&self) -> i64 {
        self.0.number("SELECT sum(length(block)) FROM sheets_data")
    }

    /// The bytes of the texts, in UTF-8.
    pub fn text_bytes(&self) -> i64 {
        let bytes = "SELECT sum(length(CAST(c0 AS BLOB))) FROM sheets_content";
        self.0.number(bytes)
    }

    /// The search of a sheet, to be run many times.
    pub fn search(&self) -> Search<'_> {
        let prepare = |column| {
            let select = "FROM sheets WHERE sheets MATCH ?1 AND rowid = ?2";
            let sql = format!("SELECT {column} {select}");
            self.0.prepare(&sql).expect("a table")
        };
        Search {
            rowid: prepare("rowid"),
            body: prepare("body"),
        }
    }
}

/// The statements of a search.
pub struct Search<'a> {
    rowid: Statement<'a>,
    body: Statement<'a>,
}

impl Search<'_> {
    /// Whether the index says that a sheet has this string. It knows which
    /// trigrams stand where, and answers rows.
    pub fn has(&mut self, sheet: usize, string: &str) -> bool {
        let found = run(&mut self.rowid, sheet, string);
        self.rowid.reset();
        found
    }

    /// The positions of the string in a sheet: FTS5 answers no positions that
    /// overlap, so the text of the row is scanned.
    pub fn positions(&mut self, sheet: usize, string: &str) -> Vec<u16> {
        let mut positions = Vec::new();
        if run(&mut self.body, sheet, string) {
            scan(self.body.text(0), string, &mut positions);
        }
        self.body.reset();
        positions
    }
}

/// Whether there is a row. A string in quotes is a phrase, of trigrams here.
fn run(statement: &mut Statement, sheet: usize, string: &str) -> bool {
    statement.bind_text(1, &format!("\"{}\"", string.replace('"', "\"\"")));
    statement.bind_integer(2, sheet as i64);
    statement.step().expect("a search")
}

/// Every position of the string in the text, counted in characters from 1.
fn scan(text: &str, string: &str, positions: &mut Vec<u16>) {
    let mut position = 1;
    let mut rest = text;
    while let Some(at) = rest.find(string) {
        position += rest[..at].chars().count();
        positions.push(position as u16);
        let next = rest[at..].chars().next().map_or(1, char::len_utf8);
        rest = &rest[at + next..];
        position += 1;
    }
}
