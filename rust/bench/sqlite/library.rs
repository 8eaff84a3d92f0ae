//! SQLite as far as it is used here, from the shared library that is installed:
//! nothing is linked, so nothing is missing where it is not.

use std::ffi::{CStr, CString, c_char, c_int, c_void};
use std::marker::PhantomData;
use std::ptr::null_mut;

/// What SQLite answers.
const OK: c_int = 0;
const ROW: c_int = 100;
const DONE: c_int = 101;

/// Its names where shared libraries are looked for.
const NAMES: [&CStr; 3] = [c"libsqlite3.so.0", c"libsqlite3.so", c"libsqlite3.dylib"];

unsafe extern "C" {
    fn dlopen(name: *const c_char, flags: c_int) -> *mut c_void;
    fn dlsym(library: *mut c_void, name: *const c_char) -> *mut c_void;
}

/// All references are resolved at once.
const RTLD_NOW: c_int = 2;

/// Declares the functions that are used, as `sqlite3.h` does, and looks them up.
macro_rules! functions {
    ($($name:ident: fn($($argument:ty),*) -> $result:ty;)*) => {
        #[derive(Clone, Copy)]
        pub struct Sqlite {
            $($name: unsafe extern "C" fn($($argument),*) -> $result,)*
        }

        impl Sqlite {
            /// The installed library, where there is one.
            pub fn load() -> Option<Sqlite> {
                // SAFETY: Names end with a zero. SQLite may be loaded at any time.
                let open = |name: &&CStr| unsafe { dlopen(name.as_ptr(), RTLD_NOW) };
                let library = NAMES.iter().map(open).find(|library| !library.is_null())?;
                $(
                    let name = concat!("sqlite3_", stringify!($name), "\0");
                    // SAFETY: The library is open, and the name ends with a zero.
                    let $name = unsafe { dlsym(library, name.as_ptr().cast()) };
                    if $name.is_null() {
                        return None;
                    }
                )*
                // SAFETY: SQLite has these functions with these signatures.
                Some(unsafe { Sqlite { $($name: std::mem::transmute::<
                    *mut c_void,
                    unsafe extern "C" fn($($argument),*) -> $result,
                >($name),)* } })
            }
        }
    };
}

/// A database or a statement of SQLite.
type Handle = *mut c_void;

functions! {
    libversion: fn() -> *const c_char;
    open: fn(*const c_char, *mut Handle) -> c_int;
    close: fn(Handle) -> c_int;
    errmsg: fn(Handle) -> *const c_char;
    prepare_v2: fn(Handle, *const c_char, c_int, *mut Handle, *mut *const c_char) -> c_int;
    bind_text: fn(Handle, c_int, *const c_char, c_int, isize) -> c_int;
    bind_int64: fn(Handle, c_int, i64) -> c_int;
    step: fn(Handle) -> c_int;
    reset: fn(Handle) -> c_int;
    finalize: fn(Handle) -> c_int;
    column_int64: fn(Handle, c_int) -> i64;
    column_text: fn(Handle, c_int) -> *const c_char;
    column_bytes: fn(Handle, c_int) -> c_int;
}

impl Sqlite {
    pub fn version(&self) -> String {
        // SAFETY: The version is a string that stays.
        let version = unsafe { CStr::from_ptr((self.libversion)()) };
        version.to_string_lossy().into_owned()
    }

    /// An empty database in memory.
    pub fn in_memory(self) -> Database {
        let mut handle = null_mut();
        // SAFETY: The name ends with a zero, and the handle is written.
        let answer = unsafe { (self.open)(c":memory:".as_ptr(), &mut handle) };
        assert_eq!(answer, OK, "SQLite opens no database in memory");
        Database {
            sqlite: self,
            handle,
        }
    }
}

/// An open database.
pub struct Database {
    sqlite: Sqlite,
    handle: Handle,
}

impl Database {
    /// A statement, or why there is none.
    pub fn prepare(&self, sql: &str) -> Result<Statement<'_>, String> {
        let sql = CString::new(sql).expect("no zero in a statement");
        let mut handle = null_mut();
        // SAFETY: The database is open, the statement ends with a zero, and the
        // handle is written.
        let answer = unsafe {
            (self.sqlite.prepare_v2)(self.handle, sql.as_ptr(), -1, &mut handle, null_mut())
        };
        match answer {
            OK => Ok(Statement {
                sqlite: self.sqlite,
                handle,
                database: PhantomData,
            }),
            _ => Err(self.message()),
        }
    }

    /// Runs a statement without rows or parameters.
    pub fn run(&self, sql: &str) -> Result<(), String> {
        match self.prepare(sql)?.step() {
            Some(_) => Ok(()),
            None => Err(self.message()),
        }
    }

    /// The number that a statement answers.
    pub fn number(&self, sql: &str) -> i64 {
        let mut statement = self.prepare(sql).expect("a statement");
        assert_eq!(statement.step(), Some(true), "{}", self.message());
        statement.integer(0)
    }

    fn message(&self) -> String {
        // SAFETY: The database is open; what it says is copied at once.
        let message = unsafe { CStr::from_ptr((self.sqlite.errmsg)(self.handle)) };
        message.to_string_lossy().into_owned()
    }
}

impl Drop for Database {
    fn drop(&mut self) {
        // SAFETY: It is open, and its statements are gone.
        unsafe { (self.sqlite.close)(self.handle) };
    }
}

/// A statement of an open database.
pub struct Statement<'a> {
    sqlite: Sqlite,
    handle: Handle,
    database: PhantomData<&'a Database>,
}

impl Statement<'_> {
    /// Sets a parameter, the first being 1. The text is copied.
    pub fn bind_text(&mut self, parameter: c_int, text: &str) {
        let len = c_int::try_from(text.len()).expect("a short text");
        // SAFETY: The text has this many bytes; -1 has SQLite copy them.
        let answer = unsafe {
            (self.sqlite.bind_text)(self.handle, parameter, text.as_ptr().cast(), len, -1)
        };
        assert_eq!(answer, OK);
    }

    pub fn bind_integer(&mut self, parameter: c_int, number: i64) {
        // SAFETY: The statement is one.
        let answer = unsafe { (self.sqlite.bind_int64)(self.handle, parameter, number) };
        assert_eq!(answer, OK);
    }

    /// Whether there is a further row; none where it failed.
    pub fn step(&mut self) -> Option<bool> {
        // SAFETY: The statement is one.
        match unsafe { (self.sqlite.step)(self.handle) } {
            ROW => Some(true),
            DONE => Some(false),
            _ => None,
        }
    }

    /// Makes it ready to be run again.
    pub fn reset(&mut self) {
        // SAFETY: The statement is one.
        unsafe { (self.sqlite.reset)(self.handle) };
    }

    /// A column of the row, the first being 0.
    pub fn integer(&mut self, column: c_int) -> i64 {
        // SAFETY: The statement stands at a row.
        unsafe { (self.sqlite.column_int64)(self.handle, column) }
    }

    pub fn text(&mut self, column: c_int) -> &str {
        // SAFETY: The statement stands at a row. The text has as many bytes as
        // SQLite says and stays until the statement is used again.
        let bytes = unsafe {
            let text = (self.sqlite.column_text)(self.handle, column);
            let len = (self.sqlite.column_bytes)(self.handle, column);
            if text.is_null() {
                &[]
            } else {
                std::slice::from_raw_parts(text.cast::<u8>(), len as usize)
            }
        };
        std::str::from_utf8(bytes).expect("what was stored")
    }
}

impl Drop for Statement<'_> {
    fn drop(&mut self) {
        // SAFETY: The statement is one, and is not used again.
        unsafe { (self.sqlite.finalize)(self.handle) };
    }
}
