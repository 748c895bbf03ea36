//! SQLite, on databases in memory. The library is looked for when the program runs.
use crate::dynamic::{function, Library};
use std::ffi::{c_char, c_int, c_void, CStr, CString};
use std::ptr::null_mut;

const SQLITE_OK: c_int = 0;
const SQLITE_ROW: c_int = 100;

type Raw = *mut c_void;

/// The functions of the library that are called.
#[derive(Clone, Copy)]
struct Functions {
    version: unsafe extern "C" fn() -> *const c_char,
    open: unsafe extern "C" fn(*const c_char, *mut Raw) -> c_int,
    exec: unsafe extern "C" fn(Raw, *const c_char, Raw, Raw, Raw) -> c_int,
    prepare: unsafe extern "C" fn(Raw, *const c_char, c_int, *mut Raw, Raw) -> c_int,
    bind: unsafe extern "C" fn(Raw, c_int, i64) -> c_int,
    step: unsafe extern "C" fn(Raw) -> c_int,
    column: unsafe extern "C" fn(Raw, c_int) -> i64,
    text: unsafe extern "C" fn(Raw, c_int) -> *const c_char,
    reset: unsafe extern "C" fn(Raw) -> c_int,
}

/// A database, kept as long as the program runs.
#[derive(Clone, Copy)]
pub struct Database {
    functions: Functions,
    raw: Raw,
}

/// A prepared statement, kept as long as the program runs.
pub struct Statement {
    functions: Functions,
    raw: Raw,
}

impl Functions {
    fn load() -> Option<Functions> {
        let library = Library::open(c"libsqlite3.so.0")?;
        // SAFETY: each function has the type that SQLite's header gives it.
        unsafe {
            Some(Functions {
                version: function(library.address(c"sqlite3_libversion")?),
                open: function(library.address(c"sqlite3_open")?),
                exec: function(library.address(c"sqlite3_exec")?),
                prepare: function(library.address(c"sqlite3_prepare_v2")?),
                bind: function(library.address(c"sqlite3_bind_int64")?),
                step: function(library.address(c"sqlite3_step")?),
                column: function(library.address(c"sqlite3_column_int64")?),
                text: function(library.address(c"sqlite3_column_text")?),
                reset: function(library.address(c"sqlite3_reset")?),
            })
        }
    }
}

impl Database {
    /// An empty database in memory; `None` where the library is not installed.
    pub fn open() -> Option<Database> {
        let functions = Functions::load()?;
        let mut raw = null_mut();
        // SAFETY: the name is a C string, and the database is written to a place of its own.
        let status = unsafe { (functions.open)(c":memory:".as_ptr(), &mut raw) };
        (status == SQLITE_OK).then_some(Database { functions, raw })
    }

    pub fn version(&self) -> String {
        // SAFETY: the library returns a C string that stays.
        unsafe { CStr::from_ptr((self.functions.version)()) }.to_string_lossy().into_owned()
    }

    /// Runs statements without results.
    pub fn run(&self, statements: &str) {
        let text = CString::new(statements).expect("no zero byte");
        // SAFETY: the database is open, the text is a C string, and no callback is given.
        let status =
            unsafe { (self.functions.exec)(self.raw, text.as_ptr(), null_mut(), null_mut(), null_mut()) };
        assert_eq!(status, SQLITE_OK, "{statements}");
    }

    pub fn prepare(&self, statement: &str) -> Statement {
        let text = CString::new(statement).expect("no zero byte");
        let mut raw = null_mut();
        // SAFETY: the database is open, the text is a C string, and the statement is written to a place of its own.
        let status = unsafe { (self.functions.prepare)(self.raw, text.as_ptr(), -1, &mut raw, null_mut()) };
        assert_eq!(status, SQLITE_OK, "{statement}");
        Statement { functions: self.functions, raw }
    }

    /// The number that a statement answers.
    pub fn number(&self, statement: &str) -> usize {
        let mut number = 0;
        self.prepare(statement).run([], |row| number = row.number(0) as usize);
        number
    }
}

impl Statement {
    /// Runs the statement with these values, and hands each row on.
    #[inline]
    pub fn run(&self, values: impl IntoIterator<Item = i64>, mut row: impl FnMut(&Statement)) {
        // SAFETY: the statement is prepared; values that it does not have are refused by the library.
        unsafe {
            for (i, value) in values.into_iter().enumerate() {
                (self.functions.bind)(self.raw, i as c_int + 1, value);
            }
            while (self.functions.step)(self.raw) == SQLITE_ROW {
                row(self);
            }
            (self.functions.reset)(self.raw);
        }
    }

    /// A number of the present row.
    #[inline]
    pub fn number(&self, column: c_int) -> i64 {
        // SAFETY: the statement is prepared; a column that it does not have is 0.
        unsafe { (self.functions.column)(self.raw, column) }
    }

    /// A text of the present row.
    pub fn text(&self, column: c_int) -> String {
        // SAFETY: the statement is prepared and stands on a row; the text is a C string that stays until the next step.
        let text = unsafe { (self.functions.text)(self.raw, column) };
        assert!(!text.is_null(), "column {column} has no text");
        // SAFETY: as above.
        unsafe { CStr::from_ptr(text) }.to_string_lossy().into_owned()
    }
}
