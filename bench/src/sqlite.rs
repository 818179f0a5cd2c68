//! As much of SQLite's C interface as the benchmark needs.

use std::ffi::{c_char, c_int, c_void, CStr, CString};
use std::os::unix::ffi::OsStrExt;
use std::path::Path;
use std::ptr;

#[repr(C)]
struct RawDatabase([u8; 0]);

#[repr(C)]
struct RawStatement([u8; 0]);

const OK: c_int = 0;
const ROW: c_int = 100;
const DONE: c_int = 101;
/// Read and write, create, and no locks: one thread uses it.
const OPEN_FLAGS: c_int = 0x2 | 0x4 | 0x8000;
const PREPARE_PERSISTENT: u32 = 1;

extern "C" {
    fn sqlite3_libversion() -> *const c_char;
    fn sqlite3_open_v2(
        name: *const c_char,
        db: *mut *mut RawDatabase,
        flags: c_int,
        vfs: *const c_char,
    ) -> c_int;
    fn sqlite3_close(db: *mut RawDatabase) -> c_int;
    fn sqlite3_errmsg(db: *mut RawDatabase) -> *const c_char;
    fn sqlite3_exec(
        db: *mut RawDatabase,
        sql: *const c_char,
        callback: *const c_void,
        data: *mut c_void,
        message: *mut *mut c_char,
    ) -> c_int;
    fn sqlite3_prepare_v3(
        db: *mut RawDatabase,
        sql: *const c_char,
        len: c_int,
        flags: u32,
        statement: *mut *mut RawStatement,
        tail: *mut *const c_char,
    ) -> c_int;
    fn sqlite3_finalize(statement: *mut RawStatement) -> c_int;
    fn sqlite3_bind_int64(statement: *mut RawStatement, place: c_int, value: i64) -> c_int;
    fn sqlite3_bind_blob(
        statement: *mut RawStatement,
        place: c_int,
        value: *const c_void,
        len: c_int,
        destroy: *const c_void,
    ) -> c_int;
    fn sqlite3_step(statement: *mut RawStatement) -> c_int;
    fn sqlite3_reset(statement: *mut RawStatement) -> c_int;
    fn sqlite3_column_int64(statement: *mut RawStatement, column: c_int) -> i64;
}

/// The version of the library that is linked.
pub fn version() -> String {
    // SAFETY: a static string that ends with 0.
    unsafe { CStr::from_ptr(sqlite3_libversion()) }
        .to_string_lossy()
        .into_owned()
}

/// A database. Its statements have to be dropped before it.
pub struct Database(*mut RawDatabase);

impl Database {
    pub fn in_memory() -> Database {
        Database::named(c":memory:")
    }

    /// In a file, which is made where it is not there.
    pub fn in_file(path: &Path) -> Database {
        let name = CString::new(path.as_os_str().as_bytes()).expect("no byte 0 in a path");
        Database::named(&name)
    }

    fn named(name: &CStr) -> Database {
        let mut raw = ptr::null_mut();
        // SAFETY: the name ends with 0 and `raw` outlives the call.
        let code = unsafe { sqlite3_open_v2(name.as_ptr(), &mut raw, OPEN_FLAGS, ptr::null()) };
        assert_eq!(code, OK, "SQLite does not open");
        Database(raw)
    }

    fn expect(&self, code: c_int, wanted: c_int, what: &str) {
        // SAFETY: the database is open; the message ends with 0.
        let message = || {
            unsafe { CStr::from_ptr(sqlite3_errmsg(self.0)) }
                .to_string_lossy()
                .into_owned()
        };
        assert!(code == wanted, "{what}: {}", message());
    }

    /// Carries out statements without parameters.
    pub fn exec(&self, sql: &str) {
        let text = CString::new(sql).expect("no byte 0 in a statement");
        // SAFETY: the database is open, the text ends with 0.
        let code = unsafe {
            sqlite3_exec(
                self.0,
                text.as_ptr(),
                ptr::null(),
                ptr::null_mut(),
                ptr::null_mut(),
            )
        };
        self.expect(code, OK, sql);
    }

    pub fn prepare(&self, sql: &str) -> Statement {
        let text = CString::new(sql).expect("no byte 0 in a statement");
        let mut raw = ptr::null_mut();
        // SAFETY: the database is open, the text ends with 0, `raw` outlives the call.
        let code = unsafe {
            sqlite3_prepare_v3(
                self.0,
                text.as_ptr(),
                -1,
                PREPARE_PERSISTENT,
                &mut raw,
                ptr::null_mut(),
            )
        };
        self.expect(code, OK, sql);
        Statement(raw)
    }
}

impl Drop for Database {
    fn drop(&mut self) {
        // SAFETY: opened once, closed once.
        unsafe { sqlite3_close(self.0) };
    }
}

/// A prepared statement; its parameters are numbered as they are bound.
pub struct Statement(*mut RawStatement);

impl Statement {
    fn bind(&mut self, numbers: &[i64]) {
        for (place, &number) in (1..).zip(numbers) {
            // SAFETY: the statement is prepared; so for every call below.
            let code = unsafe { sqlite3_bind_int64(self.0, place, number) };
            assert_eq!(code, OK, "a parameter too many");
        }
    }

    /// Binds bytes that have to live until the statement is reset.
    fn bind_bytes(&mut self, place: usize, bytes: &[u8]) {
        let code = unsafe {
            sqlite3_bind_blob(
                self.0,
                place as c_int,
                bytes.as_ptr().cast(),
                bytes.len() as c_int,
                ptr::null(),
            )
        };
        assert_eq!(code, OK, "a parameter too many");
    }

    fn step(&mut self) -> bool {
        let code = unsafe { sqlite3_step(self.0) };
        assert!(code == ROW || code == DONE, "SQLite answers {code}");
        code == ROW
    }

    fn row<const N: usize>(&self) -> [i64; N] {
        std::array::from_fn(|column| unsafe { sqlite3_column_int64(self.0, column as c_int) })
    }

    fn reset(&mut self) {
        unsafe { sqlite3_reset(self.0) };
    }

    /// Carries out a statement that answers no row.
    pub fn run(&mut self, numbers: &[i64]) {
        self.each::<0>(numbers, |_| ());
    }

    /// The first row, if there is one.
    pub fn one<const N: usize>(&mut self, numbers: &[i64]) -> Option<[i64; N]> {
        self.bind(numbers);
        let found = self.step().then(|| self.row());
        self.reset();
        found
    }

    /// Every row in turn.
    pub fn each<const N: usize>(&mut self, numbers: &[i64], mut take: impl FnMut([i64; N])) {
        self.bind(numbers);
        while self.step() {
            take(self.row());
        }
        self.reset();
    }

    /// As `each`, with bytes after the numbers.
    pub fn each_with<const N: usize>(
        &mut self,
        numbers: &[i64],
        bytes: &[&[u8]],
        mut take: impl FnMut([i64; N]),
    ) {
        for (place, part) in bytes.iter().enumerate() {
            self.bind_bytes(numbers.len() + 1 + place, part);
        }
        self.each(numbers, &mut take);
    }
}

impl Drop for Statement {
    fn drop(&mut self) {
        // SAFETY: prepared once, finalized once.
        unsafe { sqlite3_finalize(self.0) };
    }
}
