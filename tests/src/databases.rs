//! LMDB and SQLite, opened at run time, as stores of small records by number: what the store's speed is
//! compared with.
//!
//! Both keep the records in files of a folder that is removed at the end, and never wait for the disk.
//! Each write is a transaction of its own, and so is each read of LMDB.

use crate::shared_library::SharedLibrary;
use std::ffi::{c_char, c_int, c_uint, c_void, CStr, CString};
use std::path::{Path, PathBuf};
use std::ptr::{null, null_mut};

/// A folder of its own below the system's folder for temporary files. It is removed when dropped.
pub struct Folder(PathBuf);

impl Folder {
    /// Makes a folder whose name ends in `name` and the number of this process.
    pub fn new(name: &str) -> Folder {
        let path = std::env::temp_dir().join(format!("johvimaru-{name}-{}", std::process::id()));
        std::fs::create_dir_all(&path).expect("a folder for temporary files can be made");
        Folder(path)
    }

    /// Where it is.
    pub fn path(&self) -> &Path {
        &self.0
    }

    /// The path of a file in it, for C.
    fn file(&self, name: &str) -> CString {
        let path = self.0.join(name).into_os_string().into_encoded_bytes();
        CString::new(path).expect("a path has no zero byte")
    }
}

impl Drop for Folder {
    fn drop(&mut self) {
        // What cannot be removed stays: nothing depends on it.
        let _ = std::fs::remove_dir_all(&self.0);
    }
}

// ---- LMDB

/// `MDB_val` of lmdb.h.
#[repr(C)]
struct Value {
    size: usize,
    data: *mut c_void,
}

impl Value {
    fn of(bytes: &[u8]) -> Value {
        Value { size: bytes.len(), data: bytes.as_ptr().cast_mut().cast() }
    }
}

type Begin = unsafe extern "C" fn(*mut c_void, *mut c_void, c_uint, *mut *mut c_void) -> c_int;
type End = unsafe extern "C" fn(*mut c_void) -> c_int;
type Abort = unsafe extern "C" fn(*mut c_void);
type Put = unsafe extern "C" fn(*mut c_void, c_uint, *mut Value, *mut Value, c_uint) -> c_int;
type Get = unsafe extern "C" fn(*mut c_void, c_uint, *mut Value, *mut Value) -> c_int;

/// An LMDB environment with one database.
pub struct Lmdb {
    environment: *mut c_void,
    database: c_uint,
    begin: Begin,
    commit: End,
    abort: Abort,
    put: Put,
    get: Get,
    close: Abort,
}

impl Lmdb {
    /// `MDB_NOSYNC`, `MDB_NOMETASYNC` and `MDB_WRITEMAP` of lmdb.h: its fastest way to write.
    const NEVER_SYNC: c_uint = 0x10000 | 0x40000 | 0x80000;
    /// `MDB_RDONLY`.
    const READ_ONLY: c_uint = 0x20000;
    /// The size of the file, 16 MiB.
    const SIZE: usize = 1 << 24;

    /// Opens a new environment in a folder.
    pub fn new(library: SharedLibrary, folder: &Folder) -> Lmdb {
        type Create = unsafe extern "C" fn(*mut *mut c_void) -> c_int;
        type SetSize = unsafe extern "C" fn(*mut c_void, usize) -> c_int;
        type Open = unsafe extern "C" fn(*mut c_void, *const c_char, c_uint, c_uint) -> c_int;
        type OpenDatabase =
            unsafe extern "C" fn(*mut c_void, *const c_char, c_uint, *mut c_uint) -> c_int;
        let path = folder.file(".");
        // SAFETY: the types are those of lmdb.h, and each pointer leads to what the call fills or reads.
        unsafe {
            let mut environment = null_mut();
            assert_eq!(library.function::<Create>(c"mdb_env_create")(&mut environment), 0);
            let set_size = library.function::<SetSize>(c"mdb_env_set_mapsize");
            assert_eq!(set_size(environment, Self::SIZE), 0);
            let open = library.function::<Open>(c"mdb_env_open");
            assert_eq!(open(environment, path.as_ptr(), Self::NEVER_SYNC, 0o600), 0);
            let mut lmdb = Lmdb {
                environment,
                database: 0,
                begin: library.function(c"mdb_txn_begin"),
                commit: library.function(c"mdb_txn_commit"),
                abort: library.function(c"mdb_txn_abort"),
                put: library.function(c"mdb_put"),
                get: library.function(c"mdb_get"),
                close: library.function(c"mdb_env_close"),
            };
            let transaction = lmdb.transaction(0);
            let open = library.function::<OpenDatabase>(c"mdb_dbi_open");
            assert_eq!(open(transaction, null(), 0, &mut lmdb.database), 0);
            assert_eq!((lmdb.commit)(transaction), 0);
            lmdb
        }
    }

    fn transaction(&self, flags: c_uint) -> *mut c_void {
        let mut transaction = null_mut();
        // SAFETY: the environment is open.
        assert_eq!(
            unsafe { (self.begin)(self.environment, null_mut(), flags, &mut transaction) },
            0
        );
        transaction
    }

    /// Writes a record.
    pub fn write(&mut self, number: u32, record: &[u8]) {
        let key = number.to_be_bytes();
        let transaction = self.transaction(0);
        let (mut key, mut value) = (Value::of(&key), Value::of(record));
        // SAFETY: the transaction is open, and key and value lead to so many bytes.
        unsafe {
            assert_eq!((self.put)(transaction, self.database, &mut key, &mut value, 0), 0);
            assert_eq!((self.commit)(transaction), 0);
        }
    }

    /// Reads a record that is there and has the output's length.
    pub fn read(&mut self, number: u32, output: &mut [u8]) {
        let key = number.to_be_bytes();
        let transaction = self.transaction(Self::READ_ONLY);
        let (mut key, mut value) = (Value::of(&key), Value { size: 0, data: null_mut() });
        // SAFETY: the transaction is open; what was found can be read until it ends.
        unsafe {
            assert_eq!((self.get)(transaction, self.database, &mut key, &mut value), 0);
            output.copy_from_slice(std::slice::from_raw_parts(value.data.cast(), value.size));
            (self.abort)(transaction);
        }
    }
}

impl Drop for Lmdb {
    fn drop(&mut self) {
        // SAFETY: the environment is open and has no open transaction.
        unsafe { (self.close)(self.environment) }
    }
}

// ---- SQLite

type Statement = unsafe extern "C" fn(*mut c_void) -> c_int;
type BindInt = unsafe extern "C" fn(*mut c_void, c_int, c_int) -> c_int;
type BindBlob =
    unsafe extern "C" fn(*mut c_void, c_int, *const c_void, c_int, *const c_void) -> c_int;
type ColumnBlob = unsafe extern "C" fn(*mut c_void, c_int) -> *const c_void;
type ColumnBytes = unsafe extern "C" fn(*mut c_void, c_int) -> c_int;

/// An SQLite database with one table, and its two statements.
pub struct Sqlite {
    database: *mut c_void,
    insert: *mut c_void,
    select: *mut c_void,
    step: Statement,
    reset: Statement,
    bind_int: BindInt,
    bind_blob: BindBlob,
    column_blob: ColumnBlob,
    column_bytes: ColumnBytes,
    finalize: Statement,
    close: Statement,
}

impl Sqlite {
    /// `SQLITE_ROW` and `SQLITE_DONE` of sqlite3.h.
    const ROW: c_int = 100;
    const DONE: c_int = 101;

    /// Opens a new database in a folder, with a write-ahead log.
    pub fn new(library: SharedLibrary, folder: &Folder) -> Sqlite {
        type Open = unsafe extern "C" fn(*const c_char, *mut *mut c_void) -> c_int;
        type Exec = unsafe extern "C" fn(
            *mut c_void,
            *const c_char,
            *const c_void,
            *mut c_void,
            *mut *mut c_char,
        ) -> c_int;
        type Prepare = unsafe extern "C" fn(
            *mut c_void,
            *const c_char,
            c_int,
            *mut *mut c_void,
            *mut *const c_char,
        ) -> c_int;
        const SETUP: &CStr = c"PRAGMA journal_mode = WAL; PRAGMA synchronous = OFF;
            CREATE TABLE node (place INTEGER PRIMARY KEY, payload BLOB NOT NULL);";
        let path = folder.file("store.db");
        // SAFETY: the types are those of sqlite3.h, and each pointer leads to what the call fills or
        // reads.
        unsafe {
            let mut database = null_mut();
            let open = library.function::<Open>(c"sqlite3_open");
            assert_eq!(open(path.as_ptr(), &mut database), 0);
            let exec = library.function::<Exec>(c"sqlite3_exec");
            assert_eq!(exec(database, SETUP.as_ptr(), null(), null_mut(), null_mut()), 0);
            let prepare = library.function::<Prepare>(c"sqlite3_prepare_v2");
            let statement = |text: &CStr| {
                let mut statement = null_mut();
                assert_eq!(prepare(database, text.as_ptr(), -1, &mut statement, null_mut()), 0);
                statement
            };
            Sqlite {
                database,
                insert: statement(c"INSERT OR REPLACE INTO node VALUES (?, ?)"),
                select: statement(c"SELECT payload FROM node WHERE place = ?"),
                step: library.function(c"sqlite3_step"),
                reset: library.function(c"sqlite3_reset"),
                bind_int: library.function(c"sqlite3_bind_int"),
                bind_blob: library.function(c"sqlite3_bind_blob"),
                column_blob: library.function(c"sqlite3_column_blob"),
                column_bytes: library.function(c"sqlite3_column_bytes"),
                finalize: library.function(c"sqlite3_finalize"),
                close: library.function(c"sqlite3_close"),
            }
        }
    }

    /// Writes a record.
    pub fn write(&mut self, number: u32, record: &[u8]) {
        let (data, length) = (record.as_ptr().cast(), record.len() as c_int);
        // SAFETY: the statement is prepared and has two parameters; the record outlives the step, so
        // that no copy is asked for.
        unsafe {
            assert_eq!((self.bind_int)(self.insert, 1, number as c_int), 0);
            assert_eq!((self.bind_blob)(self.insert, 2, data, length, null()), 0);
            assert_eq!((self.step)(self.insert), Self::DONE);
            assert_eq!((self.reset)(self.insert), 0);
        }
    }

    /// Reads a record that is there and has the output's length.
    pub fn read(&mut self, number: u32, output: &mut [u8]) {
        // SAFETY: the statement is prepared and has one parameter; the column can be read until the
        // statement is reset.
        unsafe {
            assert_eq!((self.bind_int)(self.select, 1, number as c_int), 0);
            assert_eq!((self.step)(self.select), Self::ROW);
            let data = (self.column_blob)(self.select, 0).cast();
            let length = (self.column_bytes)(self.select, 0) as usize;
            output.copy_from_slice(std::slice::from_raw_parts(data, length));
            assert_eq!((self.reset)(self.select), 0);
        }
    }
}

impl Drop for Sqlite {
    fn drop(&mut self) {
        // SAFETY: both statements and the database are open.
        unsafe {
            (self.finalize)(self.insert);
            (self.finalize)(self.select);
            (self.close)(self.database);
        }
    }
}
