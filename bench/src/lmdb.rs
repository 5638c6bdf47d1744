//! LMDB as a user would set it up for speed: integer keys, no sync, write map, its file in memory. An update is one
//! write transaction; a range is a cursor in a read transaction opened at its start.
use bench::measure::Register;
use std::ffi::{c_char, c_int, c_uint, c_void, CString};
use std::ptr::{null, null_mut};

#[repr(C)]
struct Val {
    size: usize,
    data: *mut c_void,
}

extern "C" {
    fn mdb_env_create(env: *mut *mut c_void) -> c_int;
    fn mdb_env_set_mapsize(env: *mut c_void, size: usize) -> c_int;
    fn mdb_env_open(env: *mut c_void, path: *const c_char, flags: c_uint, mode: c_uint) -> c_int;
    fn mdb_env_close(env: *mut c_void);
    fn mdb_txn_begin(env: *mut c_void, parent: *mut c_void, flags: c_uint, txn: *mut *mut c_void) -> c_int;
    fn mdb_txn_commit(txn: *mut c_void) -> c_int;
    fn mdb_txn_abort(txn: *mut c_void);
    fn mdb_dbi_open(txn: *mut c_void, name: *const c_char, flags: c_uint, dbi: *mut c_uint) -> c_int;
    fn mdb_drop(txn: *mut c_void, dbi: c_uint, del: c_int) -> c_int;
    fn mdb_put(txn: *mut c_void, dbi: c_uint, key: *mut Val, data: *mut Val, flags: c_uint) -> c_int;
    fn mdb_del(txn: *mut c_void, dbi: c_uint, key: *mut Val, data: *mut Val) -> c_int;
    fn mdb_cursor_open(txn: *mut c_void, dbi: c_uint, cursor: *mut *mut c_void) -> c_int;
    fn mdb_cursor_close(cursor: *mut c_void);
    fn mdb_cursor_get(cursor: *mut c_void, key: *mut Val, data: *mut Val, op: c_int) -> c_int;
}

const NO_SUBDIR: c_uint = 0x4000;
const NO_SYNC: c_uint = 0x10000;
const READ_ONLY: c_uint = 0x20000;
const WRITE_MAP: c_uint = 0x80000;
const NO_TLS: c_uint = 0x200000;
const INTEGER_KEY: c_uint = 0x08;
const NO_OVERWRITE: c_uint = 0x10;
const NEXT: c_int = 8;

pub struct Lmdb {
    env: *mut c_void,
    dbi: c_uint,
    read: *mut c_void,
    cursor: *mut c_void,
    file: String,
}

fn ok(code: c_int) {
    assert_eq!(code, 0, "LMDB answers an error");
}

fn of(word: &mut u32) -> Val {
    Val { size: 4, data: (word as *mut u32).cast() }
}

impl Default for Lmdb {
    fn default() -> Self {
        let file = format!("/dev/shm/ravencrumb-bench-{}.mdb", std::process::id());
        let path = CString::new(file.clone()).expect("a path");
        let (mut env, mut txn, mut dbi) = (null_mut(), null_mut(), 0);
        // SAFETY: LMDB's calls in its own order, on pointers that it gave.
        unsafe {
            ok(mdb_env_create(&mut env));
            ok(mdb_env_set_mapsize(env, 64 << 20));
            ok(mdb_env_open(env, path.as_ptr(), NO_SUBDIR | NO_SYNC | WRITE_MAP | NO_TLS, 0o600));
            ok(mdb_txn_begin(env, null_mut(), 0, &mut txn));
            ok(mdb_dbi_open(txn, null(), INTEGER_KEY, &mut dbi));
            ok(mdb_txn_commit(txn));
        }
        Lmdb { env, dbi, read: null_mut(), cursor: null_mut(), file }
    }
}

impl Drop for Lmdb {
    fn drop(&mut self) {
        // SAFETY: the environment is open, and nothing of it is used afterwards.
        unsafe { mdb_env_close(self.env) };
        let _ = std::fs::remove_file(&self.file);
        let _ = std::fs::remove_file(format!("{}-lock", self.file));
    }
}

impl Lmdb {
    fn write(&mut self, f: impl FnOnce(*mut c_void, c_uint) -> c_int) -> bool {
        let mut txn = null_mut();
        // SAFETY: one write transaction, begun and committed here.
        unsafe {
            ok(mdb_txn_begin(self.env, null_mut(), 0, &mut txn));
            let done = f(txn, self.dbi) == 0;
            ok(mdb_txn_commit(txn));
            done
        }
    }
}

impl Register for Lmdb {
    fn fresh(&mut self) {
        // SAFETY: the content goes, the handle stays.
        assert!(self.write(|txn, dbi| unsafe { mdb_drop(txn, dbi, 0) }));
    }

    fn insert(&mut self, mut key: u32, mut value: u32) -> bool {
        // SAFETY: both words live as long as the call.
        self.write(|txn, dbi| unsafe { mdb_put(txn, dbi, &mut of(&mut key), &mut of(&mut value), NO_OVERWRITE) })
    }

    fn remove(&mut self, mut key: u32) -> bool {
        // SAFETY: as above.
        self.write(|txn, dbi| unsafe { mdb_del(txn, dbi, &mut of(&mut key), null_mut()) })
    }

    fn open(&mut self) {
        // SAFETY: closed in `close`.
        unsafe {
            ok(mdb_txn_begin(self.env, null_mut(), READ_ONLY, &mut self.read));
            ok(mdb_cursor_open(self.read, self.dbi, &mut self.cursor));
        }
    }

    fn hand(&mut self, keys: usize, out: &mut Vec<(u32, u32)>) {
        let (mut key, mut data) = (Val { size: 0, data: null_mut() }, Val { size: 0, data: null_mut() });
        for _ in 0..keys {
            // SAFETY: the first `NEXT` of a new cursor is the first key; what it gives points at four bytes each.
            unsafe {
                ok(mdb_cursor_get(self.cursor, &mut key, &mut data, NEXT));
                out.push((key.data.cast::<u32>().read_unaligned(), data.data.cast::<u32>().read_unaligned()));
            }
        }
    }

    fn close(&mut self) -> bool {
        let (mut key, mut data) = (Val { size: 0, data: null_mut() }, Val { size: 0, data: null_mut() });
        // SAFETY: opened in `open`.
        unsafe {
            let more = mdb_cursor_get(self.cursor, &mut key, &mut data, NEXT);
            mdb_cursor_close(self.cursor);
            mdb_txn_abort(self.read);
            more != 0
        }
    }
}
