//! The same as caller.c, in Rust.
use std::ffi::{CString, c_char, c_void};

#[repr(C)]
#[derive(Default)]
struct Found {
    is_there: bool,
    len: usize,
}

#[repr(C)]
#[derive(Default)]
struct Page {
    count: usize,
    len: usize,
}

type At = *mut c_void;

#[link(name = "fjall", kind = "static")]
extern "C" {
    fn fjall_open(path: *const c_char, database: *mut At) -> i32;
    fn fjall_keyspace(d: At, name: *const u8, len: usize, id: *mut u64) -> i32;
    fn fjall_insert(d: At, id: u64, key: *const u8, key_len: usize, value: *const u8, value_len: usize) -> i32;
    fn fjall_remove(d: At, id: u64, key: *const u8, key_len: usize) -> i32;
    fn fjall_get(d: At, id: u64, key: *const u8, key_len: usize, room: *mut u8, room_len: usize, found: *mut Found) -> i32;
    fn fjall_page(
        d: At, id: u64, start_bound: u8, start: *const u8, start_len: usize, end_bound: u8, end: *const u8, end_len: usize,
        back: bool, max: usize, room: *mut u8, room_len: usize, page: *mut Page,
    ) -> i32;
    fn fjall_snapshot(d: At, snapshot: *mut u64) -> i32;
    fn fjall_snapshot_close(d: At, snapshot: u64) -> i32;
    fn fjall_get_at(d: At, snapshot: u64, id: u64, key: *const u8, key_len: usize, room: *mut u8, room_len: usize, found: *mut Found) -> i32;
    fn fjall_page_at(
        d: At, snapshot: u64, id: u64, start_bound: u8, start: *const u8, start_len: usize, end_bound: u8, end: *const u8, end_len: usize,
        back: bool, max: usize, room: *mut u8, room_len: usize, page: *mut Page,
    ) -> i32;
    fn fjall_begin(d: At, tx: *mut u64) -> i32;
    fn fjall_tx_insert(d: At, tx: u64, id: u64, key: *const u8, key_len: usize, value: *const u8, value_len: usize) -> i32;
    fn fjall_tx_remove(d: At, tx: u64, id: u64, key: *const u8, key_len: usize) -> i32;
    fn fjall_tx_get(d: At, tx: u64, id: u64, key: *const u8, key_len: usize, room: *mut u8, room_len: usize, found: *mut Found) -> i32;
    fn fjall_tx_page(
        d: At, tx: u64, id: u64, start_bound: u8, start: *const u8, start_len: usize, end_bound: u8, end: *const u8, end_len: usize,
        back: bool, max: usize, room: *mut u8, room_len: usize, page: *mut Page,
    ) -> i32;
    fn fjall_commit(d: At, tx: u64) -> i32;
    fn fjall_rollback(d: At, tx: u64) -> i32;
    fn fjall_batch_insert(d: At, id: u64, key: *const u8, key_len: usize, value: *const u8, value_len: usize) -> i32;
    fn fjall_batch_remove(d: At, id: u64, key: *const u8, key_len: usize) -> i32;
    fn fjall_batch_commit(d: At, mode: u8) -> i32;
    fn fjall_batch_clear(d: At);
    fn fjall_persist(d: At, mode: u8) -> i32;
    fn fjall_flush(d: At, id: u64) -> i32;
    fn fjall_close(d: At) -> i32;
    fn fjall_error_name(number: i32, room: *mut u8, room_len: usize) -> usize;
}

const UNBOUNDED: u8 = 0;
const INCLUDED: u8 = 1;
const EXCLUDED: u8 = 2;
const CONFLICT: i32 = -1;

fn refusal(number: i32) -> String {
    let mut room = [0u8; 32];
    let len = unsafe { fjall_error_name(number, room.as_mut_ptr(), room.len()) };
    String::from_utf8_lossy(&room[..len]).into_owned()
}

fn told(what: &str, answer: i32) {
    println!("{what}: {}", if answer == 0 { "ok".to_owned() } else { refusal(answer) });
}

fn value(key: &str, answer: i32, found: Found, room: &[u8]) {
    if answer != 0 {
        told("get", answer);
    } else if !found.is_there {
        println!("{key} has none");
    } else {
        let value = if found.len <= room.len() { String::from_utf8_lossy(&room[..found.len]) } else { "".into() };
        println!("{key} has {} bytes: {value}", found.len);
    }
}

fn pairs(answer: i32, page: Page, room: &[u8]) {
    if answer != 0 {
        told("page", answer);
        return;
    }
    print!("page of {} in {} bytes:", page.count, page.len);
    let mut rest = &room[..page.len];
    for _ in 0..page.count {
        let number = |at: usize| u64::from_le_bytes(rest[at..at + 8].try_into().unwrap()) as usize;
        let (key, value) = (number(0), number(8));
        let pair = &rest[16..16 + key + value];
        print!(" {}={}", String::from_utf8_lossy(&pair[..key]), String::from_utf8_lossy(&pair[key..]));
        rest = &rest[16 + key + value..];
    }
    println!();
}

/// A database, which is closed by hand, since a closing may be refused.
struct Database(At);

impl Database {
    fn open(folder: &str) -> Result<Database, i32> {
        let path = CString::new(folder).unwrap();
        let mut at: At = std::ptr::null_mut();
        match unsafe { fjall_open(path.as_ptr(), &mut at) } {
            0 => Ok(Database(at)),
            error => Err(error),
        }
    }

    fn keyspace(&mut self, name: &str) -> Result<u64, i32> {
        let mut id = 0;
        match unsafe { fjall_keyspace(self.0, name.as_ptr(), name.len(), &mut id) } {
            0 => Ok(id),
            error => Err(error),
        }
    }

    fn insert(&mut self, id: u64, key: &str, value: &str) -> i32 {
        unsafe { fjall_insert(self.0, id, key.as_ptr(), key.len(), value.as_ptr(), value.len()) }
    }

    fn remove(&mut self, id: u64, key: &str) -> i32 {
        unsafe { fjall_remove(self.0, id, key.as_ptr(), key.len()) }
    }

    fn batch_insert(&mut self, id: u64, key: &str, value: &str) -> i32 {
        unsafe { fjall_batch_insert(self.0, id, key.as_ptr(), key.len(), value.as_ptr(), value.len()) }
    }

    fn get(&mut self, id: u64, key: &str, most: usize) {
        let mut room = vec![0u8; most];
        let mut found = Found::default();
        let answer = unsafe { fjall_get(self.0, id, key.as_ptr(), key.len(), room.as_mut_ptr(), most, &mut found) };
        value(key, answer, found, &room);
    }

    fn get_at(&mut self, snapshot: u64, id: u64, key: &str) {
        let mut room = [0u8; 64];
        let mut found = Found::default();
        let answer = unsafe { fjall_get_at(self.0, snapshot, id, key.as_ptr(), key.len(), room.as_mut_ptr(), room.len(), &mut found) };
        value(key, answer, found, &room);
    }

    fn begin(&mut self) -> u64 {
        let mut tx = 0;
        told("begin", unsafe { fjall_begin(self.0, &mut tx) });
        tx
    }

    fn tx_insert(&mut self, tx: u64, id: u64, key: &str, value: &str) {
        told("tx insert", unsafe { fjall_tx_insert(self.0, tx, id, key.as_ptr(), key.len(), value.as_ptr(), value.len()) });
    }

    fn tx_get(&mut self, tx: u64, id: u64, key: &str) {
        let mut room = [0u8; 64];
        let mut found = Found::default();
        let answer = unsafe { fjall_tx_get(self.0, tx, id, key.as_ptr(), key.len(), room.as_mut_ptr(), room.len(), &mut found) };
        value(key, answer, found, &room);
    }

    fn views(&mut self, id: u64) {
        let (mut room, mut page, mut snapshot) = ([0u8; 256], Page::default(), 0);
        told("snapshot", unsafe { fjall_snapshot(self.0, &mut snapshot) });
        told("plum insert", self.insert(id, "plum", "red"));
        self.get(id, "plum", 64);
        self.get_at(snapshot, id, "plum");
        let (none, end) = (std::ptr::null(), "sloe".as_ptr());
        let answer = unsafe { fjall_page_at(self.0, snapshot, id, UNBOUNDED, none, 0, EXCLUDED, end, 4, true, 10, room.as_mut_ptr(), 256, &mut page) };
        pairs(answer, page, &room);
        told("snapshot close", unsafe { fjall_snapshot_close(self.0, snapshot) });
        told("snapshot close", unsafe { fjall_snapshot_close(self.0, snapshot) });
        self.get_at(snapshot, id, "plum");
    }

    fn transactions(&mut self, id: u64) {
        let (mut room, mut page) = ([0u8; 256], Page::default());
        let (one, two) = (self.begin(), self.begin());
        self.tx_insert(one, id, "plum", "green");
        self.tx_insert(one, id, "", "green");
        told("tx remove", unsafe { fjall_tx_remove(self.0, one, id, "sloe".as_ptr(), 4) });
        self.tx_get(one, id, "plum");
        self.tx_get(two, id, "plum");
        let none = std::ptr::null();
        let answer = unsafe { fjall_tx_page(self.0, one, id, UNBOUNDED, none, 0, UNBOUNDED, none, 0, false, 10, room.as_mut_ptr(), 256, &mut page) };
        pairs(answer, page, &room);
        self.tx_insert(two, id, "sloe", "white");
        told("commit", unsafe { fjall_commit(self.0, one) });
        println!("conflict: {}", u8::from(unsafe { fjall_commit(self.0, two) } == CONFLICT));
        told("commit", unsafe { fjall_commit(self.0, two) });
        let two = self.begin();
        self.tx_insert(two, id, "plum", "white");
        told("rollback", unsafe { fjall_rollback(self.0, two) });
        self.tx_get(two, id, "plum");
        self.get(id, "plum", 64);
        self.get(id, "sloe", 64);
    }

    fn page(&mut self, id: u64, start_bound: u8, start: &str, back: bool, max: usize, size: usize) {
        let mut room = vec![0u8; size];
        let mut page = Page::default();
        let answer = unsafe {
            fjall_page(
                self.0, id, start_bound, start.as_ptr(), start.len(), UNBOUNDED, std::ptr::null(), 0, back, max, room.as_mut_ptr(), size,
                &mut page,
            )
        };
        pairs(answer, page, &room);
    }

    fn pages(&mut self, id: u64) {
        self.page(id, UNBOUNDED, "", false, 10, 256);
        self.page(id, UNBOUNDED, "", false, 10, 50);
        self.page(id, EXCLUDED, "fig", false, 1, 256);
        self.page(id, INCLUDED, "fig", true, 2, 256);
        self.page(id, UNBOUNDED, "", false, 10, 8);
    }
}

fn main() {
    let folder = std::env::args().nth(1).unwrap();
    let mut d = Database::open(&folder).unwrap();
    told("open", 0);
    told("open again", Database::open(&folder).err().unwrap_or(0));
    let (items, more) = (d.keyspace("items").unwrap(), d.keyspace("more").unwrap());
    told("keyspace", 0);
    told("keyspace", 0);
    told("no name", d.keyspace("").err().unwrap_or(0));
    println!("ids {items} {more}");
    for (id, key, value) in [(items, "pear", "green"), (items, "apple", "red"), (items, "plum", ""), (items, "", "nothing"), (99, "apple", "red")] {
        told(&format!("{key} insert"), d.insert(id, key, value));
    }
    d.get(items, "apple", 64);
    d.get(items, "plum", 0);
    d.get(items, "pear", 4);
    d.get(items, "fig", 64);
    d.get(99, "fig", 64);
    told("batch", d.batch_insert(items, "fig", "purple"));
    told("batch", unsafe { fjall_batch_remove(d.0, items, "pear".as_ptr(), 4) });
    told("batch", d.batch_insert(more, "one", "1"));
    told("commit", unsafe { fjall_batch_commit(d.0, 2) });
    told("batch", d.batch_insert(items, "fig", "brown"));
    unsafe { fjall_batch_clear(d.0) };
    told("commit", unsafe { fjall_batch_commit(d.0, 255) });
    told("batch", d.batch_insert(items, "lime", "green"));
    told("batch", d.batch_insert(99, "lime", "green"));
    told("commit", unsafe { fjall_batch_commit(d.0, 0) });
    d.pages(items);
    told("remove", d.remove(items, "apple"));
    told("persist", unsafe { fjall_persist(d.0, 1) });
    told("persist", unsafe { fjall_persist(d.0, 7) });
    told("flush", unsafe { fjall_flush(d.0, items) });
    d.pages(items);
    let kept = d.keyspace("kept").unwrap();
    told("keyspace", 0);
    told("plum insert", d.insert(kept, "plum", "blue"));
    told("sloe insert", d.insert(kept, "sloe", "black"));
    d.views(kept);
    d.transactions(kept);
    told("close", unsafe { fjall_close(d.0) });
    let mut d = Database::open(&folder).unwrap();
    told("open", 0);
    let again = d.keyspace("items").unwrap();
    told("keyspace", 0);
    println!("the same id: {}", u8::from(again == items));
    d.get(items, "fig", 64);
    d.pages(items);
    told("last insert", d.insert(items, "last", "one"));
    told("close", unsafe { fjall_close(d.0) });
}
