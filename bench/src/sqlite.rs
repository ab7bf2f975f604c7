//! The same work by SQLite in memory, through its C interface: a table for each manual master with
//! its key as primary key, a table for each detail with foreign keys to them and an index for each
//! path (search item, sort item), and prepared statements. What an automatic master does, an index
//! does. Each batch is one open transaction, rolled back outside the clock.

use crate::bases::{Base, Item, AUTOMATIC, DETAIL};
use crate::cases::{Calls, Case, Rows};
use std::ffi::{c_char, c_int, c_void, CString};
use std::ptr::{null, null_mut};
use std::time::{Duration, Instant};

#[rustfmt::skip]
unsafe extern "C" {
    fn sqlite3_open(name: *const c_char, db: *mut *mut c_void) -> c_int;
    fn sqlite3_close(db: *mut c_void) -> c_int;
    fn sqlite3_exec(
        db: *mut c_void, sql: *const c_char, each: *const c_void, with: *mut c_void,
        why: *mut *mut c_char,
    ) -> c_int;
    fn sqlite3_prepare_v2(
        db: *mut c_void, sql: *const c_char, length: c_int, made: *mut *mut c_void,
        rest: *mut *const c_char,
    ) -> c_int;
    fn sqlite3_finalize(statement: *mut c_void) -> c_int;
    fn sqlite3_bind_int64(statement: *mut c_void, at: c_int, number: i64) -> c_int;
    fn sqlite3_bind_text(
        statement: *mut c_void, at: c_int, text: *const u8, length: c_int, free: *const c_void,
    ) -> c_int;
    fn sqlite3_step(statement: *mut c_void) -> c_int;
    fn sqlite3_reset(statement: *mut c_void) -> c_int;
    fn sqlite3_column_int64(statement: *mut c_void, at: c_int) -> i64;
    fn sqlite3_column_text(statement: *mut c_void, at: c_int) -> *const u8;
    fn sqlite3_column_bytes(statement: *mut c_void, at: c_int) -> c_int;
    fn sqlite3_libversion() -> *const c_char;
}

const OK: c_int = 0;
const CONSTRAINT: c_int = 19;
const ROW: c_int = 100;
const DONE: c_int = 101;

pub fn version() -> String {
    // Sound: SQLite answers a text that lives as long as the program.
    let text = unsafe { std::ffi::CStr::from_ptr(sqlite3_libversion()) };
    text.to_string_lossy().into_owned()
}

/// A column's value.
enum Value {
    Number(i64),
    Text(Vec<u8>),
}

type Row = Vec<Value>;

fn value(item: Item, words: &[u16]) -> Value {
    match (item.kind, words) {
        (3, _) => Value::Text(words.iter().flat_map(|word| word.to_be_bytes()).collect()),
        (1, [word]) => Value::Number((*word as i16).into()),
        (1, [high, low]) => Value::Number((i32::from(*high as i16) << 16 | i32::from(*low)).into()),
        _ => Value::Number(words.iter().fold(0, |number, &word| number << 16 | i64::from(word))),
    }
}

/// An entry's items as a row.
fn row(base: &Base, set: u16, mut entry: &[u16]) -> Row {
    let mut row = Vec::new();
    for &number in &base.set(set).items {
        let item = base.item(number);
        let (words, rest) = entry.split_at(item.length.into());
        row.push(value(item, words));
        entry = rest;
    }
    row
}

fn rows(base: &Base, set: u16, entries: &Rows) -> Vec<Row> {
    entries.iter().map(|entry| row(base, set, entry)).collect()
}

fn column(base: &Base, item: u16) -> String {
    let kind = if base.item(item).kind == 3 { "TEXT" } else { "INTEGER" };
    format!("i{item} {kind} NOT NULL")
}

fn columns(base: &Base, set: u16) -> String {
    let names: Vec<String> = base.set(set).items.iter().map(|item| format!("i{item}")).collect();
    names.join(", ")
}

fn insert(base: &Base, set: u16) -> String {
    let marks = vec!["?"; base.set(set).items.len()].join(", ");
    format!("INSERT INTO s{set} ({}) VALUES ({marks})", columns(base, set))
}

fn update(base: &Base, set: u16) -> String {
    let others = changeable(base, set).map(|(_, item)| format!("i{item} = ?"));
    format!("UPDATE s{set} SET {} WHERE id = ?", others.collect::<Vec<_>>().join(", "))
}

/// The tables and indexes.
fn schema(base: &Base) -> String {
    let mut sql = String::from("PRAGMA foreign_keys = ON;");
    for (set, number) in base.sets.iter().zip(1..) {
        let mut parts: Vec<String> = set.items.iter().map(|&item| column(base, item)).collect();
        match set.kind {
            AUTOMATIC => continue,
            DETAIL => parts.insert(0, "id INTEGER PRIMARY KEY".into()),
            _ => parts.push(format!("PRIMARY KEY (i{})", set.key)),
        }
        let manual = set.paths.iter().filter(|path| base.set(path[0]).kind != AUTOMATIC);
        parts.extend(manual.map(|[master, search, _]| {
            let key = base.set(*master).key;
            format!("FOREIGN KEY (i{search}) REFERENCES s{master} (i{key})")
        }));
        sql += &format!("CREATE TABLE s{number} ({});", parts.join(", "));
        for (path, [_, search, sort]) in set.paths.iter().enumerate() {
            let sort = if *sort == 0 { String::new() } else { format!(", i{sort}") };
            sql += &format!("CREATE INDEX p{number}_{path} ON s{number} (i{search}{sort});");
        }
    }
    sql
}

/// A database in memory.
struct Store(*mut c_void);

/// A prepared statement.
struct Statement(*mut c_void);

impl Store {
    fn open() -> Store {
        let mut db = null_mut();
        // Sound, here and below: the texts end with 0 and live until the call is over; a store
        // and its statements are closed once, when they are dropped.
        assert_eq!(unsafe { sqlite3_open(c":memory:".as_ptr(), &mut db) }, OK);
        Store(db)
    }

    fn do_all(&self, sql: &str) {
        let text = CString::new(sql).expect("no zeros in SQL");
        let done = unsafe { sqlite3_exec(self.0, text.as_ptr(), null(), null_mut(), null_mut()) };
        assert_eq!(done, OK, "SQLite refuses {sql}");
    }

    fn prepare(&self, sql: &str) -> Statement {
        let text = CString::new(sql).expect("no zeros in SQL");
        let mut made = null_mut();
        let done = unsafe { sqlite3_prepare_v2(self.0, text.as_ptr(), -1, &mut made, null_mut()) };
        assert_eq!(done, OK, "SQLite refuses {sql}");
        Statement(made)
    }
}

impl Drop for Store {
    fn drop(&mut self) {
        assert_eq!(unsafe { sqlite3_close(self.0) }, OK);
    }
}

impl Drop for Statement {
    fn drop(&mut self) {
        // What it answers is how the last step went, and that was looked at.
        unsafe { sqlite3_finalize(self.0) };
    }
}

impl Statement {
    fn bind(&self, row: &[Value]) {
        for (at, value) in (1..).zip(row) {
            // Sound: a text outlives the step that reads it, and is bound anew before the next.
            unsafe {
                match value {
                    Value::Number(number) => sqlite3_bind_int64(self.0, at, *number),
                    Value::Text(text) => {
                        sqlite3_bind_text(self.0, at, text.as_ptr(), text.len() as c_int, null())
                    }
                };
            }
        }
    }

    fn step(&self) -> c_int {
        unsafe { sqlite3_step(self.0) }
    }

    fn reset(&self) {
        unsafe { sqlite3_reset(self.0) };
    }

    /// A row's columns in a caller's memory, as the engine hands an entry over.
    fn read(&self, base: &Base, set: u16, into: &mut Vec<u8>) {
        into.clear();
        for (at, &item) in (0..).zip(&base.set(set).items) {
            // Sound: a column's text lives until the next step, and is copied before it.
            unsafe {
                if base.item(item).kind == 3 {
                    let text = sqlite3_column_text(self.0, at);
                    let length = sqlite3_column_bytes(self.0, at) as usize;
                    into.extend_from_slice(std::slice::from_raw_parts(text, length));
                } else {
                    into.extend_from_slice(&sqlite3_column_int64(self.0, at).to_le_bytes());
                }
            }
        }
    }
}

/// What `read` gives for an entry.
fn bytes(row: &Row) -> Vec<u8> {
    let parts = row.iter().map(|value| match value {
        Value::Number(number) => number.to_le_bytes().to_vec(),
        Value::Text(text) => text.clone(),
    });
    parts.collect::<Vec<_>>().concat()
}

/// The calls of a case as a statement and what is bound to it.
enum Batch {
    Make(usize),
    /// One row expected for each; `set` if its columns are read.
    Select {
        wanted: Vec<Row>,
        set: Option<u16>,
    },
    Chain {
        wanted: Row,
        lines: usize,
        set: u16,
    },
    /// The code that each step must answer.
    Change {
        rows: Vec<Row>,
        code: c_int,
    },
}

pub struct Stand<'c> {
    case: &'c Case,
    batch: Batch,
    // Before the store, so that it is dropped first.
    statement: Option<Statement>,
    store: Store,
    buffer: Vec<u8>,
}

/// The items that an update may change, with their places in a row: no search or sort items.
fn changeable(base: &Base, set: u16) -> impl Iterator<Item = (usize, u16)> + '_ {
    let paths = &base.set(set).paths;
    let fixed = |item: u16| paths.iter().any(|path| path[1..].contains(&item));
    let items = base.set(set).items.iter().copied().enumerate();
    items.filter(move |&(_, item)| !fixed(item))
}

/// What is bound to an update: those items of the entry, and the line.
fn updated(base: &Base, set: u16, entry: &[u16], record: u32) -> Row {
    let mut all: Vec<Option<Value>> = row(base, set, entry).into_iter().map(Some).collect();
    let mut bound: Row = changeable(base, set).filter_map(|(at, _)| all[at].take()).collect();
    bound.push(Value::Number(record.into()));
    bound
}

/// A chain in its order: these columns of the lines with a value of a search item.
fn chain(base: &Base, set: u16, item: u16, columns: &str) -> String {
    let sort = base.set(set).paths[0][2];
    format!("SELECT {columns} FROM s{set} WHERE i{item} = ? ORDER BY i{sort}, id")
}

/// The statement for a case's calls, and the values bound to it. `None`: SQLite has nothing like
/// it (a set that is not there is no prepared statement).
fn plan(case: &Case, store: &Store) -> Option<(Batch, Option<Statement>)> {
    let base = &case.base;
    let key = |item: u16, words: &[u16]| vec![value(base.item(item), words)];
    let keys = |item: u16, values: &Rows| values.iter().map(|words| key(item, words)).collect();
    let (batch, sql) = match &case.calls {
        Calls::Make(times) => return Some((Batch::Make(*times), None)),
        Calls::Put { set, .. } if usize::from(*set) > base.sets.len() => return None,
        Calls::Put { set, entries } => {
            let code = if case.condition == 0 { DONE } else { CONSTRAINT };
            (Batch::Change { rows: rows(base, *set, entries), code }, insert(base, *set))
        }
        Calls::Find { set, item, values } => {
            let sql = chain(base, *set, *item, "id") + " LIMIT 1";
            (Batch::Select { wanted: keys(*item, values), set: None }, sql)
        }
        Calls::Key { set, values } => {
            let item = base.set(*set).key;
            let sql = format!("SELECT {} FROM s{set} WHERE i{item} = ?", columns(base, *set));
            (Batch::Select { wanted: keys(item, values), set: Some(*set) }, sql)
        }
        Calls::Chain { set, item, value, lines } => {
            let sql = chain(base, *set, *item, &columns(base, *set));
            (Batch::Chain { wanted: key(*item, value), lines: *lines, set: *set }, sql)
        }
        Calls::Update { set, record, entries } => {
            let rows = entries.iter().map(|entry| updated(base, *set, entry, *record)).collect();
            (Batch::Change { rows, code: DONE }, update(base, *set))
        }
        Calls::Delete { set, records } => {
            let rows = records.iter().map(|&id| vec![Value::Number(id.into())]).collect();
            (Batch::Change { rows, code: DONE }, format!("DELETE FROM s{set} WHERE id = ?"))
        }
    };
    Some((batch, Some(store.prepare(&sql))))
}

impl<'c> Stand<'c> {
    pub fn new(case: &'c Case) -> Option<Stand<'c>> {
        let (base, store) = (&case.base, Store::open());
        store.do_all(&schema(base));
        let (batch, statement) = plan(case, &store)?;
        store.do_all("BEGIN");
        let inserts: Vec<Option<Statement>> = (1..=base.sets.len() as u16)
            .map(|set| (base.set(set).kind != AUTOMATIC).then(|| store.prepare(&insert(base, set))))
            .collect();
        for (set, entry) in &case.before {
            let insert = inserts[usize::from(*set) - 1].as_ref().expect("no automatic master");
            let row = row(base, *set, entry);
            insert.bind(&row);
            assert_eq!(insert.step(), DONE);
            insert.reset();
        }
        store.do_all("COMMIT");
        Some(Stand { case, batch, statement, store, buffer: Vec::new() })
    }

    /// Holds the rows of a reading batch against the entries that the engine handed over.
    pub fn check(&mut self, entries: &[&[u16]]) {
        let set = match &self.batch {
            Batch::Chain { set, .. } | Batch::Select { set: Some(set), .. } => *set,
            _ => return,
        };
        let mut read = Vec::new();
        self.work(|buffer| read.push(buffer.to_vec()));
        let known = entries.iter().map(|entry| bytes(&row(&self.case.base, set, entry)));
        assert!(known.eq(read), "{}: SQLite reads other entries", self.case.name);
    }

    /// The calls of a batch; `seen` looks at each entry that is read.
    fn work(&mut self, mut seen: impl FnMut(&[u8])) {
        let (base, buffer) = (&self.case.base, &mut self.buffer);
        let prepared = self.statement.as_ref();
        match (&self.batch, prepared) {
            (Batch::Select { wanted, set }, Some(select)) => {
                for wanted in wanted {
                    select.bind(wanted);
                    assert_eq!(select.step(), ROW);
                    if let Some(set) = set {
                        select.read(base, *set, buffer);
                        seen(buffer);
                    }
                    select.reset();
                }
            }
            (Batch::Chain { wanted, lines, set }, Some(select)) => {
                select.bind(wanted);
                for _ in 0..*lines {
                    assert_eq!(select.step(), ROW);
                    select.read(base, *set, buffer);
                    seen(buffer);
                }
                select.reset();
            }
            (Batch::Change { rows, code }, Some(change)) => {
                for row in rows {
                    change.bind(row);
                    assert_eq!(change.step(), *code);
                    change.reset();
                }
            }
            _ => {}
        }
    }

    fn batch(&mut self) -> Duration {
        if let Batch::Make(times) = self.batch {
            let schema = schema(&self.case.base);
            let start = Instant::now();
            (0..times).for_each(|_| Store::open().do_all(&schema));
            return start.elapsed();
        }
        self.store.do_all("BEGIN");
        let start = Instant::now();
        self.work(|_| {});
        let time = start.elapsed();
        self.store.do_all("ROLLBACK");
        time
    }

    /// Batches until this much time is measured; nanoseconds a call.
    pub fn run(&mut self, least: Duration) -> f64 {
        let (mut time, mut calls) = (Duration::ZERO, 0);
        while time < least {
            time += self.batch();
            calls += self.case.calls.count();
        }
        time.as_secs_f64() * 1e9 / calls as f64
    }
}
