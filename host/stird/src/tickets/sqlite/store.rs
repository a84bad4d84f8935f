//! The file of tickets, as SQLite keeps it. Nothing here knows of calls that wait.
use crate::tickets::stretches::Stretches;
use crate::tickets::{Passed, Ticket, TicketsError};
use rusqlite::{params, Connection, ErrorCode, OpenFlags};
use std::fs;
use std::io;
use std::os::unix::fs::MetadataExt;
use std::path::{Path, PathBuf};
use std::time::Duration;

/// What tells a file of tickets from other files of SQLite ("STIR").
const APPLICATION: i64 = 0x5354_4952;

/// A ticket is a row of `tickets`. Its key begins with its last second, so that those which are
/// claimed together, and those which are forgotten together, lie side by side. Numbers past 2^63
/// are held as negative ones.
const TABLES: &str = "
    CREATE TABLE IF NOT EXISTS tickets (
        last INTEGER NOT NULL, turn INTEGER NOT NULL, ticket BLOB NOT NULL,
        number INTEGER NOT NULL, life INTEGER NOT NULL, PRIMARY KEY (last, turn)
    ) WITHOUT ROWID;
    CREATE TABLE IF NOT EXISTS forgotten (first INTEGER PRIMARY KEY, last INTEGER NOT NULL);
    CREATE TABLE IF NOT EXISTS facts (name TEXT PRIMARY KEY, value INTEGER NOT NULL) WITHOUT ROWID;
    PRAGMA application_id = 1398032722;
    PRAGMA user_version = 1;
";

/// A ticket in the file.
#[derive(Clone, Copy, Debug, PartialEq, Eq)]
pub struct Row {
    pub ticket: Ticket,
    pub passed: Passed,
    /// How many seconds it is to be kept at least from now on.
    pub life: u64,
    /// What tells it from others of its last second.
    pub turn: u64,
}

/// What a file holds beside its rows.
#[derive(Debug, Default)]
pub struct Content {
    pub forgotten: Stretches,
    /// The greatest number of a call.
    pub greatest: u64,
    /// The first turn that no row has.
    pub turn: u64,
}

/// What a transaction changes.
#[derive(Default)]
pub struct Change<'a> {
    /// The rows that are new.
    pub rows: &'a [Row],
    /// The seconds whose rows go.
    pub gone: &'a [u64],
    /// All that was forgotten, if that changed.
    pub forgotten: Option<&'a Stretches>,
    /// The greatest number of a call. It is written with what was forgotten, since it may be that
    /// of a row that goes.
    pub greatest: u64,
}

/// A file by what it is, and not by its name.
type Identity = (u64, u64);

pub struct Store {
    connection: Connection,
    path: PathBuf,
    file: Option<Identity>,
    log: Option<Identity>,
}

impl Store {
    /// Opens the file, or makes it, and writes to it. One service at a time has it. If `sync`, what
    /// is written is on the disk when that is said; else it is with the system.
    pub fn open(path: &Path, sync: bool) -> Result<Store, TicketsError> {
        let fault = |source| fault(path, source);
        let flags = OpenFlags::SQLITE_OPEN_READ_WRITE
            | OpenFlags::SQLITE_OPEN_CREATE
            | OpenFlags::SQLITE_OPEN_NO_MUTEX;
        // A name that SQLite might take for something else is none with its folder before it.
        let whole = std::path::absolute(path)
            .map_err(|source| TicketsError::File { path: path.into(), source })?;
        let connection = Connection::open_with_flags(whole, flags).map_err(fault)?;
        connection.busy_timeout(Duration::ZERO).map_err(fault)?;
        connection.pragma_update(None, "locking_mode", "EXCLUSIVE").map_err(fault)?;
        let told: i64 =
            connection.pragma_query_value(None, "application_id", get).map_err(fault)?;
        let made: i64 =
            connection.query_row("SELECT count(*) FROM sqlite_master", [], get).map_err(fault)?;
        if told != APPLICATION && (told, made) != (0, 0) {
            return Err(TicketsError::Foreign { path: path.into() });
        }
        let mode: String =
            connection.pragma_update_and_check(None, "journal_mode", "WAL", get).map_err(fault)?;
        if mode != "wal" {
            let source = io::Error::other("SQLite can't write ahead here");
            return Err(TicketsError::File { path: path.into(), source });
        }
        let level = if sync { "FULL" } else { "NORMAL" };
        connection.pragma_update(None, "synchronous", level).map_err(fault)?;
        let mut store = Store { connection, path: path.into(), file: None, log: None };
        store.mark().map_err(fault)?;
        (store.file, store.log) = (identity(path), identity(&log_of(path)));
        Ok(store)
    }

    /// Writes something, so that it is known whether that can be.
    pub fn probe(&mut self) -> Result<(), TicketsError> {
        self.mark().map_err(|source| fault(&self.path, source))?;
        self.in_place()
    }

    fn mark(&mut self) -> rusqlite::Result<()> {
        let transaction = self.connection.transaction()?;
        transaction.execute_batch(TABLES)?;
        transaction.execute(
            "INSERT INTO facts VALUES ('probes', 1)
             ON CONFLICT (name) DO UPDATE SET value = value + 1",
            [],
        )?;
        transaction.commit()
    }

    /// All that the file holds. The rows are handed out one by one.
    pub fn content(&self, each: impl FnMut(Row)) -> Result<Content, TicketsError> {
        self.read(each).map_err(|source| fault(&self.path, source))
    }

    fn read(&self, mut each: impl FnMut(Row)) -> rusqlite::Result<Content> {
        let mut content = Content::default();
        let mut all =
            self.connection.prepare("SELECT last, turn, ticket, number, life FROM tickets")?;
        let mut rows = all.query([])?;
        while let Some(row) = rows.next()? {
            let passed = Passed { last: number(row, 0)?, number: number(row, 3)? };
            let row =
                Row { ticket: row.get(2)?, passed, life: number(row, 4)?, turn: number(row, 1)? };
            content.greatest = content.greatest.max(passed.number);
            content.turn = content.turn.max(row.turn.wrapping_add(1));
            each(row);
        }
        let mut all = self.connection.prepare("SELECT first, last FROM forgotten")?;
        let mut rows = all.query([])?;
        while let Some(row) = rows.next()? {
            content.forgotten.add_all(number(row, 0)?, number(row, 1)?);
        }
        let mut all = self.connection.prepare("SELECT value FROM facts WHERE name = 'greatest'")?;
        let mut rows = all.query([])?;
        while let Some(row) = rows.next()? {
            content.greatest = content.greatest.max(number(row, 0)?);
        }
        Ok(content)
    }

    /// Makes a change, all of it or nothing. If this fails it may be that all was written, since
    /// the system may fail after that.
    pub fn write(&mut self, change: &Change<'_>) -> Result<(), TicketsError> {
        self.change(change).map_err(|source| fault(&self.path, source))?;
        self.in_place()
    }

    fn change(&mut self, change: &Change<'_>) -> rusqlite::Result<()> {
        let transaction = self.connection.transaction()?;
        {
            let mut enter =
                transaction.prepare_cached("INSERT INTO tickets VALUES (?1, ?2, ?3, ?4, ?5)")?;
            for row in change.rows {
                let Passed { last, number } = row.passed;
                enter.execute(params![
                    last as i64,
                    row.turn as i64,
                    row.ticket,
                    number as i64,
                    row.life as i64
                ])?;
            }
        }
        let mut delete = transaction.prepare_cached("DELETE FROM tickets WHERE last = ?1")?;
        for last in change.gone {
            delete.execute([*last as i64])?;
        }
        drop(delete);
        if let Some(forgotten) = change.forgotten {
            transaction.execute("DELETE FROM forgotten", [])?;
            for (first, last) in forgotten.iter() {
                transaction.execute(
                    "INSERT INTO forgotten VALUES (?1, ?2)",
                    [first as i64, last as i64],
                )?;
            }
            transaction.execute(
                "INSERT OR REPLACE INTO facts VALUES ('greatest', ?1)",
                [change.greatest as i64],
            )?;
        }
        transaction.commit()
    }

    /// Whether the file and its log are still where they were opened. What is written to a file
    /// that was deleted is gone with the service.
    pub fn in_place(&self) -> Result<(), TicketsError> {
        if self.file == identity(&self.path) && self.log == identity(&log_of(&self.path)) {
            return Ok(());
        }
        Err(TicketsError::Moved { path: self.path.clone() })
    }

    /// Lets go of the file. If another one stands in its place by now, or none, the log that
    /// belongs to the old one is taken away.
    pub fn close(self) -> Result<(), TicketsError> {
        let Store { connection, path, file, log } = self;
        let closed = connection.close().map_err(|(_, source)| fault(&path, source));
        if file != identity(&path) && log.is_some() && log == identity(&log_of(&path)) {
            fs::remove_file(log_of(&path))
                .map_err(|source| TicketsError::File { path: path.clone(), source })?;
        }
        closed
    }
}

/// The file to which SQLite writes first.
pub fn log_of(path: &Path) -> PathBuf {
    let mut name = path.as_os_str().to_owned();
    name.push("-wal");
    name.into()
}

fn identity(path: &Path) -> Option<Identity> {
    fs::metadata(path).ok().map(|facts| (facts.dev(), facts.ino()))
}

fn get<T: rusqlite::types::FromSql>(row: &rusqlite::Row<'_>) -> rusqlite::Result<T> {
    row.get(0)
}

fn number(row: &rusqlite::Row<'_>, column: usize) -> rusqlite::Result<u64> {
    row.get::<_, i64>(column).map(|number| number as u64)
}

fn fault(path: &Path, source: rusqlite::Error) -> TicketsError {
    match source.sqlite_error_code() {
        Some(ErrorCode::DatabaseBusy | ErrorCode::DatabaseLocked) => {
            TicketsError::Taken { path: path.into() }
        }
        Some(ErrorCode::NotADatabase) => TicketsError::Foreign { path: path.into() },
        _ => TicketsError::Sqlite { path: path.into(), source },
    }
}
