//! A table that was accepted.

use std::collections::BTreeMap;
use std::fmt;

use crate::{Lent, Question, Refusal, ffi};

/// The counts of a table's header.
#[repr(C)]
#[derive(Clone, Copy, Debug, PartialEq, Eq)]
pub struct TableCounts {
    /// Minutes, 1 to 40,320.
    pub cycle: u32,
    /// They are numbered from 0.
    pub volunteers: u32,
    /// They are numbered from 0.
    pub rights: u32,
    /// Roles of the rota.
    pub roles: u32,
    /// Derived roles.
    pub derived: u32,
    /// Rows, each of which enables a derived role.
    pub rows: u32,
}

/// A table that was accepted, in its bytes, which are lent.
///
/// ```
/// use softlode::{Refusal, Table};
///
/// let file = include_bytes!("../../../data/small.table");
/// let table = Table::read(file)?;
/// assert_eq!((table.counts().derived, table.counts().rows), (3, 8));
/// assert_eq!(table.may(0, 0, 3), Ok(Some(0)));
/// assert_eq!(table.may(256, 0, 3), Err(Refusal::NO_SUCH_VOLUNTEER));
/// # Ok::<(), Refusal>(())
/// ```
pub type Table<'a> = TableOf<&'a [u8]>;

/// A table that was accepted and owns its bytes, so that a host can keep it.
///
/// ```
/// use softlode::{Refusal, Rota, Service, TableBuf};
///
/// struct Server {
///     table: TableBuf,
///     service: Service,
/// }
///
/// impl Server {
///     fn start(file: &[u8]) -> Result<Server, Refusal> {
///         Ok(Server { table: Rota::read(file)?.to_table()?, service: Service::fresh() })
///     }
///
///     fn may(&mut self, volunteer: u32, right: u32, minute: u32) -> Result<bool, Refusal> {
///         self.service.advance(&self.table, minute)?;
///         Ok(self.table.may(volunteer, right, minute)?.is_some())
///     }
/// }
///
/// let mut server = Server::start(include_bytes!("../../../data/small.rota"))?;
/// assert_eq!([3, 4].map(|minute| server.may(0, 0, minute)), [Ok(true), Ok(false)]);
///
/// // A table from a file:
/// let table = TableBuf::read(std::fs::read("../../data/small.table")?)?;
/// assert_eq!(table, server.table);
/// # Ok::<(), Box<dyn std::error::Error>>(())
/// ```
pub type TableBuf = TableOf<Vec<u8>>;

/// A table that was accepted, in bytes that are lent ([`Table`]), owned ([`TableBuf`]), or kept in
/// another way, such as an `Arc<[u8]>`; see [`RotaOf`](crate::RotaOf).
#[derive(Clone, Copy, PartialEq, Eq)]
pub struct TableOf<B> {
    bytes: B,
    counts: TableCounts,
}

impl<'a> Table<'a> {
    /// The bytes that were read.
    pub fn bytes(&self) -> &'a [u8] {
        self.bytes
    }
}

impl TableBuf {
    /// The bytes that were read.
    pub fn bytes(&self) -> &[u8] {
        &self.bytes
    }
}

impl<B: AsRef<[u8]>> TableOf<B> {
    /// Reads a table, or 21 to 28. Lend exactly its bytes, not the area that it was written to.
    pub fn read(bytes: B) -> Result<TableOf<B>, Refusal> {
        let counts = ffi::table_read(bytes.as_ref()).values()?;
        Ok(TableOf { bytes, counts })
    }

    /// The same table, lent.
    ///
    /// ```
    /// use softlode::{Refusal, Rota, Table};
    ///
    /// fn rows_of(table: Table) -> u32 {
    ///     table.counts().rows
    /// }
    ///
    /// let table = Rota::read(include_bytes!("../../../data/small.rota"))?.to_table()?;
    /// assert_eq!(rows_of(table.as_table()), 8);
    /// # Ok::<(), Refusal>(())
    /// ```
    pub fn as_table(&self) -> Table<'_> {
        TableOf { bytes: self.bytes.as_ref(), counts: self.counts }
    }

    /// What was read, given back.
    pub fn into_bytes(self) -> B {
        self.bytes
    }

    /// The counts of the header.
    pub fn counts(&self) -> TableCounts {
        self.counts
    }

    /// As [`RotaOf::may`](crate::RotaOf::may).
    pub fn may(&self, volunteer: u32, right: u32, minute: u32) -> Result<Option<u32>, Refusal> {
        Lent::Table(self.bytes.as_ref()).may(volunteer, right, minute)
    }

    /// As [`RotaOf::page`](crate::RotaOf::page).
    pub fn page(&self, questions: &mut [Question]) -> Result<(), Refusal> {
        Lent::Table(self.bytes.as_ref()).page(questions)
    }

    /// When can the volunteer next use the right? The first minute from `minute` on, that one
    /// included, at which [`may`](TableOf::may) would be a yes, or `None` if there is none before the
    /// end of 2400; or 33, 34, 35. It takes little longer than [`read`](TableOf::read), however far
    /// ahead that minute is.
    ///
    /// ```
    /// use softlode::{Refusal, Table, date, minute};
    ///
    /// let table = Table::read(include_bytes!("../../../data/week.table"))?;
    /// // Volunteer 5 is a discarder, and right 8 is to discard a record.
    /// let next = table.next_use(5, 8, minute(2024, 2, 26, 9, 0)?)?;
    /// assert_eq!(date(next.unwrap())?.to_string(), "Sun 2024-03-03 14:00");
    /// // Volunteer 0 never is.
    /// assert_eq!(table.next_use(0, 8, 0)?, None);
    /// # Ok::<(), Refusal>(())
    /// ```
    pub fn next_use(
        &self,
        volunteer: u32,
        right: u32,
        minute: u32,
    ) -> Result<Option<u32>, Refusal> {
        ffi::table_next(self.bytes.as_ref(), volunteer, right, minute).minute()
    }

    /// The staff board of the minute: what everyone may use then; or 33. Each volunteer has the
    /// rights for which [`may`](TableOf::may) would be a yes, and no other. It takes as long as
    /// [`read`](TableOf::read), and some microseconds more.
    ///
    /// ```
    /// use softlode::{Refusal, Table, minute};
    ///
    /// let table = Table::read(include_bytes!("../../../data/week.table"))?;
    /// let board = table.board(minute(2024, 2, 28, 11, 0)?)?;
    /// // On Wednesday morning volunteer 5 reads and merges, and may discard nothing, which is right 8.
    /// assert_eq!(board.rights_of(5).collect::<Vec<_>>(), [0, 1, 6, 7]);
    /// assert!(board.may(5, 6) && !board.may(5, 8));
    /// assert_eq!(board.rights_of(64).count(), 0);
    /// # Ok::<(), Refusal>(())
    /// ```
    pub fn board(&self, minute: u32) -> Result<Board, Refusal> {
        let told = ffi::table_board(self.bytes.as_ref(), minute);
        Refusal::judge(told.refusal)?;
        Ok(Board { rows: told.rows, rights: told.rights })
    }
}

/// The counts and the number of bytes, and not the bytes.
impl<B: AsRef<[u8]>> fmt::Debug for TableOf<B> {
    fn fmt(&self, f: &mut fmt::Formatter<'_>) -> fmt::Result {
        let length = self.bytes.as_ref().len();
        f.debug_struct("Table").field("counts", &self.counts).field("length", &length).finish()
    }
}

/// The staff board of one minute, as [`TableOf::board`] gives it.
#[derive(Clone, Copy, PartialEq, Eq)]
pub struct Board {
    /// How many rows of the table enable their derived role then.
    pub rows: u32,
    /// The set of rights of each volunteer, bit i for right i; empty past the last volunteer.
    pub rights: [u64; 64],
}

impl Board {
    fn set_of(&self, volunteer: u32) -> u64 {
        self.rights.get(volunteer as usize).copied().unwrap_or(0)
    }

    /// Whether the volunteer may use the right. Numbers that are not there may not, and are no
    /// refusal.
    pub fn may(&self, volunteer: u32, right: u32) -> bool {
        self.set_of(volunteer).checked_shr(right).is_some_and(|set| set & 1 == 1)
    }

    /// The rights of the volunteer, in ascending order.
    pub fn rights_of(&self, volunteer: u32) -> impl Iterator<Item = u32> + use<> {
        let set = self.set_of(volunteer);
        (0..64).filter(move |right| set >> right & 1 == 1)
    }
}

/// The rights of everyone who has some: `Board { rows: 1, rights: {5: [0, 1, 6]} }`.
impl fmt::Debug for Board {
    fn fmt(&self, f: &mut fmt::Formatter<'_>) -> fmt::Result {
        let has_some = |&volunteer: &u32| self.set_of(volunteer) != 0;
        let rights_of = |volunteer| (volunteer, self.rights_of(volunteer).collect());
        let rights: BTreeMap<u32, Vec<u32>> = (0..64).filter(has_some).map(rights_of).collect();
        f.debug_struct("Board").field("rows", &self.rows).field("rights", &rights).finish()
    }
}
