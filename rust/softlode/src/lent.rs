//! What is lent to a call: the bytes of a rota or of a table.

use std::fmt;

use crate::{Refusal, Rota, RotaBuf, Table, TableBuf, ffi};

/// The bytes of a rota or of a table, lent to a call. Which they are is the caller's word, not
/// seen in the bytes; each call judges them anew, so any bytes may be lent.
///
/// A [`Rota`] or a [`Table`], or one that owns its bytes, turns into it by itself.
#[derive(Clone, Copy, PartialEq, Eq)]
pub enum Lent<'a> {
    /// The bytes of a rota.
    Rota(&'a [u8]),
    /// Exactly the bytes of a table, not the whole area that it was written to.
    Table(&'a [u8]),
}

impl Lent<'_> {
    /// May the volunteer use the right at the minute? The lowest role through which, or `None`
    /// for no; or the refusals of the bytes, 33, 34, 35.
    ///
    /// ```
    /// use softlode::{Lent, Refusal};
    ///
    /// let rota = Lent::Rota(include_bytes!("../../../data/small.rota"));
    /// assert_eq!(rota.may(0, 0, 3), Ok(Some(0)));
    /// assert_eq!(rota.may(0, 0, 4), Ok(None));
    /// assert_eq!(Lent::Table(b"").may(0, 0, 4), Err(Refusal::TABLE_SHORT));
    /// ```
    pub fn may(self, volunteer: u32, right: u32, minute: u32) -> Result<Option<u32>, Refusal> {
        ffi::question(self, volunteer, right, minute).role()
    }
}

/// How many bytes there are, and not which: `Rota(54 bytes)`.
impl fmt::Debug for Lent<'_> {
    fn fmt(&self, f: &mut fmt::Formatter<'_>) -> fmt::Result {
        let (name, bytes) = match self {
            Lent::Rota(bytes) => ("Rota", bytes),
            Lent::Table(bytes) => ("Table", bytes),
        };
        write!(f, "{name}({} bytes)", bytes.len())
    }
}

impl<'a> From<&Rota<'a>> for Lent<'a> {
    fn from(rota: &Rota<'a>) -> Lent<'a> {
        Lent::Rota(rota.bytes())
    }
}

impl<'a> From<&'a RotaBuf> for Lent<'a> {
    fn from(rota: &'a RotaBuf) -> Lent<'a> {
        Lent::Rota(rota.bytes())
    }
}

impl<'a> From<&Table<'a>> for Lent<'a> {
    fn from(table: &Table<'a>) -> Lent<'a> {
        Lent::Table(table.bytes())
    }
}

impl<'a> From<&'a TableBuf> for Lent<'a> {
    fn from(table: &'a TableBuf) -> Lent<'a> {
        Lent::Table(table.bytes())
    }
}
