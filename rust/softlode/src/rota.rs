//! A rota that was accepted, and what is made from it.

use std::fmt;

use crate::{Lent, Question, Refusal, TableBuf, ffi};

/// No rota of more bytes is accepted, so a host need not read more of a file than one byte past them.
///
/// ```
/// use softlode::{LARGEST_ROTA, RotaBuf};
/// use std::{fs::File, io::Read};
///
/// let mut bytes = Vec::new();
/// File::open("../../data/week.rota")?.take(LARGEST_ROTA as u64 + 1).read_to_end(&mut bytes)?;
/// assert!(RotaBuf::read(bytes).is_ok());
/// # Ok::<(), std::io::Error>(())
/// ```
pub const LARGEST_ROTA: usize = 4_460;

/// An area of so many bytes is enough for every table.
///
/// ```
/// use softlode::{ENOUGH_AREA, Refusal, Rota};
///
/// // One area for all rotas that may come: a rewriting into it is never refused with 20.
/// let mut area = vec![0; ENOUGH_AREA];
/// let rota = Rota::read(include_bytes!("../../../data/week.rota"))?;
/// assert_eq!(rota.rewrite(&mut area)?.rows, 239);
/// # Ok::<(), Refusal>(())
/// ```
pub const ENOUGH_AREA: usize = 35_212_336;

/// The counts of a rota's header, and its format.
#[repr(C)]
#[derive(Clone, Copy, Debug, PartialEq, Eq)]
pub struct RotaCounts {
    /// Minutes, 1 to 40,320.
    pub cycle: u32,
    /// Hours records.
    pub hours: u32,
    /// They are numbered from 0.
    pub volunteers: u32,
    /// They are numbered from 0.
    pub rights: u32,
    /// They are numbered from 0.
    pub roles: u32,
    /// Rows that join a volunteer with a role.
    pub volunteer_rows: u32,
    /// Rows that join a right with a role.
    pub right_rows: u32,
    /// 1; or 3 for a tidy rota, whose rows are in order.
    pub format: u32,
}

/// A rota that was accepted, in the bytes of its file, which are lent.
///
/// ```
/// use softlode::Rota;
///
/// let file = std::fs::read("../../data/small.rota")?;
/// let rota = Rota::read(&file)?;
/// assert_eq!((rota.counts().volunteers, rota.counts().rights), (2, 1));
/// // May volunteer 1 use right 0 at minute 12, and at minute 37?
/// assert_eq!(rota.may(1, 0, 12)?, Some(0));
/// assert_eq!(rota.may(1, 0, 37)?, None);
///
/// let table = rota.to_table()?;
/// assert_eq!((table.counts().derived, table.counts().rows, table.bytes().len()), (3, 8, 195));
/// assert_eq!(table.may(1, 0, 12)?, Some(0));
/// # Ok::<(), Box<dyn std::error::Error>>(())
/// ```
pub type Rota<'a> = RotaOf<&'a [u8]>;

/// A rota that was accepted and owns its bytes, so that a host can keep it.
///
/// ```
/// use softlode::{Refusal, RotaBuf, Service};
///
/// struct Server {
///     rota: RotaBuf,
///     service: Service,
/// }
///
/// let rota = RotaBuf::read(std::fs::read("../../data/small.rota")?)?;
/// let mut server = Server { rota, service: Service::fresh() };
/// server.service.open(&server.rota, 0)?;
/// assert_eq!(server.rota.may(0, 0, 3)?, Some(0));
/// assert_eq!(server.rota.into_bytes().len(), 54);
/// # Ok::<(), Box<dyn std::error::Error>>(())
/// ```
pub type RotaBuf = RotaOf<Vec<u8>>;

/// A rota that was accepted, in bytes that are lent ([`Rota`]), owned ([`RotaBuf`]), or kept in
/// another way, such as an `Arc<[u8]>`, which threads share.
///
/// ```
/// use softlode::{Refusal, RotaOf, Service};
/// use std::sync::Arc;
///
/// let bytes: Arc<[u8]> = Arc::from(*include_bytes!("../../../data/small.rota"));
/// let rota = RotaOf::read(bytes)?;
/// assert_eq!(rota.may(0, 0, 3)?, Some(0));
/// // What takes a rota that is lent, such as a service, takes this one so:
/// Service::fresh().open(&rota.as_rota(), 0)?;
/// # Ok::<(), Refusal>(())
/// ```
#[derive(Clone, Copy, PartialEq, Eq)]
pub struct RotaOf<B> {
    bytes: B,
    counts: RotaCounts,
}

impl<'a> Rota<'a> {
    /// The bytes that were read.
    pub fn bytes(&self) -> &'a [u8] {
        self.bytes
    }
}

impl RotaBuf {
    /// The bytes that were read.
    pub fn bytes(&self) -> &[u8] {
        &self.bytes
    }
}

impl<B: AsRef<[u8]>> RotaOf<B> {
    /// Reads a rota, of either format; or 1 to 12, 52.
    ///
    /// ```
    /// use softlode::{Refusal, Rota};
    ///
    /// let file = include_bytes!("../../../data/small.rota");
    /// assert!(Rota::read(file).is_ok());
    /// assert_eq!(Rota::read(&file[..53]), Err(Refusal::ROTA_LENGTH));
    /// ```
    pub fn read(bytes: B) -> Result<RotaOf<B>, Refusal> {
        let counts = ffi::rota_read(bytes.as_ref()).values()?;
        Ok(RotaOf { bytes, counts })
    }

    /// The same rota, lent.
    pub fn as_rota(&self) -> Rota<'_> {
        RotaOf { bytes: self.bytes.as_ref(), counts: self.counts }
    }

    /// What was read, given back.
    pub fn into_bytes(self) -> B {
        self.bytes
    }

    /// The counts of the header, and the format.
    pub fn counts(&self) -> RotaCounts {
        self.counts
    }

    /// May the volunteer use the right at the minute? The lowest role through which, or `None`
    /// for no; or 33, 34, 35.
    pub fn may(&self, volunteer: u32, right: u32, minute: u32) -> Result<Option<u32>, Refusal> {
        Lent::Rota(self.bytes.as_ref()).may(volunteer, right, minute)
    }

    /// Answers a page of up to 256 questions, or 51; see [`Lent::page`].
    pub fn page(&self, questions: &mut [Question]) -> Result<(), Refusal> {
        Lent::Rota(self.bytes.as_ref()).page(questions)
    }

    /// Tidies the rota: writes it in format 3 at the start of the area, and gives its bytes; those
    /// past them stay. Or 20, where the area is too small, and then all of it stays. The rota's own
    /// length is always enough. Takes less than 32 KiB of stack.
    ///
    /// The rows of each kind are put in order, and each is written once; all else is copied. So two
    /// rotas that differ only in the order of rows and in repeats become the same bytes. A tidy rota
    /// becomes itself, gives the same answers, and has the same table.
    ///
    /// ```
    /// use softlode::{Refusal, Rota};
    ///
    /// let file = include_bytes!("../../../data/small.rota");
    /// // Another coordinator sends the two volunteer rows in the other order.
    /// let mut other = *file;
    /// other[45..51].rotate_left(3);
    ///
    /// let (mut area, mut other_area) = ([0; 54], [0; 54]);
    /// let tidy = Rota::read(file)?.tidy(&mut area)?;
    /// assert_eq!(Rota::read(&other)?.tidy(&mut other_area)?, tidy);
    /// assert_eq!(Rota::read(tidy)?.counts().format, 3);
    ///
    /// // What says that it is tidy is held to it.
    /// other[0] = 3;
    /// assert_eq!(Rota::read(&other), Err(Refusal::ROTA_ORDER));
    /// # Ok::<(), Refusal>(())
    /// ```
    pub fn tidy<'b>(&self, area: &'b mut [u8]) -> Result<&'b [u8], Refusal> {
        let told = ffi::tidy(self.bytes.as_ref(), area);
        Refusal::judge(told.refusal)?;
        // The tidy rota is within the area.
        Ok(&area[..told.length as usize])
    }

    /// The bytes of the [tidy](RotaOf::tidy) rota.
    pub fn tidy_to_vec(&self) -> Result<Vec<u8>, Refusal> {
        to_vec(self.bytes.as_ref().len(), |area| self.tidy(area))
    }

    /// The [tidy](RotaOf::tidy) rota.
    ///
    /// ```
    /// use softlode::{Refusal, Rota};
    ///
    /// let rota = Rota::read(include_bytes!("../../../data/week.rota"))?;
    /// let tidy = rota.to_tidy()?;
    /// assert_eq!((rota.counts().format, tidy.counts().format), (1, 3));
    /// assert_eq!(tidy.bytes(), rota.tidy_to_vec()?);
    /// # Ok::<(), Refusal>(())
    /// ```
    pub fn to_tidy(&self) -> Result<RotaBuf, Refusal> {
        RotaBuf::read(self.tidy_to_vec()?)
    }

    /// How large the rota's table is, without writing it. Takes less than 1 MiB of stack, and as
    /// long as a rewriting but for the writing.
    ///
    /// ```
    /// use softlode::{Refusal, Rota, TableSize};
    ///
    /// let rota = Rota::read(include_bytes!("../../../data/small.rota"))?;
    /// assert_eq!(rota.table_size()?, TableSize { derived: 3, rows: 8, length: 195 });
    /// # Ok::<(), Refusal>(())
    /// ```
    pub fn table_size(&self) -> Result<TableSize, Refusal> {
        ffi::rewrite_size(self.bytes.as_ref()).size()
    }

    /// Rewrites the rota to its table, at the start of the area; the bytes past it stay. Or 20,
    /// where the area is too small, and then all of it stays. Takes less than 1 MiB of stack.
    ///
    /// Neighbouring rows of one derived role and one era that touch are written as one. A table in
    /// which they are not joined means the same, and is read as well.
    ///
    /// [`table_size`](RotaOf::table_size) says how large an area it takes, and
    /// [`to_table`](RotaOf::to_table) allocates it; a host that wants neither lends the same area to
    /// each rewriting. No table has more than [`ENOUGH_AREA`] bytes, and most have some thousands.
    ///
    /// ```
    /// use softlode::{Refusal, Rota, Table};
    ///
    /// let rota = Rota::read(include_bytes!("../../../data/small.rota"))?;
    /// let mut area = [0; 65_536];
    /// let written = rota.rewrite(&mut area)?;
    /// assert_eq!((written.derived, written.rows, written.bytes.len()), (3, 8, 195));
    /// let table = Table::read(written.bytes)?;
    /// assert_eq!(table.may(1, 0, 12)?, Some(0));
    /// assert_eq!(rota.rewrite(&mut [0; 194]), Err(Refusal::AREA_TOO_SMALL));
    /// # Ok::<(), Refusal>(())
    /// ```
    pub fn rewrite<'b>(&self, area: &'b mut [u8]) -> Result<Written<'b>, Refusal> {
        let TableSize { derived, rows, length } = ffi::rewrite(self.bytes.as_ref(), area).size()?;
        // The table is within the area.
        Ok(Written { derived, rows, bytes: &area[..length] })
    }

    /// The bytes of the rota's table, in a vector of just its size, for which the rota is
    /// [rewritten](RotaOf::rewrite) once without writing.
    pub fn rewrite_to_vec(&self) -> Result<Vec<u8>, Refusal> {
        to_vec(self.table_size()?.length, |area| Ok(self.rewrite(area)?.bytes))
    }

    /// The rota's table, as [`rewrite_to_vec`](RotaOf::rewrite_to_vec) makes it.
    ///
    /// ```
    /// use softlode::{Refusal, Rota};
    ///
    /// let rota = Rota::read(include_bytes!("../../../data/week.rota"))?;
    /// let table = rota.to_table()?;
    /// assert_eq!(table.bytes(), include_bytes!("../../../data/week.table"));
    /// assert_eq!(table.into_bytes(), rota.rewrite_to_vec()?);
    /// # Ok::<(), Refusal>(())
    /// ```
    pub fn to_table(&self) -> Result<TableBuf, Refusal> {
        TableBuf::read(self.rewrite_to_vec()?)
    }
}

/// What is written to an area of that size.
fn to_vec(
    size: usize,
    write: impl FnOnce(&mut [u8]) -> Result<&[u8], Refusal>,
) -> Result<Vec<u8>, Refusal> {
    let mut area = vec![0; size];
    let length = write(&mut area)?.len();
    area.truncate(length);
    Ok(area)
}

/// The counts and the number of bytes, and not the bytes.
impl<B: AsRef<[u8]>> fmt::Debug for RotaOf<B> {
    fn fmt(&self, f: &mut fmt::Formatter<'_>) -> fmt::Result {
        let length = self.bytes.as_ref().len();
        f.debug_struct("Rota").field("counts", &self.counts).field("length", &length).finish()
    }
}

/// How large a table is.
#[derive(Clone, Copy, Debug, PartialEq, Eq)]
pub struct TableSize {
    /// Derived roles.
    pub derived: u32,
    /// Rows, with those that touch joined.
    pub rows: u32,
    /// Bytes.
    pub length: usize,
}

/// A table that was written.
#[derive(Clone, Copy, PartialEq, Eq)]
pub struct Written<'a> {
    /// Derived roles.
    pub derived: u32,
    /// Rows, with those that touch joined.
    pub rows: u32,
    /// The bytes of the table: the part of the area that was written.
    pub bytes: &'a [u8],
}

/// The counts and the number of bytes, and not the bytes.
impl fmt::Debug for Written<'_> {
    fn fmt(&self, f: &mut fmt::Formatter<'_>) -> fmt::Result {
        let Written { derived, rows, bytes } = self;
        let mut text = f.debug_struct("Written");
        text.field("derived", derived).field("rows", rows).field("length", &bytes.len()).finish()
    }
}
