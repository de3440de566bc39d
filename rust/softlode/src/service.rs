//! The service record and the four calls on it.

use crate::{Lent, Refusal, ffi};

/// The service record: the host keeps one and makes every call on it. The fields may be read,
/// stored and restored at any time between calls.
///
/// A refused call leaves it as it is. Every call gives the refusals of the lent bytes first, and
/// then 40 for a record that does not fit them.
///
/// ```
/// use softlode::{Refusal, Rota, Service};
///
/// let rota = Rota::read(include_bytes!("../../../data/small.rota"))?;
/// let mut service = Service::fresh();
/// assert_eq!(service.open(&rota, 1), Err(Refusal::NO_RIGHT_NOW));
/// service.open(&rota, 0)?;
/// assert!(service.is_open(0));
/// assert_eq!(service.ask(&rota, 0, 0)?, Some(0));
/// // At minute 4 volunteer 0 holds no right, so the advance closes the session.
/// assert_eq!(service.advance(&rota, 4)?, 1);
/// assert_eq!(service, Service { now: 4, open: 0 });
/// assert_eq!(service.close(&rota, 0), Err(Refusal::NOT_OPEN));
/// # Ok::<(), Refusal>(())
/// ```
#[repr(C)]
#[derive(Clone, Copy, Debug, Default, PartialEq, Eq, Hash)]
pub struct Service {
    /// The minute.
    pub now: u32,
    /// The volunteers whose sessions are open: bit i stands for number i.
    pub open: u64,
}

impl Service {
    /// Minute 0, and nobody is open.
    pub fn fresh() -> Service {
        Service::default()
    }

    /// Whether the volunteer's session is open.
    pub fn is_open(&self, volunteer: u32) -> bool {
        self.open.checked_shr(volunteer).is_some_and(|set| set & 1 == 1)
    }

    /// Moves now to the minute, and closes the session of everyone who holds no right at some minute
    /// after the old now, up to and with the new one, and no other; gives how many it closed. Or
    /// 33; 41 for a minute before now.
    ///
    /// So a host may pause for as long as it likes: nobody sleeps through a closing. Who passes from
    /// right to right, or from role to role, without a minute between stays open. The old now is not
    /// judged again, and an advance to it closes nobody.
    ///
    /// ```
    /// use softlode::{Refusal, Rota, Service};
    ///
    /// let rota = Rota::read(include_bytes!("../../../data/small.rota"))?;
    /// let mut service = Service { now: 1, open: 0 };
    /// service.open(&rota, 0)?;
    /// // Volunteer 0 holds a right at minute 11 again, and held none at minutes 4, 5, 8 and 9.
    /// assert_eq!(service.advance(&rota, 11)?, 1);
    /// # Ok::<(), Refusal>(())
    /// ```
    pub fn advance<'a>(&mut self, lent: impl Into<Lent<'a>>, minute: u32) -> Result<u32, Refusal> {
        ffi::advance(self, lent.into(), minute).count()
    }

    /// Opens a session for a volunteer who holds a right now. Or 34; 42 already open; 43.
    pub fn open<'a>(&mut self, lent: impl Into<Lent<'a>>, volunteer: u32) -> Result<(), Refusal> {
        ffi::open(self, lent.into(), volunteer).done()
    }

    /// Closes a volunteer's session. Or 34; 44 not open.
    pub fn close<'a>(&mut self, lent: impl Into<Lent<'a>>, volunteer: u32) -> Result<(), Refusal> {
        ffi::close(self, lent.into(), volunteer).done()
    }

    /// May the volunteer, whose session is open, use the right now? As [`Lent::may`], or 34; 35;
    /// 44 not open. The record stays as it is.
    pub fn ask<'a>(
        &self,
        lent: impl Into<Lent<'a>>,
        volunteer: u32,
        right: u32,
    ) -> Result<Option<u32>, Refusal> {
        // The function takes a record that it may write, though it writes the same.
        let mut copy = *self;
        ffi::ask(&mut copy, lent.into(), volunteer, right).role()
    }
}
