//! A page of questions.

use crate::{Lent, Refusal, ffi};

/// The most questions on a page.
pub const MOST_QUESTIONS: usize = 256;

/// The answer to a question on a page. One that was never asked says no.
#[repr(C)]
#[derive(Clone, Copy, Debug, Default, PartialEq, Eq)]
pub struct Place {
    refusal: u32,
    yes: u32,
    role: u32,
}

impl Place {
    /// The lowest role through which the volunteer may use the right, or `None` for no; or 33, 34,
    /// 35.
    pub fn role(self) -> Result<Option<u32>, Refusal> {
        Refusal::judge(self.refusal).map(|()| (self.yes != 0).then_some(self.role))
    }
}

/// A question on a page, and the place for its answer.
#[repr(C)]
#[derive(Clone, Copy, Debug, Default, PartialEq, Eq)]
pub struct Question {
    /// Who asks.
    pub volunteer: u32,
    /// For what.
    pub right: u32,
    /// When.
    pub minute: u32,
    /// Written by [`Lent::page`].
    pub answer: Place,
}

impl Question {
    /// May the volunteer use the right at the minute?
    pub fn new(volunteer: u32, right: u32, minute: u32) -> Question {
        Question { volunteer, right, minute, answer: Place::default() }
    }
}

impl Lent<'_> {
    /// Answers a page of up to 256 questions: each place receives what [`may`](Lent::may) would
    /// give, 33, 34 and 35 included, and the bytes are judged once. Or 51 for more questions, then
    /// the refusals of the bytes; then no place is written.
    ///
    /// ```
    /// use softlode::{Lent, MOST_QUESTIONS, Question, Refusal};
    ///
    /// let rota = Lent::Rota(include_bytes!("../../../data/small.rota"));
    /// // May volunteers 0 and 1, and 2, who is not there, use right 0 at minute 12?
    /// let mut page = [0, 1, 2].map(|volunteer| Question::new(volunteer, 0, 12));
    /// rota.page(&mut page)?;
    /// let answers = page.map(|question| question.answer.role());
    /// assert_eq!(answers, [Ok(Some(0)), Ok(Some(0)), Err(Refusal::NO_SUCH_VOLUNTEER)]);
    ///
    /// let mut long = [page[0]; MOST_QUESTIONS + 1];
    /// assert_eq!(rota.page(&mut long), Err(Refusal::PAGE_TOO_LONG));
    /// # Ok::<(), Refusal>(())
    /// ```
    pub fn page(self, questions: &mut [Question]) -> Result<(), Refusal> {
        Refusal::judge(ffi::page(self, questions))
    }
}
