//! A page of questions: a list of records, each with a place for its answer. The records lie as the
//! C interface has them, so that both can be given the same.

use crate::Refusal;
use crate::policy::{Policy, question};

/// The most records of a page.
pub const LIMIT: usize = 256;

/// What a record's place receives: a refusal or 0, 1 for yes or 0, the role of a yes or 0.
#[repr(C)]
#[derive(Clone, Copy, Debug, Default, PartialEq, Eq)]
pub struct Place {
    pub refusal: Refusal,
    pub yes: u32,
    pub role: u32,
}

impl From<Result<Option<u8>, Refusal>> for Place {
    fn from(answer: Result<Option<u8>, Refusal>) -> Place {
        match answer {
            Ok(Some(role)) => Place { refusal: 0, yes: 1, role: role.into() },
            Ok(None) => Place { refusal: 0, yes: 0, role: 0 },
            Err(refusal) => Place { refusal, yes: 0, role: 0 },
        }
    }
}

#[repr(C)]
#[derive(Clone, Copy, Debug, Default, PartialEq, Eq)]
pub struct Question {
    pub user: u32,
    pub permission: u32,
    pub minute: u32,
    pub answer: Place,
}

/// The questions with their answers: 51 for a list that is too long, then the refusal of the bytes
/// that were read as `policy`; else each place has what the single question gives.
pub fn page(
    policy: Result<&dyn Policy, Refusal>,
    questions: &[Question],
) -> Result<Vec<Question>, Refusal> {
    if questions.len() > LIMIT {
        return Err(51);
    }
    let policy = policy?;
    let answered = |&asked: &Question| {
        let answer = question(policy, asked.user, asked.permission, asked.minute);
        Question { answer: answer.into(), ..asked }
    };
    Ok(questions.iter().map(answered).collect())
}
