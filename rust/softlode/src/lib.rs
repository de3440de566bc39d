//! Softlode: proved access hours of an archive's volunteers, for hosts in Rust.
//!
//! A safe face of the proved library's C interface. Any bytes and any numbers end in an answer or
//! in one [`Refusal`]; nothing panics, nothing is kept between calls, and calls on different
//! records may run at the same time. Every call judges the bytes that are lent to it anew.
//!
//! ```
//! use softlode::{Question, Refusal, Rota, Service, date, minute};
//!
//! let rota = Rota::read(include_bytes!("../../../data/week.rota"))?;
//! let table = rota.to_table()?;
//!
//! let mut service = Service::fresh();
//! service.advance(&table, minute(2024, 2, 26, 9, 0)?)?;
//! service.open(&table, 0)?;
//! assert_eq!(service.ask(&table, 0, 4)?, Some(2));
//! assert_eq!(date(service.now)?.to_string(), "Mon 2024-02-26 09:00");
//!
//! // When can volunteer 5 next discard a record, which is right 8?
//! let next = table.next_use(5, 8, service.now)?.expect("discarders have their Sundays");
//! assert_eq!(date(next)?.to_string(), "Sun 2024-03-03 14:00");
//!
//! // And what may everyone use then?
//! let board = table.board(next)?;
//! assert_eq!(board.rights_of(5).collect::<Vec<_>>(), [8]);
//! assert!(!board.may(0, 8));
//!
//! // A page greys out its buttons: a list of questions, each with a place for its answer.
//! let mut page = [6, 8].map(|right| Question::new(5, right, next));
//! table.page(&mut page)?;
//! assert_eq!(page.map(|question| question.answer.role()), [Ok(None), Ok(Some(4))]);
//!
//! // Two coordinators' rotas are compared once they are tidy: rows in one order, each once.
//! let tidy = rota.to_tidy()?;
//! assert_eq!(tidy.counts().format, 3);
//! # Ok::<(), Refusal>(())
//! ```
//!
//! A host that keeps a rota or a table has it as a [`RotaBuf`] or a [`TableBuf`], which own their bytes.
//!
//! The library, libsoftlode.a, is linked from the folder that `SOFTLODE_LIB_DIR` names when the crate
//! is built; without it from where `make install` has put it, known by the crate's own place or by
//! pkg-config; and for a crate in the repository from where that builds it. With
//! `SOFTLODE_LINK=dynamic` it is libsoftlode.so, which may be another when the host starts than it was
//! when the host was built: [`fits`] tells.

#![deny(missing_docs, unsafe_code, unsafe_op_in_unsafe_fn)]
// For the tests alone: a later compiler's warnings are no reason to stop a host.
#![cfg_attr(test, deny(warnings))]

mod calendar;
mod ffi;
mod lent;
mod page;
mod refusal;
mod rota;
mod service;
mod table;
mod version;

pub use calendar::{DateTime, LAST_MINUTE, date, minute};
pub use lent::Lent;
pub use page::{MOST_QUESTIONS, Place, Question};
pub use refusal::Refusal;
pub use rota::{ENOUGH_AREA, LARGEST_ROTA, Rota, RotaBuf, RotaCounts, RotaOf, TableSize, Written};
pub use service::Service;
pub use table::{Board, Table, TableBuf, TableCounts, TableOf};
pub use version::{VERSION, Version, fits, version};
