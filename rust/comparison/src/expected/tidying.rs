//! Tidying a rota: the whole tidy rota, made once, and then what each area gets.

use reference::Refusal;
use reference::rota::Rota;

use crate::ffi::tidying::Tidied;

/// What a rota's bytes mean, and the tidy rota.
pub struct Whole {
    pub rota: Rota,
    pub tidy: Rota,
    pub bytes: Vec<u8>,
}

pub fn whole(rota: &[u8]) -> Result<Whole, Refusal> {
    let rota = Rota::parse(rota)?;
    let tidy = rota.tidy();
    Ok(Whole { bytes: tidy.encode(), rota, tidy })
}

/// The rota's refusal, or 20, or the tidy rota at the area's start; all other bytes stay.
pub fn tidy(whole: &Result<Whole, Refusal>, area: &mut [u8]) -> Tidied {
    let refused = |refusal| Tidied { refusal, length: 0 };
    let bytes = match whole {
        Err(refusal) => return refused(*refusal),
        Ok(whole) => &whole.bytes,
    };
    match area.get_mut(..bytes.len()) {
        None => refused(20),
        Some(place) => {
            place.copy_from_slice(bytes);
            Tidied { refusal: 0, length: bytes.len() as u64 }
        }
    }
}
