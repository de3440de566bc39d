//! Tidying a rota: the same rows, each once, in the order of format 3.

use crate::Refusal;
use crate::hours::HoursRef;
use crate::rota::{Rota, Row, TIDY};

impl Rota {
    /// The rota in format 3. All but the rows stays.
    pub fn tidy(&self) -> Rota {
        Rota {
            format: TIDY,
            user_rows: self.tidied(&self.user_rows, self.users),
            permission_rows: self.tidied(&self.permission_rows, self.permissions),
            ..self.clone()
        }
    }

    /// Every row that there can be, in order, where it is one of these. Their numbers are below
    /// `limit`.
    fn tidied(&self, rows: &[Row], limit: u8) -> Vec<Row> {
        let numbered = (0..self.hours.len() as u8).map(HoursRef::Numbered);
        let references: Vec<HoursRef> = numbered.chain([HoursRef::Always]).collect();
        let mut all = Vec::new();
        for role in 0..self.roles.len() as u8 {
            let of_role: Vec<&Row> = rows.iter().filter(|row| row.role == role).collect();
            for number in 0..limit {
                let of_both: Vec<&Row> =
                    of_role.iter().copied().filter(|row| row.number == number).collect();
                let is_one = |hours: &&HoursRef| of_both.iter().any(|row| row.hours == **hours);
                let hours = references.iter().filter(is_one);
                all.extend(hours.map(|&hours| Row::new(number, role, hours)));
            }
        }
        all
    }
}

/// Tidies the bytes of a rota into an area, and gives the length; a refusal leaves the area as it
/// was, and so does a success past the length.
pub fn tidy(bytes: &[u8], area: &mut [u8]) -> Result<usize, Refusal> {
    let out = Rota::parse(bytes)?.tidy().encode();
    let place = area.get_mut(..out.len()).ok_or(20u32)?;
    place.copy_from_slice(&out);
    Ok(out.len())
}
