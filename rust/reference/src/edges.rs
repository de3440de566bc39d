//! Where answers may change, and so which minutes stand for all minutes of a jump.

use crate::END;
use crate::rota::Rota;
use crate::table::Table;

/// Where answers may change: at a begin or an end, and at an edge of a cell in each cycle.
#[derive(Clone, Debug, PartialEq, Eq)]
pub struct Edges {
    pub cycle: u32,
    /// Begins and ends with 0 and E, sorted.
    pub spans: Vec<u32>,
    /// Edges of cells with 0, sorted.
    pub cuts: Vec<u32>,
}

impl Edges {
    fn new(cycle: u16, mut spans: Vec<u32>, mut cuts: Vec<u32>) -> Edges {
        spans.extend([0, END]);
        cuts.push(0);
        for values in [&mut spans, &mut cuts] {
            values.sort();
            values.dedup();
        }
        Edges { cycle: cycle.into(), spans, cuts }
    }

    pub fn of_rota(rota: &Rota) -> Edges {
        let pairs = rota.hours.iter().flat_map(|hours| &hours.pairs);
        let cuts = pairs.flat_map(|pair| [u32::from(pair.offset), pair.end()]).collect();
        let spans = rota.hours.iter().flat_map(|hours| [hours.begin, hours.end]).collect();
        Edges::new(rota.cycle, spans, cuts)
    }

    pub fn of_table(table: &Table) -> Edges {
        let cuts = table.rows.iter().flat_map(|row| [u32::from(row.offset), row.cell_end()]);
        let spans = table.rows.iter().flat_map(|row| [row.begin, row.end]);
        Edges::new(table.cycle, spans.collect(), cuts.collect())
    }

    /// Of the minutes from `first` to before `end`, some that stand for all: what is so at any of
    /// them is so at one of these.
    ///
    /// Between neighbouring spans no hours (on a table: no rows, of whatever roles) begin or end,
    /// so only the phase of a minute counts there, and one cycle shows all that there is. Between
    /// neighbouring cuts of that cycle no pair (no row) begins or ends, so that all its minutes are
    /// alike, and the first of them stands for the others. What the cycle begins with may be a
    /// part of a cell; its first minute is taken as well.
    pub fn deciding(&self, first: u32, end: u32) -> Vec<u32> {
        let within = self.spans.iter().copied().filter(|&span| first < span && span < end);
        let borders: Vec<u32> = [first].into_iter().chain(within).chain([end]).collect();
        let mut minutes = Vec::new();
        // With `first` = `end` there is no minute.
        for stretch in borders.windows(2).filter(|two| two[0] < two[1]) {
            let (from, to) = (stretch[0], stretch[1].min(stretch[0] + self.cycle));
            let turn = from - from % self.cycle;
            let cuts = [turn, turn + self.cycle].into_iter().flat_map(|turn| {
                self.cuts.iter().map(move |&cut| turn + cut).filter(|t| (from + 1..to).contains(t))
            });
            minutes.push(from);
            minutes.extend(cuts);
        }
        minutes
    }
}
