//! Rotas that are made to take long, all near their limits, and what a search for worse ones
//! changes. A rota here is given by the order of its cuts: which record begins or ends at each.

pub mod jumps;

use reference::hours::HoursRef;
use reference::rota::{ANY_ORDER, Rota, Row};

use crate::generate::{LIMITS, cut_hours, longest_first};
use crate::random::Random;

/// A rota by the order of its cuts, as `cut_hours` takes them.
#[derive(Clone, Debug, PartialEq, Eq)]
pub struct Cut {
    pub hours: u8,
    pub eras: Vec<u8>,
    pub cells: Vec<u8>,
    /// For each role its hours.
    pub roles: Vec<HoursRef>,
    pub user_rows: Vec<Row>,
    pub permission_rows: Vec<Row>,
}

impl Cut {
    pub fn rota(&self) -> Rota {
        Rota {
            format: ANY_ORDER,
            cycle: LIMITS.cycle,
            hours: cut_hours(self.hours, &self.eras, &self.cells),
            users: LIMITS.users as u8,
            permissions: LIMITS.permissions as u8,
            roles: self.roles.clone(),
            user_rows: self.user_rows.clone(),
            permission_rows: self.permission_rows.clone(),
        }
    }

    /// A neighbour: a few cuts change places or records, or a few rows their hours, role or number.
    pub fn changed(&self, random: &mut Random) -> Cut {
        let mut cut = self.clone();
        for _ in 0..random.pick(&[1, 1, 2, 4, 16]) {
            cut.change(random);
        }
        cut
    }

    fn change(&mut self, random: &mut Random) {
        let hours = u32::from(self.hours);
        match random.below(8) {
            0 => swap(random, &mut self.eras),
            1 | 2 => swap(random, &mut self.cells),
            3 => {
                // Another record has one pair more, and one that has several has one less.
                let from = random.pick(&self.cells);
                let to = random.below(hours) as u8;
                let mut left = self.cells.iter_mut().filter(|cut| **cut == from);
                if let (Some(first), Some(second), Some(_)) =
                    (left.next(), left.next(), left.next())
                {
                    (*first, *second) = (to, to);
                }
            }
            4 => {
                let role = random.below(self.roles.len() as u32) as usize;
                self.roles[role] = reference(random, hours);
            }
            kind => {
                let rows =
                    if kind % 2 == 0 { &mut self.user_rows } else { &mut self.permission_rows };
                let (roles, i) =
                    (self.roles.len() as u32, random.below(rows.len() as u32) as usize);
                match random.below(6) {
                    0 => rows[i].role = random.below(roles) as u8,
                    1 | 2 => rows[i].number = random.below(LIMITS.users) as u8,
                    _ => rows[i].hours = reference(random, hours),
                }
            }
        }
    }
}

fn swap(random: &mut Random, cuts: &mut [u8]) {
    let last = cuts.len() as u32;
    let (i, far) = (random.below(last), random.below(last));
    let near = (i + random.between(1, 8)).min(last - 1);
    cuts.swap(i as usize, random.pick(&[near, near, far]) as usize);
}

fn reference(random: &mut Random, hours: u32) -> HoursRef {
    if random.one_in(16) { HoursRef::Always } else { HoursRef::Numbered(random.below(hours) as u8) }
}

/// Cuts that hill climbing has found, a letter for each record: A to Z and a to f are 0 to 31. The
/// fields have 19,412 different sets of the first 30 records of `longest_first`.
const MOST_OF_30_ERAS: &str = "FEDHCBJLGINRKOMPSaTWUAXcZYefdVbVdYbQfcaeXWZAQPUOTRSNMLJKIHGDFBCE";
const MOST_OF_30_CELLS: &str = concat!(
    "VdbYfZecXWaATUPLSOMRKNFCJFHFCTBTCHCFIJXFXCDJDBGSQESIDBEZCZDBDJFJBCBFHCECDLFLHEFLHIGECBGF",
    "BDFCLGCHDBCcJcGBENFJNCECKHKFECEBMFMDEBGCBHCGDJFWCWDOHOGIBEFIKJKLCLBDHIGBGEGBCFHIJFHBEBCF",
    "BEFGEGDCEBECJCKHKBMCMIHCHLBEPDPCBLDaBaeGeIDCENBNHDCLBLCDGEDBELCFDLEDSRSERBDCHJBFBDGEDFBG",
    "CKBOKOEBDCEHJHFBDCSFSIEBFBCTFTHFDLCIDFEBHDMHMBNLNJGJKDKABDCLGELJBCBEFBGEHDEIJEDCDBFBRIRC",
    "DHJBHEBEGFEBFRBRLCPJPDCDECLOKOIKGCEBFCGDJQIJCEMGMHEDCDBIDBJIHNGNECLDLEGJCLGCHDBCJBJHFGJL",
    "JCDKBKDCELJLHFBIJCFBECBEDIDBLGEUDULDRHRICEHDBGHFEJLHNKMROTSPZWUXacfYdeVb",
);

/// The same for the first 23 records: 12,609 different sets.
const MOST_OF_23_ERAS: &str = "FBGLZDCJEbKHaIOMRUNaVSPWcXQedfTbYWYfTVZPAUeXOSRKNMLICHcEBFGDQAJd";
const MOST_OF_23_CELLS: &str = concat!(
    "WYeTPXVUNSROKIMHJHLEBJDSBSCBDRERJDBCBDGHLBEDFGDCBFJBFDFIGIJEBECFCDFEJBCBFZHFKDKHEBFGDcEC",
    "BLUHUJGFJEJGHGVDVCERJRBECNGNBMDMGFCDKFKCIFIOLOdBEDCEBCGLDBHXDZXCDEGDEJGBRGRDVCVDJCSDSIBI",
    "FEDEBKHKJLFMBMaECNENJFPCPBCDELFGCBIEIBFIEIDCDJXBXLCEBCLHGBFQHDHEDCDFHDCABIJKBKIHDHBCFObD",
    "OBCGJBDCBETdBTFDNBNFHBHMEMILSISBGFBFJGBGFGMHMQBHCBDBJCDbKCKFHLEBFCPUPGaUBDBCEHIBIGCDBJDH",
    "FCDGDEFDRFRBFEJBCBFJCDLHDJDCLEKCKEIJIBGCfBHOJODBNHNGEFCDGCAEKCKFEBDGCECBMDMIGEDFCJECIHDK",
    "HKEGFCGBFLcDBDLIHICJEfIFIEBJDCLHCJBFDEFCILGJFHEHJFeGBLJEFHBKNRMUOPSVTXYW",
);

fn letters(text: &str) -> Vec<u8> {
    let number = |letter: u8| if letter < b'a' { letter - b'A' } else { letter - b'a' + 26 };
    text.bytes().map(number).collect()
}

/// What each role has in row `i`: the number of a user or a permission, and the hours.
type Given = fn(u32) -> (u32, HoursRef);

/// A rota of these cuts, with roles that are always enabled and as many rows for each as the
/// limits allow.
fn cut(eras: &str, cells: &str, roles: u32, user: Given, permission: Given) -> Cut {
    let rows = |given: Given| -> Vec<Row> {
        let share = (LIMITS.user_rows / roles).min(64);
        let all = (0..roles).flat_map(|role| (0..share).map(move |i| (role, given(i))));
        all.map(|(role, (number, hours))| Row::new(number as u8, role as u8, hours)).collect()
    };
    Cut {
        hours: LIMITS.hours as u8,
        eras: letters(eras),
        cells: letters(cells),
        roles: vec![HoursRef::Always; roles as usize],
        user_rows: rows(user),
        permission_rows: rows(permission),
    }
}

/// The hours that last longest but for `i` others.
fn lasting(i: u32) -> HoursRef {
    HoursRef::Numbered(longest_first()[i as usize % 32])
}

/// The most derived roles. In the order of the members, what hardly varies comes first and what
/// varies most comes last: an index by a tree in which the lowest members decide first has long
/// walks then, to many thousands of ends.
pub fn most_sets() -> Cut {
    fn user(i: u32) -> (u32, HoursRef) {
        (i, if i == 0 { HoursRef::Always } else { lasting(30 - i) })
    }
    fn permission(i: u32) -> (u32, HoursRef) {
        (i, if i == 0 { HoursRef::Always } else { lasting(15 - i) })
    }
    cut(MOST_OF_30_ERAS, MOST_OF_30_CELLS, 32, user, permission)
}

/// Against an index by a tree, the longest walks: 8 roles have all users always and all but the
/// highest permissions, so that sets differ only after 105 members.
pub fn long_walks() -> Cut {
    fn user(i: u32) -> (u32, HoursRef) {
        (i, HoursRef::Always)
    }
    fn permission(i: u32) -> (u32, HoursRef) {
        (63 - i, if i < 23 { lasting(i) } else { HoursRef::Always })
    }
    cut(MOST_OF_23_ERAS, MOST_OF_23_CELLS, 8, user, permission)
}

/// Against an index by 512 buckets, as it was once: 22 roles give user n and permission n in the
/// same hours, for 23 numbers n whose remainder by 13 is 4 to 8. A set of these, as a number, has a
/// remainder by 8,191 that is a multiple of 16, and 31 + 1 times it is a multiple of 512.
pub fn one_bucket() -> Cut {
    fn given(i: u32) -> (u32, HoursRef) {
        (13 * (i / 5) + 4 + i % 5, lasting(i))
    }
    cut(MOST_OF_23_ERAS, MOST_OF_23_CELLS, 22, given, given)
}

/// A table has no room, and that shows late: every role but the last has users in nearly all
/// fields, and permissions in a single one. The last has both in all fields, and they follow nearly
/// all hours, so that its rows are not joined to few.
pub fn late_refusal() -> Cut {
    const LAST: u8 = 31;
    // All begin, the last holds in one era, and all end, in the other order; likewise in the
    // cycle, where each other record pauses for single cells.
    let cuts = |between: Vec<u8>| -> Vec<u8> {
        (0..LAST).chain(between).chain([LAST, LAST]).chain((0..LAST).rev()).collect()
    };
    let pauses = LIMITS.pairs - 32;
    let paused = (0..pauses).flat_map(|i| [(i % 31) as u8; 2]).collect();
    let rows = |hours: fn(u8) -> HoursRef, of_last: fn(u8) -> HoursRef| -> Vec<Row> {
        let row = |i: u32| match ((i / 16) as u8, (i % 16) as u8) {
            (LAST, 0) => Row::new(0, LAST, HoursRef::Always),
            (LAST, number) => Row::new(number, LAST, of_last(number)),
            (role, number) => Row::new(number, role, hours(number)),
        };
        (0..LIMITS.user_rows).map(row).collect()
    };
    Cut {
        hours: LIMITS.hours as u8,
        eras: cuts(Vec::new()),
        cells: cuts(paused),
        roles: vec![HoursRef::Always; LIMITS.roles as usize],
        user_rows: rows(HoursRef::Numbered, HoursRef::Numbered),
        permission_rows: rows(
            |_| HoursRef::Numbered(LAST),
            |number| HoursRef::Numbered(15 + number),
        ),
    }
}

/// All of these by name.
pub fn cuts() -> Vec<(&'static str, Cut)> {
    vec![
        ("most sets of hours", most_sets()),
        ("long walks", long_walks()),
        ("one bucket", one_bucket()),
        ("late refusal", late_refusal()),
    ]
}
