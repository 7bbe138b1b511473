//! A table and a list of stimuli that meet a given set of grounds, on one record of each sort; what is given to
//! a trimming or a path call that does, likewise; and an order that does.

use super::orders::{LARGEST_SIZE, MOST_SIZES};
use super::samples::{changed, one_of_each, CONSTANT, ENABLED, FIXED, FREE, OPERATOR};
use super::trims::{certificate_of, Given};
use super::{poke_bytes, StimulusBytes, MOST_RECORDS, MOST_STIMULI, TICK};

/// A table that meets each of these grounds among 1, 2 and 5 to 11. Its register at this place, with an enable
/// or without, meets those of 5 to 10, and its operator is the loop.
pub fn table_that_meets(meets: impl Fn(u32) -> bool, register: usize) -> Vec<u8> {
    let mut records = one_of_each();
    let changes = [(0, 6), (1, 33), (2, 1), (3, 1), (4, records.len() as u8), (15, 128)];
    for (_, change) in (5..).zip(changes).filter(|&(ground, _)| meets(ground)) {
        records[register] = changed(records[register], &[change]);
    }
    if meets(11) {
        records[OPERATOR] = changed(records[OPERATOR], &[(4, OPERATOR as u8)]);
    }
    let mut table = records.as_flattened().to_vec();
    if meets(1) {
        table.resize(usize::from(MOST_RECORDS + 1) * 16, 0);
    }
    if meets(2) {
        table.push(0);
    }
    table
}

/// The grounds that a bench call tries on each stimulus, in their order: 17 before 16.
pub const STIMULUS_GROUNDS: [u32; 4] = [14, 15, 17, 16];

/// The grounds that a bench call tries, in their order.
pub fn bench_grounds() -> impl Iterator<Item = u32> {
    (1..14).chain(STIMULUS_GROUNDS)
}

/// A list that meets each of these grounds among 12 to 17, behind so many stimuli that meet none. The first
/// stimulus after these meets as many of 14 to 17 as one can; after it each ground is met alone.
pub fn list_that_meets(meets: impl Fn(u32) -> bool, behind: usize) -> Vec<u8> {
    let mut list: Vec<StimulusBytes> = sound_stimuli().into_iter().cycle().take(behind).collect();
    if (14..=17).any(&meets) {
        list.push(stimulus_that_meets(&meets));
        list.extend((14..=17).filter(|&ground| meets(ground)).map(stimulus_that_meets_only));
    }
    list.truncate(MOST_STIMULI);
    if meets(13) {
        list.resize(MOST_STIMULI + 1, TICK);
    }
    let mut list = list.as_flattened().to_vec();
    if meets(12) {
        list.push(0);
    }
    list
}

/// Stimuli that meet no ground.
pub fn sound_stimuli() -> [StimulusBytes; 3] {
    [TICK, poke_bytes(FREE as u16, 15), poke_bytes(FIXED as u16, 9)]
}

/// A stimulus that meets this ground of 14 to 17 and no other.
pub fn stimulus_that_meets_only(ground: u32) -> StimulusBytes {
    stimulus_that_meets(|other| other == ground)
}

/// A stimulus that meets each of these grounds among 14 to 17, but 16 and 17 not beside 15: a variable that
/// is no input has no width and no n to hold a value against. Its value is then as wrong as theirs.
fn stimulus_that_meets(meets: impl Fn(u32) -> bool) -> StimulusBytes {
    let variable = match (meets(15), meets(17)) {
        (true, _) => CONSTANT,
        (_, true) => FIXED,
        _ => FREE,
    };
    // The fixed input's n is 9, and so are the low four bits of 25, which does not fit.
    let n = match (meets(16), meets(17)) {
        (true, _) => 25,
        (_, true) => 8,
        _ => 9,
    };
    let mut stimulus = poke_bytes(variable as u16, n);
    stimulus[1] = u8::from(meets(14));
    stimulus
}

/// An order that meets each of these grounds among 18 and 19: as many sizes as an order can have, and one
/// more for 18. For 19 the size at this place is the first too large, and those behind it are larger still.
pub fn order_that_meets(meets: impl Fn(u32) -> bool, place: usize) -> Vec<u32> {
    let mut sizes = vec![LARGEST_SIZE; MOST_SIZES + usize::from(meets(18))];
    if meets(19) {
        sizes[place..].fill(u32::MAX);
        sizes[place] = LARGEST_SIZE + 1;
    }
    sizes
}

/// The grounds that a trimming call tries, in their order.
pub const TRIM_GROUNDS: [u32; 13] = [1, 2, 4, 5, 6, 7, 8, 9, 10, 11, 20, 21, 22];

/// What ground 22 turns away: a certificate that is too short or too long by a byte; a variable with 0, or with
/// a byte above the last fact's, in the place of a fact; one that is always a number too wide for it.
#[derive(Debug, Clone, Copy)]
pub enum CertificateFault {
    Short,
    Long,
    FactZero,
    FactFour,
    TooWide,
}

impl CertificateFault {
    pub const ALL: [CertificateFault; 5] = [
        CertificateFault::Short,
        CertificateFault::Long,
        CertificateFault::FactZero,
        CertificateFault::FactFour,
        CertificateFault::TooWide,
    ];
}

/// How, or where, a trimming call on one record of each sort meets those of its grounds that can be met in
/// several ways or at several places.
#[derive(Debug, Clone, Copy)]
pub struct TrimFaults {
    /// The register that meets 5 to 10.
    pub register: usize,
    /// The place in the kept list that meets 20.
    pub kept: usize,
    /// Whether the trimmed table, and whether the list of numbers, is short for 21.
    pub short: [bool; 2],
    /// What meets 22, and the variable, if it is a fault of one.
    pub certificate: CertificateFault,
    pub variable: usize,
}

impl TrimFaults {
    /// The first of these grounds, which are met, and its place.
    pub fn first(&self, meets: impl Fn(u32) -> bool) -> Option<(u32, usize)> {
        let ground = TRIM_GROUNDS.into_iter().find(|&ground| meets(ground))?;
        let place = match (ground, self.certificate) {
            (5..=10, _) => self.register,
            (11, _) => 1,
            (20, _) => self.kept,
            (22, CertificateFault::FactZero | CertificateFault::FactFour | CertificateFault::TooWide) => {
                self.variable
            }
            _ => 0,
        };
        Some((ground, place))
    }

    /// What meets each of these grounds but 4 and 21, which are about the buffers.
    pub fn given(&self, meets: impl Fn(u32) -> bool) -> Given {
        let certificate = if meets(22) { self.wrong_certificate() } else { certificate_of_each() };
        let (table, kept) = (table_that_meets(&meets, self.register), kept_that_meets(&meets, self.kept));
        Given { table, certificate, kept }
    }

    /// By how much the trimmed table and the list of numbers are too short.
    pub fn missing(&self, meets: impl Fn(u32) -> bool) -> [usize; 2] {
        self.short.map(|is_short| usize::from(is_short && meets(21)))
    }

    /// The certificate with the fault. Behind a variable that has one, no other has a fact either.
    fn wrong_certificate(&self) -> Vec<u8> {
        let mut certificate = certificate_of_each();
        // Every variable is of width 4.
        let fault: &[u8] = match self.certificate {
            CertificateFault::Short => {
                certificate.pop();
                return certificate;
            }
            CertificateFault::Long => {
                certificate.push(1);
                return certificate;
            }
            CertificateFault::FactZero => &[0, 0, 0, 0, 0, 0, 0, 0],
            CertificateFault::FactFour => &[4, 0, 0, 0, 0, 0, 0, 0],
            CertificateFault::TooWide => &[1, 0, 0, 0, 16, 0, 0, 0],
        };
        certificate[self.variable * 8..].fill(255);
        certificate[self.variable * 8..][..8].copy_from_slice(fault);
        certificate
    }
}

/// The certificate of one record of each sort.
fn certificate_of_each() -> Vec<u8> {
    certificate_of(one_of_each().as_flattened())
}

/// Every variable kept, again and again. For ground 20 the number at this place is the first that is not below
/// the number of records, and those behind it are larger still.
fn kept_that_meets(meets: impl Fn(u32) -> bool, place: usize) -> Vec<u16> {
    let n = one_of_each().len() as u16;
    let mut kept: Vec<u16> = (0..n).cycle().take(place + usize::from(n)).collect();
    if meets(20) {
        kept[place..].fill(u16::MAX);
        kept[place] = n;
    }
    kept
}

/// The grounds that a path call tries, in their order.
pub const PATH_GROUNDS: [u32; 12] = [1, 2, 3, 4, 5, 6, 7, 8, 9, 10, 11, 23];

/// Numbers that ground 23 turns away on one record of each sort: the variables that are open or always a number,
/// and numbers past the table, of which some have a marked variable in their low 16 bits.
pub const NOT_MARKED: [u32; 16] = [
    FIXED as u32,
    FREE as u32,
    CONSTANT as u32,
    OPERATOR as u32,
    8,
    9,
    255,
    256,
    4095,
    4096,
    65_535,
    65_536 + ENABLED as u32,
    65_536 * 65_535 + ENABLED as u32,
    1 << 31,
    u32::MAX - 1,
    u32::MAX,
];

/// Where a path call on one record of each sort meets those of its grounds that can be met at several places.
#[derive(Debug, Clone, Copy)]
pub struct PathFaults {
    /// The register that meets 5 to 10.
    pub register: usize,
    /// The number that meets 23.
    pub variable: u32,
}

impl PathFaults {
    /// The first of these grounds, which are met, and its place.
    pub fn first(&self, meets: impl Fn(u32) -> bool) -> Option<(u32, usize)> {
        let ground = PATH_GROUNDS.into_iter().find(|&ground| meets(ground))?;
        let place = match ground {
            5..=10 => self.register,
            11 => 1,
            23 => self.variable as usize,
            _ => 0,
        };
        Some((ground, place))
    }

    /// What meets each of these grounds but 3 and 4, which are about the buffers: a table and a number, which is
    /// that of a marked variable but for 23.
    pub fn given(&self, meets: impl Fn(u32) -> bool) -> (Vec<u8>, u32) {
        let variable = if meets(23) { self.variable } else { ENABLED as u32 };
        (table_that_meets(&meets, self.register), variable)
    }
}
