//! What the calls are measured on: a full file of eleven profiles with made-up values, and a list of holidays.
use slp::{file_length, Deliveries, Group, Request, GROUP_VALUES};

use crate::random::Random;

const PROFILES: usize = Group::ALL.len();

pub struct Inputs {
    pub groups: Vec<Group>,
    pub values: Vec<u16>,
    pub file: Vec<u8>,
    pub holidays: Vec<u32>,
}

/// Values without a pattern, from 0 to 2,500 tenths of a watt.
fn made_up_values() -> Vec<u16> {
    let mut random = Random::new(1);
    let mut value = || random.below(2_501) as u16;
    (0..PROFILES * GROUP_VALUES).map(|_| value()).collect()
}

/// Ten fixed days of each year from 1999 to 2004.
fn holidays() -> Vec<u32> {
    let days = [101, 421, 424, 501, 601, 612, 1003, 1031, 1225, 1226];
    (1999..=2004)
        .flat_map(|year| days.map(|day| 10_000 * year + day))
        .collect()
}

/// The first days of the months of 2000.
static MONTHS: [u32; 12] = [
    20000101, 20000201, 20000301, 20000401, 20000501, 20000601, 20000701, 20000801, 20000901,
    20001001, 20001101, 20001201,
];

impl Inputs {
    pub fn new() -> Inputs {
        let groups = Group::ALL.to_vec();
        let values = made_up_values();
        let mut file = vec![0; file_length(PROFILES)];
        slp::write(&groups, &values, &mut file).expect("the values are in range");
        Inputs {
            groups,
            values,
            file,
            holidays: holidays(),
        }
    }

    pub fn request(&self, group: Group, first: u32, last: u32) -> Request<'_> {
        Request {
            file: &self.file,
            group,
            first,
            last,
            holidays: &self.holidays,
            yearly: 3_500,
            carry: 0,
        }
    }

    /// The months of 2000, with about a twelfth of the yearly use each.
    pub fn deliveries(&self, group: Group) -> Deliveries<'_> {
        Deliveries {
            file: &self.file,
            group,
            first: 20000101,
            last: 20001231,
            starts: &MONTHS,
            metered: &[292; 12],
            holidays: &self.holidays,
            yearly: 3_500,
        }
    }
}
