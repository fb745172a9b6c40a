//! The lines of the table: what is measured.
use slp::{Group, RegionalDay, MOST_HOLIDAYS};

use crate::calls::{Calls, Work};
use crate::inputs::Inputs;

pub struct Line {
    /// Its name on the command line.
    pub name: &'static str,
    pub title: &'static str,
    /// How many figures, values or dates a call works on.
    pub units: usize,
    pub run: fn(&Calls, &Inputs, &mut Work),
}

fn expand(calls: &Calls, inputs: &Inputs, work: &mut Work, group: Group, first: u32, last: u32) {
    let request = inputs.request(group, first, last);
    work.expanded = Some((calls.expand)(&request, &mut work.out));
}

/// The day page of 2000.
fn print(calls: &Calls, inputs: &Inputs, work: &mut Work, group: Group) {
    let request = inputs.request(group, 20000101, 20001231);
    work.expanded = Some((calls.page)(&request, &mut work.buffer));
}

/// The holidays of every year with all regional days, one behind the other.
fn list_years(calls: &Calls, work: &mut Work) {
    for (year, list) in (1996..=2099).zip(work.out.chunks_exact_mut(MOST_HOLIDAYS)) {
        work.listed = Some((calls.holidays)(year, &RegionalDay::ALL, list));
    }
}

pub static LINES: [Line; 14] = [
    Line {
        name: "h0-year",
        title: "expand H0, 366 days",
        units: 35_136,
        run: |calls, inputs, work| expand(calls, inputs, work, Group::H0, 20000101, 20001231),
    },
    Line {
        name: "g0-year",
        title: "expand G0, 366 days",
        units: 35_136,
        run: |calls, inputs, work| expand(calls, inputs, work, Group::G0, 20000101, 20001231),
    },
    Line {
        name: "h0-longest",
        title: "expand H0, 1,461 days",
        units: 140_256,
        run: |calls, inputs, work| expand(calls, inputs, work, Group::H0, 20000101, 20031231),
    },
    Line {
        name: "g0-longest",
        title: "expand G0, 1,461 days",
        units: 140_256,
        run: |calls, inputs, work| expand(calls, inputs, work, Group::G0, 20000101, 20031231),
    },
    Line {
        name: "h0-day",
        title: "expand H0, 1 day",
        units: 96,
        run: |calls, inputs, work| expand(calls, inputs, work, Group::H0, 20000614, 20000614),
    },
    Line {
        name: "h0-large",
        title: "expand H0, 500,001 kWh",
        units: 35_136,
        run: |calls, inputs, work| {
            let mut request = inputs.request(Group::H0, 20000101, 20001231);
            request.yearly = 500_001;
            work.expanded = Some((calls.expand)(&request, &mut work.out));
        },
    },
    Line {
        name: "h0-exact",
        title: "expand H0, 35,136 long",
        units: 35_136,
        run: |calls, inputs, work| {
            let request = inputs.request(Group::H0, 20000101, 20001231);
            work.expanded = Some((calls.expand)(&request, &mut work.out[..35_136]));
        },
    },
    Line {
        name: "check",
        title: "check, 11 profiles",
        units: 9_504,
        run: |calls, inputs, work| work.answered = Some((calls.check)(&inputs.file, Group::L2)),
    },
    Line {
        name: "read",
        title: "read, 11 profiles",
        units: 9_504,
        run: |calls, inputs, work| {
            work.answered = Some((calls.read)(&inputs.file, Group::L2, &mut work.table));
        },
    },
    Line {
        name: "write",
        title: "write, 11 profiles",
        units: 9_504,
        run: |calls, inputs, work| {
            work.answered = Some((calls.write)(
                &inputs.groups,
                &inputs.values,
                &mut work.buffer,
            ));
        },
    },
    Line {
        name: "holidays",
        title: "holidays, 104 years",
        units: 1_767,
        run: |calls, _, work| list_years(calls, work),
    },
    Line {
        name: "deliveries",
        title: "deliveries H0, 12 months",
        units: 35_136,
        run: |calls, inputs, work| {
            let given = inputs.deliveries(Group::H0);
            work.answered = Some((calls.deliveries)(&given, &mut work.differences));
        },
    },
    Line {
        name: "h0-page",
        title: "page H0, 366 days",
        units: 35_136,
        run: |calls, inputs, work| print(calls, inputs, work, Group::H0),
    },
    Line {
        name: "g0-page",
        title: "page G0, 366 days",
        units: 35_136,
        run: |calls, inputs, work| print(calls, inputs, work, Group::G0),
    },
];

pub fn line(name: &str) -> Option<&'static Line> {
    LINES.iter().find(|line| line.name == name)
}
