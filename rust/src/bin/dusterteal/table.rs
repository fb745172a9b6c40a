//! A group's values as a table of text, as spreadsheets write it.
//!
//! One or two header lines name the columns of the nine days, in any order; title lines may stand above them, a line of units
//! below. Then come 96 rows, each with the time at which its quarter hour ends, 00:15 to 24:00, and nine values in watts for
//! 1,000 kWh a year, 0 to 2000.0 with one decimal.
mod header;
mod named_group;
mod watts;
mod words;

use std::ops::Range;

use slp::{Group, GROUP_VALUES};

use crate::amounts::Decimal;
use crate::clock::{self, Time, QUARTERS};
use crate::sheet::{self, Fault, Line};
use crate::text::quoted;

/// The days that have a column, in the order of the profile file.
pub const DAYS: [&str; 9] = [
    "winter weekday",
    "winter Saturday",
    "winter Sunday",
    "summer weekday",
    "summer Saturday",
    "summer Sunday",
    "transition weekday",
    "transition Saturday",
    "transition Sunday",
];

/// The day of the value at an index of a table.
pub fn day_of(index: usize) -> &'static str {
    DAYS[index / QUARTERS]
}

/// The end of its quarter hour.
pub fn until(index: usize) -> String {
    clock::label(index % QUARTERS)
}

/// What a value may be.
const ALLOWED: &str = "a value is 0 to 2000 W, with at most one decimal";

/// The fields of a row: the time and the nine days.
const WIDTH: usize = 1 + DAYS.len();

/// What a table has.
#[derive(Debug, Clone, PartialEq, Eq)]
pub struct Table {
    /// The group, where the table names it.
    pub group: Option<Group>,
    /// 864 values in tenths of a watt, that of a day and a position at 96 * day + position.
    pub values: Vec<u16>,
}

/// The table that a text has.
pub fn parse(text: &str) -> Result<Table, Fault> {
    let sheet = sheet::read(text, WIDTH)?;
    let header = header::parse(&sheet)?;
    let rows = &sheet.lines[header.length..];
    let mut values = vec![0; GROUP_VALUES];
    for position in 0..QUARTERS {
        let Some(row) = rows.get(position) else {
            return Err(sheet.fault_at_end(missing(position..QUARTERS)));
        };
        expect_time(rows, position)?;
        expect_width(row, sheet.separator)?;
        for (column, day) in (1..).zip(header.days) {
            let value = watts::parse(row.field(column));
            values[QUARTERS * day + position] =
                value.map_err(|what| row.fault_at(column, format!("{what}; {ALLOWED}")))?;
        }
    }
    match rows.get(QUARTERS) {
        Some(row) => Err(row.fault(format!(
            "{} stands behind the row of 24:00, the last of {QUARTERS}",
            quoted(row.first_filled())
        ))),
        None => Ok(Table {
            group: header.group,
            values,
        }),
    }
}

/// The row at a position must have the position's time. All rows before it have theirs.
fn expect_time(rows: &[Line], position: usize) -> Result<(), Fault> {
    let row = &rows[position];
    let time = row.field(0);
    if position == 0 && clock::parse(time) == Some(Time::Midnight) {
        return Err(row.fault(format!(
            "{time} stands first, so the times seem to name quarter hours by their beginning: a time here must be a \
             quarter hour's end, 00:15 to 24:00"
        )));
    }
    match position_of(row) {
        None => Err(row.fault_at(0, no_end(time, position))),
        Some(found) if found == position => Ok(()),
        Some(found) => Err(row.fault(out_of_order(rows, position, found))),
    }
}

/// The position that a row's time names. 0:00 is the end of the day: in the first row it is refused before.
fn position_of(row: &Line) -> Option<usize> {
    match clock::parse(row.field(0))? {
        Time::Ends(position) => Some(position),
        Time::Midnight => Some(QUARTERS - 1),
        Time::NoQuarter => None,
    }
}

/// Says what stands where the end of a quarter hour should.
fn no_end(time: &str, position: usize) -> String {
    let wanted = clock::label(position);
    match clock::parse(time) {
        Some(_) => format!("{time} is no end of a quarter hour: {wanted} should stand here"),
        None if time.is_empty() => format!("the time is missing: {wanted} should stand here"),
        None => format!("{} is no time: {wanted} should stand here", quoted(time)),
    }
}

/// Says what is wrong where a row of another time, that of `found`, stands at a position.
fn out_of_order(rows: &[Line], position: usize, found: usize) -> String {
    let time = rows[position].field(0);
    let wanted = clock::label(position);
    let mut later = rows[position..].iter().map(position_of);
    if found < position {
        format!("the row of {time} comes again: {wanted} should stand here")
    } else if later.any(|later| later == Some(position)) {
        format!("the row of {time} is out of order: that of {wanted} comes after it")
    } else {
        format!("{}: {time} stands here", missing(position..found))
    }
}

/// Says which rows are missing; there is one at least.
fn missing(positions: Range<usize>) -> String {
    let first = clock::label(positions.start);
    match positions.len() {
        1 => format!("the row of {first} is missing"),
        _ => {
            let last = clock::label(positions.end - 1);
            format!("the rows of {first} to {last} are missing")
        }
    }
}

/// A row must have as many fields as the header. Empty ones at its end do not count, but stand for values that are missing.
fn expect_width(row: &Line, separator: char) -> Result<(), Fault> {
    let (filled, found) = (row.width(), row.fields.len());
    if filled <= WIDTH && WIDTH <= found {
        return Ok(());
    }
    let found = if filled > WIDTH { filled } else { found };
    let fields = if found == 1 { "field" } else { "fields" };
    let mut what = format!("{found} {fields}, and the header has {WIDTH}");
    if separator == ',' && found > WIDTH + WIDTH / 2 {
        what += ": commas split the fields, so a value with a decimal comma must stand in quotes";
    }
    Err(row.fault(what))
}

/// The text of a table, with `;` and decimal commas. `values` has 864 entries.
pub fn format(group: Group, values: &[u16]) -> String {
    let mut text = format!("{group};{}\n", DAYS.join(";"));
    for position in 0..QUARTERS {
        text += &clock::label(position);
        for value in values.iter().skip(position).step_by(QUARTERS) {
            text.push(';');
            text += &Decimal::Comma.text(u64::from(*value), 1);
        }
        text.push('\n');
    }
    text
}

#[cfg(test)]
mod tests;
