//! The calls as C has them: a group is any byte, a choice of regional days too, and an answer is numbers, with zeros where the call is
//! refused. The functions of the crate's root take a [`Group`](crate::Group) or a list of [`RegionalDay`](crate::RegionalDay) and
//! answer a `Result`. The structs are those of `include/slp.h`.
#![allow(unsafe_code)]

/// Passed (number 0, place 0) or refused.
#[repr(C)]
#[derive(Debug, Clone, Copy, PartialEq, Eq)]
pub struct CheckReport {
    /// The number of the question that refused the call, else 0.
    pub number: u32,
    /// The place that the question names, else 0.
    pub place: usize,
}

/// A part of the lent file.
#[repr(C)]
#[derive(Debug, Clone, Copy, PartialEq, Eq)]
pub struct LocatedPart {
    /// Where in the file it begins.
    pub offset: usize,
    /// How many bytes it has; 0 where the call is refused.
    pub length: usize,
}

/// The answer of comparing.
#[repr(C)]
#[derive(Debug, Clone, Copy, PartialEq, Eq)]
pub struct ComparisonReport {
    /// The number of the question that refused the call, else 0.
    pub number: u32,
    /// The place that the question names, else 0.
    pub place: usize,
    /// 1 where all values agree, else 0.
    pub alike: u32,
}

/// The answer of the day enquiry.
#[repr(C)]
#[derive(Debug, Clone, Copy, PartialEq, Eq)]
pub struct DayReport {
    /// The number of the question that refused the call, else 0.
    pub number: u32,
    /// The place that the question names, else 0.
    pub place: usize,
    /// 1 Monday to 7 Sunday.
    pub weekday: u32,
    /// The day of the year, from 1.
    pub t: u32,
    /// 1 winter, 2 summer, 3 transition.
    pub season: u32,
    /// 1 weekday, 2 Saturday, 3 Sunday.
    pub day_type: u32,
    /// 92, 96 or 100.
    pub value_count: u32,
}

/// The answer of expanding and of the day page.
#[repr(C)]
#[derive(Debug, Clone, Copy, PartialEq, Eq)]
pub struct ExpansionReport {
    /// The number of the question that refused the call, else 0.
    pub number: u32,
    /// The place that the question names, else 0.
    pub place: usize,
    /// How many figures the series has.
    pub count: usize,
    /// Their sum in Wh.
    pub total: u64,
    /// What is left over, in 1/40,000 Wh.
    pub carry: u32,
}

/// The answer of responding.
#[repr(C)]
#[derive(Debug, Clone, Copy, PartialEq, Eq)]
pub struct ResponseReport {
    /// The number of the question that refused the call, else 0.
    pub number: u32,
    /// The place that the question names, else 0.
    pub place: usize,
    /// How many bytes were written.
    pub length: usize,
}

/// The answer of listing holidays.
#[repr(C)]
#[derive(Debug, Clone, Copy, PartialEq, Eq)]
pub struct HolidaysReport {
    /// The number of the question that refused the call, else 0.
    pub number: u32,
    /// The place that the question names, else 0.
    pub place: usize,
    /// How many dates were written.
    pub length: usize,
}

/// What expanding is given beside its output, and the day page beside the page.
#[derive(Debug, Clone, Copy, PartialEq, Eq)]
pub struct Request<'a> {
    /// A profile file.
    pub file: &'a [u8],
    /// The group's code.
    pub group: u8,
    /// The first date, yyyymmdd.
    pub first: u32,
    /// The last date, included.
    pub last: u32,
    /// The holidays.
    pub holidays: &'a [u32],
    /// The yearly use in kWh.
    pub yearly: u32,
    /// The carry in 1/40,000 Wh.
    pub carry: u32,
}

/// What the over and under deliveries are worked out from.
#[derive(Debug, Clone, Copy, PartialEq, Eq)]
pub struct Deliveries<'a> {
    /// A profile file.
    pub file: &'a [u8],
    /// The group's code.
    pub group: u8,
    /// The first date of the whole span, yyyymmdd.
    pub first: u32,
    /// Its last date, included.
    pub last: u32,
    /// The first date of each reading period.
    pub starts: &'a [u32],
    /// The metered kWh of each period.
    pub metered: &'a [u32],
    /// The holidays.
    pub holidays: &'a [u32],
    /// The yearly use in kWh.
    pub yearly: u32,
}

extern "C" {
    fn slp_check(file: *const u8, file_length: usize, group: u8) -> CheckReport;
    fn slp_locate(file: *const u8, file_length: usize, group: u8) -> LocatedPart;
    fn slp_read(
        file: *const u8,
        file_length: usize,
        group: u8,
        table: *mut u16,
        table_length: usize,
    ) -> CheckReport;
    fn slp_write(
        codes: *const u8,
        codes_length: usize,
        values: *const u16,
        values_length: usize,
        buffer: *mut u8,
        buffer_length: usize,
    ) -> CheckReport;
    fn slp_compare(file: *const u8, file_length: usize, first: u8, second: u8) -> ComparisonReport;
    fn slp_day(date: u32, holidays: *const u32, holidays_length: usize) -> DayReport;
    fn slp_expand(
        file: *const u8,
        file_length: usize,
        group: u8,
        first: u32,
        last: u32,
        holidays: *const u32,
        holidays_length: usize,
        yearly: u32,
        carry: u32,
        out: *mut u32,
        out_length: usize,
    ) -> ExpansionReport;
    fn slp_respond(
        input: *const u8,
        input_length: usize,
        page: *mut u8,
        page_length: usize,
    ) -> ResponseReport;
    fn slp_holidays(year: u32, choice: u8, list: *mut u32, list_length: usize) -> HolidaysReport;
    fn slp_deliveries(
        file: *const u8,
        file_length: usize,
        group: u8,
        first: u32,
        last: u32,
        starts: *const u32,
        starts_length: usize,
        metered: *const u32,
        metered_length: usize,
        holidays: *const u32,
        holidays_length: usize,
        yearly: u32,
        out: *mut i64,
        out_length: usize,
    ) -> CheckReport;
    fn slp_page(
        file: *const u8,
        file_length: usize,
        group: u8,
        first: u32,
        last: u32,
        holidays: *const u32,
        holidays_length: usize,
        yearly: u32,
        carry: u32,
        page: *mut u8,
        page_length: usize,
    ) -> ExpansionReport;
}

// Each pointer and length below is that of one slice, borrowed for the length of the call, as `slp.h` asks; a `&mut` overlaps
// no other borrow.

/// `slp_check`.
pub fn check(file: &[u8], group: u8) -> CheckReport {
    unsafe { slp_check(file.as_ptr(), file.len(), group) }
}

/// `slp_locate`.
pub fn locate(file: &[u8], group: u8) -> LocatedPart {
    unsafe { slp_locate(file.as_ptr(), file.len(), group) }
}

/// `slp_read`.
pub fn read(file: &[u8], group: u8, table: &mut [u16]) -> CheckReport {
    unsafe {
        slp_read(
            file.as_ptr(),
            file.len(),
            group,
            table.as_mut_ptr(),
            table.len(),
        )
    }
}

/// `slp_write`.
pub fn write(codes: &[u8], values: &[u16], buffer: &mut [u8]) -> CheckReport {
    unsafe {
        slp_write(
            codes.as_ptr(),
            codes.len(),
            values.as_ptr(),
            values.len(),
            buffer.as_mut_ptr(),
            buffer.len(),
        )
    }
}

/// `slp_compare`.
pub fn compare(file: &[u8], first: u8, second: u8) -> ComparisonReport {
    unsafe { slp_compare(file.as_ptr(), file.len(), first, second) }
}

/// `slp_day`.
pub fn day(date: u32, holidays: &[u32]) -> DayReport {
    unsafe { slp_day(date, holidays.as_ptr(), holidays.len()) }
}

/// `slp_expand`.
pub fn expand(request: &Request, out: &mut [u32]) -> ExpansionReport {
    unsafe {
        slp_expand(
            request.file.as_ptr(),
            request.file.len(),
            request.group,
            request.first,
            request.last,
            request.holidays.as_ptr(),
            request.holidays.len(),
            request.yearly,
            request.carry,
            out.as_mut_ptr(),
            out.len(),
        )
    }
}

/// `slp_respond`.
pub fn respond(input: &[u8], page: &mut [u8]) -> ResponseReport {
    unsafe { slp_respond(input.as_ptr(), input.len(), page.as_mut_ptr(), page.len()) }
}

/// `slp_holidays`. Bits 0 to 5 of `choice` are those of [`RegionalDay`](crate::RegionalDay).
pub fn holidays(year: u32, choice: u8, list: &mut [u32]) -> HolidaysReport {
    unsafe { slp_holidays(year, choice, list.as_mut_ptr(), list.len()) }
}

/// `slp_deliveries`.
pub fn deliveries(given: &Deliveries, out: &mut [i64]) -> CheckReport {
    unsafe {
        slp_deliveries(
            given.file.as_ptr(),
            given.file.len(),
            given.group,
            given.first,
            given.last,
            given.starts.as_ptr(),
            given.starts.len(),
            given.metered.as_ptr(),
            given.metered.len(),
            given.holidays.as_ptr(),
            given.holidays.len(),
            given.yearly,
            out.as_mut_ptr(),
            out.len(),
        )
    }
}

/// `slp_page`.
pub fn page(request: &Request, page: &mut [u8]) -> ExpansionReport {
    unsafe {
        slp_page(
            request.file.as_ptr(),
            request.file.len(),
            request.group,
            request.first,
            request.last,
            request.holidays.as_ptr(),
            request.holidays.len(),
            request.yearly,
            request.carry,
            page.as_mut_ptr(),
            page.len(),
        )
    }
}
