//! What the tool says of itself.
use slp::RegionalDay;

use crate::regional;

/// What it says first.
pub const OVERVIEW: &str = "dusterteal: quarter-hour series from the VDEW load profiles

    dusterteal SUBCOMMAND ARGUMENTS OPTIONS

  series      the figures of a period as CSV
  sums        counts and energy of its days, months, quarters or years as CSV
  deliveries  metered minus balanced energy of a customer's reading periods as CSV
  days        a line for each day, as the program slp prints it
  page        a page to be printed, with a line of fixed width for each day
  explain     how one figure comes about
  day         the calendar of a period: t, weekday, season, day type and why
  holidays    the German holidays of a period, with the regional days of your choice, as a list
  check       whether a profile file or a table is accepted, and whether it is likely to be right
  compare     whether two groups or two files have the same values, or which cells differ

`dusterteal SUBCOMMAND --help` says what each takes; `dusterteal --help all` names three more, for binary files.
`dusterteal --version` prints the version.

For example:
    dusterteal series G0 2026-Q2 3500 --since 2026-01-01 --profiles G0.csv --holidays german -o series.csv

Exit status: 0 done, 1 refused or not accepted, 2 not understood, 3 could not read or write.
";

/// The subcommands that the first help leaves out.
pub const MORE: &str = "
Three more handle binary files:
  pack     a profile file of CSV tables
  unpack   a CSV table of a profile file's group
  request  the binary request that the program slp reads
";

const WORDS: &str = "
  GROUP   H0 (households), G0 to G6 (trade), L0 to L2 (farms), in capitals or not
  PERIOD  2026, 2026-Q2, 2026-03, 2026-03-26 or 2026-01-15..2026-02-14; also 26.03.2026; at most 1461 days
  KWH     the yearly use, a whole number from 0 to 1000000000
";

const WORDS_OF_EXPLAIN: &str = "
  GROUP   H0 (households), G0 to G6 (trade), L0 to L2 (farms), in capitals or not
  DATE    2000-10-29 or 29.10.2000
  TIME    the end of the quarter hour, 00:15 to 24:00; in October's doubled hour with its offset, 02:15+01:00
  KWH     the yearly use, a whole number from 0 to 1000000000
";

const WORDS_OF_DELIVERIES: &str = "
  GROUP   H0 (households), G0 to G6 (trade), L0 to L2 (farms), in capitals or not
  KWH     the yearly use by which the customer is balanced, a whole number from 0 to 1000000000
";

/// What the option `--holidays` takes, in a message.
pub const HOLIDAYS: &str =
    "german, german:NAME,.. with regional days, a file with one date a line, or none";

const SOURCES: &str = "
  --profiles FILE..     a profile file, or CSV tables, one for each group
";

const LISTS: &str = "  --holidays WHICH      german     the days of all of Germany, worked out
                        german:NAME,.. or german:all
                                   these and regional days, which `dusterteal holidays --help` names
                        FILE       a file with one date a line, with or without a name behind it, in place of german: it has
                                   to have the public holidays too (`dusterteal holidays` writes them); one that is called
                                   german or none is ./german, ./none
                        none       no day
                        A listed date counts as Sunday, also 24 and 31 December. Not listed, these two count as
                        Saturday (on a Sunday as Sunday); german lists neither.
";

const BEGINNING: &str = "  --since DATE          begin the run on DATE and write PERIOD alone, so that parts join to the whole
  --carry N             begin it with this carry, 0 to 39999, in 1/40000 Wh
                        Without either the run begins on the period's first day with carry 0.
";

const FILES: &str = "  -o FILE               write FILE and not standard output; - is standard output (and standard input where a file is read)
";

const LAST_CARRY: &str = "  --carry-out FILE      write the last carry to FILE
";

const ACCOUNT: &str = "  --about FILE          write how the series was made: arguments, version, the SHA-256 of tool and files, count, total, carry
";

const ENERGY_UNIT: &str = "  --unit Wh|kWh         what energy is written in; Wh without it
";

const DECIMALS: &str = "  --decimal comma|point how decimals are written; comma without it
";

/// What a subcommand takes.
pub fn of(name: &str) -> Option<String> {
    match name {
        "series" => Some(series()),
        "sums" => Some(sums()),
        "deliveries" => Some(deliveries()),
        "days" => Some(days()),
        "page" => Some(page()),
        "explain" => Some(explain()),
        "day" => Some(day()),
        "holidays" => Some(holidays()),
        "check" => Some(CHECK.to_owned()),
        "compare" => Some(format!("{COMPARE}{DECIMALS}{FILES}")),
        "pack" => Some(format!("{PACK}{FILES}")),
        "unpack" => Some(format!("{UNPACK}{FILES}")),
        "request" => Some(request()),
        _ => None,
    }
}

/// The help of a subcommand for a run of GROUP, PERIOD and KWH.
fn run(usage: &str, does: &str, options: &[&str]) -> String {
    run_of(usage, does, WORDS, options)
}

fn run_of(usage: &str, does: &str, words: &str, options: &[&str]) -> String {
    let usage = format!("dusterteal {usage} --profiles FILE.. --holidays german|FILE|none");
    format!(
        "{usage}\n\n{does}\n{words}{SOURCES}{LISTS}{}",
        options.concat()
    )
}

fn series() -> String {
    let does = "Writes the figures of a period as CSV, a line for each quarter hour: date;until;offset;Wh. `until` is its end, 00:15 to
24:00; `offset` tells October's two hours from 2 to 3 apart: the first has +02:00, the second +01:00.";
    let unit = "  --unit Wh|kWh|kW      what figures are written in; Wh without it
";
    let wide = "  --wide                a line for each day, with 100 columns of quarter hours; what a day does not have is empty
";
    run(
        "series GROUP PERIOD KWH",
        does,
        &[BEGINNING, unit, DECIMALS, wide, LAST_CARRY, ACCOUNT, FILES],
    )
}

fn sums() -> String {
    let does =
        "Writes counts and energy as CSV: period;days;values;Wh, and a last line with the total.";
    let by = "  --by day|month|quarter|year
                        what a line adds up; month without it
";
    run(
        "sums GROUP PERIOD KWH",
        does,
        &[
            by,
            BEGINNING,
            ENERGY_UNIT,
            DECIMALS,
            LAST_CARRY,
            ACCOUNT,
            FILES,
        ],
    )
}

fn deliveries() -> String {
    let does = "Writes metered energy, balanced energy and their difference of each reading period of a customer as CSV:
period;metered Wh;balanced Wh;difference Wh, and a last line with the total. The difference is metered minus balanced energy,
positive where the customer drew more (source document 001, equation 4.8). The balanced energy is that of the series from the
first period's first day on, begun with carry 0.";
    let readings = "  --readings FILE       a CSV file with a line for each period, 1 to 48, the oldest first: its first date (not the day at its end on
                        which the meter was read) and its metered kWh, a whole number (the period's energy, not what the meter
                        shows), split by a semicolon, a tab or a comma. A header as date;kWh or Datum;kWh may stand first; lines
                        that begin with # are passed over. A period ends the day before the next one begins
  --until DATE          the last day of the last period; 1461 days at most from the first
";
    run_of(
        "deliveries GROUP KWH --readings FILE --until DATE",
        does,
        WORDS_OF_DELIVERIES,
        &[readings, ENERGY_UNIT, DECIMALS, FILES],
    )
}

fn days() -> String {
    let does = "Writes a line for each day (date, season and day type, quarter hours, Wh) and a last line with days, quarter hours, Wh and
carry, as the program slp prints it: the run begins on the period's first day with carry 0. W is winter, S summer, T transition;
1 weekday, 2 Saturday, 3 Sunday.";
    run("days GROUP PERIOD KWH", does, &[FILES])
}

fn page() -> String {
    let does = "Writes a page to be printed, with a line of 38 bytes for each day: date (10), season and day type (2), how many quarter hours
(6) and their Wh (16), both right-aligned, with a space between two fields. The last line has \"total\", two hyphens and the sums. W is
winter, S summer, T transition; 1 weekday, 2 Saturday, 3 Sunday. The page has no heading, and the carry is not on it.";
    run(
        "page GROUP PERIOD KWH",
        does,
        &[BEGINNING, LAST_CARRY, FILES],
    )
}

fn explain() -> String {
    let does = "Says how the figure of one quarter hour comes about, line by line with its place in the papers: source document 000,
document 01 and the change requests of document 02. DATE, TIME and offset are those of a line of the series.";
    let beginning = "  --since DATE          the day on which the run begins: the first of the series that has the figure
  --carry N             the carry that it begins with, 0 to 39999, in 1/40000 Wh
                        Without either the run begins on DATE with carry 0, which a figure of a longer series need not have.
";
    run_of(
        "explain GROUP DATE TIME KWH",
        does,
        WORDS_OF_EXPLAIN,
        &[beginning, DECIMALS, FILES],
    )
}

fn day() -> String {
    format!(
        "dusterteal day PERIOD [--holidays german|FILE|none]

Writes the calendar of a period as CSV: t;date;weekday;season;day type;why;values. PERIOD is as in `series`, of any length. Without
--holidays no day is listed. `why` is the first of these that settles the day type: Sunday; listed, with the name; 24 or 31 December,
not listed; Saturday; Monday to Friday.

{LISTS}{FILES}"
    )
}

fn holidays() -> String {
    let names: String = RegionalDay::ALL
        .map(|day| {
            format!(
                "\n                          {:<17}{}",
                regional::word(day),
                day.german_name()
            )
        })
        .concat();
    format!(
        "dusterteal holidays PERIOD [--regional NAME,..] [--state STATE]

Writes the German holidays of a period, one date a line with its name: the eleven days that all of Germany keeps, and the regional
days that are asked for. PERIOD is as in `series`, of any length in 1996 to 2099. `--holidays` reads the list; to have the same days
in a run without a file, say --holidays german or --holidays german:NAME,.. there. 24 and 31 December are no public holidays and
not listed: they count as Saturday (on a Sunday as Sunday). Where an agreement makes one of them a full holiday, put a line with
its date into the list, 2026-12-24 works agreement, and it counts as Sunday.

  --regional NAME,..    regional days, beside those of --state; or all; or none, as without it. A name is in English or German, with
                        hyphens for blanks:{names}
  --state STATE         the regional days of a state, by its name or code (Bayern, Bavaria, BY), as source document 000 has them for
                        the year 2000; days of some communities alone are left out, and the list says which: --regional adds them
{FILES}"
    )
}

fn request() -> String {
    run(
        "request GROUP PERIOD KWH",
        "Makes the binary request that the program slp reads.",
        &[FILES],
    )
}

const CHECK: &str = "dusterteal check FILE [GROUP]

Says whether a profile file or a CSV table is accepted, with its groups, or what is wrong with it and where. Then, for each group or
the one that is named, its energy in the year 2000 with the holidays of source document 000, for 1000 kWh a year. It warns on
standard error where that is more than 1.5 % off, where values look like kW or Wh, where two day tables are equal, and where a trade
profile's Sunday lies above its weekday (but for G6, trade at the weekend). A warning is no refusal.
";

const COMPARE: &str = "dusterteal compare FILE GROUP GROUP
dusterteal compare OLD NEW [GROUP]

Says for two groups of a file, or for each group of two files, or for the one that is named, that they are alike, or which of their 864
values differ: day;until and the watts of both. Files are profile files or CSV tables. The exit status is 0 in either case.

";

const PACK: &str = "dusterteal pack TABLE.csv.. -o FILE.slp

Makes a profile file of CSV tables, one for each group.

";

const UNPACK: &str = "dusterteal unpack FILE.slp GROUP [-o TABLE.csv]

Makes a CSV table of a group of a profile file.

";
