//! The built tool `dusterteal`: what each subcommand and option writes, what is refused and in which words, and that nothing is half
//! written.
mod about;
mod calendar;
mod check;
mod command_line;
mod compare;
mod days;
mod deliveries;
#[allow(dead_code)] // the tests of the calls use the rest
#[path = "../draw/mod.rs"]
mod draw;
mod drawn;
mod expected;
mod explain;
mod files;
mod german;
mod holiday_list;
mod holidays;
mod joining;
mod made;
mod packing;
mod page;
#[allow(dead_code)] // likewise
#[path = "../profile_file/mod.rs"]
mod profile_file;
mod refusals;
#[path = "../repository/mod.rs"]
mod repository;
mod series;
mod sums;
mod tables;
mod tool;
