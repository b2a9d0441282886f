//! Which families and which damage come how often, and how a file is made of them.

use crate::block::{Block, file_of, hex_lines};
use crate::damage::{clauses, file, lines, table};
use crate::edges::{calls, cells, counts, gaps};
use crate::families;
use crate::limits;
use crate::rng::Rng;

type Family = fn(&mut Rng) -> Block;

/// How often each ordinary family comes.
const ORDINARY: &[(usize, &str, Family)] = &[
    (200_000, "tiny", families::tiny),
    (160_000, "covered", families::covered),
    (120_000, "enumerations", families::enumerations),
    (110_000, "all_kinds", families::all_kinds),
    (90_000, "recursive", families::recursive),
    (80_000, "lists", families::lists),
    (80_000, "literals", families::literals),
    (70_000, "records", families::records),
    (60_000, "tuples", families::tuples),
    (50_000, "pairs", families::pairs),
    (20_000, "no_clauses", families::no_clauses),
    (2_000, "deep_lists", families::deep_lists),
    (2_000, "tuples_of_eight", families::tuples_of_eight),
    (2_000, "large", families::large),
    (400, "many_calls", families::many_calls),
];

/// How often each family at a limit of counts comes.
const COUNTS: &[(usize, &str, Family)] = &[
    (2_000, "flat_clauses", counts::flat_clauses),
    (2_000, "many_types", counts::many_types),
    (2_000, "many_constructors", counts::many_constructors),
    (2_000, "wide_type", counts::wide_type),
    (2_000, "longest_line", counts::longest_line),
    (1_000, "longest_file", counts::longest_file),
    (300, "most_nodes", counts::most_nodes),
];

/// How often each family at a limit of work, or of the report, comes.
const WORK: &[(usize, &str, Family)] = &[
    (120, "calls_first", calls::first_kind),
    (120, "calls_second", calls::second_kind),
    (800, "cells_first", cells::first_kind),
    (600, "cells_second", cells::second_kind),
    (300, "nested_records", cells::nested_records),
    (60, "deep_first", cells::deep_first),
    (120, "deep_second", cells::deep_second),
    (1, "deepest_first", cells::deepest_first),
    (1, "deepest_second", cells::deepest_second),
    (500, "many_gaps", gaps::many),
    (1_000, "most_gaps", gaps::most_nodes),
    (1_000, "longest_report", gaps::longest_report),
];

/// Where a fault is put.
enum Damage {
    Clauses(fn(&mut Rng, &mut Block)),
    Table(fn(&mut Rng, &mut Block)),
    Lines(fn(&mut Rng, &mut Vec<Vec<u8>>)),
    File(fn(&mut Rng, &mut Vec<u8>)),
}

/// How often each fault comes.
const DAMAGE: &[(usize, &str, Damage)] = &[
    (
        1_800,
        "unsuited_part",
        Damage::Clauses(clauses::unsuited_part),
    ),
    (1_000, "bad_part", Damage::Clauses(clauses::bad_part)),
    (1_000, "wrong_count", Damage::Clauses(clauses::wrong_count)),
    (100, "long_clause", Damage::Clauses(clauses::long_clause)),
    (
        100,
        "too_many_clauses",
        Damage::Clauses(clauses::too_many_clauses),
    ),
    (
        30,
        "too_many_nodes",
        Damage::Clauses(clauses::too_many_nodes),
    ),
    (
        15,
        "too_many_bytes",
        Damage::Clauses(clauses::too_many_bytes),
    ),
    (600, "bad_reference", Damage::Table(table::bad_reference)),
    (
        500,
        "no_finite_value",
        Damage::Table(table::no_finite_value),
    ),
    (
        500,
        "repeated_constructor",
        Damage::Table(table::repeated_constructor),
    ),
    (500, "bad_name", Damage::Table(table::bad_name)),
    (400, "bad_type", Damage::Table(table::bad_type)),
    (400, "wrong_flag", Damage::Table(table::wrong_flag)),
    (300, "repeated_label", Damage::Table(table::repeated_label)),
    (
        300,
        "labels_without_fields",
        Damage::Table(table::labels_without_fields),
    ),
    (80, "too_many_types", Damage::Table(table::too_many_types)),
    (
        80,
        "too_many_in_one_type",
        Damage::Table(table::too_many_in_one_type),
    ),
    (
        40,
        "too_many_constructors",
        Damage::Table(table::too_many_constructors),
    ),
    (2_000, "change_byte", Damage::Lines(lines::change_byte)),
    (600, "drop_digits", Damage::Lines(lines::drop_digits)),
    (600, "add_digits", Damage::Lines(lines::add_digits)),
    (600, "remove_line", Damage::Lines(lines::remove_line)),
    (500, "swap_lines", Damage::Lines(lines::swap_lines)),
    (500, "repeat_line", Damage::Lines(lines::repeat_line)),
    (400, "move_line", Damage::Lines(lines::move_line)),
    (
        400,
        "change_character",
        Damage::Lines(lines::change_character),
    ),
    (400, "unknown_frame", Damage::Lines(lines::unknown_frame)),
    (400, "after_end", Damage::Lines(lines::after_end)),
    (300, "no_end", Damage::Lines(lines::no_end)),
    (300, "upper_case", Damage::Lines(lines::upper_case)),
    (200, "empty_line", Damage::Lines(lines::empty_line)),
    (400, "cut", Damage::File(file::cut)),
    (300, "no_last_feed", Damage::File(file::no_last_feed)),
    (
        200,
        "carriage_returns",
        Damage::File(file::carriage_returns),
    ),
    (200, "odd_start", Damage::File(file::odd_start)),
    (15, "too_long", Damage::File(file::too_long)),
];

const TWO_FAULTS: usize = 15;

/// All families.
pub fn families() -> impl Iterator<Item = &'static (usize, &'static str, Family)> + Clone {
    ORDINARY.iter().chain(COUNTS).chain(WORK)
}

/// A block of one of these families; one whose type table overfills the file is made anew.
fn some_block(
    rng: &mut Rng,
    of: impl Iterator<Item = &'static (usize, &'static str, Family)> + Clone,
) -> Block {
    loop {
        let chosen = rng.weighted(of.clone().map(|(weight, _, _)| *weight));
        let (_, _, family) = of
            .clone()
            .nth(chosen)
            .expect("the place is that of a family");
        let block = family(rng);
        if block.size <= limits::FILE_BYTES {
            return block;
        }
    }
}

/// The file of a block.
pub fn written(block: &Block) -> Vec<u8> {
    file_of(&hex_lines(&block.frames()))
}

/// A well formed file.
pub fn well(rng: &mut Rng) -> Vec<u8> {
    written(&some_block(rng, families()))
}

/// A file with one fault, at times with two.
pub fn damaged(rng: &mut Rng) -> Vec<u8> {
    let count = 1 + usize::from(rng.percent(TWO_FAULTS));
    let weights = DAMAGE.iter().map(|(weight, _, _)| *weight);
    let faults: Vec<&Damage> = (0..count)
        .map(|_| &DAMAGE[rng.weighted(weights.clone())].2)
        .collect();
    with_faults(rng, &faults)
}

/// A file of that family, or with that fault; nothing where no such name is.
pub fn by_name(rng: &mut Rng, name: &str) -> Option<Vec<u8>> {
    if let Some((_, _, family)) = families().find(|(_, family, _)| *family == name) {
        return Some(written(&family(rng)));
    }
    let (_, _, fault) = DAMAGE.iter().find(|(_, fault, _)| *fault == name)?;
    Some(with_faults(rng, &[fault]))
}

/// A file with these faults; clauses suffer first, since they are written by the table.
fn with_faults(rng: &mut Rng, faults: &[&Damage]) -> Vec<u8> {
    let mut block = some_block(rng, ORDINARY.iter().chain(COUNTS));
    for fault in faults {
        if let Damage::Clauses(fault) = fault {
            fault(rng, &mut block);
        }
    }
    for fault in faults {
        if let Damage::Table(fault) = fault {
            fault(rng, &mut block);
        }
    }
    let mut lines = hex_lines(&block.frames());
    for fault in faults {
        if let Damage::Lines(fault) = fault
            && !lines.is_empty()
        {
            fault(rng, &mut lines);
        }
    }
    let mut file = file_of(&lines);
    for fault in faults {
        if let Damage::File(fault) = fault {
            fault(rng, &mut file);
        }
    }
    file
}
