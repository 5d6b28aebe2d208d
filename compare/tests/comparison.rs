//! The library against the reference, and its properties, from fixed seeds.

use compare::comparison::{Check, Tally, cases, properties};

/// Runs a check's cases; each outcome that it can have must occur.
fn run(check: &Check) {
    let mut tally = Tally::default();
    for seed in 0..check.cases {
        if let Err(difference) = check.run_case(seed, &mut tally) {
            panic!("{}, seed {seed}: {difference}", check.name);
        }
    }
    println!("{}\n{tally}", check.name);
    assert_eq!(check.missing(&tally), [], "outcomes that never occurred");
}

#[test]
fn network_check() {
    run(&cases::NETWORK_CHECK);
}

#[test]
fn arc_arrival() {
    run(&cases::ARC_ARRIVAL);
}

#[test]
fn labels_and_passes() {
    run(&cases::LABELS);
}

#[test]
fn tables_check() {
    run(&cases::TABLES_CHECK);
}

#[test]
fn route() {
    run(&cases::ROUTE);
}

#[test]
fn sheet() {
    run(&cases::SHEET);
}

#[test]
fn load() {
    run(&cases::LOAD);
}

#[test]
fn name() {
    run(&cases::NAME);
}

#[test]
fn host_question() {
    run(&cases::HOST_QUESTION);
}

#[test]
fn arrivals() {
    run(&cases::ARRIVALS);
}

#[test]
fn sheet_program() {
    run(&cases::SHEET_PROGRAM);
}

#[test]
fn to_new() {
    run(&cases::TO_NEW);
}

#[test]
fn to_old() {
    run(&cases::TO_OLD);
}

#[test]
fn to_new_program() {
    run(&cases::TO_NEW_PROGRAM);
}

#[test]
fn to_old_program() {
    run(&cases::TO_OLD_PROGRAM);
}

#[test]
fn week_new() {
    run(&cases::WEEK_NEW);
}

#[test]
fn week_change() {
    run(&cases::WEEK_CHANGE);
}

#[test]
fn week_plan() {
    run(&cases::WEEK_PLAN);
}

#[test]
fn non_passing() {
    run(&properties::NON_PASSING);
}

#[test]
fn arc_by_ticks() {
    run(&properties::ARC_BY_TICKS);
}

#[test]
fn labels_by_walks() {
    run(&properties::LABELS_BY_WALKS);
}

#[test]
fn improvement() {
    run(&properties::IMPROVEMENT);
}

#[test]
fn day_later() {
    run(&properties::DAY_LATER);
}

#[test]
fn labels_rotated() {
    run(&properties::LABELS_ROTATED);
}

#[test]
fn one_interval() {
    run(&properties::ONE_INTERVAL);
}

#[test]
fn intervals_passed_on() {
    run(&properties::INTERVALS_PASSED_ON);
}

#[test]
fn labels_of_paths() {
    run(&properties::LABELS_OF_PATHS);
}

#[test]
fn labels_by_arcs() {
    run(&properties::LABELS_BY_ARCS);
}

#[test]
fn sheet_by_labels() {
    run(&properties::SHEET_BY_LABELS);
}

#[test]
fn sheet_shuffled() {
    run(&properties::SHEET_SHUFFLED);
}

#[test]
fn sheet_twice() {
    run(&properties::SHEET_TWICE);
}

#[test]
fn arc_held() {
    run(&properties::ARC_HELD);
}

#[test]
fn holds_as_arcs() {
    run(&properties::HOLDS_AS_ARCS);
}

#[test]
fn hold_table() {
    run(&properties::HOLD_TABLE);
}

#[test]
fn closures_as_intervals() {
    run(&properties::CLOSURES_AS_INTERVALS);
}

#[test]
fn more_closed() {
    run(&properties::MORE_CLOSED);
}

#[test]
fn same_ticks_closed() {
    run(&properties::SAME_TICKS_CLOSED);
}

#[test]
fn closed_at_start() {
    run(&properties::CLOSED_AT_START);
}

#[test]
fn closed_throughout() {
    run(&properties::CLOSED_THROUGHOUT);
}

#[test]
fn closure_list() {
    run(&properties::CLOSURE_LIST);
}

#[test]
fn others_closures() {
    run(&properties::OTHERS_CLOSURES);
}

#[test]
fn parties_exchanged() {
    run(&properties::PARTIES_EXCHANGED);
}

#[test]
fn own_or_both() {
    run(&properties::OWN_OR_BOTH);
}

#[test]
fn passes_of_paths() {
    run(&properties::PASSES_OF_PATHS);
}

#[test]
fn passes_renumbered() {
    run(&properties::PASSES_RENUMBERED);
}

#[test]
fn passes_twice() {
    run(&properties::PASSES_TWICE);
}

#[test]
fn own_tables() {
    run(&properties::OWN_TABLES);
}

#[test]
fn one_entry_changed() {
    run(&properties::ONE_ENTRY_CHANGED);
}

#[test]
fn tables_of_another() {
    run(&properties::TABLES_OF_ANOTHER);
}

#[test]
fn either_of_two_arcs() {
    run(&properties::EITHER_OF_TWO_ARCS);
}

#[test]
fn converted_as_written() {
    run(&properties::CONVERTED_AS_WRITTEN);
}

#[test]
fn there_and_back() {
    run(&properties::THERE_AND_BACK);
}

#[test]
fn converted_town() {
    run(&properties::CONVERTED_TOWN);
}

#[test]
fn comments_added() {
    run(&properties::COMMENTS_ADDED);
}

#[test]
fn refused_as_loaded() {
    run(&properties::REFUSED_AS_LOADED);
}

#[test]
fn plan_of_each_day() {
    run(&properties::PLAN_OF_EACH_DAY);
}

#[test]
fn store_by_history() {
    run(&properties::STORE_BY_HISTORY);
}

#[test]
fn earlier_versions() {
    run(&properties::EARLIER_VERSIONS);
}

#[test]
fn own_slot() {
    run(&properties::OWN_SLOT);
}

#[test]
fn refused_weeks() {
    run(&properties::REFUSED_WEEKS);
}

#[test]
fn made_anew() {
    run(&properties::MADE_ANEW);
}

#[test]
fn empty_slots() {
    run(&properties::EMPTY_SLOTS);
}

#[test]
fn plans_shuffled() {
    run(&properties::PLANS_SHUFFLED);
}

#[test]
fn versions_moved() {
    run(&properties::VERSIONS_MOVED);
}
