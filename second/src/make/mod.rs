//! Makers of inputs. What an input turns out to be is decided by the checker, never by its maker.

mod breaks;
mod damages;
mod groupings;
mod kinds;
mod levels;
mod limited;
mod lines;
mod lists;
mod pairs;
mod passing;
mod scripts;
mod shapes;
mod shelves;

pub use breaks::{breaking, changed_steps, damaged_out_of_reach, small_random_table, Place, Wanted, PLACES};
pub use damages::{bad_record, damage, label, mangled, misnumber, random_bytes};
pub use groupings::{any_grouping, by_first_appearance, grouping};
pub use kinds::{
    any_of_kinds, bus_of_limited, joinable_of_kinds, pair_of_kinds, passing_of_kind, small_joinable_of_kinds,
    third_limited_for, Kinds, JOINABLE_WITH_LIMITED, KINDS_WITH_LIMITED,
};
pub use levels::{
    any_level, bad_level, event, high_level, identifiers, low_level, near_level, observer, random_events, Role,
    QUIET_ROLES, ROLES,
};
pub use limited::{
    any_limited, any_refinement, breaking_behind_leaks, breaking_limited, breaking_limited_by, cross, damage_fine,
    exchange_columns, limited, limited_of_size, limited_to, refinement, small_limited,
};
pub use lines::{cut_line, line};
pub use lists::{
    any_count, any_list, breaking_list, breaking_list_at, bus_of_lists, damage_list, joinable_lists, list_of_size,
    listed, mislabel_list, mislabel_observers, misorder, observer_for, pair_of_lists, seeing_more,
    small_joinable_lists, small_list, staying_list, third_list_for, with_count, with_other_list, OtherList,
    OTHER_LISTS,
};
pub use pairs::{bus, joinable_pair, pair, regrouped, rename, small_joinable_pair, third_for, Clash, PairPlan};
pub use passing::{
    any_passing, full, passing_of_size, passing_with, passing_with_quiet_steps, small_passing, vary, Quiet,
    LITTLE_QUIET, SOME_QUIET,
};
pub use scripts::{
    any_calls, any_number, calls, calls_on_limited, calls_on_lists, capacity_needed, hookup_calls, malformed, session,
    session_on_limited, session_on_lists, Script,
};
pub use shapes::{
    passing_shaped, shaped, shaped_without_inputs, steps_of_shape, with_near_levels, with_quiet_events_internal,
    with_quiet_steps, Shape, SHAPES,
};
pub use shelves::{
    any_bytes, any_on_shelf, any_records, bare, behind_the_end, failing, failures_of, foreign, long, many_records,
    shelf_of, undescribed, without_end, Failure, NoEnd, NO_ENDS,
};
