//! Wrong variants, one at a time, for showing that a comparison notices them.
//!
//! Each is false unless the crate is built with `--cfg 'fault="its_name"'`.
//! They are constants, so the right build has no trace of them. The first six
//! are document 01's "Faults an inspector expects".

/// Choices are matched by position and not by label.
pub const BY_POSITION: bool = cfg!(fault = "by_position");

/// The new table's `+` is asked to be covered by the old one's.
pub const PLUS_COVERED_BY_OLD: bool = cfg!(fault = "plus_covered_by_old");

/// Stepping into an item of `!` does not turn left and right.
pub const TURN_IGNORED: bool = cfg!(fault = "turn_ignored");

/// The dual turns session items too.
pub const SESSION_ITEMS_TURNED: bool = cfg!(fault = "session_items_turned");

/// A pair is marked without its turn.
pub const MARKED_WITHOUT_TURN: bool = cfg!(fault = "marked_without_turn");

/// A pair that is met again is called a failure.
pub const MET_AGAIN_FAILS: bool = cfg!(fault = "met_again_fails");

/// The run to a mismatch is one of the shortest, but not the first in order.
pub const NOT_FIRST_IN_ORDER: bool = cfg!(fault = "not_first_in_order");

/// Of the refusals 2 to 7 the lowest number is given, not the least place.
pub const NUMBER_BEFORE_PLACE: bool = cfg!(fault = "number_before_place");
