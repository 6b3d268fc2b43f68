//! The numbers of the layout, in units of a drawing.

/// The widest line.
pub const WIDEST: u32 = 920;
/// The room for the names of the lanes, if none has more than `NAME_LENGTH` characters.
pub const LEFT: u32 = 56;
const NAME_LENGTH: u32 = 7;
/// The characters of the longest name of a lane.
pub const LANE_LENGTH: usize = 20;
/// The room for a character of a label, and of a small one.
pub const CHARACTER: u32 = 7;
pub const SMALL_CHARACTER: u32 = 6;
/// The room for an event.
pub const EVENT_WIDTH: u32 = 12;
/// The least room for a gap.
const GAP_WIDTH: u32 = 44;
/// The room that is kept free after an event for an arrow.
pub const ARROW_ROOM: u32 = 46;
/// The height of a bar, without points and with them, and the room between two lanes.
pub const HEIGHT: u32 = 18;
pub const HEIGHT_WITH_POINTS: u32 = 34;
pub const LANE_GAP: u32 = 8;
/// The height of the numbers above the lanes.
pub const TOP: u32 = 22;
/// A figure that is no wider is drawn at one and a half.
pub const SMALL: u32 = 560;
/// The height of the row of times.
pub const TIME_HEIGHT: u32 = 12;
/// The height of the row of a nemesis.
pub const NEMESIS_HEIGHT: u32 = 16;
/// The characters of the longest label, and of the shortest one of which the middle is left out.
pub const LABEL_LENGTH: usize = 32;
pub const SHORTEST_CUT: usize = 6;
/// Of a large object the first `FIRST` events are drawn, or those around the focus, and at most
/// `MOST`.
pub const FIRST: usize = 160;
pub const MOST: usize = 400;
/// The most lanes of a figure.
pub const LANES: usize = 24;

/// The digits of a number.
pub fn digits(number: u64) -> u32 {
    number.checked_ilog10().unwrap_or(0) + 1
}

/// The room for the names of lanes of which the longest has n characters.
pub fn names_room(characters: u32) -> u32 {
    LEFT + characters.saturating_sub(NAME_LENGTH) * CHARACTER
}

/// The room for a label of n characters.
pub fn label_room(characters: u32) -> u32 {
    characters * CHARACTER + 14
}

/// The width of a gap of n maps, whose digits are in groups of three.
pub fn gap_width(count: u32) -> u32 {
    let digits = digits(u64::from(count));
    let characters = digits + (digits - 1) / 3 + 2;
    GAP_WIDTH.max(characters * SMALL_CHARACTER + 10)
}

/// The width of a point of this rank.
pub fn point_room(rank: u32) -> u32 {
    digits(u64::from(rank)) * CHARACTER + 8
}

/// The width of the column of a point of this rank.
pub fn point_width(rank: u32) -> u32 {
    point_room(rank) + 6
}

/// The width of the column of an event, with room for this many characters.
pub fn event_width(characters: u32) -> u32 {
    EVENT_WIDTH.max(characters * SMALL_CHARACTER + 8)
}
