//! A unit type carries its own fixed answers.

pub const ARMOUR: u8 = 0;
pub const MECHANISED: u8 = 1;
pub const INFANTRY: u8 = 2;
pub const MILITIA: u8 = 3;
pub const SPECIAL_INFANTRY: u8 = 4;
pub const SUPPLY_UNIT: u8 = 5;

pub fn casts_zone(kind: u8) -> bool {
    matches!(kind, ARMOUR | MECHANISED | INFANTRY | SPECIAL_INFANTRY)
}

pub fn may_attack(kind: u8) -> bool {
    kind != SUPPLY_UNIT
}

pub fn may_move_by_land(kind: u8) -> bool {
    kind != SUPPLY_UNIT
}

pub fn moves_in_mechanised_phase(kind: u8) -> bool {
    matches!(kind, ARMOUR | MECHANISED)
}

/// Types that are tried from the start, on the map and in the box.
pub fn always_tried(kind: u8) -> bool {
    matches!(kind, SPECIAL_INFANTRY | SUPPLY_UNIT)
}

/// Which nationalities have units of this type.
pub fn belongs_to(kind: u8, nationality: u8) -> bool {
    match kind {
        MILITIA => nationality == 3 || nationality == 4,
        SPECIAL_INFANTRY => nationality == 2,
        SUPPLY_UNIT => nationality <= 2,
        _ => true,
    }
}
