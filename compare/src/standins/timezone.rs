//! Zones: a fixed offset, in seconds east. Zones by name are left out.

use crate::timestamp::{NEG_INFINITY, POS_INFINITY};
use std::convert::Infallible;

pub enum ZoneRef {
    Fixed(i32),
    #[allow(dead_code)]
    Zone(Infallible),
}

pub struct Offset {
    pub utoff: i32,
    pub abbrev: String,
}

pub fn offset_at_ref(zone: &ZoneRef, _second: i64) -> Offset {
    match zone {
        ZoneRef::Fixed(east) => Offset { utoff: *east, abbrev: String::new() },
        ZoneRef::Zone(never) => match *never {},
    }
}

fn micros_east(zone: &ZoneRef) -> i64 {
    i64::from(offset_at_ref(zone, 0).utoff) * 1_000_000
}

fn finite(micros: Option<i64>) -> Option<i64> {
    micros.filter(|&t| t != NEG_INFINITY && t != POS_INFINITY)
}

pub fn local_to_instant_micros(zone: &ZoneRef, wall: i64) -> Option<i64> {
    finite(wall.checked_sub(micros_east(zone)))
}

pub fn instant_to_local_micros(zone: &ZoneRef, instant: i64) -> Option<i64> {
    finite(instant.checked_add(micros_east(zone)))
}
