//! What the ported module leans on and its folder does not have, as far as dates in UTC need it.

pub mod formatting_gen;
pub mod sqlstate;
pub mod timestamp;
pub mod timezone;

pub mod cost {
    use crate::error::Result;

    /// Counts the cost of a query, which is of no interest here.
    pub struct Meter;

    impl Meter {
        pub fn charge(&mut self, _units: i64) {}

        pub fn guard(&self) -> Result<()> {
            Ok(())
        }
    }
}

pub mod formatting_num {
    use crate::error::Result;

    /// The description of a number template; a date template has none.
    #[derive(Default)]
    pub struct NumDesc;

    impl NumDesc {
        pub fn prepare(&mut self, _id: u8) -> Result<()> {
            unreachable!("a number template")
        }
    }
}

pub mod interval {
    pub struct Interval {
        pub months: i32,
        pub days: i32,
        pub micros: i64,
    }
}

pub mod value {
    pub fn render_float_pg(value: f64, _single: bool) -> String {
        value.to_string()
    }
}
