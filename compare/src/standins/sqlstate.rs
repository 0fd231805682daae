//! The error codes that the module and error.rs name.

macro_rules! states {
    ($($state:ident $code:literal)*) => {
        #[derive(Clone, Copy, PartialEq, Eq, Debug)]
        pub enum SqlState { $($state),* }

        impl SqlState {
            pub fn code(self) -> &'static str {
                match self { $(SqlState::$state => $code),* }
            }
        }
    };
}

states! {
    FeatureNotSupported "0A000"
    InvalidDatetimeFormat "22007"
    DatetimeFieldOverflow "22008"
    InvalidTimeZoneDisplacementValue "22009"
    InvalidTextRepresentation "22P02"
    NotNullViolation "23502"
    ForeignKeyViolation "23503"
    UniqueViolation "23505"
    CheckViolation "23514"
    ExclusionViolation "23P01"
    GeneratedAlways "428C9"
    UndefinedTable "42P01"
    DataCorrupted "XX001"
}
