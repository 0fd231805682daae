/// The version of the functions and records; a library of another does not link.
pub const VERSION: u32 = 4;
