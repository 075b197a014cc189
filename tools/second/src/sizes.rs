//! The sizes of a port and of the trace program.

/// "Stored input: 1,024 places."
pub const INPUT_PLACES: usize = 1_024;

/// "A line: 254 bytes and its delimiter."
pub const LINE_BYTES: usize = 254;

/// "Output queue: 2,048 bytes."
pub const OUTPUT_BYTES: usize = 2_048;

/// "A result above 65,535 becomes 65,528."
pub const LARGEST_COLUMN: u32 = 65_535;

/// The column that stands in for one above [`LARGEST_COLUMN`].
pub const COLUMN_INSTEAD: u32 = 65_528;

/// A foreground group is "a number 1..2,147,483,647".
pub const LARGEST_GROUP: u32 = 2_147_483_647;

/// A read record asks for a "2-byte count to 1,024".
pub const LARGEST_READ: usize = 1_024;

/// A write record holds "0 to 512" bytes.
pub const LARGEST_WRITE: usize = 512;

/// A transmit record asks for a "2-byte count to 2,048".
pub const LARGEST_TRANSMIT: usize = 2_048;

/// "At most 65,535 records are read".
pub const RECORDS: usize = 65_535;
