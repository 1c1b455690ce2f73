//! The rules of the fuel oil sheet: from the bytes of a sheet to the bytes of its listing.
//!
//! [`answer_sheet`] is the whole of it, and [`merge::merge`] makes one sheet of two. The modules below
//! them hold one idea each and follow the order of the rules; [`sheets`] and [`conformance`] make
//! sheets to try programs on.

pub mod car;
pub mod conformance;
pub mod field;
pub mod laboratory;
pub mod level;
pub mod line;
pub mod listing;
pub mod mass;
pub mod merge;
pub mod operations;
pub mod permitted;
pub mod probe;
pub mod refusal;
pub mod rounding;
pub mod sheet;
pub mod sheets;
pub mod stick;
pub mod table;
pub mod thermal;
pub mod train;

pub use listing::{answer_sheet, ANSWER_BYTES};
pub use refusal::Refusal;
pub use sheet::SHEET_BYTES;
