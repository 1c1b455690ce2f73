//! Why a sheet, a car or a merge is turned away, with the numbers that the listing shows.

/// A refusal, numbered as on the rack card. They are tested by rising number, but 23 directly after
/// 15, 30 directly after 9, and 31 and 32 before all others of a car. 33 to 35 belong to two sheets that
/// are to be merged.
#[derive(Clone, Copy, Debug, PartialEq, Eq)]
#[repr(u32)]
pub enum Refusal {
    /// The answer buffer is too short for every listing, or the buffer of a merge for every merged sheet.
    AnswerBuffer = 1,
    /// The sheet is too long.
    SheetLength = 2,
    /// A line is due, but the sheet has ended or no line feed follows.
    LineMissing = 3,
    /// The first byte of a line is not a letter that may come next.
    Letter = 4,
    /// The length of a line is not its letter's.
    LineLength = 5,
    /// A field is not a number.
    Field = 6,
    /// The head of a table is out of range, repeats a type or is the fifth.
    TableHead = 7,
    /// A row of a table does not start it with zeros, does not rise or passes a limit.
    TableRow = 8,
    /// Too many lines of cars or strikes, a wrong count of cars, bytes after the last line, a train
    /// that has no place for a car, is past its limits or is not what its held cars make.
    Count = 9,
    /// The car number is out of range.
    CarNumber = 10,
    /// The train holds the car number.
    CarTwice = 11,
    /// No table has the car's type.
    Type = 12,
    /// There is no such grade or no such stick.
    GradeOrStick = 13,
    /// The number of readings is neither two nor four, or an unused reading is not 0.
    ReadingCount = 14,
    /// Two readings lie more than 1 mm apart.
    ReadingsApart = 15,
    /// The level is 0 or above what can be measured, or has no tape allowance.
    Level = 16,
    /// The water level is not below the mean level.
    WaterLevel = 17,
    /// The oil temperature is outside the grade's range.
    Temperature = 18,
    /// The density at 15 °C is outside the densimeter's range.
    Density15 = 19,
    /// Water or impurities exceed the grade's limit.
    WaterOrImpurities = 20,
    /// The density at 20 °C exceeds the grade's limit.
    Density20 = 21,
    /// The three readings used of four span more than 3 mm.
    ThreeApart = 23,
    /// A given error is out of its range.
    GivenError = 24,
    /// V0 is 0, or the level term of the permitted error is too large.
    LevelTerm = 25,
    /// The laboratory's temperature is out of its range.
    LaboratoryTemperature = 26,
    /// No density at 15 °C comes near enough to the laboratory's density.
    LaboratoryDensity = 27,
    /// The number of tape readings is out of its range.
    TapeReadingCount = 28,
    /// A tape reading that is given, or the stick level, is out of its range.
    StickOrTapeLevel = 29,
    /// The train does not hold the number that is to be struck.
    NotHeld = 30,
    /// A number of a probe is negative, infinite or not a number.
    ProbeNumber = 31,
    /// The tenths of a probe's number are more than eight digits hold.
    ProbeTenths = 32,
    /// Sheets to be merged have different rows for a type, or a held car whose type is not on its own sheet
    /// finds it on the other.
    MergedTables = 33,
    /// Sheets to be merged both hold a car number.
    HeldTwice = 34,
    /// More types or more cars remain than a merged sheet takes.
    MergedSize = 35,
}

impl Refusal {
    /// The number that the listing shows.
    pub const fn number(self) -> u32 {
        self as u32
    }
}

/// Refuses where the condition does not hold.
pub fn ensure(condition: bool, otherwise: Refusal) -> Result<(), Refusal> {
    if condition {
        Ok(())
    } else {
        Err(otherwise)
    }
}
