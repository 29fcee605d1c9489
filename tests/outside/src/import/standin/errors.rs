//! The errors that can be planted.

/// The error planted in a stand-in, if any.
#[derive(Clone, Copy)]
pub struct Planted(pub Option<Error>);

impl Planted {
    pub fn has(self, error: Error) -> bool {
        self.0 == Some(error)
    }
}

macro_rules! errors {
    ($($name:ident)*) => {
        #[derive(Clone, Copy, PartialEq, Eq, Debug)]
        pub enum Error {
            $($name,)*
        }

        pub const ERRORS: &[Error] = &[$(Error::$name,)*];
    };
}

errors! {
    // Lines.
    LastFeedBeginsALine
    UnfedLastLineIgnored
    UnfedLastLineRefused
    UnfedLastByteIgnored
    EmptyLinesPass
    EmptyLastLinePasses
    CarriageReturnStripped
    CarriageReturnEndsALine
    SpacesStrippedBehind
    SpacesStrippedBefore
    Byte0EndsTheText
    Byte0Stripped
    Only64Lines
    LinesFrom0
    LineIn16Bits
    LineIn8Bits
    RemarksNotCounted
    RemarksNotCountedAfterSizes
    // Remarks.
    RemarkNeedsASpace
    RemarkNeedsMoreThanItsLetter
    CapitalRemarkPasses
    RemarkOfPrintableBytes
    RemarkOf255Bytes
    RemarkNotAfterSizes
    RemarkNotBehindTheArcs
    RemarkTakesTheNextLine
    OtherLinesAreRemarks
    // Forms.
    TabsSeparate
    SpacesSeparate
    AnyByteSeparates
    MoreFieldsPass
    MoreFieldsPassOnSizes
    MoreBytesPass
    MoreBytesPassOnSizes
    CaseIgnored
    ProblemWordIgnored
    ProblemWordMissing
    // Numbers.
    TenDigitsPass
    AnyDigitsPass
    NineDigitsRefused
    DigitsIn8Bits
    ZerosNotCounted
    ZerosRefused
    OctalNumbers
    PlusPasses
    MinusPasses
    EmptyNumberIs0
    ColonIsADigit
    SlashIsADigit
    HighBitIgnored
    NumberRunsOnBehindTheText
    NodesIn16Bits
    ArcsIn16Bits
    EndsIn16Bits
    WeightIn16Bits
    // The order of lines.
    SecondSizesIgnored
    SecondSizesTaken
    EqualSecondSizesPass
    SecondSizesPassBehindTheArcs
    SecondSizesAtTheFirst
    ArcBeforeSizesPasses
    ArcBeforeSizesAtTheEnd
    ArcBeforeSizesIgnored
    TooManyPass
    OneTooManyPasses
    TooManyAtTheEnd
    TooManyAtTheLineBefore
    TooManyAndFaultyIs36
    TooFewPass
    TooFewAtSizes
    TooFewAtTheNextLine
    TooFewIs36
    NoSizesAt0
    NoSizesAtTheNextLine
    NoSizesPasses
    EmptyTextAt1
    SizesKeptFromTheCallBefore
    LastMalformedLineWins
    TooFewBeforeMalformed
    // Limits.
    ValuesAsTheyAreMet
    ValuesOfSizesAsTheyAreMet
    ValuesAre35
    LastOutsideWins
    SizesAfterArcs
    OutsideAtTheArcsNumber
    OutsideAtSizes
    EqualEndsPass
    Tail0Passes
    Head0Passes
    TailAbovePasses
    HeadAbovePasses
    TailAtNodesRefused
    HeadAtNodesRefused
    EndsHeldTo512
    Weight0Passes
    Weight2881Passes
    Weight2880Refused
    AnyWeightPasses
    Nodes0Pass
    Nodes513Pass
    Nodes512Refused
    OneNodeRefused
    AnyNodesPass
    Arcs2049Pass
    Arcs2048Refused
    Arcs0Refused
    SizesJudgedOnlyWithArcs
    TooManyArcsAre35
    // The file.
    NodesNotLowered
    HeadNotLowered
    EndsExchanged
    ArcsSorted
    ArcsReversed
    ParallelArcsOnce
    LastArcTwice
    WeightLowered
    LongestWeightIsThePeriod
    Period2879
    TwoCells
    HoursHeld
    LastPlaceInCell1
    NumberIs0
    NumberIn16Bits
    NumberSigned
    PointAtTick1
    TwoPoints
    ChecksExchanged
    CheckOfLastBlockMissing
    BlockNumbersFrom1
    FillNotWritten
    EmptyBlockBehindFullOnes
    // Lent memory.
    OutClearedOnRefusal
    OutClearedOn31
    OutClearedBehind
    ByteBehindTheFile
    ByteBehindOut
    ByteBeforeOut
    HeaderWrittenOn36
    FileCutOn31
    OutJudgedFirst
    OutJudgedBefore36
    OutNeedsAByteMore
    OutMayMissAByte
    OutHeldTo1024
    TextChanged
    TextEndedBy0
    // The answer.
    PlacesStay
    LengthStaysOnRefusal
    LengthInBlocks
    LengthToldOn31
    PlaceToldOn31
    ColumnTold
    NumberTold
    FifthCleared
    EntryBehindTheAnswer
    ThreeAreEnough
    AnswerJudgedAfterTheText
    ShortAnswerWritten
    OutWrittenOnAShortAnswer
    Returns0On36
    Returns1OnSuccess
}
