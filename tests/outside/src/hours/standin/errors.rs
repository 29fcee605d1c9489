//! The errors that can be planted, by subject.

macro_rules! errors {
    ($($subject:ident { $($name:ident)* })*) => {
        $(
            #[derive(Clone, Copy, PartialEq, Eq, Debug)]
            pub enum $subject {
                $($name,)*
            }

            impl From<$subject> for Error {
                fn from(error: $subject) -> Error {
                    Error::$subject(error)
                }
            }
        )*

        #[derive(Clone, Copy, PartialEq, Eq, Debug)]
        pub enum Error {
            $($subject($subject),)*
        }

        const ALL: &[Error] = &[$($(Error::$subject($subject::$name),)*)*];
    };
}

errors! {
    // Byte 24, the kinds and the lengths.
    Form {
        Byte24IsFill
        Byte25IsNoFill
        Above1Is1
        Above1Is0
        LowBitAlone
        Above1Is3
        Above1AfterTheForms
        Kind2Under1
        Kind9Under0
        AnyKind
        KindOfTheFirstBlockAlone
        PlacesBy250
        PlacesBy84
        PlacesUnder0By83
        EntriesNotLookedAt
        FillNotLookedAt
        FillNotLookedAtUnder1
        Most554
        Most554Under0
        Most557
        Most559
    }
    // Refusal 37.
    Judged {
        Never
        OpenAtClosePasses
        OpenAboveClosePasses
        CloseAtPIsRefused
        CloseAbovePPasses
        CloseUpTo2880
        OpenBelowPIsEnough
        InSignedBits
        NotTheFirstPlace
        NotTheLastPlace
        Before7
        PlaceByPlaceWith7
        After8
        After10
        TickInPlaceOfThePlace
        CloseInPlaceOfThePlace
        LastPlaceWins
        PlaceIs0
        PlaceFrom1
        CellInPlaceOfThePlace
        NumberIs7
        In8Bits
    }
    // What open leaves and tells.
    Opened {
        OpensExchangedForCloses
        OpensUnder0Stay
        ClosesUnder0Stay
        ClosesUnder0Are2880
        ClosesUnder0Are0
        OpensShortPass
        ClosesShortPass
        TablesUnder0NotLookedAt
        ClearedBehind
        WrittenOn37
        WrittenOn30
        HoursNotTold
        HoursToldAs1
        AllDayToldAs0
        NineAreEnough
        HoursToldOnRefusal
        OpensOfTheNextPlace
    }
    // What pack writes.
    Packed {
        HoursUnder0Pass
        HoursUnder0Are4
        HoursUnder0PassIfRight
        OpenUnder0NotLookedAt
        CloseUnder0NotLookedAt
        AllDayUnder0Is2880
        AllDayUnder1LosesHours
        NumberAbove1Is1
        NumberIn8Bits
        NumberIn16Bits
        LowBitOfTheNumber
        ByteStays0
        ByteAlways1
        Kind2ForHours
        Kind9ForAll
        BlocksOf82
        OpensExchangedForCloses
        ClosesDropped
        OpensShortPass
        ClosesShortPass
        TablesUnder0NotLookedAt
        Before30
        After31
        WrittenOn37
    }
    // The open tick.
    OpenTick {
        CloseIncluded
        ArrivalsTickLeftOut
        FirstOpenTickLeftOut
        LastOpenTickLeftOut
        OfTheSource
        OfTheDeparture
        NotMovedToTheNextDay
        StaysAtTheArrival
        TheNextDaysAlways
        TwoDaysOn
        NextDayAtTick0
        ReducedModuloP
        DayOfTheDeparture
        FirstDayAlone
        TickOfTheDay
        WaitInPlaceOfTheTick
        DayOf2880Ticks
        DaysLastTickIsShut
        OwnPlaceIs0
        OwnPlaceOpensAtOnce
        Under0Is0
        Under0NotWritten
        ToldOn28
        ToldOn29
        NotOnFlaggedTrips
        FiveAreEnough
        ShownBeforeTheCount
        WrittenBehind
    }
    // Hours that matter where they must not.
    Trips {
        ArrivalIsTheOpenTick
        ArrivalIsTheOpenTickInC
        NoWayToAShutPlace
        NoWayThroughAShutPlace
        WaitsAtShutPlaces
        ArrivalsAtShutPlacesAreNever
        HoursInTheFlags
    }
    Plans {
        Refused14UnderHours
        NotMadeUnderHours
        MadeWithOtherFlags
        MoreFindsUnderHours
    }
}

/// All errors.
pub fn errors() -> Vec<Error> {
    ALL.to_vec()
}
