//! The errors that can be planted, by subject.

macro_rules! errors {
    ($($subject:ident { $($name:ident)* })*) => {
        $(
            #[derive(Clone, Copy, PartialEq, Eq, Debug)]
            pub enum $subject {
                $($name,)*
            }

            impl From<$subject> for Error {
                fn from(error: $subject) -> Error {
                    Error::$subject(error)
                }
            }
        )*

        #[derive(Clone, Copy, PartialEq, Eq, Debug)]
        pub enum Error {
            $($subject($subject),)*
            /// One of 21 to 24 is not tried at every tick.
            Tried(u32, Ticks),
        }

        const BY_SUBJECT: &[Error] = &[$($(Error::$subject($subject::$name),)*)*];
    };
}

errors! {
    Rounding {
        Down
        DownOnRoads
        DownInProfiles
        DownInTheStartsProfile
        DownInTheEndsProfile
        TowardsTheEarlierPoint
        TowardsTheLaterPoint
        ToTheNearest
        OneMoreWhereWhole
        OneMoreWhereWholeBetweenPoints
        OnceForTheSum
    }
    Lines {
        RestIgnored
        RestKeptAtAPoint
        RestCarriedOnce
        LastLineFlat
        LastLineTo0
        LastLineATickShort
        LastLineGoesOnForEver
        OnePieceAStep
        PieceATickEarly
        EndTakenAtTheDeparture
        EndTakenATickLate
        WholeDayTakesNothing
    }
    Sums {
        In32Bits
        In32BitsAtMost
        In31Bits
        LargestIsNever
        NeverIsTheLargest
        NeverIs0
        NeverIsNotAsked
        NeverGivesTheTravel
    }
    Roads {
        FirstAlone
        LastAlone
        ParallelOnesOnce
        NotIntoTheBorder
        NotIntoTheSameCell
    }
    Flags {
        OfTheStartsCell
        OfTheEndsCell
        OfTheFirstGiver
        OfTheLastGiver
        OfAllGivers
        OfAnyRoadOut
        In32Bits
        In8Bits
        NeverAsked
    }
    Own {
        NeverPasses
        LargestPasses
        Only16Bits
        NotAsked
    }
    Order {
        FirstPlaceWins
        FirstBorderWins
        FirstTickBeforePlace
        FirstPlaceBeforeBorder
        LastPlaceWins
        HighestNumberWins
        LessLosesToNoRoad
        EndInPlaceOfStart
        BorderInPlaceOfIndex
        TickOfTheEnd
    }
    Finds {
        None
        AtEveryTick
        ForEachTestAndOneMore
        OfTheLastBorder
        OneTooFew
        OfTheCallBeforeToo
        ToldOnRefusal20
        WordsExchanged
        LowWordAlone
        HighWordOfTheLow
    }
    Answer {
        FourAreEnough
        ThreeAreEnough
        ShortOneWritten
        ClearedBehind
    }
}

macro_rules! ticks {
    ($($name:ident)*) => {
        /// At which ticks alone a test is tried.
        #[derive(Clone, Copy, PartialEq, Eq, Debug)]
        pub enum Ticks {
            $($name,)*
        }

        const TICKS: &[Ticks] = &[$(Ticks::$name,)*];
    };
}

ticks! {
    AtProfilePoints
    NotTheFirst
    NotTheLast
    EveryOther
    LastOfProfileRuns
    NotFirstOfProfileRuns
    NotLastOfProfileRuns
    // From here on: not for 21, which fails first at the first tick of a run, whatever roads do.
    FirstOfProfileRuns
    AtRoadPoints
    AtProfileAndRoadPoints
    FirstOfRoadRuns
    LastOfRoadRuns
    NotFirstOfRoadRuns
    NotLastOfRoadRuns
    NotFirstOfEndRuns
    NotLastOfEndRuns
    WhereTravelsChange
    WhereProfilesChange
    NotWhereAnEndStays
    NotWhereEndsAreTomorrow
    // For 22 alone. Roads that end when they did before give one less: where all do and 22 does not fail, 23
    // and 24 have failed before if they fail.
    WhereEndsChange
}

/// All errors.
pub fn errors() -> Vec<Error> {
    let below = |end: Ticks| TICKS.iter().filter(move |&&ticks| (ticks as usize) < end as usize);
    let of_21 = below(Ticks::FirstOfProfileRuns).map(|&ticks| Error::Tried(21, ticks));
    let of_22 = TICKS.iter().map(|&ticks| Error::Tried(22, ticks));
    let of_23 = below(Ticks::WhereEndsChange).map(|&ticks| Error::Tried(23, ticks));
    let of_24 = below(Ticks::WhereEndsChange).map(|&ticks| Error::Tried(24, ticks));
    BY_SUBJECT.iter().copied().chain(of_21).chain(of_22).chain(of_23).chain(of_24).collect()
}
