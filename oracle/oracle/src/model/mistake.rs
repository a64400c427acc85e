//! Mistakes that a planner could make, one at a time.

macro_rules! mistakes {
    ($($name:ident,)*) => {
        /// One planted mistake.
        #[derive(Debug, Clone, Copy, PartialEq, Eq)]
        pub enum Mistake {
            $($name,)*
        }

        impl Mistake {
            pub const ALL: &[Self] = &[$(Self::$name,)*];

            /// The mistake of this name.
            #[must_use]
            pub fn named(name: &str) -> Option<Self> {
                match name {
                    $(stringify!($name) => Some(Self::$name),)*
                    _ => None,
                }
            }
        }
    };
}

mistakes! {
    // Boxes.
    MiterLimitIgnored,
    SquareCapIgnored,
    RunByItsOwnBox,
    ClipNotApplied,
    OldestClipForgotten,
    GlyphBoxesRighted,
    // Changes.
    OldCommandsForgotten,
    NewCommandsForgotten,
    OldMinusNewForgotten,
    NewMinusOldForgotten,
    BottomPartForgotten,
    OnlyTheNewBox,
    OnlyTheOldBox,
    ClipsByTheirIntersection,
    GenerationIgnored,
    DashIgnored,
    PathsByNumberAlone,
    RunClipsIgnored,
    RunSizesByValue,
    GlyphXIgnored,
    OnlyTheOldGlyph,
    OldGlyphsForgotten,
    NewGlyphsForgotten,
    LaterFramesUnchanged,
    // Regions.
    WholeScreenEveryTime,
    BoxesWithoutAreaDropped,
    HighEdgesRoundedDown,
    LowEdgesRoundedUp,
    RowsRoundedDown,
    BandsNotCut,
    BandsOneLineShort,
    JoinedOnlyOnOverlap,
    JoinedOnlyWhereTheyMeetVertically,
    NeverJoined,
    JoinKeepsTheHeight,
    // Index.
    OneRowEarly,
    RowOfTheHighEdge,
    AboveTheScreenLeftOut,
    RowsDescend,
    // Calls.
    CandidatesOfTheNextRow,
    AgainstThePreviousFrame,
    EveryStripRefused,
}
