//! Wrong readings of document 01. Each is switched on in what the harness takes from the crate, so that a comparison that sees must find it.

#[derive(Clone, Copy, Debug, PartialEq)]
pub enum Reading {
    Right,
    // placing, by the crate with another configuration
    PaddingDroppedAtRightEdge,
    ExtrusionOnOneSide,
    CanvasLessBorder,
    LastRowUsed,
    // placing, by the sketch
    SketchRight,
    UprightBeforeStart,
    UprightBeforeSegment,
    UprightFirst,
    TurnedBeforeUpright,
    WiderSegment,
    SegmentNotAsked,
    LaterStart,
    TopForBottom,
    PageByTrimmedSize,
    WholeCellPlaced,
    TooLargeByWholeSize,
    OnlyLastPageTried,
    VisibleMeansOpaque,
    // an offer's answer
    FrameMovedByExtrusion,
    SquareTurned,
    TurnNotReported,
    SizeNotSwapped,
    TooLargeBeforeClear,
    PageLimitOneMore,
    ImageLimitOneMore,
    // a withdrawal
    FirstWithdrawn,
    RoomKeptAfterWithdrawal,
    // the page and its pixels
    PageSizeWithoutBorder,
    PageSizeWithExtrusion,
    ForcedSizeIgnored,
    TrimCornerForgotten,
    StoresSwapped,
    TurnedMirrored,
    TurnedTheOtherWay,
    ZoneCutOnTheLeft,
    NoExtrusion,
    OutlineOnlyInFrame,
    OutlineOfZone,
    ThresholdStrict,
    DiscardWithoutThreshold,
    HoleWithoutBackground,
}

impl Reading {
    /// Placed by the sketch instead of the crate.
    pub fn sketched(self) -> bool {
        matches!(
            self,
            Reading::SketchRight
                | Reading::UprightBeforeStart
                | Reading::UprightBeforeSegment
                | Reading::UprightFirst
                | Reading::TurnedBeforeUpright
                | Reading::WiderSegment
                | Reading::SegmentNotAsked
                | Reading::LaterStart
                | Reading::TopForBottom
                | Reading::PageByTrimmedSize
                | Reading::WholeCellPlaced
                | Reading::TooLargeByWholeSize
                | Reading::OnlyLastPageTried
                | Reading::VisibleMeansOpaque
        )
    }

    /// To be found by offers' answers alone, without a look at pages.
    pub fn of_offers(self) -> bool {
        let others = [
            Reading::PaddingDroppedAtRightEdge,
            Reading::ExtrusionOnOneSide,
            Reading::CanvasLessBorder,
            Reading::LastRowUsed,
            Reading::FrameMovedByExtrusion,
            Reading::SquareTurned,
            Reading::TurnNotReported,
            Reading::SizeNotSwapped,
            Reading::TooLargeBeforeClear,
            Reading::PageLimitOneMore,
            Reading::ImageLimitOneMore,
        ];
        self.sketched() || others.contains(&self)
    }
}

pub const WRONG: [(Reading, &str); 40] = [
    (Reading::PaddingDroppedAtRightEdge, "padding is dropped at the right edge"),
    (Reading::ExtrusionOnOneSide, "a cell has the extrusion on one side only"),
    (Reading::CanvasLessBorder, "the canvas is the maxima less the border"),
    (Reading::LastRowUsed, "the last row is used"),
    (Reading::UprightBeforeStart, "upright is asked before the lower start"),
    (Reading::UprightBeforeSegment, "upright is asked before the narrower segment"),
    (Reading::UprightFirst, "upright is asked first"),
    (Reading::TurnedBeforeUpright, "turned is taken before upright"),
    (Reading::WiderSegment, "the wider segment is taken"),
    (Reading::SegmentNotAsked, "the segment is not asked"),
    (Reading::LaterStart, "the later start is taken"),
    (Reading::TopForBottom, "the least top row instead of the least bottom row"),
    (Reading::PageByTrimmedSize, "the page is chosen by the trimmed size"),
    (Reading::WholeCellPlaced, "the page takes the whole cell"),
    (Reading::TooLargeByWholeSize, "8 is asked of the whole size"),
    (Reading::OnlyLastPageTried, "only the last page is tried"),
    (Reading::VisibleMeansOpaque, "visible means alpha 255"),
    (Reading::FrameMovedByExtrusion, "the frame is moved by the extrusion"),
    (Reading::SquareTurned, "a square counts as turned"),
    (Reading::TurnNotReported, "the turn is not reported"),
    (Reading::SizeNotSwapped, "a turned frame's size is not swapped"),
    (Reading::TooLargeBeforeClear, "8 is asked before 7"),
    (Reading::PageLimitOneMore, "one page more than the limit"),
    (Reading::ImageLimitOneMore, "one image more than the limit"),
    (Reading::FirstWithdrawn, "the first image is withdrawn"),
    (Reading::RoomKeptAfterWithdrawal, "a withdrawn image's room stays taken"),
    (Reading::PageSizeWithoutBorder, "the page size leaves the border out"),
    (Reading::PageSizeWithExtrusion, "the page size counts the extrusion"),
    (Reading::ForcedSizeIgnored, "the forced size is ignored"),
    (Reading::TrimCornerForgotten, "the trim box's corner is forgotten"),
    (Reading::StoresSwapped, "the stores are swapped"),
    (Reading::TurnedMirrored, "a turned image is mirrored"),
    (Reading::TurnedTheOtherWay, "a turned image is turned the other way"),
    (Reading::ZoneCutOnTheLeft, "a zone cut on the left does not keep its width"),
    (Reading::NoExtrusion, "a zone is the frame"),
    (Reading::OutlineOnlyInFrame, "outlines end with the frame"),
    (Reading::OutlineOfZone, "outlines run along the zone"),
    (Reading::ThresholdStrict, "alpha at the threshold keeps its colour"),
    (Reading::DiscardWithoutThreshold, "the discard switch works without a threshold"),
    (Reading::HoleWithoutBackground, "where no pixel is the background is not seen"),
];
