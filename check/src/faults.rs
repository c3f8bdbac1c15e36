//! Deliberate faults that the model can be given, to see that the harness notices each.

macro_rules! faults {
    ($($name:ident),* $(,)?) => {
        #[derive(Clone, Copy, PartialEq, Eq, Debug)]
        pub enum Fault { None, $($name),* }
        /// Every fault, without `None`.
        pub const ALL: &[Fault] = &[$(Fault::$name),*];
    };
}

faults! {
    // answers and their order
    StepSizeUnchecked,
    StatusBeforeSize,
    StatusBeforeBudget,
    BudgetLimitOneLess,
    BudgetLimitOneMore,
    RunsOneStepMore,
    StoppedStepCounted,
    StopAdvancesIar,
    CallBytesWithSix,
    OpcodeAfterLaterBytes,
    LaterBytesAfterQ,
    InstructionRunsRoundTheTop,
    SevenBeforeSix,
    EightBeforeSeven,
    // addresses
    BaseNotModulo,
    NextNotModulo,
    TopByteOutside,
    OneBelowBottomWraps,
    // two-address instructions
    MinusZeroLeft,
    SignOfOperandLeft,
    ZonedSizeIn64Bits,
    ZonedOverflowLost,
    AzTurnsDecimalOverflowOff,
    ZonedOrderByExactResult,
    ZoneBIsMinus,
    ZonesKept,
    ZazTestsOperand1,
    ZazByteByByte,
    SzAdds,
    AzChangesArr,
    MvxCrossed,
    MvxHighQAllowed,
    EdPatternAfterOperand2,
    EdReadsAsItWrites,
    EdEmptyKeepsStatus,
    EdEmptyChecked,
    EdMinusZeroLow,
    EdOnlyLastZoneForced,
    ItcOneOff,
    ItcZeroEnds,
    ItcEndNotModulo,
    ItcFieldReachesLeft,
    MvcBlock,
    ClcSigned,
    AlcCarryKept,
    AlcHighOnZero,
    AlcReadsOperand2Whole,
    SlcSetsBinaryOverflow,
    SlcOrderFromBefore,
    // one-address instructions
    CliSigned,
    ALeavesBinaryOverflow,
    SSetsBinaryOverflow,
    AOfStatusAllowed,
    StStatusOneByte,
    StLowFirst,
    StatusLoadedWhole,
    StatusOrderNotForced,
    LReadsOneByte,
    WorkRegistersRotated,
    TbnTurnsOff,
    TbfTestsOff,
    SbfFlips,
    SliAddsOverflow,
    // branches
    BcArrSwapped,
    BcNoBranchKeepsArr,
    BcArrBaseAfter,
    TestFalseNotTurnedOff,
    DecimalOverflowNotTurnedOff,
    TurnedOffOnBranchOnly,
    NothingPickedNeverBranches,
    JcChangesArr,
    JcBackwardForward,
    LaOfArrAllowed,
    SvcExecuted,
    // decks
    ReaderWritesBeforeItRefuses,
    ReaderKeepsMachine,
    ReaderOneBeforeThree,
    ReaderElevenBeforeThirteen,
    ThirteenAndFourteenSwapped,
    ReaderTakesEqualPage,
    ReaderTakesZeroPage,
    ReaderTakesTail,
    ReaderKeepsOldPages,
    ReaderLowFirst,
    WriterSkipsLastPage,
    WriterWritesZeroPages,
    WriterNeedsOneMore,
    WriterClearsTail,
    WriterStatusUnchecked,
    WriterStatusBeforeSize,
    LengthWithoutEnd,
    // the lists of what a step reads and writes: seen by the sealed runs only
    ReadsNoOpcode,
    ReadsNoQ,
    ReadsNoLastInstructionByte,
    ReadsNoOperand1,
    ReadsNoOperand2,
    ReadsNoRegisterHighByte,
    ReadsNoItcEnd,
    ReadsNoEdPatternOnSeven,
    ReadsNothingOnEight,
    ReadAndWrittenCountsAsWritten,
    WritesWholeItcField,
    WritesOnStop,
    WritesNoMvi,
}

/// Whether a fault is in the lists of reads and writes, which only the sealed runs look at.
pub fn in_lists(fault: Fault) -> bool {
    use Fault::*;
    matches!(
        fault,
        ReadsNoOpcode
            | ReadsNoQ
            | ReadsNoLastInstructionByte
            | ReadsNoOperand1
            | ReadsNoOperand2
            | ReadsNoRegisterHighByte
            | ReadsNoItcEnd
            | ReadsNoEdPatternOnSeven
            | ReadsNothingOnEight
            | ReadAndWrittenCountsAsWritten
            | WritesWholeItcField
            | WritesOnStop
            | WritesNoMvi
    )
}
