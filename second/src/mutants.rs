//! The rules a call goes by: the true ones of document 01 and requests 2026-01, 2026-02 and 2026-04, or a mutant that
//! breaks just one of them.

use crate::circuit_mutants::CIRCUIT_MUTANTS;
use crate::circuit_mutants_newer::NEWER_MUTANTS;

/// The true rules, or the one rule that is broken. Every part is handed this value and asks it
/// at the place where its own rule stands.
#[derive(Clone, Copy, PartialEq, Eq, Debug)]
pub enum Rules {
    True,
    // The search.
    SecondTryFree,
    LastOpenClause,
    LastUnsetLiteral,
    FalseTriedFirst,
    UnitByLiterals,
    UnitsCounted,
    NoUnits,
    ClosedTryKept,
    BudgetForEachQuestion,
    LastUnitClause,
    UnitBeforeClosed,
    // The order of the clauses in a question.
    InitReversed,
    TrReversed,
    BadReversed,
    LemmasReversedInStep,
    LemmasReversedInSafety,
    LemmasBeforeTr,
    BadBeforeLemmas,
    NegatedFirstInInitiation,
    NegatedFirstInStep,
    // Rounds, largest set, one set.
    DroppedWithinRound,
    RoundsOnceOnly,
    AgainstItselfAlone,
    StepWithoutItself,
    InitiationInRounds,
    RoundsFromTheTop,
    InitiationFromTheTop,
    LargestSafetyNotAsked,
    OneFromTheTop,
    OneAsksDropped,
    OneSafetyBeforeRounds,
    OneBySingles,
    // Listing.
    NodeStepsNoEarlyStop,
    NodeStepsFromTheTop,
    NodeSafetyAlways,
    NodeSafetyFirst,
    NodeGoesOn,
    MinimalityNoEarlyStop,
    MinimalityFromTheTop,
    MinimalityBySingles,
    RoomBeforeMinimality,
    HighestPosition,
    ExcludeBeforeInclude,
    ExcludeWithoutRounds,
    SafetyThoughXLacksK,
    NoSafetyOfX,
    // The order of refusals.
    FileSizeLast,
    LengthBeforeKind,
    BodyBeforeKind,
    BodyBeforeLength,
    CountBeforeBody,
    ContentBeforeCount,
    ContentLast,
    GoesOnAfterEnd,
    SpaceBeforeLaterBytes,
    SpaceAfterSearch,
    // Inputs and helpers in Bad.
    BadNextLetThrough,
    BadInputsRefused,
    BadLastInputOnly,
    BadForAllInputs,
    BadLastInputFree,
    BadClauseByClause,
    // Circuits: the form of a line.
    SpacesLetThrough,
    TabLetThrough,
    ReturnLetThrough,
    PlusLetThrough,
    LeadingZerosRefused,
    LargeNumbersRefused,
    LargeNumbersCut,
    LastNewlineLeftOut,
    MissingAtTheLineBefore,
    LongHeaderLetThrough,
    LatchStartLetThrough,
    // Circuits: ranges, and what stands in earlier lines.
    SumNotTested,
    OutputsInTheSum,
    OddDefinitionLetThrough,
    ConstantDefinitionLetThrough,
    DefinitionPastRange,
    UsePastRange,
    LastUseRefused,
    DefinedTwiceLetThrough,
    PositionPastRange,
    PositionTwiceLetThrough,
    PositionsByDigits,
    PositionsShared,
    LettersInOrder,
    NameOfNoBytes,
    CommentLineMaySayMore,
    CommentsAreLines,
    // Circuits: what is known when all lines are.
    SymbolsJudgedLast,
    UndefinedIsFalse,
    CircleLetThrough,
    NeedsACircleLetThrough,
    LatchAtFaultForItsGate,
    LaterGatesRefused,
    CirclesThroughLatches,
    // Circuits: long texts.
    LongCircuitNotJudged,
    LongLemmasNotJudged,
    LongDefinedTwiceJudged,
    LongPositionTwiceJudged,
    LongUndefinedJudged,
    LongCircleJudged,
    // Circuits: lemma lines.
    MinusZeroCloses,
    ZeroInsideLetThrough,
    LemmaNotClosed,
    LatchNumberPastRange,
    EmptyLineLetThrough,
    // Circuits: the order of refusals, and what they leave.
    LemmasBeforeCircuit,
    LimitsBeforeCircuit,
    LimitsBeforeLemmas,
    SpaceBeforeLimits,
    RefusalClearsMarks,
    // Circuits: limits.
    LimitsThemselvesRefused,
    NoLatchLetThrough,
    MoreLatchesLetThrough,
    GatesNotCounted,
    NoOutputLetThrough,
    MoreOutputsLetThrough,
    MoreLemmasLetThrough,
    ClosingZeroCounted,
    // Circuits: the problem.
    GatesBeforeInputs,
    InputsByLiteral,
    LatchesByLiteral,
    GatesByLiteral,
    GatesByNeed,
    StartIsFree,
    StartIsOne,
    GateBeforeItsInputs,
    LongClauseFirst,
    GateLastInLongClause,
    GateInputsExchanged,
    EqualInputsOnce,
    LatchesBeforeGates,
    LatchClausesExchanged,
    NextValueLast,
    NextNegationLost,
    OutputBeforeGates,
    BadWithoutGates,
    FalseDropsItsClause,
    TrueLeavesItsClause,
    ConstantsExchanged,
    // Edition 1.9: header and latch lines.
    NewerHeaderRefused,
    ShorterHeaderRefused,
    BadInTheSum,
    StartNeeded,
    StartAtAnyLiteral,
    StartAtOwnNegation,
    StartAtItselfRefused,
    // Edition 1.9: the other sections.
    BadBeforeOutputs,
    ConstraintsBeforeBadLines,
    FairnessBeforeJustice,
    NewerSectionsAfterGates,
    JusticeLiteralsLeftOut,
    LastJusticeCountOnly,
    JusticeLiteralsAfterEachCount,
    JusticeCountsInRange,
    // Edition 1.9: symbols and comment.
    NewerSymbolsRefused,
    ConstraintSymbolsRefused,
    BadSymbolsByOutputs,
    JusticeSymbolsByLiterals,
    ConstraintSymbolIsComment,
    CommentRefusedBesideConstraints,
    // Edition 1.9: what is known when all lines are.
    UndefinedBadIsFalse,
    UndefinedConstraintIsFalse,
    UndefinedJusticeLetThrough,
    UndefinedFairnessLetThrough,
    UndefinedInGatesFirst,
    BadAtFaultForItsGate,
    // Edition 1.9: the order of refusals, and what is 15.
    JusticeBeforeCircuit,
    JusticeBeforeLemmas,
    JusticeAfterLimits,
    LongBeforeJustice,
    SpaceBeforeJustice,
    JusticeHasAPlace,
    JusticeLetThrough,
    FairnessLetThrough,
    EmptyJusticeLetThrough,
    // Edition 1.9: limits.
    MoreBadLetThrough,
    BadBesideOutputTaken,
    OutputBesideBadTaken,
    BadNeedsAnOutput,
    MoreClausesLetThrough,
    ConstantClausesCounted,
    LemmasNotCounted,
    ConstraintsCountedOnce,
    FreeStartsCounted,
    // Edition 1.9: the problem.
    MissingStartIsFree,
    StartOneIsZero,
    StartOneIsFree,
    StartAtItselfIsZero,
    StartAtItselfIsOne,
    FreeStartHasAClause,
    ConstraintInInit,
    ConstraintMissingInTr,
    ConstraintOnNextState,
    ConstraintsBeforeLatches,
    BadLiteralMustHold,
    ConstraintMissingInBad,
    ConstraintsBeforeBad,
    ConstraintNegationLost,
    ConstraintsReversed,
    ConstraintsAsOneClause,
    FirstConstraintOnly,
    EqualConstraintsOnce,
    FalseConstraintDropped,
}

/// Each mutant of the jobs over files with what it does instead of the rule; those of circuits are in
/// `circuit_mutants` and `circuit_mutants_newer`.
pub const MUTANTS: [(Rules, &str); 62] = [
    (Rules::SecondTryFree, "the second try of a decision is not counted"),
    (Rules::LastOpenClause, "a decision takes the last clause without a true literal"),
    (Rules::LastUnsetLiteral, "a decision takes the last unset literal of its clause"),
    (Rules::FalseTriedFirst, "a decision tries false before true"),
    (Rules::UnitByLiterals, "a clause whose unset places hold one literal twice is set without a decision"),
    (Rules::UnitsCounted, "setting the one unset literal of a clause is counted"),
    (Rules::NoUnits, "no literal is set without a decision"),
    (Rules::ClosedTryKept, "what a closed try has set stays set for the second try"),
    (Rules::BudgetForEachQuestion, "every question has the whole budget"),
    (Rules::LastUnitClause, "the last clause with one unset place is set first"),
    (Rules::UnitBeforeClosed, "a closed branch is seen only when nothing is left to set"),
    (Rules::InitReversed, "Init is asked from its last clause"),
    (Rules::TrReversed, "Tr is asked from its last clause"),
    (Rules::BadReversed, "Bad is asked from its last clause"),
    (Rules::LemmasReversedInStep, "the lemmas of a step question stand in reverse"),
    (Rules::LemmasReversedInSafety, "the lemmas of a safety question stand in reverse"),
    (Rules::LemmasBeforeTr, "the lemmas of a step question stand before Tr"),
    (Rules::BadBeforeLemmas, "Bad stands before the lemmas of a safety question"),
    (Rules::NegatedFirstInInitiation, "the negated literals stand first in an initiation question"),
    (Rules::NegatedFirstInStep, "the negated literals stand first in a step question"),
    (Rules::DroppedWithinRound, "a lemma is dropped in the middle of a round"),
    (Rules::RoundsOnceOnly, "there is one round only"),
    (Rules::AgainstItselfAlone, "a lemma is tested against itself alone"),
    (Rules::StepWithoutItself, "a lemma is tested against the others of the set only"),
    (Rules::InitiationInRounds, "initiation is asked inside the rounds"),
    (Rules::RoundsFromTheTop, "a round asks from the last position down"),
    (Rules::InitiationFromTheTop, "initiation is asked from the last position down"),
    (Rules::LargestSafetyNotAsked, "the safety of the largest set is not asked"),
    (Rules::OneFromTheTop, "one set tries positions from the last down"),
    (Rules::OneAsksDropped, "one set tries positions that are no longer in the set"),
    (Rules::OneSafetyBeforeRounds, "one set asks safety before Rounds too, and skips Rounds if it fails"),
    (Rules::OneBySingles, "one set takes a position out only if all others stay"),
    (Rules::NodeStepsNoEarlyStop, "a node asks all its steps, past the first satisfiable"),
    (Rules::NodeStepsFromTheTop, "a node asks its steps from the last position down"),
    (Rules::NodeSafetyAlways, "a node asks its safety though a step was satisfiable"),
    (Rules::NodeSafetyFirst, "a node asks its safety before its steps"),
    (Rules::NodeGoesOn, "a node whose set is safe and inductive is not done"),
    (Rules::MinimalityNoEarlyStop, "the minimality test goes on past the first unsatisfiable"),
    (Rules::MinimalityFromTheTop, "the minimality test goes from the last position down"),
    (Rules::MinimalityBySingles, "a set is minimal because taking out any single lemma spoils it"),
    (Rules::RoomBeforeMinimality, "the room for a row is tested before its minimality"),
    (Rules::HighestPosition, "a node takes the highest position, not the lowest"),
    (Rules::ExcludeBeforeInclude, "a node does the part without p before the part with it"),
    (Rules::ExcludeWithoutRounds, "X is A without p, and Rounds are not asked"),
    (Rules::SafetyThoughXLacksK, "the safety of X is asked though X lacks K"),
    (Rules::NoSafetyOfX, "the safety of X is not asked"),
    (Rules::FileSizeLast, "1 is tested after the records"),
    (Rules::LengthBeforeKind, "4 is tested before 3"),
    (Rules::BodyBeforeKind, "2 of the body is tested before 3"),
    (Rules::BodyBeforeLength, "2 of the body is tested before 4"),
    (Rules::CountBeforeBody, "7 is tested before 2 of the body"),
    (Rules::ContentBeforeCount, "6 is tested before 7"),
    (Rules::ContentLast, "5 and 6 are tested after all records, not record by record"),
    (Rules::GoesOnAfterEnd, "bytes after kind 6 are read as records"),
    (Rules::SpaceBeforeLaterBytes, "9 is tested before 8"),
    (Rules::SpaceAfterSearch, "9 is tested after the search"),
    (Rules::BadNextLetThrough, "a next value in a Bad clause is let through"),
    (Rules::BadInputsRefused, "inputs and helpers in a Bad clause are refused"),
    (Rules::BadLastInputOnly, "of inputs and helpers a Bad clause may name only the last, 2n+m"),
    (Rules::BadForAllInputs, "a state is bad if all values of inputs and helpers satisfy Bad"),
    (Rules::BadLastInputFree, "in a safety question all inputs and helpers but the last are false"),
    (Rules::BadClauseByClause, "each Bad clause may have its own values of inputs and helpers"),
];

/// The mutants that no call can tell apart from the true rules, each with the reason.
pub const UNTOLD: [(Rules, &str); 6] = [
    (Rules::LastUnitClause, SETTING_ORDER),
    (Rules::UnitBeforeClosed, SETTING_ORDER),
    (Rules::NegatedFirstInInitiation, ONE_LITERAL),
    (Rules::NegatedFirstInStep, ONE_LITERAL),
    (Rules::RoundsFromTheTop, SAME_SUM),
    (Rules::InitiationFromTheTop, SAME_SUM),
];

const SETTING_ORDER: &str = "a clause that rule (c) could set keeps that one unset place, or gets a true literal, or \
    closes, whatever is set before it; so in every order the same literals end up set or the branch closes, \
    and settings by rule (c) are not counted";
const ONE_LITERAL: &str = "clauses of one literal are all set by rule (c) before the first decision and then hold, so \
    they are never the clause a decision is taken from; and the order of settings by rule (c) shows nowhere";
const SAME_SUM: &str = "all these questions are asked whatever their answers, so their sum is the same; and if the \
    budget ends among them the call ends with refusal 10, the budget as its count and nothing written since";

impl Rules {
    pub const TRUE: Rules = Rules::True;

    /// Whether this is the mutant that breaks the rule named.
    pub fn breaks(self, rule: Rules) -> bool {
        self == rule
    }

    /// The name in small letters, as its stored file has it.
    pub fn name(self) -> String {
        let mut name = String::new();
        for letter in format!("{self:?}").chars() {
            if letter.is_uppercase() && !name.is_empty() {
                name.push('-');
            }
            name.extend(letter.to_lowercase());
        }
        name
    }

    /// The mutant with this name.
    pub fn named(name: &str) -> Option<Rules> {
        let all = MUTANTS.iter().chain(CIRCUIT_MUTANTS).chain(NEWER_MUTANTS);
        all.map(|&(rules, _)| rules).find(|rules| rules.name() == name)
    }

    /// Whether some call tells this mutant apart from the true rules.
    pub fn can_be_told(self) -> bool {
        UNTOLD.iter().all(|&(rules, _)| rules != self)
    }
}
