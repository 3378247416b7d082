//! The planted faults of the library's stand-in, in one list.

/// A list of planted faults: the name of each in the code, the part of the comparison that finds it (`all`, or the
/// beginning of a part's name), the tests that must see it, and what is wrong. A fault's number is its place in the list, from
/// 1 on; the variable `YASLAUREL_FAULT` plants the one of its number.
#[macro_export]
macro_rules! faults {
    ($($name:ident, $part:ident, $($test:ident)+, $text:literal;)+) => {
        #[derive(Clone, Copy, Debug, PartialEq, Eq)]
        pub enum Fault {
            $($name,)+
        }

        impl Fault {
            const ALL: &'static [Fault] = &[$(Fault::$name,)+];

            /// The fault that is planted.
            pub fn planted() -> Option<Fault> {
                static PLANTED: std::sync::OnceLock<Option<Fault>> = std::sync::OnceLock::new();
                *PLANTED.get_or_init(|| {
                    let number: usize = std::env::var("YASLAUREL_FAULT").ok()?.parse().expect("the number of a fault");
                    (number > 0).then(|| *Fault::ALL.get(number - 1).expect("a fault has this number"))
                })
            }

            /// The faults that a test must see, a line for each: its number, its part and what is wrong.
            pub fn list(test: &str) -> String {
                let rows = [$((stringify!($part), &[$(stringify!($test)),+][..], $text),)+];
                let seen = rows.iter().enumerate().filter(|(_, (_, tests, _))| tests.contains(&test));
                seen.map(|(place, (part, _, text))| format!("{} {part} {text}\n", place + 1)).collect()
            }
        }

        /// Whether this fault is planted.
        pub fn planted(fault: Fault) -> bool {
            Fault::planted() == Some(fault)
        }
    };
}

// Each is a mistake that a reviewer would try. A new one goes to the end: the notes of changes name them by number.
faults! {
    AlwaysQuiet, all, differential chains demo, "a monitor that is always quiet";
    RunningAtomByRead, all, differential chains, "a running atom passes by read";
    CoveringByAtoms, all, differential chains, "covering is tested atom by atom";
    OverwrittenKeepsTag, all, differential chains, "an overwritten file keeps its old tag";
    ReadNarrowsPermit, all, differential chains, "a read narrows p's permit rule";
    MeetOfEightRefused, all, differential, "a meet of exactly 8 is refused with 15";
    NormaliserCopies, all, differential, "the normaliser copies";
    FlowsOneTooHigh, all, differential calls, "the count of flows is one too high";
    UsersBeforeContainers, all, differential fuzz, "a user's rule number is judged before the containers";
    RefusedStartClears, all, differential calls fuzz, "a refused start clears the session";
    RefusedStepClearsAnswer, all, differential calls fuzz, "a refused step clears receiver and tag";
    NormaliserOverwrites, all, differential calls fuzz, "the normaliser writes one byte behind its image";
    UnusedWordsUnseen, all, differential, "unused words of a row are not looked at";
    ExecKeepsAll, all, differential chains, "exec keeps all that p held, as in document 003";
    DerivedPermitLacksOwn, all, differential, "a derived permit rule lacks its own object";
    StartLeavesLastUser, all, differential, "the start leaves the last user row as it was";
    PairByTarget, all, differential, "the pair has the smallest target, then the smallest source";
    StepWritesBehind, all, differential fuzz, "a step writes one number behind the session";
    SessionUntouched, all, differential chains fuzz, "a session left untouched";
    ShortRecordPadded, all, differential calls, "a short record is padded with zeros";
    RunPastAlert, all, differential calls fuzz, "a run goes on behind an alert";
    StopNotCounted, all, differential calls fuzz, "the record at which a run stops is not counted";
    RefusedRunClearsCount, all, differential calls fuzz, "a run refused with 9 clears the count";
    QuietRunClearsAnswer, all, differential calls fuzz, "a quiet run clears receiver and tag";
    ShortLastRecordLeftOut, all, differential calls fuzz, "a run leaves out a short last record";
    EmptyRunUnchecked, all, differential calls fuzz, "a run without records does not look at the session";
    RefusalUndoesRun, all, differential calls fuzz, "a record refused in a run undoes those before it";
    ModeXAlone, profiles, differential calls, "a mode x alone is accepted";
    LineWithoutMode, profiles, differential, "a line without a mode is accepted";
    PathOf65, profiles, differential, "a path of 65 bytes is accepted";
    NoLastByte10, profiles, differential calls fuzz, "a last line without byte 10 is accepted";
    OpenProfileAtEnd, profiles, differential calls, "an open profile at the end is accepted";
    RepeatOnlyNext, profiles, differential, "a repeated profile is found only next to its first";
    LaterLineReplaces, profiles, differential calls, "a later line of a path replaces the one before it";
    AtomsByProfiles, profiles, differential demo, "atoms go to the profiled paths first";
    RunLacksOwnAtom, profiles, differential calls demo, "a run mixture lacks the program's own running atom";
    ExecuteAsData, profiles, differential calls demo, "what a program may execute counts as data";
    PermitLacksOwnAtom, profiles, differential demo, "a written file's permit rule lacks its own atom";
    InheritBeforeUnconfined, profiles, differential, "ix goes before ux";
    DiscreteUnrestricted, profiles, differential demo, "px leaves a path unrestricted to run";
    MixturesBeforeNormalForm, profiles, differential, "17 by the count of mixtures before normal form";
    PathsBeforeGrammar, profiles, differential calls, "17 goes before 16";
    RepeatBeyond32Unseen, profiles, differential, "a repeated profile beyond the 32nd path is not found";
    RefusedTextClears, profiles, differential calls fuzz, "a text refused with 16 clears the output";
    ExecDropsData, all, differential chains, "exec drops the data that p held";
    ExecTurnsData, all, differential chains, "exec turns the data that p held into running atoms";
    ExecKeepsRunRule, all, differential chains, "exec keeps p's run rule";
    LeaverKeepsRow, all, differential chains calls fuzz, "an end or a delete leaves the row as it was";
    LeaverLosesKindAlone, all, differential calls fuzz, "an end or a delete clears the kind alone";
    EndOfAnotherRefusedByKind, all, differential calls, "an end of another o is refused with 12";
    ProcessDeleted, all, differential calls, "a process can be deleted";
    DeleteFreesProcess, all, differential chains calls fuzz, "a delete frees p";
    LeaverAnswersOldTag, all, differential chains calls fuzz, "an end or a delete answers the old tag";
    LaterHolderKeepsPermit, all, differential chains calls fuzz, "a later holder of a number keeps the permit rule";
    ExecKeepsUser, all, differential chains calls fuzz, "exec keeps the user that p had";
    ForkForNobody, all, differential chains calls fuzz, "a fork runs on nobody's behalf";
    WriteHandsOnUser, all, differential calls fuzz, "a write gives o the user of p";
    ProcessOfUser16, all, differential calls, "a process with user 16 passes";
    FileOfUser0, all, differential calls, "a file with user 0 passes";
    FreeRowOfNobody, all, differential calls, "a free row with user 65535 passes";
    OtherUserBeforeUndeclared, all, differential calls, "18 goes before 14";
    NobodyRefusedByUser, all, differential calls fuzz, "a process that runs on nobody's behalf is refused with 18";
    ExecRefusedByUser, all, differential calls fuzz, "an exec for another user is refused with 18";
    UsersReadAtOldPlace, all, differential calls, "the users are read behind 256 rows of 20";
    ReadRightsCompared, withdrawals, differential, "a proposal is compared by its rights to read alone";
    PutBackTogether, withdrawals, differential, "withdrawn rights are put back together";
    LackedRightPutBack, withdrawals, differential, "a right that the old matrix lacked is put back";
    OldMatrixConsistent, withdrawals, differential, "the old matrix has to be consistent, not the proposed one";
    MinimalBeforeConsistent, withdrawals, differential, "condition 4 goes before condition 3";
    LastConditionGiven, withdrawals, differential, "the last condition that fails is given";
    CountsDifferAnswered1, withdrawals, differential, "differing counts are answered 1";
    RequiredLackedRefused, withdrawals, differential, "a right that must stay and that the old matrix lacks is answered 8";
    NothingWithdrawnAnswered4, withdrawals, differential, "a proposal that withdraws nothing is answered 4";
    ReadRightsPutBack, withdrawals, differential, "only rights to read are put back";
    SilentByGranted, matrices, differential calls, "silent by the granted flows, not the composed ones";
    SilentByRows, matrices, differential calls, "silent by the flows out of an object";
    SilentByEachSource, matrices, differential calls, "silent if each source alone has a mixture";
    SilentByPairs, matrices, differential calls, "silent if each pair of sources has a mixture";
    SilentAppendByRead, matrices, differential calls, "silent with appends by the right to read";
    ConsistentAsSilent, matrices, differential calls, "consistent matrices are silent";
    UnwrittenNotSilent, matrices, differential calls, "an object that nobody writes is not silent";
    RefusedNotSilent, matrices, differential calls fuzz, "a matrix that is refused is not silent";
    BlockedWrites, all, differential chains calls fuzz, "a blocked access is made all the same";
    BlockedOldTag, all, differential chains calls fuzz, "blocked answers the tag that the file has";
    BlockedAsAlert, all, differential chains calls, "a blocked access is answered by an alert";
    GuardedAlerts, all, differential chains calls, "a guarded file is not guarded";
    PlainFileBlocked, all, differential chains calls, "a plain file is guarded too";
    ReadBlocked, all, differential chains calls, "a read is blocked where it would alert";
    BlockedBeforeMeet, all, differential calls, "blocked goes before 15";
    NewFileGuarded, all, differential chains calls, "a new file is guarded";
    GuardedRefusedByImage, all, differential calls fuzz, "an image with a guarded file is refused with 5";
    GuardedNotExecuted, all, differential calls, "a guarded file cannot be executed";
    GuardedNotDeleted, all, differential calls, "a guarded file cannot be deleted";
    RunPastBlocked, all, differential calls fuzz, "a run goes on behind a blocked record";
    BlockedRunUntold, all, differential calls fuzz, "a run that is blocked leaves receiver and tag";
    PositionFromOne, all, differential chains calls fuzz, "positions are counted from 1";
    PositionOfLast, all, differential chains calls fuzz, "the position is that of the last covering mixture";
    PositionInRunRule, all, differential chains calls fuzz, "the position is that in the run rule";
    LeaverPositionZero, all, differential chains calls fuzz, "an end or a delete has position 0";
    NewFilePositionZero, all, differential chains calls fuzz, "a new file has position 0, also without a mixture";
    AlertPositionCount, all, differential chains calls fuzz, "an alert has the number of mixtures as its position";
    BlockedOldPosition, all, differential chains calls fuzz, "blocked has the position of what the file holds";
    RefusedPositionTold, all, differential calls fuzz, "a refusal writes position 255";
    RunPositionUntold, all, differential calls fuzz, "a run leaves the position of its alert";
    OwnersFolded, all, differential calls, "equal rules of other owners are one";
    OwnedUnrestrictedDropped, all, differential calls, "an unrestricted rule with an owner becomes 65535";
    OwnersLost, all, differential calls, "owners are lost in the normal image";
    OwnerFirst, all, differential calls fuzz, "the owner stands first in a rule record";
    OwnerOfUser16, all, differential calls, "any of 16 users may own a rule";
    UnusedOwnersUnread, all, differential, "owners of rules that nothing uses are not looked at";
    OwnersAfterContainers, all, differential, "owners are judged behind the containers";
    OldLeadingAccepted, all, differential calls, "an image that begins with 4 is accepted";
    OldOutputTaken, all, differential calls fuzz, "an output of 18,994 bytes is taken";
    WithdrawalFree, games, differential calls, "a withdrawal costs the guard nothing";
    RightReturns, games, differential calls, "a withdrawn right stands again";
    GuardFirst, games, differential calls, "the guard goes first";
    GuardOnce, games, differential calls, "the guard withdraws once in all";
    GuardMustWithdraw, games, differential, "the guard cannot pass while it can withdraw";
    IdleFirstSkipped, games, differential calls, "a first move that brings the information nowhere is passed over";
    AppendsFirst, games, differential, "appends come before reads";
    PassFirst, games, differential calls, "the pass comes first";
    LargestSubjectFirst, games, differential calls, "the largest subject comes first";
    ReadTakesWithoutHolder, games, differential, "a read of any object brings the information";
    WriteAsRead, games, differential, "a right to write is one to read too";
    GameBeforeMatrix, games, differential calls fuzz, "23 goes before 8";
    SameObjectAccepted, games, differential calls, "a game from an object to itself is played";
    FourSubjects, games, differential calls, "a game of 4 subjects is played";
    FourObjects, games, differential calls, "a game of 4 objects is played";
    NoRound, games, differential calls fuzz, "a game of no rounds is played";
    FiveRounds, games, differential calls fuzz, "a game of 5 rounds is played";
    ThreeWithdrawals, games, differential calls fuzz, "a game of 3 withdrawals is played";
    RefusedGameClears, games, differential calls fuzz, "a refused game clears the move";
    GuardLeavesNumbers, games, differential calls fuzz, "a game that the guard wins leaves the move as it was";
    OnePassAlone, trims, differential calls, "a trace is trimmed by one pass";
    LastRecordDropped, trims, differential, "the last record of a trace may go";
    CutOfTheBeginning, trims, differential calls, "a cut is tried without what the pass has dropped put away";
    RefusedInCut, trims, differential, "a cut with a refused record counts";
    BlockedInCut, trims, differential, "a cut with a blocked record counts";
    LastToFirst, trims, differential calls, "passes run from last to first";
    PositionsInShortened, trims, differential calls, "positions are counted in the shortened trace";
    PassOnOldSession, trims, differential, "the next pass goes on with the session of the one before";
    SixteenPasses, trims, differential calls, "at most sixteen passes are made";
    TraceOf256Refused, trims, differential calls, "a trace of 256 records is refused with 22";
    TraceOf257Taken, trims, differential calls, "the first 256 of 257 records are trimmed";
    EarlierAlertCounts, trims, differential, "a cut counts whose earlier record alerts, and not its last";
    ShortRecordTrimmed, trims, differential calls fuzz, "a short last record is left out of a trace";
    TraceBeforeImage, trims, differential calls fuzz, "22 goes before 1 to 6";
    OutputByTrace, trims, differential calls fuzz, "an output that holds the trace's positions is long enough";
    PositionsCleared, trims, differential calls fuzz, "the bytes behind the positions are cleared";
    RefusedTrimClearsCount, trims, differential calls fuzz, "a refused trim clears the count";
    IntersectionsEnter, compositions, differential calls, "intersections enter, as in document 003";
    RawRulesComposed, compositions, differential calls, "mixtures of the rules as written enter";
    TwinsApart, compositions, differential calls, "a running atom does not consent with its data atom";
    OneConsentEnough, compositions, differential calls, "one atom that consents is enough";
    EmptyMixtureUnasked, compositions, differential calls, "the empty mixture does not consent";
    ConsentIgnored, compositions, differential calls, "nobody's consent counts";
    UnionComposed, compositions, differential calls, "every mixture enters";
    FirstOwnerStays, compositions, differential calls, "the owner of the first image stays";
    SecondOwnerStays, compositions, differential calls, "the owner of the second image stays";
    OnlyOwnerStays, compositions, differential calls, "an owner stays where the other rule has none";
    SecondImageFirst, compositions, differential calls, "the second image is judged before the first";
    ConsentBeforeSecond, compositions, differential calls, "the consent is judged before the second image";
    LimitAt256, compositions, differential calls, "256 rules are answered 21";
    OwnersNotNeeded, compositions, differential, "equal rules of other owners need one record";
    MixturesBeforeComposing, compositions, differential calls, "over 8 is counted before the normal form";
    ConsentOfTwo, compositions, differential calls, "a consent byte of 2 is taken as 1";
    ShortConsent, compositions, differential calls, "a consent of 31 bytes is accepted";
    UsersNotCompared, compositions, differential calls, "users may differ in number";
    AtomsNotCompared, compositions, differential calls, "containers may differ in their atoms";
    GuardedAsFileComposed, compositions, differential calls, "kinds 1 and 4 are taken as equal";
    UsersOfFirst, compositions, differential calls, "users keep the rules of the first image";
    RunWithPermit, compositions, differential calls, "run rules are composed with permit rules";
    RefusedComposeClearsLength, compositions, differential calls fuzz, "a refused composition clears the length";
    RefusedComposeWrites, compositions, differential calls fuzz, "a refused composition writes to the output";
    LinksOfReceiver, explanations, differential calls words, "a link leads to what the receiver held, not to the source";
    OverwrittenChainStays, explanations, differential calls words, "the chain into an overwritten file stays";
    RunningAtomToldByRead, explanations, differential calls words, "a chain of a running atom goes on by read";
    LeaverKeepsChain, explanations, differential calls words, "the chain into a container that has left is kept";
    RefusedFollowed, explanations, differential calls words, "a refused record is followed";
    BlockedFollowed, explanations, differential calls words, "a blocked record before the last is followed";
    LastBlockedLeftOut, explanations, differential calls words, "the last record is not followed where it is blocked";
    LatestChain, explanations, differential calls words, "the latest chain is told, not the first";
    ExecEndsDataChain, explanations, differential calls words, "exec ends a chain of data";
    ExecKeepsRunningChain, explanations, differential calls words, "exec does not end a chain of a running atom";
    GuardedStartsNothing, explanations, differential calls words, "no chain begins in a guarded file";
    NumbersFromOne, explanations, differential calls fuzz words, "records of a chain are numbered from 1";
    NumbersFalling, explanations, differential calls fuzz words, "the records of a chain fall";
    NumbersOfHistory, explanations, differential calls words, "records of a chain are numbered without the refused ones";
    OldLinksRead, explanations, differential calls, "links depend on what stood in the lent memory";
    StepsAtFront, explanations, differential calls fuzz words, "the records of a chain stand at the front";
    FrontOfStepsCleared, explanations, differential calls fuzz, "the front of the steps is cleared";
    LinksBehindCleared, explanations, differential calls fuzz, "links behind the needed ones are cleared";
    LinksOneShort, explanations, differential calls fuzz, "links one too short are taken";
    StepsOneShort, explanations, differential calls fuzz, "steps one too short are taken";
    ShortRecordNotCounted, explanations, differential calls fuzz, "a short last record needs no links";
    NoChainIsFile0, explanations, differential calls fuzz, "no chain is told as file 0";
    LastContainerRefused, explanations, differential calls fuzz, "container 255 is refused with 24";
    Container256Taken, explanations, differential calls fuzz, "container 256 is taken as 0";
    Atom64Taken, explanations, differential calls fuzz, "atom 64 is taken as 0";
    BoundsBeforeImage, explanations, differential calls fuzz, "24 goes before 1 to 6";
    RefusedExplainTellsNone, explanations, differential calls fuzz, "a refused explanation tells that there is no chain";
    RefusedExplainTouchesSteps, explanations, differential calls fuzz, "a refused explanation writes to the steps";
    ParentRuleAfterExec, reasons, differential calls words, "a fork keeps its parent's rules after an exec of its own";
    ForkToldAsExec, reasons, differential calls words, "the fork is told in place of the parent's exec";
    LaterHolderHasOwn, reasons, differential calls words, "a later holder of a number is told with the image's rule";
    CoveringRunRuleTold, reasons, differential calls words, "a run rule is told that covers the tag";
    GreatestLacked, reasons, differential calls words, "the greatest atom that a mixture lacks is told";
    LeastOfTag, reasons, differential calls words, "the least atom of the tag is told, lacked or not";
    MixturesNormalised, reasons, differential calls words, "mixtures are told in normal form";
    UserRuleAlways, reasons, differential calls words, "the user's rule is told where it covers the tag";
    RunRulesFirst, reasons, differential calls words, "run rules are told before the user's";
    RunByNumber, reasons, differential calls words, "a run rule begins in files of the same number alone";
    RunChainAfterExec, reasons, differential calls words, "the chain of a run rule is that behind the exec";
    RunRuleOfExecuted, reasons, differential calls words, "only the executed file's own run rule is looked at";
    RunFilesFalling, reasons, differential calls words, "files are looked at in falling order for their run rules";
    RunRuleOfFirstFile, reasons, differential calls words, "the rule's number is not that of the file where its chain begins";
    OwnerOfFirstFile, reasons, differential calls words, "the owner is not that of the rule that is told";
    MadeToldAsUser, reasons, differential calls words, "a new file's rule is told as that of an exec";
    OwnToldWithRecord, reasons, differential calls, "a record is told of a container's own rule";
    TagOfSession, reasons, differential calls words, "the tag of a blocked record is the file's before it";
    BlockedNotExplained, reasons, differential calls words, "a blocked last record is refused with 25";
    QuietExplained, reasons, differential calls fuzz, "a quiet last record is explained";
    FirstOfOthersZero, reasons, differential calls fuzz, "without a chain of a run rule its place is 0";
    BehindMixturesLeft, reasons, differential calls fuzz, "numbers behind the last mixture's are left";
    Reason16Taken, reasons, differential calls fuzz, "16 numbers are enough for a reason";
    TraceBeforePolicy, reasons, differential calls fuzz, "25 goes before 1 to 6";
    RefusedReasonClears, reasons, differential calls fuzz, "a refused reason clears its numbers";
    PlaceFromOne, gathers, differential calls fuzz, "the places of events begin from 1";
    LastEventDropped, gathers, differential calls fuzz, "the last event for which there is room is not taken";
    StaleReceiver, gathers, differential calls fuzz, "the event of a refusal has the receiver of the record before it";
    BlockedNoEvent, gathers, differential fuzz, "a blocked record leaves no event";
    EventPositionUntold, gathers, differential calls fuzz, "events leave out the position";
    EventsOnCopy, gathers, differential calls fuzz, "gathering events leaves the session as it was";
    EventsBehindCleared, gathers, differential calls fuzz, "the numbers behind the events are cleared";
    SmallRoomTaken, gathers, differential calls fuzz, "a room for no event is taken";
    RefusedEventsClearCounts, gathers, differential calls fuzz, "events refused with 9 clear the counts";
    FiguresCountedOn, gathers, differential calls fuzz, "figures are counted on from what stood there";
    AlertsNotAccepted, gathers, differential calls fuzz, "alerts are not among the accepted";
    AlertOfProcess, gathers, differential calls fuzz, "an alert is counted to its process and not to its receiver";
    AlertCountedTwice, gathers, differential calls fuzz, "an alert is counted twice at its receiver";
    BlockedAsRefused, gathers, differential fuzz, "blocked records are counted as refused";
    ContainersNotAdded, gathers, differential calls fuzz, "a sum leaves out the alerts of the containers";
    SumStops, gathers, differential calls fuzz, "a sum stops at the greatest number";
}
