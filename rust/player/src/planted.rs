//! Known bugs that a test build can plant, to show that the tests find them.

/// The bug that is planted, if one is. Without the feature it takes no room, and there is none.
#[derive(Clone, Copy, Default)]
pub struct Planted {
    #[cfg(feature = "planted")]
    bug: Option<Bug>,
}

impl Planted {
    /// With this bug.
    #[cfg(feature = "planted")]
    pub fn with(bug: Option<Bug>) -> Planted {
        Planted { bug }
    }

    /// Whether it is this bug.
    #[cfg(feature = "planted")]
    pub fn is(self, bug: Bug) -> bool {
        self.bug == Some(bug)
    }

    /// Whether it is this bug.
    #[cfg(not(feature = "planted"))]
    pub fn is(self, _: Bug) -> bool {
        false
    }
}

/// A bug to plant: slips, the five shortcuts that the rules warn of, and slips in modes, reports, in what
/// a live child bars, in what is prepared and decided, in pairs of copies, and in the numbers of edition 2.
#[derive(Clone, Copy, Debug, PartialEq, Eq)]
pub enum Bug {
    /// A parent with a version of its own keeps it when its child commits one.
    ParentKeepsItsVersion,
    /// A lock is granted without a look at its retainers.
    GrantBlindToRetainers,
    /// A cut commit makes one page write too many.
    CutOffByOne,
    /// A child's commit frees its locks.
    ChildCommitFreesLocks,
    /// Home pages are written before the commit page.
    HomeBeforeCommitPage,
    /// The commit page is emptied before the last home page is written.
    EmptiedTooEarly,
    /// An aborted child's record falls back to the home page.
    AbortRestoresHome,
    /// A retainer may read and write without locking again.
    RetainerNeedsNoLock,
    /// Read mode is granted while another holds in write mode.
    ReadOverWriteHolder,
    /// Write mode is granted without a look at those who retain in read mode.
    WriteBlindToReadRetainers,
    /// A parent inherits the weaker mode.
    ParentInheritsWeakerMode,
    /// A read lock is enough to write.
    WriteUnderReadLock,
    /// A report leaves the parent the versions too.
    ReportKeepsVersions,
    /// A report leaves the parent the locks of the descendants too.
    ReportKeepsDescendantsLocks,
    /// A report lets the parent hold what was held.
    ReportLetsParentHold,
    /// Whether a lock can be granted is asked before whether a child is live.
    ChildTriedAfterGrant,
    /// A live child stops an abort too.
    ChildStopsAbort,
    /// A crash frees the records of the prepared transaction.
    CrashFreesPrepared,
    /// A transaction with changes may commit or prepare beside one that is prepared.
    CommitBesidePrepared,
    /// A decision for another identity ends the prepared transaction.
    DecisionForAnother,
    /// An abort decision writes the home pages.
    AbortDecisionWritesHome,
    /// A commit decision leaves page 0 committed.
    CommitDecisionLeavesPage,
    /// That a child can't prepare is asked before whether another is prepared.
    ChildTriedBeforePrepared,
    /// Recovery takes a prepared transaction for one that failed.
    RecoverEmptiesPrepared,
    /// A prepare with no changes is refused beside a prepared transaction.
    UnchangedBarredToo,
    /// A pair's second copy is written before the first.
    SecondCopyFirst,
    /// A pair is mended from its last good copy.
    MendedFromSecond,
    /// Of two good copies that differ the second isn't mended.
    OnlyBadMended,
    /// Mending leaves the status of a copy as it was.
    MendedStatusLeft,
    /// A recover that is refused mends what can be mended.
    RefusedRecoverMends,
    /// A torn write puts the new bytes into the copy that it leaves bad.
    BadCopyNew,
    /// A write whose second copy is left bad doesn't count as made.
    SecondBadNotMade,
    /// A write whose second copy is left old doesn't count as made.
    SecondOldNotMade,
    /// Where the last write is torn and counts as made, the run stays up.
    LastTornIsWhole,
    /// The pages that are mended count as page writes.
    MendingCounted,
    /// A copy with status 2 is taken as good.
    StatusTwoGood,
    /// Of two good copies the second is read.
    SecondCopyRead,
    /// Only page 0 is asked whether one of its copies is good.
    OtherPagesUnasked,
    /// Of the value that says how a write is torn only two bits are looked at.
    TearOfTwoBits,
    /// Home pages begin one page early.
    HomeOnePageEarly,
    /// The count stands one bit late in the commit page.
    CountOneBitLate,
    /// Only the first 32 records have a bit in the map.
    MapOfHalf,
    /// The bits behind the fields of a word may be anything.
    BitsBehindIgnored,
    /// A record number has four bits.
    RecordOfFourBits,
    /// A count has six bits.
    CountOfSixBits,
    /// Page 0 may be of any edition.
    EditionUnasked,
    /// Half a word may stand behind the last.
    ListOfHalfWords,
    /// There are prepare, decide and query in every form.
    PreparesTaken,
    /// A page 0 that says prepared is taken in every form.
    PreparedPageTaken,
}

impl Bug {
    /// Whether it is about what is prepared and decided.
    pub fn is_of_two_phases(self) -> bool {
        (Bug::CrashFreesPrepared as u8..=Bug::UnchangedBarredToo as u8).contains(&(self as u8))
    }

    /// Those in pairs of copies.
    pub const OF_PAIRS: [Bug; 16] = [
        Bug::SecondCopyFirst,
        Bug::MendedFromSecond,
        Bug::OnlyBadMended,
        Bug::MendedStatusLeft,
        Bug::RefusedRecoverMends,
        Bug::BadCopyNew,
        Bug::SecondBadNotMade,
        Bug::SecondOldNotMade,
        Bug::LastTornIsWhole,
        Bug::MendingCounted,
        Bug::StatusTwoGood,
        Bug::SecondCopyRead,
        Bug::OtherPagesUnasked,
        Bug::TearOfTwoBits,
        Bug::PreparesTaken,
        Bug::PreparedPageTaken,
    ];

    /// Those in the numbers of edition 2.
    pub const OF_EDITION_2: [Bug; 10] = [
        Bug::HomeOnePageEarly,
        Bug::CountOneBitLate,
        Bug::MapOfHalf,
        Bug::BitsBehindIgnored,
        Bug::RecordOfFourBits,
        Bug::CountOfSixBits,
        Bug::EditionUnasked,
        Bug::ListOfHalfWords,
        Bug::PreparesTaken,
        Bug::PreparedPageTaken,
    ];

    /// Those in the rules of the plain form; the ones that aren't of two phases are rules of every form.
    pub const ALL: [Bug; 25] = [
        Bug::ParentKeepsItsVersion,
        Bug::GrantBlindToRetainers,
        Bug::CutOffByOne,
        Bug::ChildCommitFreesLocks,
        Bug::HomeBeforeCommitPage,
        Bug::EmptiedTooEarly,
        Bug::AbortRestoresHome,
        Bug::RetainerNeedsNoLock,
        Bug::ReadOverWriteHolder,
        Bug::WriteBlindToReadRetainers,
        Bug::ParentInheritsWeakerMode,
        Bug::WriteUnderReadLock,
        Bug::ReportKeepsVersions,
        Bug::ReportKeepsDescendantsLocks,
        Bug::ReportLetsParentHold,
        Bug::ChildTriedAfterGrant,
        Bug::ChildStopsAbort,
        Bug::CrashFreesPrepared,
        Bug::CommitBesidePrepared,
        Bug::DecisionForAnother,
        Bug::AbortDecisionWritesHome,
        Bug::CommitDecisionLeavesPage,
        Bug::ChildTriedBeforePrepared,
        Bug::RecoverEmptiesPrepared,
        Bug::UnchangedBarredToo,
    ];
}
