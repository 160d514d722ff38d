//! Switches that make the model wrong, one at a time.
//!
//! They show that the checks see something: each fault changes what some call gives. Some break demand 3 on
//! some list, as [`Fault::breaks_demand_3`] says, some the promise of the first read from memory, as
//! [`Fault::breaks_first_read`] says, and some what is said of the read counters after a run, as
//! [`Fault::breaks_counter_law`] says.

/// What the rules ask about faults. The right rules have none: see [`NoFault`].
pub trait Switches {
    /// Whether this fault is switched on.
    fn has(&self, fault: Fault) -> bool;
}

/// The right rules. The answers are constant, so nothing of the faults is left in compiled code.
#[derive(Clone, Copy, Debug)]
pub struct NoFault;

impl Switches for NoFault {
    #[inline(always)]
    fn has(&self, _: Fault) -> bool {
        false
    }
}

impl Switches for Fault {
    fn has(&self, fault: Fault) -> bool {
        *self == fault
    }
}

impl Switches for Option<Fault> {
    fn has(&self, fault: Fault) -> bool {
        *self == Some(fault)
    }
}

/// One way to get the rules wrong.
#[derive(Clone, Copy, Debug, PartialEq, Eq, Hash, PartialOrd, Ord)]
pub enum Fault {
    /// "A read begun while a write waits, and then remembered." Step 4 sets no overlapped mark.
    ReadBesideWriteCached,
    /// "A guard granted late to a player that lost the range and has it back." Step 7 and the
    /// test for a live guard look at the owner only, not at the epoch.
    LateGuardGranted,
    /// "Guards cleared on a turned-back write but left after a given-up one." Step 8 clears
    /// nothing.
    AbandonKeepsGuards,
    /// "A write answer remembered though a second write crossed it." Step 5 leaves the earlier
    /// pending writes unmarked.
    CrossedWriteCached,
    /// The other half of the same rule: the second write is not itself overlapped.
    CrossingWriteCached,
    /// "They think a read may be remembered though a write crossed it." Step 5 leaves pending
    /// reads unmarked.
    CrossedReadCached,
    /// "They think a guard request that timed out can be sent again under the same number."
    GuardRequestResent,
    /// A rejected write is answered as committed.
    RejectedAnsweredCommitted,
    /// The store commits a write whatever guard it carries.
    StoreIgnoresGuard,
    /// A read delivered while the entry's last write is still unanswered gives zeros.
    ReadMissesWrite,
    /// A read from memory tests the guards' equality, not that the guard is live.
    CacheHitIgnoresLiveness,
    /// Step 5 does not empty the cached value.
    WriteKeepsCachedValue,
    /// Step 5 takes a write without a live guard, carrying 0, as a load does.
    UnguardedWrite,
    /// A guard is set over a range that a boundary divides.
    GuardSetAcrossBoundary,
    /// "Source 000 also has a tablet cut the range to its own part; not here." It does so.
    GuardCutToTablet,
    /// Step 7 grants a guard request whose outcome is "layout changed".
    GrantAfterLayoutChanged,
    /// Step 3 does not test 31.
    SharedGuardRequests,
    /// Step 6 fits a delivered request too.
    DeliveredTwice,
    /// "A given-up row then leaves" is left out: it stays and can be delivered again.
    AbandonedDeliveredTwice,
    /// Step 12 does nothing.
    RestartTabletKeepsGuards,
    /// Step 10 bars the tablet.
    SplitRestartsTablet,
    /// Step 13 abandons the requests and clears nothing.
    RestartPlayerKeepsGuards,
    /// Step 13 clears guards and cached values and leaves the pending writes as they are.
    RestartPlayerKeepsWrites,
    /// Step 3 does not clear the player's guards.
    RequestKeepsGuards,
    /// Step 7 grants whatever the epochs say; the test for a live guard is right.
    GrantIgnoresEpochs,
    /// Step 7 leaves the guards after a rejected write.
    RejectedKeepsGuards,
    /// "a player that never remembers, which demand 3 would let by"
    NeverCaches,
    /// A guard interval ends at the boundaries of the entry's tablet.
    IntervalCutToTablet,
    /// A guard interval of more than one entry begins an entry late.
    IntervalBeginsLate,
    /// A guard interval of more than one entry ends an entry early.
    IntervalEndsEarly,
    /// The entry after a guard interval is given for its last, as a range's high.
    IntervalEndsBehind,
    /// An open entry is a guard interval by itself.
    OpenAlone,
    /// The store used alone finds a guard interval, and gives 0 for its guard.
    IntervalWithoutGuard,
    /// Step 14 takes a serial, where one is left.
    IntervalTakesSerial,
    /// "which 0 never does", as before document 02 §2: an open guard does not match a carried 0.
    OpenMatchesNothing,
    /// A load commits at a barred entry too: barred matches a carried 0.
    BarredMatchesOpen,
    /// The store used alone commits a write that carries the number of barred at a barred entry.
    BarredMatches,
    /// "become 0", as before document 02 §2: a tablet restart leaves the entries open.
    RestartOpens,
    /// A tablet restart bars the entries that have a guard, and leaves the open ones open.
    RestartKeepsOpen,
    /// A barred entry is a guard interval by itself.
    BarredAlone,
    /// "needing no ownership": a load needs owner 8, which is nobody.
    LoadNeedsOwnership,
    /// A load is refused where the entry is not open, before it is sent.
    LoadNeedsOpenGuard,
    /// A load tests 34 before 38.
    LoadSerialFirst,
    /// "carrying 0": a load carries the store's guard of the entry.
    LoadCarriesGuard,
    /// "It is never overlapped": a load is, where a write or another load on the entry waits.
    LoadOverlapped,
    /// "It is never overlapped": a player's write marks the waiting loads on the entry.
    WriteMarksLoads,
    /// "marks no row": a load marks the players' waiting reads and writes on the entry.
    LoadMarksRequests,
    /// "marks no row": a read or write of a player is overlapped where a load on the entry waits.
    LoadOverlapsRequests,
    /// "no guard or cell follows from it": a load empties the players' cells, as a write its player's.
    LoadEmptiesCells,
    /// "no guard or cell follows from it": the entry's owner remembers an answer 4 to a load under the
    /// guard that it has.
    LoadCached,
    /// "no guard or cell follows from it": an answer 5 to a load clears the guard of the entry's owner.
    RejectedLoadClears,
    /// The same where a load is given up.
    AbandonedLoadClears,
    /// Step 13 gives up the waiting loads with the player's requests.
    RestartPlayerAbandonsLoads,
    /// Step 13 takes player 8, and gives up the waiting loads.
    LoaderRestarts,
    /// "given up or not": requests that are given up take no place.
    AbandonedUncounted,
    /// Requests that are delivered take no place.
    DeliveredUncounted,
    /// Only requests that are neither delivered nor given up take a place.
    OnlyUnderwayCounted,
    /// "or is the loader": the loader too has 6 places of its own.
    LoaderHasOwnPlaces,
    /// "the loader's rows plus": loads take no common place.
    LoadsUncounted,
    /// "each player's above 6": of the players, the sender's requests above 6 alone take common places.
    OthersUncounted,
    /// "the 16 common rows are in use": 38 from the 18th common request on.
    SeventeenthLetIn,
    /// 38 with one common place left.
    SixteenthTurnedAway,
    /// "A player with fewer than 6 rows is never turned away": one with 5 is.
    SixthTurnedAway,
    /// "6 rows of its own": a player has 7.
    SevenOwnPlaces,
    /// "A player with fewer than 6 rows is never turned away": everyone is once the common places are taken.
    AllTurnedAway,
    /// "and the 16 common rows are in use": 38 from a player's 7th request on, and for each load.
    OwnPlacesAlone,
    /// The rule of 33 under the number 38: all 64 places are anyone's.
    NoShares,
    /// Steps 3, 4 and 5 test 34 before 38.
    SerialBeforePlace,
    /// A read from memory gets 38 where a request of its player would.
    MemoryReadNeedsPlace,
    /// "it takes 33's place": the number is still 33.
    OldNumber,
    /// "Tables breaking these shares are 22": they are taken.
    SharesUntested,
    /// Tables that have all 16 common places in use are 22.
    FullSharesRefused,
    /// "given up or not": the test of the tables passes over requests that are given up.
    SharesOfPendingAlone,
    /// A tablet restart clears the players' guards of its entries too, with their cells.
    RestartTabletClearsHeld,
    /// Steps 1 and 2 set the epoch of every entry.
    AssignSetsEveryEpoch,
    /// "overlapped if a write by this player on this entry waits": a read is, by any player's write.
    AnyWriteOverlapsReads,
    /// "31 a waiting guard request of this player shares an entry": of any player.
    AnyGuardRequestShares,
    /// Step 13 gives up the waiting requests of every player; guards and cells are cleared of its own alone.
    RestartPlayerAbandonsAll,
    /// Step 7 gives "not held" where the store no more has the guard at every entry of the range.
    GrantAsksStore,
    /// A read comes from memory only while the store has the guard at the entry.
    MemoryReadAsksStore,
    /// Step 6 clears the other players' guards where it sets one, with their cells.
    SetGuardClearsOthers,
    /// A boundary at a range's low divides it, but for entry 0.
    BoundaryAtLowDivides,
    /// Step 7 grants a guard for all entries of the range but the last.
    GrantMissesLastEntry,
    /// "last usable 4,000,000": it is never issued.
    LastSerialUnused,
    /// "answered reads equals its replies 2 and 3": a reply 3 is not counted.
    StoreReadUncounted,
    /// "reads from memory its replies 2": a reply 3 is counted as from memory too.
    StoreReadAsHit,
    /// "to that player": a reply 3 is counted for the entry's owner, and not at all where nobody owns it.
    StoreReadOfOwner,
    /// "to that player": a reply 3 is counted for player 0, as step 7 names none.
    StoreReadOfPlayer0,
    /// "nothing is altered", as before document 02 §7: a reply 2 is not counted.
    MemoryReadUncounted,
    /// A reply 2 is counted as from memory, and not among the answered reads.
    MemoryReadUnanswered,
    /// A reply 2 is counted among the answered reads, and not as from memory.
    MemoryReadAsMiss,
    /// A read that is sent, reply 1, is counted as answered.
    SentReadCounted,
    /// A read that finds no place or no serial, 38 or 34, is counted as answered.
    RefusedReadCounted,
    /// A read that is given up after it arrived is counted as answered.
    AbandonedReadCounted,
    /// A reply 4 to a player is counted as an answered read.
    WriteAnswerCounted,
    /// Step 13 makes the player's counts zero.
    RestartZeroesCounters,
    /// "A run also keeps": a run leaves the counters as they were, and only single steps count.
    RunLeavesCounters,
    /// "a run begun with zero counts": every run makes the counts zero first.
    RunBeginsAtZero,
    /// "leaves both counts as they were": reads from memory are counted on where answered reads are at the limit.
    HitsGoOn,
    /// The same the other way: answered reads are counted on, above the limit, and those from memory are not.
    AnsweredGoesOn,
    /// A read that would carry a count to 4,000,000,000 leaves both counts as they were.
    CountStopsEarly,
    /// The limit is 4,000,000,001: of what is counted, and of the tables.
    CountStopsLate,
    /// What is counted has no limit.
    CountUnlimited,
    /// "more reads from memory than answered reads ... is 22": such tables are taken.
    HitsUntested,
    /// "a count above that limit, is 22": such tables are taken.
    CountLimitUntested,
    /// Tables are 22 in which a player has answered reads, and all came from memory.
    EqualCountsRefused,
    /// Tables that have a count of 4,000,000,000 are 22.
    FullCounterRefused,
    /// The test of the tables passes over the counter of player 7.
    LastCounterUntested,
    /// "in thousandths": the share is in hundredths.
    ShareInHundredths,
    /// "remainder of 1,000 × reads from memory": it is that of reads from memory.
    ShareRemainderOfHits,
    /// The quotient is the nearest one, up where two are as near.
    ShareRounded,
    /// The share is of the reads that did not come from memory.
    ShareOfStoreReads,
    /// 1,000 × reads from memory is cut to 32 bits.
    ShareWraps,
    /// 1,000 × reads from memory is 4,294,967,295 at the most.
    ShareSaturates,
    /// "39 when the player has no answered read": the share is 0 then.
    NoReadShareZero,
    /// "39 when the player has no answered read": also where none came from memory.
    NoHitRefused,
    /// "after 28": 39 for a player above 7, which has no answered read either.
    NoReadBeforePlayer,
    /// The share tests 28 before 21 and 22.
    PlayerBeforeTables,
    /// The share passes over the counters of the other players in its test of the tables.
    AskedCounterAlone,
}

impl Fault {
    /// Every fault.
    pub const ALL: [Fault; 119] = [
        Fault::ReadBesideWriteCached,
        Fault::LateGuardGranted,
        Fault::AbandonKeepsGuards,
        Fault::CrossedWriteCached,
        Fault::CrossingWriteCached,
        Fault::CrossedReadCached,
        Fault::GuardRequestResent,
        Fault::RejectedAnsweredCommitted,
        Fault::StoreIgnoresGuard,
        Fault::ReadMissesWrite,
        Fault::CacheHitIgnoresLiveness,
        Fault::WriteKeepsCachedValue,
        Fault::UnguardedWrite,
        Fault::GuardSetAcrossBoundary,
        Fault::GuardCutToTablet,
        Fault::GrantAfterLayoutChanged,
        Fault::SharedGuardRequests,
        Fault::DeliveredTwice,
        Fault::AbandonedDeliveredTwice,
        Fault::RestartTabletKeepsGuards,
        Fault::SplitRestartsTablet,
        Fault::RestartPlayerKeepsGuards,
        Fault::RestartPlayerKeepsWrites,
        Fault::RequestKeepsGuards,
        Fault::GrantIgnoresEpochs,
        Fault::RejectedKeepsGuards,
        Fault::NeverCaches,
        Fault::IntervalCutToTablet,
        Fault::IntervalBeginsLate,
        Fault::IntervalEndsEarly,
        Fault::IntervalEndsBehind,
        Fault::OpenAlone,
        Fault::IntervalWithoutGuard,
        Fault::IntervalTakesSerial,
        Fault::OpenMatchesNothing,
        Fault::BarredMatchesOpen,
        Fault::BarredMatches,
        Fault::RestartOpens,
        Fault::RestartKeepsOpen,
        Fault::BarredAlone,
        Fault::LoadNeedsOwnership,
        Fault::LoadNeedsOpenGuard,
        Fault::LoadSerialFirst,
        Fault::LoadCarriesGuard,
        Fault::LoadOverlapped,
        Fault::WriteMarksLoads,
        Fault::LoadMarksRequests,
        Fault::LoadOverlapsRequests,
        Fault::LoadEmptiesCells,
        Fault::LoadCached,
        Fault::RejectedLoadClears,
        Fault::AbandonedLoadClears,
        Fault::RestartPlayerAbandonsLoads,
        Fault::LoaderRestarts,
        Fault::AbandonedUncounted,
        Fault::DeliveredUncounted,
        Fault::OnlyUnderwayCounted,
        Fault::LoaderHasOwnPlaces,
        Fault::LoadsUncounted,
        Fault::OthersUncounted,
        Fault::SeventeenthLetIn,
        Fault::SixteenthTurnedAway,
        Fault::SixthTurnedAway,
        Fault::SevenOwnPlaces,
        Fault::AllTurnedAway,
        Fault::OwnPlacesAlone,
        Fault::NoShares,
        Fault::SerialBeforePlace,
        Fault::MemoryReadNeedsPlace,
        Fault::OldNumber,
        Fault::SharesUntested,
        Fault::FullSharesRefused,
        Fault::SharesOfPendingAlone,
        Fault::RestartTabletClearsHeld,
        Fault::AssignSetsEveryEpoch,
        Fault::AnyWriteOverlapsReads,
        Fault::AnyGuardRequestShares,
        Fault::RestartPlayerAbandonsAll,
        Fault::GrantAsksStore,
        Fault::MemoryReadAsksStore,
        Fault::SetGuardClearsOthers,
        Fault::BoundaryAtLowDivides,
        Fault::GrantMissesLastEntry,
        Fault::LastSerialUnused,
        Fault::StoreReadUncounted,
        Fault::StoreReadAsHit,
        Fault::StoreReadOfOwner,
        Fault::StoreReadOfPlayer0,
        Fault::MemoryReadUncounted,
        Fault::MemoryReadUnanswered,
        Fault::MemoryReadAsMiss,
        Fault::SentReadCounted,
        Fault::RefusedReadCounted,
        Fault::AbandonedReadCounted,
        Fault::WriteAnswerCounted,
        Fault::RestartZeroesCounters,
        Fault::RunLeavesCounters,
        Fault::RunBeginsAtZero,
        Fault::HitsGoOn,
        Fault::AnsweredGoesOn,
        Fault::CountStopsEarly,
        Fault::CountStopsLate,
        Fault::CountUnlimited,
        Fault::HitsUntested,
        Fault::CountLimitUntested,
        Fault::EqualCountsRefused,
        Fault::FullCounterRefused,
        Fault::LastCounterUntested,
        Fault::ShareInHundredths,
        Fault::ShareRemainderOfHits,
        Fault::ShareRounded,
        Fault::ShareOfStoreReads,
        Fault::ShareWraps,
        Fault::ShareSaturates,
        Fault::NoReadShareZero,
        Fault::NoHitRefused,
        Fault::NoReadBeforePlayer,
        Fault::PlayerBeforeTables,
        Fault::AskedCounterAlone,
    ];

    /// Whether some list of steps breaks demand 3 with this fault. The others change replies or
    /// tables and are seen only by comparison with the right rules:
    ///
    /// - `RestartPlayerKeepsWrites`: a write left pending makes later reads and writes
    ///   overlapped, which is the safe side; its own answer finds its guard gone and is not
    ///   cached. Demand 3 does not say that an abandoned write is never answered.
    /// - `RequestKeepsGuards`: the old guard stops committing when the new one is set, and the
    ///   new one is held only after that.
    /// - `GrantIgnoresEpochs`: a guard granted late has a serial below the epoch, so it is not
    ///   live; the two tests guard the same case.
    /// - `RejectedKeepsGuards`: a guard once replaced at the store never comes back there, so
    ///   the writes under it are rejected for ever and what is cached stays right.
    /// - `NeverCaches`: demand 3 asks no read to be served from memory.
    /// - `IntervalCutToTablet`, `IntervalBeginsLate`, `IntervalEndsEarly`, `IntervalEndsBehind`,
    ///   `OpenAlone`, `BarredAlone`: document 02 §1, step 14 "is neither read nor write in the line", so its
    ///   two numbers are in no sentence of it.
    /// - `IntervalWithoutGuard`: the same, and its guard is not even in the reply of step 14. Only
    ///   the store used alone shows it.
    /// - `IntervalTakesSerial`: a serial that nothing gets leaves a gap, and no sentence of demand 3
    ///   is about gaps.
    /// - `BarredMatches`: no step sends a write that carries the number of barred, and a table with
    ///   one breaks a rule. Only the store used alone shows it.
    /// - `LoadNeedsOwnership`, `LoadNeedsOpenGuard`, `LoadSerialFirst`: a refused step changes nothing
    ///   in the line.
    /// - `LoadOverlapped`, `WriteMarksLoads`: the mark keeps an answer from being remembered, and a
    ///   load's never is.
    /// - `LoadMarksRequests`, `LoadOverlapsRequests`, `LoadEmptiesCells`, `RejectedLoadClears`,
    ///   `AbandonedLoadClears`: less is remembered, which is the safe side.
    /// - `RestartPlayerAbandonsLoads`, `LoaderRestarts`: a load that is given up may still arrive, and
    ///   demand 3 asks no write to be answered.
    /// - `AbandonedUncounted` and those after it up to `SharesOfPendingAlone`: a step refused, or not refused,
    ///   for want of a place changes nothing in the line, however many requests are in flight.
    /// - `RestartTabletClearsHeld`, `AssignSetsEveryEpoch`, `AnyWriteOverlapsReads`, `GrantAsksStore`,
    ///   `MemoryReadAsksStore`, `SetGuardClearsOthers`, `GrantMissesLastEntry`: fewer guards are held or live,
    ///   or less is remembered, which is the safe side.
    /// - `AnyGuardRequestShares`, `LastSerialUnused`: a refused step changes nothing in the line.
    /// - `StoreReadUncounted` and those after it, [`Fault::is_of_counters`]: no reply of a step depends on a read
    ///   counter, so that nothing in the line does.
    pub fn breaks_demand_3(self) -> bool {
        if self.is_of_counters() {
            return false;
        }
        !matches!(
            self,
            Fault::RestartPlayerKeepsWrites
                | Fault::RequestKeepsGuards
                | Fault::GrantIgnoresEpochs
                | Fault::RejectedKeepsGuards
                | Fault::NeverCaches
                | Fault::IntervalCutToTablet
                | Fault::IntervalBeginsLate
                | Fault::IntervalEndsEarly
                | Fault::IntervalEndsBehind
                | Fault::OpenAlone
                | Fault::IntervalWithoutGuard
                | Fault::IntervalTakesSerial
                | Fault::BarredMatches
                | Fault::BarredAlone
                | Fault::LoadNeedsOwnership
                | Fault::LoadNeedsOpenGuard
                | Fault::LoadSerialFirst
                | Fault::LoadOverlapped
                | Fault::WriteMarksLoads
                | Fault::LoadMarksRequests
                | Fault::LoadOverlapsRequests
                | Fault::LoadEmptiesCells
                | Fault::RejectedLoadClears
                | Fault::AbandonedLoadClears
                | Fault::RestartPlayerAbandonsLoads
                | Fault::LoaderRestarts
                | Fault::AbandonedUncounted
                | Fault::DeliveredUncounted
                | Fault::OnlyUnderwayCounted
                | Fault::LoaderHasOwnPlaces
                | Fault::LoadsUncounted
                | Fault::OthersUncounted
                | Fault::SeventeenthLetIn
                | Fault::SixteenthTurnedAway
                | Fault::SixthTurnedAway
                | Fault::SevenOwnPlaces
                | Fault::AllTurnedAway
                | Fault::OwnPlacesAlone
                | Fault::NoShares
                | Fault::SerialBeforePlace
                | Fault::MemoryReadNeedsPlace
                | Fault::OldNumber
                | Fault::SharesUntested
                | Fault::FullSharesRefused
                | Fault::SharesOfPendingAlone
                | Fault::RestartTabletClearsHeld
                | Fault::AssignSetsEveryEpoch
                | Fault::AnyWriteOverlapsReads
                | Fault::AnyGuardRequestShares
                | Fault::GrantAsksStore
                | Fault::MemoryReadAsksStore
                | Fault::SetGuardClearsOthers
                | Fault::GrantMissesLastEntry
                | Fault::LastSerialUnused
        )
    }

    /// Whether it is of the read counters or the share (document 02 §7).
    pub fn is_of_counters(self) -> bool {
        self >= Fault::StoreReadUncounted
    }

    /// Whether some interleaving breaks the promise of document 02 §6 with this fault: the player's guard or
    /// its cell does not outlast what others may do, or its request finds no place or serial that is left. Most
    /// faults that break demand 3 do not: it forbids to remember too much, and this one to remember too little.
    pub fn breaks_first_read(self) -> bool {
        matches!(
            self,
            Fault::NeverCaches
                | Fault::LoadMarksRequests
                | Fault::LoadOverlapsRequests
                | Fault::LoadEmptiesCells
                | Fault::LoadCached
                | Fault::RejectedLoadClears
                | Fault::AbandonedLoadClears
                | Fault::AllTurnedAway
                | Fault::NoShares
                | Fault::RestartTabletClearsHeld
                | Fault::AssignSetsEveryEpoch
                | Fault::AnyWriteOverlapsReads
                | Fault::AnyGuardRequestShares
                | Fault::RestartPlayerAbandonsAll
                | Fault::GrantAsksStore
                | Fault::MemoryReadAsksStore
                | Fault::SetGuardClearsOthers
                | Fault::BoundaryAtLowDivides
                | Fault::GrantMissesLastEntry
                | Fault::LastSerialUnused
        )
    }

    /// Whether some run begun with zero counts breaks what document 02 §7 says of its replies with this fault. No
    /// fault of other rules does: it changes replies, and what is counted goes by them. Of the read counters these
    /// do not:
    ///
    /// - `RunBeginsAtZero`: the counts are zero then.
    /// - `HitsGoOn`, `AnsweredGoesOn`, `CountStopsEarly`, `CountStopsLate`, `CountUnlimited`: a session has at most
    ///   5,460 records, so that from zero no count comes near the limit.
    /// - `HitsUntested` and those after it: what steps count is right; only the test of the tables, or the share, is
    ///   not.
    pub fn breaks_counter_law(self) -> bool {
        (Fault::StoreReadUncounted..=Fault::RunLeavesCounters).contains(&self)
    }
}
