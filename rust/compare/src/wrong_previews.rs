//! Previews that are wrong in one point each, over those of the port.

use calls::{Fields, Library, Reply, Report};
use model::codec;
use model::preview::MOST_RECORDS;
use model::tables::fresh_tables;
use port::Port;

use crate::wrong::{Point, Wrong};

/// What is wrong with the preview of a step, or of a run.
#[derive(Clone, Copy, Debug, PartialEq, Eq)]
pub enum PreviewPoint {
    /// Only the tables are tested: 0 where they keep the rules. 26 and 27 are right.
    TablesAlone,
    /// 1 with the last serial, not with the next.
    LastSerial,
    /// Tables that break a rule are taken to be fresh ones.
    BrokenTablesTaken,
    /// 21 and 22 before 26 and 27.
    TablesBeforeFields,
    /// As it takes no serial, it needs none: no 34.
    NeedsNoSerial,
    /// As it takes no place, it needs none: no 38.
    NeedsNoPlace,
    /// A read from memory is said to go to the store.
    PassesMemoryBy,
    /// The run takes its whole budget.
    WholeBudget,
    /// A budget above 17 counts as 17.
    CountsAs17,
    /// A budget above 15 counts as 15.
    CountsAs15,
    /// A budget above 16 is refused.
    RefusesBudget,
    /// The list is left as it was.
    LeavesList,
    /// A refused run puts its number into the list.
    RefusedWritesList,
    /// List places not filled become 0.
    ClearsList,
    /// Replies are put behind those that stand in the list.
    WritesBehindReplies,
    /// 0 after 16 records, also with records left.
    EndsAt16,
    /// The 17th record is read, and if it is bad its number comes before 9.
    BadRecordFirst,
    /// Each record is tried on the start tables, not on what those before it leave.
    EachAlone,
}

impl PreviewPoint {
    /// Every point.
    pub const ALL: [PreviewPoint; 18] = [
        PreviewPoint::TablesAlone,
        PreviewPoint::LastSerial,
        PreviewPoint::BrokenTablesTaken,
        PreviewPoint::TablesBeforeFields,
        PreviewPoint::NeedsNoSerial,
        PreviewPoint::NeedsNoPlace,
        PreviewPoint::PassesMemoryBy,
        PreviewPoint::WholeBudget,
        PreviewPoint::CountsAs17,
        PreviewPoint::CountsAs15,
        PreviewPoint::RefusesBudget,
        PreviewPoint::LeavesList,
        PreviewPoint::RefusedWritesList,
        PreviewPoint::ClearsList,
        PreviewPoint::WritesBehindReplies,
        PreviewPoint::EndsAt16,
        PreviewPoint::BadRecordFirst,
        PreviewPoint::EachAlone,
    ];

    /// The preview of a step.
    pub fn step(self, store: &[u32], players: &[u32], step: Fields) -> Reply {
        let right = Port.preview(store, players, step);
        let tested = Port.check(store, players);
        match self {
            PreviewPoint::TablesAlone if right.code != 26 && right.code != 27 => tested,
            PreviewPoint::TablesBeforeFields if tested.is_refusal() => tested,
            PreviewPoint::LastSerial if right.code == 1 => Reply::new(1, players[0], 0),
            PreviewPoint::NeedsNoSerial if right.code == 34 => Reply::new(1, players[0] + 1, 0),
            PreviewPoint::NeedsNoPlace if right.code == 38 => Reply::new(1, players[0] + 1, 0),
            PreviewPoint::PassesMemoryBy if right.code == 2 => Reply::new(1, players[0] + 1, 0),
            PreviewPoint::BrokenTablesTaken if right.code == 22 => {
                let (store, players) = fresh_tables();
                Port.preview(&store, &players, step)
            }
            _ => right,
        }
    }

    /// The preview of a run.
    pub fn run(
        self,
        store: &[u32],
        players: &[u32],
        session: &[u8],
        budget: u32,
        replies: &mut [u32],
    ) -> Report {
        let run = |library: Wrong, most: u32, replies: &mut [u32]| {
            let (mut store, mut players) = (store.to_vec(), players.to_vec());
            library.run(&mut store, &mut players, session, budget.min(most), replies)
        };
        // Its run, of which this is the preview, is right.
        let right = Wrong::InPreview(self);
        let mut report = match self {
            PreviewPoint::WholeBudget => run(right, u32::MAX, replies),
            PreviewPoint::CountsAs17 => run(right, 17, replies),
            PreviewPoint::CountsAs15 => run(right, 15, replies),
            PreviewPoint::RefusesBudget if budget > MOST_RECORDS => Report::refused(28),
            PreviewPoint::LeavesList => run(right, MOST_RECORDS, &mut replies.to_vec()),
            PreviewPoint::RefusedWritesList => run(
                Wrong::In(Point::RefusedRunWritesList),
                MOST_RECORDS,
                replies,
            ),
            PreviewPoint::ClearsList => run(Wrong::In(Point::RunClearsList), MOST_RECORDS, replies),
            PreviewPoint::WritesBehindReplies => {
                let places = replies.chunks_exact(3);
                let filled = places.take_while(|reply| reply[0] <= 38).count();
                run(right, MOST_RECORDS, &mut replies[3 * filled..])
            }
            _ => run(right, MOST_RECORDS, replies),
        };
        if report.records == MOST_RECORDS {
            let next = Port.decode(&session[report.place as usize..]).code;
            match self {
                PreviewPoint::EndsAt16 => report.why = 0,
                PreviewPoint::BadRecordFirst if next != 0 && report.why == 9 => report.why = next,
                _ => {}
            }
        }
        if self == PreviewPoint::EachAlone {
            let mut rest = session.get(codec::MARK.len()..).unwrap_or_default();
            let places = replies.chunks_exact_mut(3);
            for words in places.take(report.records as usize) {
                let Ok((step, length)) = codec::decode(rest) else {
                    break;
                };
                let Reply { code, a, b } = Port.preview(store, players, step.into());
                words.copy_from_slice(&[code, a, b]);
                rest = &rest[length..];
            }
        }
        report
    }
}
