//! What a run reports.

use core::fmt;

use crate::{raw, Refusal};

/// What a run reports.
#[derive(Clone, Copy, Debug, PartialEq, Eq, Hash)]
#[non_exhaustive]
#[must_use = "the run may be refused, or stop before the session's end"]
pub struct Report {
    /// Why it stopped.
    pub why: Why,
    /// The number of records taken.
    pub records: u32,
    /// The byte place just after them; 0 of a refused run.
    pub place: u32,
}

impl Report {
    /// A run's report, which has one of the reasons below by the library's contract.
    pub(crate) fn of_run(r: raw::Report) -> Report {
        let why = Why::from_number(r.why).expect("a run stops with 0, 9 or a refusal's number");
        Report {
            why,
            records: r.records,
            place: r.place,
        }
    }
}

impl fmt::Display for Report {
    fn fmt(&self, f: &mut fmt::Formatter<'_>) -> fmt::Result {
        let Report {
            why,
            records,
            place,
        } = self;
        // only a refused run has taken nothing, not even the mark
        if *place == 0 {
            return write!(f, "the run is refused: {why}");
        }
        let noun = if *records == 1 { "record" } else { "records" };
        write!(
            f,
            "the run stopped at byte {place}, after {records} {noun}: {why}"
        )
    }
}

/// Why a run stopped. Its numbers are not those of a [`Reply`](crate::Reply), but for the refusals.
#[derive(Clone, Copy, Debug, PartialEq, Eq, Hash)]
#[non_exhaustive]
pub enum Why {
    /// 0: at the session's end.
    End,
    /// 9: the budget or the places for replies are spent.
    Spent,
    /// 21, 22, 37 or 23: the run is refused, and nothing is altered; 24 to 27: the record at the place is refused, and the steps before it
    /// keep their effect.
    Refused(Refusal),
}

impl Why {
    /// Its number.
    #[must_use]
    pub const fn number(self) -> u32 {
        match self {
            Why::End => 0,
            Why::Spent => 9,
            Why::Refused(refusal) => refusal.number(),
        }
    }

    /// The reason of this number; none if no run stops for it.
    #[must_use]
    pub fn from_number(number: u32) -> Option<Why> {
        match number {
            0 => Some(Why::End),
            9 => Some(Why::Spent),
            21..=27 | 37 => Refusal::from_number(number).map(Why::Refused),
            _ => None,
        }
    }

    /// What its number says.
    #[must_use]
    pub const fn words(self) -> &'static str {
        match self {
            Why::End => "at the session's end",
            Why::Spent => "the budget or the places for replies are spent",
            Why::Refused(refusal) => refusal.words(),
        }
    }
}

impl fmt::Display for Why {
    fn fmt(&self, f: &mut fmt::Formatter<'_>) -> fmt::Result {
        write!(f, "{} ({})", self.words(), self.number())
    }
}

#[cfg(test)]
mod tests {
    use super::*;
    use std::string::ToString;

    #[test]
    fn reasons_to_stop_and_their_numbers() {
        for (why, number) in [
            (Why::End, 0),
            (Why::Spent, 9),
            (Why::Refused(Refusal::TableLength), 21),
            (Why::Refused(Refusal::NoMark), 23),
            (Why::Refused(Refusal::CutShort), 24),
            (Why::Refused(Refusal::WrongFields), 27),
            (Why::Refused(Refusal::SessionTooLong), 37),
        ] {
            assert_eq!(why.number(), number);
            assert_eq!(Why::from_number(number), Some(why));
        }
        for number in [1, 8, 10, 20, 28, 32, 36, 38] {
            assert_eq!(Why::from_number(number), None);
        }
    }

    #[test]
    fn reasons_to_stop_are_told_in_words() {
        assert_eq!(Why::End.to_string(), "at the session's end (0)");
        assert_eq!(
            Why::Spent.to_string(),
            "the budget or the places for replies are spent (9)"
        );
        for &refusal in Refusal::ALL {
            assert_eq!(Why::Refused(refusal).words(), refusal.words());
            assert_eq!(Why::Refused(refusal).to_string(), refusal.to_string());
        }
    }

    #[test]
    fn a_report_is_a_sentence() {
        let told = |why, records, place| {
            let report = Report {
                why,
                records,
                place,
            };
            report.to_string()
        };
        assert_eq!(
            told(Why::End, 15, 92),
            "the run stopped at byte 92, after 15 records: at the session's end (0)"
        );
        assert_eq!(
            told(Why::Spent, 1, 10),
            "the run stopped at byte 10, after 1 record: the budget or the places for replies are spent (9)"
        );
        assert_eq!(
            told(Why::Refused(Refusal::NoMark), 0, 0),
            "the run is refused: the session's mark is wrong or missing (23)"
        );
        assert_eq!(
            told(Why::Refused(Refusal::CutShort), 0, 4),
            "the run stopped at byte 4, after 0 records: a record cut short, or no byte (24)"
        );
    }
}
