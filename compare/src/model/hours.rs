//! Pass hours and terms (02, request f). The earliest open second is found in two ways: by trying every second, and
//! from edge to edge.
use crate::raw::{self, Reply};
use crate::reply::{refused, taken};
use std::ops::Range;

const DAY: u64 = 24 * 60 * 60;
pub const WEEK: u64 = 7 * DAY;

pub struct Contract {
    pub terms: Vec<Range<u64>>,
    pub windows: Vec<Range<u64>>,
}

fn span(bytes: &[u8]) -> Range<u64> {
    let number = |bytes: &[u8]| bytes.iter().fold(0, |number, byte| number << 8 | u64::from(*byte));
    number(&bytes[..8])..number(&bytes[8..])
}

impl Contract {
    /// Nothing where 35 is due.
    pub fn read(bytes: &[u8]) -> Option<Self> {
        let (head, rest) = bytes.split_at_checked(4)?;
        let count = |at: usize| usize::from(head[at]) << 8 | usize::from(head[at + 1]);
        if count(0) > 64 || count(2) > 28 || rest.len() != 16 * (count(0) + count(2)) {
            return None;
        }
        let mut terms: Vec<_> = rest.chunks(16).map(span).collect();
        let windows = terms.split_off(count(0));
        let rises = terms.iter().chain(&windows).all(|span| span.start < span.end);
        let in_week = windows.iter().all(|window| window.end <= WEEK);
        (rises && in_week).then_some(Self { terms, windows })
    }

    /// Time starts on a Saturday, and so do weeks.
    pub fn holds(&self, second: u64) -> bool {
        let moment = second / DAY % 7 * DAY + second % DAY;
        let in_term = self.terms.iter().any(|term| term.contains(&second));
        in_term && self.windows.iter().any(|window| window.contains(&moment))
    }

    /// How many seconds the terms have, one in two terms counted twice.
    pub fn seconds(&self) -> u128 {
        self.terms.iter().map(|term| u128::from(term.end - term.start)).sum()
    }

    /// Of all seconds of all terms the least open one from there on.
    pub fn earliest_by_trying(&self, from: u64) -> Option<u64> {
        let seconds = self.terms.iter().flat_map(|term| term.clone());
        seconds.filter(|second| *second >= from && self.holds(*second)).min()
    }

    /// The next second at which a term or a window starts or ends; outside all terms only a term's start counts.
    fn edge_behind(&self, second: u64) -> Option<u64> {
        let starts = self.terms.iter().map(|term| term.start).filter(|start| *start > second);
        if !self.terms.iter().any(|term| term.contains(&second)) {
            return starts.min();
        }
        let moment = second % WEEK;
        let wait = |edge: u64| if edge > moment { edge - moment } else { edge + WEEK - moment };
        let edges = self.windows.iter().flat_map(|window| [window.start, window.end]);
        let of_week = edges.filter_map(|edge| second.checked_add(wait(edge)));
        let ends = self.terms.iter().map(|term| term.end).filter(|end| *end > second);
        starts.chain(ends).chain(of_week).min()
    }

    /// From edge to edge.
    pub fn earliest_by_edges(&self, from: u64) -> Option<u64> {
        let mut second = from;
        while !self.holds(second) && !self.windows.is_empty() {
            second = self.edge_behind(second)?;
        }
        self.holds(second).then_some(second)
    }
}

pub fn is_open(contract: &[u8], second: u64) -> Reply {
    match Contract::read(contract) {
        Some(contract) => taken(if contract.holds(second) { raw::YES } else { raw::NO }, &[]),
        None => refused(35, &[]),
    }
}

/// By edges; where the terms are short enough every second is tried, and nothing is answered where the two ways part.
pub fn earliest_open(contract: &[u8], from: u64) -> Option<Reply> {
    let Some(contract) = Contract::read(contract) else {
        return Some(refused(35, &[]));
    };
    let found = contract.earliest_by_edges(from);
    if contract.seconds() <= SHORT && contract.earliest_by_trying(from) != found {
        return None;
    }
    Some(found.map_or_else(|| taken(raw::NO, &[]), |second| taken(raw::FOUND, &[second])))
}

/// So many seconds are tried one by one.
pub const SHORT: u128 = 5_000;
