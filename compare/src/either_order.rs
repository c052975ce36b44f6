//! Two deltas joined in either order, through join and apply, judged by each other: where no id is named by both, the two
//! answers are the same and the outputs are equal from byte 8 on.
use crate::lists::{bare, delta_of, lent, lent_sheet, random_delta, room};
use crate::model::delta::{self, Delta};
use crate::model::sheet::{Segment, Sheet};
use crate::ours;
use crate::raw::{self, Reply};
use crate::reply::show;
use crate::rng::Rng;
use crate::tally::{Call, Tally, first_difference, hex};
use std::collections::BTreeSet;

const EPOCH: usize = 8;

/// The most that is lent as an output, but for large counts.
const MOST: usize = 1 << 14;

/// The ids that a delta names, as lost or as gained.
fn named(delta: &Delta) -> BTreeSet<u64> {
    delta.lost.iter().copied().chain(delta.gained.iter().map(|segment| segment.id)).collect()
}

/// Whether the law speaks of the two: no id is named by both, or one of them is no delta.
fn law_speaks_of(first: &[u8], second: &[u8]) -> bool {
    match (Delta::whole(first), Delta::whole(second)) {
        (Some(first), Some(second)) => named(&first).is_disjoint(&named(&second)),
        _ => true,
    }
}

/// A call over two inputs and an output.
type Merge = fn(&mut [u8], &mut [u8], &mut [u8]) -> Reply;

/// What a call gave: its answer, the output after it, and whether what it was lent for reading is as it was.
struct Given {
    reply: Reply,
    out: Vec<u8>,
    kept: bool,
}

impl Given {
    /// Calls with an output that holds `before`.
    fn of(merge: Merge, first: &[u8], second: &[u8], before: &[u8]) -> Self {
        let (mut first_lent, mut second_lent, mut out) = (first.to_vec(), second.to_vec(), before.to_vec());
        let reply = merge(&mut first_lent, &mut second_lent, &mut out);
        Self { reply, out, kept: first_lent == first && second_lent == second }
    }

    fn is_written(&self) -> bool {
        self.reply.answer == raw::WRITTEN
    }

    fn written(&self) -> &[u8] {
        &self.out[..self.reply.first as usize]
    }

    /// The output behind the epoch.
    fn behind(&self) -> &[u8] {
        self.out.get(EPOCH..).unwrap_or_default()
    }

    /// Whether the output starts with the epoch of `delta` where it is written, and as before where it is not.
    fn starts_with(&self, delta: &[u8], before: &[u8]) -> bool {
        let from = if self.is_written() { delta } else { before };
        self.out.iter().zip(from).take(EPOCH).all(|(now, due)| now == due)
    }
}

/// What differs in the two orders besides the epoch; each epoch is that of its own last delta.
fn wrong(given: [&Given; 2], last: [&[u8]; 2], before: &[u8]) -> Option<String> {
    let [one, other] = given;
    if one.reply != other.reply {
        Some(format!("one order {}, the other {}", show(&one.reply), show(&other.reply)))
    } else if one.behind() != other.behind() {
        Some(format!("output byte {}", EPOCH + first_difference(one.behind(), other.behind())))
    } else if !one.starts_with(last[0], before) || !other.starts_with(last[1], before) {
        Some("the epoch".into())
    } else {
        (!one.kept || !other.kept).then(|| "a slice lent for reading was changed".into())
    }
}

/// Joins two deltas in both orders over an output that holds `before`.
fn join_both(tally: &mut Tally, first: &[u8], second: &[u8], before: &[u8]) -> [Given; 2] {
    let given = [(first, second), (second, first)].map(|(first, second)| Given::of(ours::join, first, second, before));
    given.iter().for_each(|given| tally.count(Call::JoinEitherOrder, &given.reply, false));
    given
}

/// Applies both joined deltas to one list.
fn apply_both(tally: &mut Tally, sheet: &[u8], joined: [&[u8]; 2], before: &[u8]) -> [Given; 2] {
    let given = joined.map(|delta| Given::of(ours::apply, sheet, delta, before));
    given.iter().for_each(|given| tally.count(Call::ApplyEitherOrder, &given.reply, false));
    given
}

/// Both orders of a join; the two results where they are written and nothing differs.
fn check_join(tally: &mut Tally, first: &[u8], second: &[u8], before: &[u8]) -> Option<[Vec<u8>; 2]> {
    let [one, other] = join_both(tally, first, second, before);
    if let Some(what) = wrong([&one, &other], [second, first], before) {
        tally.differ(Call::JoinEitherOrder, &what, || format!("output of {}, first {}, second {}", before.len(), hex(first), hex(second)));
        return None;
    }
    one.is_written().then(|| [one.written().to_vec(), other.written().to_vec()])
}

/// Both results applied to one list; false where something differs.
fn check_apply(tally: &mut Tally, sheet: &[u8], joined: &[Vec<u8>; 2], before: &[u8]) -> bool {
    let joined = [&joined[0][..], &joined[1][..]];
    let [one, other] = apply_both(tally, sheet, joined, before);
    let wrong = wrong([&one, &other], joined, before);
    if let Some(what) = &wrong {
        let input = || format!("output of {}, sheet {}, delta {}, delta {}", before.len(), hex(sheet), hex(joined[0]), hex(joined[1]));
        tally.differ(Call::ApplyEitherOrder, what, input);
    }
    wrong.is_none()
}

pub struct EitherOrder {
    rng: Rng,
}

impl EitherOrder {
    pub fn new(seed: u64) -> Self {
        Self { rng: Rng::new(seed, "either order") }
    }

    pub fn step(&mut self, tally: &mut Tally) {
        for _ in 0..40 {
            self.try_pair(tally);
        }
    }

    /// Two deltas that name no id in common; now and then one of them is malformed.
    fn pair(&mut self) -> (Vec<u8>, Vec<u8>) {
        let rng = &mut self.rng;
        let (first, mut second) = (random_delta(rng), random_delta(rng));
        let taken = named(&first);
        second.lost.retain(|id| !taken.contains(id));
        second.gained.retain(|segment| !taken.contains(&segment.id));
        let (first, second) = (first.packed().expect("few ids"), second.packed().expect("few ids"));
        let (first_lent, second_lent) = (lent(first.clone(), rng), lent(second.clone(), rng));
        if law_speaks_of(&first_lent, &second_lent) { (first_lent, second_lent) } else { (first, second) }
    }

    /// The two joined in both orders, and both results applied to some lists, malformed ones too. It ends where something
    /// differs, so that one wrong bit is one difference.
    fn try_pair(&mut self, tally: &mut Tally) {
        let (first, second) = self.pair();
        let needed = delta::join(&first, &second, usize::MAX).1.len();
        let before = self.output(needed);
        let Some(joined) = check_join(tally, &first, &second, &before) else { return };
        for _ in 0..3 {
            let sheet = lent_sheet(&mut self.rng);
            let before = self.output(delta::apply(&sheet, &joined[0], usize::MAX).1.len());
            if !check_apply(tally, &sheet, &joined, &before) {
                return;
            }
        }
    }

    /// An output of about the length that is needed.
    fn output(&mut self, needed: usize) -> Vec<u8> {
        let room = room(needed, MOST, &mut self.rng);
        self.rng.bytes(room)
    }
}

/// Counts that have no packed form, lists that do not fit a slot, and all small deltas.
pub fn directed(tally: &mut Tally, seed: u64) {
    let mut rng = Rng::new(seed, "either order, large");
    let large = rng.bytes(3 << 20);
    let pairs = [
        (delta_of(0..40_000, Vec::new()), delta_of(40_000..80_000, Vec::new())),
        (delta_of(0..0, bare(0..40_000)), delta_of(0..0, bare(40_000..80_000))),
        (delta_of(0..30_000, bare(60_000..90_000)), delta_of(30_000..60_000, bare(90_000..120_000))),
    ];
    for (first, second) in &pairs {
        check_join(tally, first, second, &large);
    }
    let before = rng.bytes(MOST);
    let full = Sheet { epoch: 1, segments: bare(0..145) }.packed();
    for more in 0..3 {
        if let Some(joined) = check_join(tally, &delta_of(0..2, Vec::new()), &delta_of(0..0, bare(500..502 + more)), &before) {
            check_apply(tally, &full, &joined, &before);
        }
    }
    refused(tally, &full, &before);
    small_deltas(tally, &before);
}

/// What each call refuses, however short the run: malformed inputs and an output that is too short.
fn refused(tally: &mut Tally, sheet: &[u8], before: &[u8]) {
    let (first, second) = (delta_of(0..1, Vec::new()), delta_of(0..0, bare(500..501)));
    check_join(tally, &first[1..], &second, before);
    check_join(tally, &first, &second, &before[..first.len()]);
    if let Some(joined) = check_join(tally, &first, &second, before) {
        check_apply(tally, &sheet[1..], &joined, before);
        check_apply(tally, sheet, &joined, &before[..sheet.len() - 1]);
    }
}

/// Every delta over the ids 0 and 1 with one of two records for each id that it gains.
fn all_small() -> Vec<Delta> {
    let record = |id, end| Segment { id, start: 0, end, buckets: Vec::new() };
    let mut all = Vec::new();
    for code in 0..36u16 {
        let lost = (0..2).filter(|id| code >> id & 1 == 1).collect();
        let ends = [code / 4 % 3, code / 12];
        let gained = (0..2).filter(|id| ends[*id as usize] > 0).map(|id| record(id, ends[id as usize])).collect();
        all.push(Delta { epoch: u64::from(code), lost, gained });
    }
    all
}

/// Each small delta with each: where no id is named by both, the order does not show; the smallest two whose order shows have
/// 20 and 26 bytes.
fn small_deltas(tally: &mut Tally, before: &[u8]) {
    let sheets: Vec<Vec<u8>> = (0..3).map(|count| Sheet { epoch: 1, segments: bare(0..count) }.packed()).collect();
    let packed: Vec<Vec<u8>> = all_small().iter().map(|delta| delta.packed().expect("few ids")).collect();
    let mut shown: Option<[&[u8]; 2]> = None;
    for (first, second) in packed.iter().flat_map(|first| packed.iter().map(move |second| (first, second))) {
        if law_speaks_of(first, second) {
            if let Some(joined) = check_join(tally, first, second, before) {
                sheets.iter().all(|sheet| check_apply(tally, sheet, &joined, before));
            }
        } else if shows(join_both(tally, first, second, before)) && shown.is_none_or(|[a, b]| first.len() + second.len() < a.len() + b.len()) {
            shown = Some([first, second]);
        }
    }
    check_smallest(tally, shown, &sheets[0], before);
}

/// Whether the two orders gave results that differ in more than the epoch.
fn shows(given: [Given; 2]) -> bool {
    given[0].reply != given[1].reply || given[0].behind() != given[1].behind()
}

/// Those two are one delta that loses an id and one that gains it: joined they have 34 bytes or 20, and an empty list becomes
/// one segment or stays empty.
fn check_smallest(tally: &mut Tally, shown: Option<[&[u8]; 2]>, empty: &[u8], before: &[u8]) {
    let (loses, gains) = (delta_of(0..1, Vec::new()), delta_of(0..0, bare(0..1)));
    let [one, other] = join_both(tally, &loses, &gains, before);
    let applied = apply_both(tally, empty, [one.written(), other.written()], before);
    let lengths = [one.reply, other.reply, applied[0].reply, applied[1].reply].map(|reply| reply.first);
    let smallest = shown.map(|[first, second]| [first.len(), second.len()]);
    if lengths != [34, 20, 24, 10] || !matches!(smallest, Some([20, 26] | [26, 20])) {
        let what = format!("the smallest deltas whose order shows: lengths {smallest:?}; of those that should be {lengths:?}");
        tally.differ(Call::JoinEitherOrder, &what, || format!("first {}, second {}", hex(&loses), hex(&gains)));
    }
}
