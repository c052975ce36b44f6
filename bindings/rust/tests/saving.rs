//! A station that loses power: it is cut at every step of a session, and goes on from the file that it has.

mod messages;

use cuddrewyn::*;
use messages::*;

const STORE: usize = store_len(4);

/// The uploader's list, packed, as it keeps it by itself.
struct Uploader {
    list: Vec<u8>,
}

impl Uploader {
    fn epoch(&self) -> u64 {
        ConsumerAssignment::from_bytes(&self.list).unwrap().layout_epoch()
    }

    /// The whole list; its epoch is never below that of the one before.
    fn replace(&mut self, list: &[u8]) {
        let before = self.epoch();
        self.list = list.to_vec();
        assert!(self.epoch() >= before, "{} below {before}", self.epoch());
    }

    /// A delta, on the list that it was made of.
    fn take(&mut self, delta: &[u8]) {
        let mut out = [0; SLOT];
        let list = ConsumerAssignment::from_bytes(&self.list).unwrap();
        let next = apply(list, AssignmentDelta::from_bytes(delta).unwrap(), &mut out).unwrap().as_bytes().to_vec();
        self.replace(&next);
    }
}

/// The files that survive: the one in use, and one that is being written beside it.
#[derive(Default)]
struct Disk {
    kept: Vec<u8>,
    new: Vec<u8>,
}

/// What the station hands the uploader behind a call.
enum Upload {
    Nothing,
    List(Vec<u8>),
    Delta(Vec<u8>),
}

/// Where power is lost: before a call's save, with so many bytes of the new file written, behind the rename, behind the upload.
#[derive(Clone, Copy, Debug, PartialEq)]
enum Cut {
    BeforeSave,
    HalfWritten(usize),
    Saved,
    Uploaded,
}

/// A call of the session.
enum Call {
    Response(u64, Vec<u64>),
    Update(u64, Vec<u64>),
    Drain,
    Begin(u64),
}

fn segments(ids: &[u64]) -> Vec<Vec<u8>> {
    ids.iter().map(|&id| segment(id, id as u32 * 100, id as u32 * 100 + 99, &[])).collect()
}

/// Makes a call, and says what is to be handed out behind it.
fn make(session: &mut ScalableConsumerSession<'_>, call: &Call) -> Upload {
    let mut out = [0; MIN_OUTPUT];
    match call {
        Call::Response(epoch, ids) => {
            Upload::List(session.handle_subscribe_response(&response(*epoch, &segments(ids))).unwrap().as_bytes().to_vec())
        }
        Call::Update(epoch, ids) => {
            let delta = session.handle_assignment_update(&update(*epoch, &segments(ids)), &mut out).unwrap();
            delta.map_or(Upload::Nothing, |delta| Upload::Delta(delta.as_bytes().to_vec()))
        }
        Call::Drain => {
            let replay = session.take_replayed_update(&mut out).unwrap();
            replay.map_or(Upload::Nothing, |replay| Upload::Delta(replay.delta.as_bytes().to_vec()))
        }
        Call::Begin(incarnation) => {
            session.begin_incarnation(ControllerIncarnation(*incarnation)).unwrap();
            Upload::Nothing
        }
    }
}

fn saved(session: &ScalableConsumerSession<'_>) -> Vec<u8> {
    let mut out = vec![0; session.saved_len()];
    session.save(&mut out).unwrap().to_vec()
}

/// A call, its save, its upload, in this order, up to the cut. A file is written beside the one in use, and renamed.
fn step(session: &mut ScalableConsumerSession<'_>, call: &Call, disk: &mut Disk, uploader: &mut Uploader, cut: Cut) {
    let upload = make(session, call);
    if cut == Cut::BeforeSave {
        return;
    }
    disk.new = saved(session);
    if let Cut::HalfWritten(length) = cut {
        disk.new.truncate(length);
        return;
    }
    disk.kept = std::mem::take(&mut disk.new);
    if cut == Cut::Saved {
        return;
    }
    match upload {
        Upload::Nothing => {}
        Upload::List(list) => uploader.replace(&list),
        Upload::Delta(delta) => uploader.take(&delta),
    }
}

/// The calls of a session over two links. Behind the first response two replays are left; each list differs from the one before.
fn calls() -> Vec<Call> {
    vec![
        Call::Update(3, vec![1, 2]),
        Call::Update(4, vec![2]),
        Call::Response(2, vec![1]),
        Call::Drain,
        Call::Drain,
        Call::Drain,
        Call::Update(5, vec![2, 3]),
        Call::Update(5, vec![2, 3]),
        Call::Update(6, vec![]),
        Call::Begin(2),
        Call::Update(8, vec![4]),
        Call::Response(7, vec![3]),
        Call::Drain,
        Call::Update(9, vec![4, 5]),
    ]
}

fn opened(store: &mut [u8]) -> ScalableConsumerSession<'_> {
    let kind = ScalableConsumerType::Stream;
    ScalableConsumerSession::new(7, TOPIC, "sub", "n", kind, ControllerIncarnation(1), store).unwrap()
}

/// Runs the calls up to the k-th, which is cut. Gives what survives, and the session as it was when it was last saved.
fn run(k: usize, cut: Cut) -> (Disk, Uploader, Record, Option<Vec<u8>>) {
    let mut store = vec![0; STORE];
    let mut session = opened(&mut store);
    let mut disk = Disk { kept: saved(&session), new: Vec::new() };
    let mut uploader = Uploader { list: vec![0; 10] };
    let mut last = (session.record(), None);
    for (i, call) in calls().iter().enumerate().take(k + 1) {
        let cut = if i == k { cut } else { Cut::Uploaded };
        step(&mut session, call, &mut disk, &mut uploader, cut);
        if matches!(cut, Cut::Saved | Cut::Uploaded) {
            last = (session.record(), session.assignment().map(|list| list.as_bytes().to_vec()));
        }
    }
    (disk, uploader, last.0, last.1)
}

/// The session of the newest file that is whole. Both are tried, as a station does that does not know where it was cut.
fn restart<'s>(disk: &Disk, store: &'s mut [u8]) -> ScalableConsumerSession<'s> {
    let (kept, new) = (disk.kept.clone(), disk.new.clone());
    if !new.is_empty() {
        match ScalableConsumerSession::restore(&new, store) {
            Err(AssignmentError::MalformedSave) => {}
            other => panic!("a half-written file: {other:?}"),
        }
    }
    ScalableConsumerSession::restore(&kept, store).unwrap()
}

/// A cut station goes on: it holds what it saved, the uploader gets the list held, the floor stands, and the rest of the calls ends as without a cut.
fn goes_on(k: usize, cut: Cut) {
    let (disk, mut uploader, record, list) = run(k, cut);
    let mut store = vec![0xee; STORE + k];
    let mut session = restart(&disk, &mut store);
    assert_eq!(session.record(), record, "call {k}, {cut:?}");
    assert_eq!(session.assignment().map(|list| list.as_bytes().to_vec()), list);
    assert!(session.epoch_floor().unwrap_or(0) >= uploader.epoch(), "the uploader is never ahead of the save");
    // the uploader's list is the one held, or one before it
    if let Some(list) = &list {
        if uploader.list != *list {
            uploader.replace(list);
        }
        assert_eq!(uploader.list, *list);
    }
    // a new link: no list below the floor is taken
    let mut incarnation = session.incarnation();
    incarnation.0 += 10;
    session.begin_incarnation(incarnation).unwrap();
    if let Some(floor) = session.epoch_floor() {
        let got = floor - 1;
        let older = response(got, &[]);
        let refused = session.handle_subscribe_response(&older).unwrap_err();
        assert_eq!(refused, AssignmentError::CrossIncarnationEpochRegression { got, floor });
    }
    let mut disk = disk;
    for call in [Call::Response(9, vec![4, 5]), Call::Drain, Call::Update(10, vec![6])] {
        step(&mut session, &call, &mut disk, &mut uploader, Cut::Uploaded);
    }
    assert_eq!(uploader.epoch(), 10);
    assert_eq!(session.assignment().unwrap().as_bytes(), uploader.list);
}

#[test]
fn cut_at_every_step() {
    let mut cuts = 0;
    for k in 0..calls().len() {
        for cut in [Cut::BeforeSave, Cut::Saved, Cut::Uploaded] {
            goes_on(k, cut);
            cuts += 1;
        }
        let (disk, ..) = run(k, Cut::Saved);
        for length in (0..disk.kept.len()).step_by(97).chain([disk.kept.len() - 1]) {
            goes_on(k, Cut::HalfWritten(length));
            cuts += 1;
        }
    }
    assert!(cuts > 800, "{cuts}");
}

#[test]
fn saved_and_restored() {
    let mut store = vec![0; STORE];
    let mut session = opened(&mut store);
    for call in &calls()[..4] {
        make(&mut session, call);
    }
    let form = saved(&session);
    let mut again = vec![0; form.len() - SAVED_HEAD];
    let back = ScalableConsumerSession::restore(&form, &mut again).unwrap();
    assert_eq!(back.record(), session.record());
    assert_eq!(back.assignment(), session.assignment());
    assert_eq!(back.baseline(), session.baseline());
    assert!(back.matches_registration(TOPIC, "sub", "n", ScalableConsumerType::Stream));
    assert_eq!(saved(&back), form);
    // an output that just does not hold it, and a store
    assert_eq!(session.save(&mut vec![0; form.len() - 1]), Err(AssignmentError::ResultTooLong));
    let mut short = vec![7; form.len() - SAVED_HEAD - 1];
    assert_eq!(ScalableConsumerSession::restore(&form, &mut short).map(|_| ()), Err(AssignmentError::StoreTooShort));
    assert!(short.iter().all(|&byte| byte == 7));
    assert!(form.len() <= MAX_SAVED);
}

/// Random bytes are no session, and bytes that differ in several places are not one either.
#[test]
fn random_damage() {
    let mut random = Random(0x9e37_79b9_7f4a_7c15);
    let mut store = vec![0; STORE];
    let form = saved(&opened(&mut store));
    for _ in 0..2_000 {
        let mut damaged = form.clone();
        for _ in 0..1 + random.below(5) {
            let place = random.below(damaged.len());
            damaged[place] ^= 1 << random.below(8);
        }
        let taken = ScalableConsumerSession::restore(&damaged, &mut store).map(|_| ());
        assert_eq!(taken, if damaged == form { Ok(()) } else { Err(AssignmentError::MalformedSave) });
    }
}
