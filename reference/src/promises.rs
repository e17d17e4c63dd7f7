//! A check of what a board promises, over random runs.

use std::collections::VecDeque;

use crate::board::Board;
use crate::epoch::Epochs;
use crate::hazard::HazardPointers;
use crate::items::ByteString;
use crate::quiescent::QuiescentStates;
use crate::random::Random;
use crate::reclaimer::{CellId, Reclaimer, SessionId, Sizes, Slot, MOST_CELLS, MOST_SESSIONS};
use crate::reuse::ReuseAtOnce;
use crate::serial::SerialMachine;
use crate::witness::Witness;
use crate::word::{Answer, Operation, Order, Place, Reason};

/// An operation under way.
struct Under {
    operation: Operation,
    decided: Option<Answer>,
    /// The cells that it has cleared and that were not given back since.
    cleared: [bool; MOST_CELLS],
}

/// Watches a run and notes the first broken promise.
struct Auditor {
    machine: SerialMachine,
    under: [Option<Under>; MOST_SESSIONS],
    broken: Option<String>,
}

impl Auditor {
    fn new<I: Ord>(items: &[I]) -> Self {
        Auditor { machine: SerialMachine::new(items), under: Default::default(), broken: None }
    }

    fn fault(&mut self, what: String) {
        self.broken.get_or_insert(what);
    }

    fn nobody_inside(&self) -> bool {
        self.under.iter().all(Option::is_none)
    }
}

impl Witness for Auditor {
    fn gave_back(&mut self, cell: CellId) {
        for under in self.under.iter_mut().flatten() {
            under.cleared[cell.index()] = false;
        }
    }

    fn began(&mut self, session: SessionId, operation: Operation) {
        let under = Under { operation, decided: None, cleared: [false; MOST_CELLS] };
        if self.under[session.index()].replace(under).is_some() {
            self.fault("a begin inside an operation".to_string());
        }
    }

    fn touched(&mut self, session: SessionId, cell: CellId) {
        match &self.under[session.index()] {
            Some(under) if under.cleared[cell.index()] => {}
            Some(_) => self.fault(format!("{cell:?} is touched by {session:?} and not cleared")),
            None => self.fault("a touch outside".to_string()),
        }
    }

    fn cleared(&mut self, session: SessionId, cell: CellId) {
        match &mut self.under[session.index()] {
            Some(under) => under.cleared[cell.index()] = true,
            None => self.fault("a clearing outside".to_string()),
        }
    }

    fn decided(&mut self, session: SessionId, answer: Answer) {
        let Some(under) = &mut self.under[session.index()] else {
            return self.fault("a decision outside".to_string());
        };
        if under.decided.replace(answer).is_some() {
            return self.fault("an operation decided twice".to_string());
        }
        let operation = under.operation;
        let serial = self.machine.feed(operation);
        if serial != answer {
            self.fault(format!("{operation:?} was decided with {answer:?} for {serial:?}"));
        }
    }

    fn completed(&mut self, session: SessionId, answer: Answer) {
        let decided = self.under[session.index()].take().and_then(|under| under.decided);
        if decided != Some(answer) {
            self.fault(format!("decided with {decided:?} and completed with {answer:?}"));
        }
    }
}

/// What a random run is made with.
struct Shape {
    sessions: usize,
    cells: usize,
    words: usize,
    /// How many words of a hundred stall a session for a while.
    stall: usize,
}

impl Shape {
    fn random(random: &mut Random) -> Self {
        Shape {
            sessions: random.between(1, MOST_SESSIONS),
            cells: random.pick(&[1, 2, 2, 3, 3, 4, 5, 6, 8, 12, 30, 256]),
            words: 3000,
            stall: random.pick(&[0, 2, 5, 10]),
        }
    }
}

/// Runs random words on a board over `R` and answers what the auditor found,
/// and all answers.
fn audit<R: Reclaimer, I: Ord>(
    random: &mut Random,
    shape: &Shape,
    items: &[I],
) -> (Option<String>, Vec<Answer>) {
    let sizes = Sizes::new(shape.sessions, shape.cells).unwrap();
    let mut board = Board::<R, _>::watched(sizes, items.len(), Auditor::new(items)).unwrap();
    let mut stalled_until = [0; MOST_SESSIONS];
    let mut answers = Vec::with_capacity(shape.words);
    for number in 0..shape.words {
        let session = random.below(shape.sessions);
        if random.chance(shape.stall) {
            stalled_until[session] = number + random.between(5, 200);
        }
        if stalled_until[session] > number {
            continue;
        }
        let order = random_order(random, &board, session as u8, items.len());
        let crowded = room_is_full(&board, order);
        let answer = board.word(items, order.word());
        if let Some(full) = crowded {
            if full != (answer == Answer::Refused(Reason::NoCell)) {
                board.witness_mut().fault(format!("full is {full}, and the answer is {answer:?}"));
            }
        }
        check_cells(&mut board);
        answers.push(answer);
        if board.witness().broken.is_some() {
            break;
        }
    }
    (board.witness_mut().broken.take(), answers)
}

fn random_order<R: Reclaimer>(
    random: &mut Random,
    board: &Board<R, Auditor>,
    session: u8,
    places: usize,
) -> Order {
    let inside = board.witness().under[usize::from(session)].is_some();
    if inside != random.chance(2) {
        return Order::Step { session };
    }
    if random.chance(3) {
        return Order::Tidy;
    }
    let place = Place(random.below(places) as u16);
    let operation = match random.below(13) {
        0..=3 => Operation::Insert(place),
        4..=6 => Operation::Delete(place),
        7..=8 => Operation::Contains(place),
        9..=10 => Operation::Push(place),
        _ => Operation::Pop,
    };
    Order::Begin { session, operation }
}

/// For an insert or a push with nobody inside: whether there are as many members
/// as cells.
fn room_is_full<R: Reclaimer>(board: &Board<R, Auditor>, order: Order) -> Option<bool> {
    let needs_cell =
        matches!(order, Order::Begin { operation: Operation::Insert(_) | Operation::Push(_), .. });
    let auditor = board.witness();
    (needs_cell && auditor.nobody_inside())
        .then(|| auditor.machine.member_count() == board.sizes().cells())
}

/// With nobody inside, every cell is a member's, held or free, and the list and
/// the stack hold as many as there are members.
fn check_cells<R: Reclaimer>(board: &mut Board<R, Auditor>) {
    if !R::HOLDS || !board.witness().nobody_inside() {
        return;
    }
    let (held, free) = board.tallies();
    let members = board.witness().machine.member_count();
    let listed = board.list_places().len() + board.stack_places().len();
    if listed != members || held + free + members != board.sizes().cells() {
        board
            .witness_mut()
            .fault(format!("{held} held, {free} free, {members} members, {listed} listed"));
    }
}

fn number_items(random: &mut Random) -> Vec<u32> {
    let count = random.between(1, 8);
    (0..count).map(|_| random.below(count) as u32).collect()
}

fn byte_items(random: &mut Random) -> Vec<ByteString> {
    let choices: [&[u8]; 8] = [b"", b"A", b"AB", b"ABC", b"\x7f", b"\x80", b"a\0", b"a"];
    let count = random.between(1, 8);
    (0..count).map(|_| ByteString::new(random.pick(&choices)).unwrap()).collect()
}

/// Audits `runs` random runs; answers the first broken promise and the words.
fn audit_many<R: Reclaimer>(runs: u64) -> (Option<String>, usize) {
    let mut words = 0;
    for index in 0..runs {
        let mut random = Random::stirred(11, index);
        let shape = Shape::random(&mut random);
        let (broken, answers) = if random.chance(50) {
            let items = number_items(&mut random);
            audit::<R, _>(&mut random, &shape, &items)
        } else {
            let items = byte_items(&mut random);
            audit::<R, _>(&mut random, &shape, &items)
        };
        words += answers.len();
        if broken.is_some() {
            return (broken.map(|what| format!("run {index}: {what}")), words);
        }
    }
    (None, words)
}

fn assert_kept<R: Reclaimer>() {
    let (broken, words) = audit_many::<R>(400);
    assert_eq!(broken, None);
    assert!(words > 400_000, "{words}");
}

#[test]
fn hazard_pointers_keep_the_promises() {
    assert_kept::<HazardPointers>();
}

#[test]
fn epochs_keep_the_promises() {
    assert_kept::<Epochs>();
}

#[test]
fn quiescent_states_keep_the_promises() {
    assert_kept::<QuiescentStates>();
}

#[test]
fn reuse_at_once_breaks_them() {
    assert!(audit_many::<ReuseAtOnce>(200).0.is_some());
}

/// Epochs as the words describe them, with a lag for each session and an age for
/// each held cell. Given back at the age `RIPE`.
struct CountedEpochs<const RIPE: u8> {
    lags: [Option<u8>; MOST_SESSIONS],
    held: VecDeque<(CellId, u8)>,
}

impl<const RIPE: u8> Reclaimer for CountedEpochs<RIPE> {
    fn new(_: Sizes) -> Self {
        CountedEpochs { lags: [None; MOST_SESSIONS], held: VecDeque::new() }
    }

    fn enter(&mut self, session: SessionId) {
        self.lags[session.index()] = Some(0);
    }

    fn leave(&mut self, session: SessionId) {
        self.lags[session.index()] = None;
    }

    fn protect(&mut self, _: SessionId, _: Slot, _: CellId) {}

    fn retire(&mut self, cell: CellId) {
        self.held.push_back((cell, 0));
    }

    fn collect(&mut self) -> Option<CellId> {
        while self.held.front().is_some_and(|held| held.1 < RIPE) && !self.lags.contains(&Some(1)) {
            self.lags.iter_mut().flatten().for_each(|lag| *lag += 1);
            self.held.iter_mut().for_each(|held| held.1 += 1);
        }
        self.held.front().filter(|held| held.1 == RIPE)?;
        self.held.pop_front().map(|held| held.0)
    }

    fn held_count(&self) -> usize {
        self.held.len()
    }
}

/// Quiescent states as the words describe them, with a record for each cell.
struct RecordedStates {
    inside: [bool; MOST_SESSIONS],
    held: VecDeque<(CellId, [bool; MOST_SESSIONS])>,
}

impl Reclaimer for RecordedStates {
    fn new(_: Sizes) -> Self {
        RecordedStates { inside: [false; MOST_SESSIONS], held: VecDeque::new() }
    }

    fn enter(&mut self, session: SessionId) {
        self.inside[session.index()] = true;
    }

    fn leave(&mut self, session: SessionId) {
        self.inside[session.index()] = false;
        for (_, record) in &mut self.held {
            record[session.index()] = false;
        }
    }

    fn protect(&mut self, _: SessionId, _: Slot, _: CellId) {}

    fn retire(&mut self, cell: CellId) {
        self.held.push_back((cell, self.inside));
    }

    fn collect(&mut self) -> Option<CellId> {
        let empty = |(_, record): &(CellId, [bool; MOST_SESSIONS])| !record.contains(&true);
        let position = self.held.iter().position(empty)?;
        self.held.remove(position).map(|held| held.0)
    }

    fn held_count(&self) -> usize {
        self.held.len()
    }
}

#[test]
fn epochs_with_one_advance_break_the_promises() {
    assert!(audit_many::<CountedEpochs<1>>(200).0.is_some());
}

/// Both reclaimers have to give the same answers in the same random runs.
fn assert_same<R: Reclaimer, S: Reclaimer>() {
    for index in 0..60 {
        let mut random = Random::stirred(12, index);
        let shape = Shape::random(&mut random);
        let items = number_items(&mut random);
        let (_, one) = audit::<R, _>(&mut random.clone(), &shape, &items);
        let (_, other) = audit::<S, _>(&mut random, &shape, &items);
        assert_eq!(one, other, "run {index}");
    }
}

#[test]
fn epochs_are_as_described() {
    assert_same::<Epochs, CountedEpochs<2>>();
}

#[test]
fn quiescent_states_are_as_described() {
    assert_same::<QuiescentStates, RecordedStates>();
}
