//! The machine of the two ends, as tables.
use super::chunks::Version;
use std::sync::LazyLock;

#[derive(Debug, Clone, Copy, PartialEq, Eq)]
pub enum Kind {
    Hello,
    Logon,
    Logoff,
    Goodbye,
    Reset,
    Run,
    Begin,
    Commit,
    Rollback,
    Discard,
    Pull,
}

#[derive(Debug, Clone, Copy, PartialEq, Eq)]
pub enum State {
    Fresh,
    Unauth,
    Ready,
    Streaming,
    TxReady,
    TxStreaming,
    Failed,
    Interrupted,
    Defunct,
}

/// What a client knows of the server's state.
#[derive(Debug, Clone, Copy, PartialEq, Eq)]
pub enum Phase {
    Fresh,
    Unauth,
    Ready,
    Streaming,
    TxReady,
    TxStreaming,
    Halted,
    Defunct,
}

#[derive(Debug, Clone, Copy, PartialEq, Eq)]
pub enum Verdict {
    Success,
    More,
    Failure,
    Ignored,
    Invalid,
    Gone,
}

#[rustfmt::skip]
const KINDS: [Kind; 11] = [
    Kind::Hello, Kind::Logon, Kind::Logoff, Kind::Goodbye, Kind::Reset, Kind::Run, Kind::Begin, Kind::Commit, Kind::Rollback, Kind::Discard, Kind::Pull,
];
#[rustfmt::skip]
const STATES: [State; 9] = [
    State::Fresh, State::Unauth, State::Ready, State::Streaming, State::TxReady, State::TxStreaming, State::Failed, State::Interrupted, State::Defunct,
];
#[rustfmt::skip]
const PHASES: [Phase; 8] = [
    Phase::Fresh, Phase::Unauth, Phase::Ready, Phase::Streaming, Phase::TxReady, Phase::TxStreaming, Phase::Halted, Phase::Defunct,
];
const VERDICTS: [Verdict; 6] = [Verdict::Success, Verdict::More, Verdict::Failure, Verdict::Ignored, Verdict::Invalid, Verdict::Gone];

impl State {
    pub fn phase(self) -> Phase {
        match self {
            State::Fresh => Phase::Fresh,
            State::Unauth => Phase::Unauth,
            State::Ready => Phase::Ready,
            State::Streaming => Phase::Streaming,
            State::TxReady => Phase::TxReady,
            State::TxStreaming => Phase::TxStreaming,
            State::Failed | State::Interrupted => Phase::Halted,
            State::Defunct => Phase::Defunct,
        }
    }

    pub fn is_interrupted_by_reset(self) -> bool { self.phase().works() || self == State::Failed }
}

impl Phase {
    /// The state whose rows a client reads for the phase.
    pub fn state(self) -> State {
        match self {
            Phase::Fresh => State::Fresh,
            Phase::Unauth => State::Unauth,
            Phase::Ready => State::Ready,
            Phase::Streaming => State::Streaming,
            Phase::TxReady => State::TxReady,
            Phase::TxStreaming => State::TxStreaming,
            Phase::Halted => State::Failed,
            Phase::Defunct => State::Defunct,
        }
    }

    pub fn works(self) -> bool { matches!(self, Phase::Ready | Phase::Streaming | Phase::TxReady | Phase::TxStreaming) }
}

/// The state that a request leads to; none where the machine has no such row.
fn row(version: Version, state: State, kind: Kind, verdict: Verdict) -> Option<State> {
    use State::*;
    let logs_on = version == Version::V51;
    if !logs_on && matches!(kind, Kind::Logon | Kind::Logoff) { return None; }
    let (success, more, failure) = match (state, kind) {
        (Defunct, _) => return None,
        (_, Kind::Goodbye) => return (verdict == Verdict::Gone).then_some(Defunct),
        (Fresh, Kind::Hello) => (if logs_on { Unauth } else { Ready }, None, Some(Defunct)),
        (Unauth, Kind::Logon) => (Ready, None, Some(Defunct)),
        (Ready, Kind::Run) => (Streaming, None, Some(Failed)),
        (Ready, Kind::Begin) => (TxReady, None, Some(Failed)),
        (Ready, Kind::Logoff) => (Unauth, None, Some(Failed)),
        (Streaming, Kind::Pull | Kind::Discard) => (Ready, Some(Streaming), Some(Failed)),
        (TxReady, Kind::Run) => (TxStreaming, None, Some(Failed)),
        (TxReady, Kind::Commit | Kind::Rollback) => (Ready, None, Some(Failed)),
        (TxStreaming, Kind::Pull | Kind::Discard) => (TxReady, Some(TxStreaming), Some(Failed)),
        (Ready | Streaming | TxReady | TxStreaming | Failed | Interrupted, Kind::Reset) => (Ready, None, None),
        (Failed | Interrupted, _) => return (verdict == Verdict::Ignored).then_some(state),
        _ => return (verdict == Verdict::Invalid).then_some(Defunct),
    };
    match verdict {
        Verdict::Success => Some(success),
        Verdict::More => more,
        Verdict::Failure => failure,
        _ => None,
    }
}

/// Phases, each a bit at its place.
pub type PhaseSet = u8;

pub fn only(phase: Phase) -> PhaseSet { 1 << phase as u8 }

/// The phases that may follow a request in a phase.
fn after(version: Version, phase: Phase, kind: Kind, is_counted: bool) -> PhaseSet {
    let next = |verdict| row(version, phase.state(), kind, verdict).map(State::phase);
    let also = |phase: Option<Phase>| phase.map_or(0, only);
    match (phase, kind, next(Verdict::Success)) {
        (Phase::Defunct, _, _) | (_, Kind::Goodbye, _) => only(Phase::Defunct),
        (Phase::Halted, Kind::Reset, _) => only(Phase::Ready),
        (Phase::Halted, _, _) => only(Phase::Halted),
        (Phase::Fresh | Phase::Unauth, _, None) => only(Phase::Defunct),
        (Phase::Fresh | Phase::Unauth, _, Some(done)) => only(done) | also(next(Verdict::Failure)),
        (_, Kind::Reset, _) => only(Phase::Ready),
        (_, _, None) => only(Phase::Defunct) | only(Phase::Halted),
        (_, _, Some(done)) => only(done) | only(Phase::Halted) | if is_counted { also(next(Verdict::More)) } else { 0 },
    }
}

/// Whether a request may be submitted in a phase.
fn is_allowed(version: Version, phase: Phase, kind: Kind) -> bool {
    if version != Version::V51 && matches!(kind, Kind::Logon | Kind::Logoff) { return false; }
    matches!(phase, Phase::Halted | Phase::Defunct) || kind == Kind::Goodbye || row(version, phase.state(), kind, Verdict::Success).is_some()
}

/// The machine of a version.
pub struct Tables {
    rows: [[[Option<State>; VERDICTS.len()]; KINDS.len()]; STATES.len()],
    after: [[[PhaseSet; PHASES.len()]; 2]; KINDS.len()],
    allowed: [PhaseSet; KINDS.len()],
}

impl Tables {
    fn made(version: Version) -> Tables {
        let phases = |kind, is_counted| PHASES.map(|phase| after(version, phase, kind, is_counted));
        Tables {
            rows: STATES.map(|state| KINDS.map(|kind| VERDICTS.map(|verdict| row(version, state, kind, verdict)))),
            after: KINDS.map(|kind| [phases(kind, false), phases(kind, true)]),
            allowed: KINDS.map(|kind| PHASES.into_iter().filter(|phase| is_allowed(version, *phase, kind)).fold(0, |set, phase| set | only(phase))),
        }
    }

    pub fn of(version: Version) -> &'static Tables {
        static ALL: LazyLock<[Tables; 3]> = LazyLock::new(|| [Version::V44, Version::V50, Version::V51].map(Tables::made));
        &ALL[version as usize]
    }

    #[inline]
    pub fn row(&self, state: State, kind: Kind, verdict: Verdict) -> Option<State> { self.rows[state as usize][kind as usize][verdict as usize] }

    /// The phases that may follow a request which is sent in one of these.
    #[inline]
    pub fn after(&self, phases: PhaseSet, kind: Kind, is_counted: bool) -> PhaseSet {
        let of_phase = &self.after[kind as usize][is_counted as usize];
        let (mut left, mut all) = (phases, 0);
        while left != 0 {
            all |= of_phase[left.trailing_zeros() as usize & 7];
            left &= left - 1;
        }
        all
    }

    /// Whether a request may be submitted where one of these phases holds; a client that may be defunct in all of them submits nothing.
    #[inline]
    pub fn allows(&self, phases: PhaseSet, kind: Kind) -> bool { phases & !only(Phase::Defunct) != 0 && phases & !self.allowed[kind as usize] == 0 }
}
