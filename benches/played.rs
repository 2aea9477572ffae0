//! One end of the twin alone, to which the recorded bytes of the other are played. A recording is a row of exchanges: what a client has said, and what
//! it was answered; before each of the two stands its length in three bytes. Of each session it begins with the handshake, and with HELLO and LOGON.
use crate::twin::chunks::Wish;
use crate::twin::client::Client;
use crate::twin::server::{Server, Worked};
use crate::workloads::{Form, PIECE, Pipeline, Tally, feed, greet, hear};
use std::ops::Range;

/// What of an end's bytes is to be as it is recorded.
#[derive(Debug, Clone, Copy, PartialEq, Eq)]
pub enum Watch {
    /// Their count alone: so none of the time goes into comparing.
    Lengths,
    Bytes,
}

/// The first part of a recording, and what stands behind it.
fn part(recording: &[u8]) -> (&[u8], &[u8]) {
    let [high, middle, low, rest @ ..] = recording else { panic!("a length") };
    rest.split_at((*high as usize) << 16 | (*middle as usize) << 8 | *low as usize)
}

fn is_expected(piece: &[u8], expected: &[u8], watch: Watch) -> bool { if watch == Watch::Bytes { piece == expected } else { piece.len() == expected.len() } }

/// Plays one exchange of each of these sessions, all requests first, and answers what is recorded behind them.
fn exchange<'a>(server: &mut Server, conns: Range<u64>, recording: &'a [u8], watch: Watch) -> &'a [u8] {
    let mut rest = recording;
    for conn in conns.clone() {
        let (requests, behind) = part(rest);
        for piece in requests.chunks(PIECE) { feed(server, conn, piece); }
        rest = part(behind).1;
    }
    while conns.clone().fold(false, |moved, conn| moved | (server.work(conn) != Ok(Worked::Idle))) {}
    let mut rest = recording;
    for conn in conns {
        let (answers, behind) = part(part(rest).1);
        for expected in answers.chunks(PIECE) { assert!(is_expected(server.take_out(conn, PIECE).expect("a session"), expected, watch), "other answers"); }
        assert!(server.take_out(conn, PIECE).expect("a session").is_empty(), "more answers");
        rest = behind;
    }
    rest
}

/// A server alone, with so many sessions. Answers the ledger's length and the recording's.
pub fn server_alone(sessions: u32, recording: &[u8], watch: Watch) -> u64 {
    let mut server = Server::new("user", "pass");
    let mut rest = recording;
    for _ in 0..sessions {
        let conn = server.open().expect("a place");
        for _ in 0..2 { rest = exchange(&mut server, conn..conn + 1, rest, watch); }
    }
    while !rest.is_empty() { rest = exchange(&mut server, 0..sessions as u64, rest, watch); }
    (server.table().ledger().len() + recording.len()) as u64
}

/// A client has asked: takes out its requests, and plays it their answers. Answers what is recorded behind them.
fn settle<'a>(client: &mut Client, form: Form, tally: &mut Tally, recording: &'a [u8], watch: Watch) -> &'a [u8] {
    let (requests, behind) = part(recording);
    for expected in requests.chunks(PIECE) { assert!(is_expected(client.take_out(PIECE), expected, watch), "other requests"); }
    let (answers, rest) = part(behind);
    for piece in answers.chunks(PIECE) { hear(client, piece, form, tally); }
    rest
}

/// A client alone. Answers the check number of the rows and summaries that it heard, and the recording's length.
pub fn client_alone(form: Form, pipeline: Pipeline, recording: &[u8], watch: Watch) -> u64 {
    let (mut client, mut tally, long) = (Client::new(Wish::Newest), Tally::default(), pipeline.long());
    let mut rest = settle(&mut client, form, &mut tally, recording, watch);
    greet(&mut client);
    rest = settle(&mut client, form, &mut tally, rest, watch);
    for number in 0.. {
        if rest.is_empty() { break; }
        pipeline.submit(&mut client, form, number, &long);
        rest = settle(&mut client, form, &mut tally, rest, watch);
    }
    tally.check(recording.len())
}

/// A recording without so many exchanges behind those that begin it: what a client hears of the last part of a run.
pub fn without(recording: &[u8], exchanges: u32) -> Vec<u8> {
    let length = |from: &[u8], count: u32| from.len() - (0..2 * count).fold(from, |rest, _| part(rest).1).len();
    let begin = length(recording, 2);
    [&recording[..begin], &recording[begin + length(&recording[begin..], exchanges)..]].concat()
}
