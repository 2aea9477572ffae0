//! answers ADDRESS PORT: asks twice for rows in one pipeline, and checks that each answer is whole or reported as
//! missing.
//!
//! A test refuses allocations of the library to this program. Status 0: both answers are whole. Status 3: the
//! connection broke and said so. Status 1: an answer isn't whole, or a broken pipeline was reported as settled.

use bolt::{Connection, Login, Query};
use std::net::TcpStream;
use std::process::ExitCode;

fn main() -> ExitCode {
    let words: Vec<String> = std::env::args().collect();
    let stream = TcpStream::connect((words[1].as_str(), words[2].parse::<u16>().unwrap())).unwrap();
    let login = Login { agent: "answers/1".into(), principal: "user".into(), credentials: "pass".into() };
    let Ok(mut connection) = Connection::open(stream, &login) else { return ExitCode::from(3) };
    let rows = Query::new("ROWS", [("n", 3.into())]);
    let asked = (0..2).map(|_| connection.ask_run(&rows, true, None)).collect::<Result<Vec<_>, _>>();
    let Ok(runs) = asked else { return ExitCode::from(3) };
    let is_settled = connection.settle().is_ok();
    let answers: Vec<_> = runs.iter().filter_map(|run| connection.answer(*run)).collect();
    let are_whole = answers.iter().all(|it| it.fields == ["i"] && it.rows.len() == 3);
    let are_reported = answers.len() == 2 || !is_settled;
    // A pipeline that broke stays broken.
    if !are_whole || !are_reported || !is_settled && connection.settle().is_ok() {
        return ExitCode::FAILURE;
    }
    ExitCode::from(if is_settled { 0 } else { 3 })
}
