//! Helpers of several test files.

use bolt::{Login, Query};

pub fn login() -> Login {
    Login { agent: "test/1".into(), principal: "user".into(), credentials: "pass".into() }
}

/// A query that puts the value 1 under a key.
pub fn put(key: &str) -> Query {
    Query::new("PUT", [("key", key.into()), ("value", 1.into())])
}
