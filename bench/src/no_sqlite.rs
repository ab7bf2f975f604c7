//! Where libsqlite3 is not installed: no figures.

use crate::cases::Case;
use std::time::Duration;

pub fn version() -> String {
    "none".into()
}

/// Never made.
pub enum Stand {}

impl Stand {
    pub fn new(_: &Case) -> Option<Stand> {
        None
    }

    pub fn check(&mut self, _: &[&[u16]]) {
        match *self {}
    }

    pub fn run(&mut self, _: Duration) -> f64 {
        match *self {}
    }
}
