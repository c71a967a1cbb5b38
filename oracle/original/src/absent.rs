//! The face of this crate where there is no regolith checkout: nothing can be started or called.

use script::{Answer, Op, Setup, Tables};

use crate::Decoded;

/// The original, of which there is none here.
pub enum Original {}

impl Original {
    /// Always `None`.
    pub fn start(_setup: &Setup) -> Option<Original> {
        None
    }

    /// Cannot be called.
    pub fn step(&mut self, _op: &Op, _outside: Option<u8>) -> Answer {
        match *self {}
    }

    /// Cannot be called.
    pub fn tables(&self) -> Tables {
        match *self {}
    }

    /// Cannot be called.
    pub fn dirty_marks(&self) -> Vec<bool> {
        match *self {}
    }

    /// Cannot be called.
    pub fn listed(&self, _dir: &[u8]) -> Option<Vec<(bool, Vec<u8>)>> {
        match *self {}
    }

    /// Cannot be called.
    pub fn broken(&self) -> Option<String> {
        match *self {}
    }
}

/// Always `None`.
pub fn encode_header(_header: &Decoded) -> Option<Vec<u8>> {
    None
}

/// Always `None`: nobody is there to decode.
pub fn decode_header(_block: &[u8]) -> Option<Option<Decoded>> {
    None
}
