//! What a unit decides about a message, and why.

use super::limits::{Limit, NoAddress};
use super::rules::{Allocation, Rule, Unsupported};
use super::Grant;
use crate::request::{Fault, Header, Request};

#[derive(Clone, PartialEq, Eq, Debug)]
pub enum Decision {
    /// Host outcomes 2 to 5 and 7: nothing is written.
    Outcome(u8),
    /// A cause other than 1.
    Refused(Refused),
    /// Cause 1.
    Accepted { peer: u8, request: Request, grants: Vec<Grant> },
}

/// A refusal. The first reason decides; the others hold as well and are kept for the tests.
#[derive(Clone, PartialEq, Eq, Debug)]
pub struct Refused {
    pub peer: u8,
    pub header: Header,
    pub reasons: Vec<Reason>,
}

#[derive(Clone, PartialEq, Eq, Debug)]
pub enum Reason {
    NoSession,
    Fault(Fault),
    LiveSeid,
    Allocation(Allocation),
    Unsupported(Unsupported),
    Rule(Rule),
    Limit(Limit),
    NoAddress(NoAddress),
}

impl Reason {
    pub fn cause(&self) -> u8 {
        match self {
            Reason::NoSession => 65,
            Reason::Fault(fault) => fault.cause,
            Reason::LiveSeid => 64,
            Reason::Allocation(_) => 71,
            Reason::Unsupported(_) => 76,
            Reason::Rule(_) => 73,
            Reason::Limit(_) => 75,
            Reason::NoAddress(_) => 79,
        }
    }
}

impl Refused {
    /// Where the fault is, "0 for the message, or no fault of these stages".
    pub fn place(&self) -> usize {
        match &self.reasons[0] {
            Reason::Fault(fault) => fault.octet,
            _ => 0,
        }
    }

    pub fn cause(&self) -> u8 {
        self.reasons[0].cause()
    }

    /// "Causes 66 to 69 add Offending IE".
    pub fn offending(&self) -> Option<u16> {
        match &self.reasons[0] {
            Reason::Fault(fault) => Some(fault.offending),
            _ => None,
        }
    }
}
