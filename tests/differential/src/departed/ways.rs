//! The ways of bringing two tables to live sets that are alike.

use second::generate::{Call, Generator, Scenario};
use second::ie::LEAST_REPLY_SPACE;
use second::restoration::{self, Envelope};
use second::session::{Key, Sessions};
use second::settings::Settings;

use super::bare::bare_session;
use super::reworded::{deletion, reworded_request, reworded_session, updates};
use super::side::{Heard, Side};
use super::{hexadecimal, Pair, Run, ONE, OTHER};
use crate::run::asked;

/// How two tables come to be alike.
#[derive(Clone, Copy, PartialEq, Eq, PartialOrd, Ord, Debug)]
pub enum Way {
    /// Each has requests of its own; then one takes over the live set of the other by deletions and
    /// restorations, each under its session's peer.
    Restored,
    /// From alike ones: the same accepted requests with other precedences and FAR IDs, and between
    /// them refused requests and sessions that come and go.
    Reworded,
}

/// A generated sequence for one table: its scenario remembers sessions that were deleted.
pub(crate) struct Script {
    pub(crate) generator: Generator,
    pub(crate) scenario: Scenario,
}

impl Script {
    pub(crate) fn next(&mut self, live: &Sessions) -> Call {
        self.generator.call(&mut self.scenario, live)
    }
}

impl Run<'_> {
    /// Leads both tables on, and to alike live sets; whether all requests were answered as meant.
    pub(crate) fn brought_alike(&mut self, pair: &mut Pair, way: Way) -> bool {
        let done = match way {
            Way::Restored => self.restored(pair),
            Way::Reworded => self.reworded(pair),
        };
        let done = done.and_then(|()| {
            self.updated(&mut pair.sides[ONE])?;
            self.updated(&mut pair.sides[OTHER])
        });
        self.report.check(done.is_ok(), || format!("{way:?}: {done:?}"))
    }

    fn restored(&mut self, pair: &mut Pair) -> Result<(), String> {
        for number in [ONE, OTHER] {
            for _ in 0..self.past_length(pair) {
                let live = &pair.sides[number].live.sessions;
                let call = pair.scripts[number].next(live);
                pair.sides[number].ask(&call, &mut self.random)?;
            }
        }
        let settings = pair.settings().clone();
        let [one, other] = &mut pair.sides;
        match self.random.percent(50) {
            true => self.taken_over(&settings, &one.live.sessions, other),
            false => self.taken_over(&settings, &other.live.sessions, one),
        }
    }

    /// A crowd has to gather.
    fn past_length(&mut self, pair: &Pair) -> usize {
        match pair.scripts[ONE].scenario.flavour.is_crowd() {
            true => usize::from(pair.settings().session_limit) + self.random.below(60),
            false => self.random.between(10, 60),
        }
    }

    /// Deletes what a table has else, and often what it has already, and restores what it lacks, in
    /// any order over both peers. What is there on the way is part of a live set, so no peer's due
    /// stands against a restoration.
    fn taken_over(
        &mut self,
        settings: &Settings,
        wanted: &Sessions,
        side: &mut Side,
    ) -> Result<(), String> {
        let all = self.random.percent(60);
        let has = |key: &Key, side: &Side| match (wanted.get(key), side.live.sessions.get(key)) {
            (Some(session), Some(own)) => bare_session(session) == bare_session(own),
            _ => false,
        };
        let mut keys: Vec<Key> = side.live.sessions.keys().copied().collect();
        keys.retain(|key| all || !has(key, side));
        self.random.shuffle(&mut keys);
        for key in keys {
            let message = deletion(key.seid, &mut self.random);
            self.must_accept(side, &asked(key.peer, message))?;
        }
        let mut keys: Vec<Key> = wanted.keys().copied().collect();
        keys.retain(|key| !has(key, side));
        self.random.shuffle(&mut keys);
        for key in keys {
            let session = reworded_session(&wanted[&key], &mut self.random);
            let envelope = Envelope::any(&mut self.random, key.seid);
            let message = restoration::request(settings, key.seid, &session, &envelope);
            let message = message.ok_or("a session that cannot be restored")?;
            self.must_accept(side, &asked(key.peer, message))?;
            self.report.of(key.peer).restored += 1;
        }
        Ok(())
    }

    fn reworded(&mut self, pair: &mut Pair) -> Result<(), String> {
        for _ in 0..self.past_length(pair) {
            let [one, other] = &mut pair.sides;
            let call = pair.scripts[ONE].next(&one.live.sessions);
            let heard = one.ask(&call, &mut self.random)?;
            if heard.is_accepted() {
                let message = reworded_request(&call.message, &mut self.random);
                self.report.reworded += usize::from(message != call.message);
                let reworded = Call { message, reply_space: LEAST_REPLY_SPACE, ..call };
                if self.must_accept(other, &reworded)?.reply != heard.reply {
                    return Err(format!("another reply to {}", hexadecimal(&reworded.message)));
                }
            }
            let passing = self.random.pick(&[ONE, OTHER]);
            self.passing(&mut pair.sides[passing], &mut pair.scripts[passing])?;
        }
        Ok(())
    }

    /// A refused request, or a session that comes and goes.
    fn passing(&mut self, side: &mut Side, script: &mut Script) -> Result<(), String> {
        let call = script.next(&side.live.sessions);
        let mut tried = side.clone();
        if !tried.ask(&call, &mut self.random)?.is_accepted() {
            side.ask(&call, &mut self.random)?;
            return Ok(());
        }
        let new = tried.live.sessions.keys().find(|key| !side.live.sessions.contains_key(key));
        if let Some(key) = new {
            side.ask(&call, &mut self.random)?;
            let message = deletion(key.seid, &mut self.random);
            self.must_accept(side, &asked(key.peer, message))?;
        }
        Ok(())
    }

    /// Other precedences and FAR IDs in some sessions.
    fn updated(&mut self, side: &mut Side) -> Result<(), String> {
        for key in side.live.sessions.keys().copied().collect::<Vec<_>>() {
            if self.random.percent(40) {
                let message = updates(key.seid, &side.live.sessions[&key], &mut self.random);
                self.must_accept(side, &asked(key.peer, message))?;
            }
        }
        Ok(())
    }

    fn must_accept(&mut self, side: &mut Side, call: &Call) -> Result<Heard, String> {
        let heard = side.ask(call, &mut self.random)?;
        let (peer, message) = (call.peer, hexadecimal(&call.message));
        match heard.is_accepted() {
            true => Ok(heard),
            false => Err(format!("{:?} for peer {peer}'s {message}", heard.cause())),
        }
    }
}
