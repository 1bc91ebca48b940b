//! One of the two tables: its engine, its live set, and what is remembered of its past.

use std::hash::{DefaultHasher, Hash, Hasher};

use second::generate::random::Random;
use second::generate::Call;
use second::ie;
use second::layout;
use second::live::LiveSet;
use second::request::framing::{elements, Part};
use second::session::records_hold;
use second::settings::Settings;

use super::plant::Engine;
use crate::run::Lent;

/// What a host hears of a request, and whether nothing else was written.
#[derive(Clone, Debug)]
pub(crate) struct Heard {
    pub(crate) outcome: u32,
    pub(crate) used: usize,
    pub(crate) place: usize,
    pub(crate) reply: Vec<u8>,
    pub(crate) rest_stays: bool,
}

impl Heard {
    /// The cause of the reply, if there is one.
    pub(crate) fn cause(&self) -> Option<u8> {
        let body = self.reply.get(ie::header_octets(&self.reply)..)?;
        let cause = elements(Part::of(body)).find(|element| element.ie_type == ie::CAUSE)?;
        cause.value.first().copied().filter(|_| self.outcome == 0)
    }

    pub(crate) fn is_accepted(&self) -> bool {
        self.cause() == Some(1)
    }
}

/// The past of a table: how many requests, how many of them accepted, and a digest of them all with
/// their peers.
#[derive(Clone, PartialEq, Eq, Debug, Default)]
pub(crate) struct Past {
    pub(crate) requests: usize,
    pub(crate) accepted: usize,
    digest: u64,
}

impl Past {
    fn follow(&mut self, call: &Call, accepted: bool) {
        let mut hasher = DefaultHasher::new();
        (self.digest, call.peer, &call.message).hash(&mut hasher);
        self.digest = hasher.finish();
        self.requests += 1;
        self.accepted += usize::from(accepted);
    }
}

#[derive(Clone)]
pub(crate) struct Side<'a> {
    pub(crate) engine: Engine<'a>,
    settings: Settings,
    pub(crate) table: Lent,
    pub(crate) live: LiveSet,
    pub(crate) past: Past,
}

impl<'a> Side<'a> {
    /// An empty table, made over any content; nothing where the product does not make it.
    pub(crate) fn empty(
        engine: Engine<'a>,
        settings: &Settings,
        random: &mut Random,
    ) -> Option<Side<'a>> {
        let mut table = Lent::new(&random.octets(layout::length(settings.session_limit)));
        let ipv6: &[u8] = settings.ipv6.as_ref().map_or(&[], |address| address);
        let made = engine.product.make_table(
            table.lend(),
            settings.ipv4,
            ipv6,
            (settings.first, settings.size),
            (settings.first_address, settings.addresses),
            (settings.session_limit.into(), settings.peers),
        );
        let (settings, live, past) = (settings.clone(), LiveSet::new(), Past::default());
        (made == 0).then_some(Side { engine, settings, table, live, past })
    }

    /// One request of a peer in a reply space with old contents of its own. An error tells of a reply
    /// that the live set cannot follow, or that makes it one that no table may hold.
    pub(crate) fn ask(&mut self, call: &Call, random: &mut Random) -> Result<Heard, String> {
        let (peer, message) = (call.peer, &call.message);
        let old = random.octets(call.reply_space);
        let mut space = Lent::new(&old);
        let (outcome, used, place) =
            self.engine.request(self.table.lend(), peer, message, space.lend());
        let written = used.min(old.len());
        let (reply, rest) = space.content().split_at(written);
        let rest_stays = rest == &old[written..] && space.guards_hold() && self.table.guards_hold();
        let heard = Heard { outcome, used, place, reply: reply.to_vec(), rest_stays };
        self.past.follow(call, heard.is_accepted());
        self.live.follow(peer, message, outcome as u8, &heard.reply)?;
        records_hold(&self.settings, &self.live.sessions)?;
        Ok(heard)
    }

    /// Whether the table holds its live set, to the octet.
    pub(crate) fn holds_live_set(&self) -> bool {
        self.table.content() == layout::encode(&self.settings, &self.live.sessions)
    }
}
