//! What is printed: plain lines, the result last.

use std::fmt::Write;

use second::session::Sessions;

use crate::compare;
use crate::exchange::Traffic;
use crate::options::Options;
use crate::verdict::{Compared, Difference, Result, Verdict};
use crate::words::{count, session};

pub fn report(
    options: &Options,
    traffic: &Traffic,
    compared: &Compared,
    verdict: &Verdict,
) -> String {
    let mut text = String::new();
    let mut line = |words: String| writeln!(text, "{words}").expect("a string takes any text");
    let counts = &traffic.counts;
    let times = match (counts.first, counts.last) {
        (Some(first), Some(last)) => format!(", {first} to {last}"),
        _ => String::new(),
    };
    line(format!("capture: {}{times}", count(counts.packets as usize, "packet")));
    let history = &verdict.history;
    line(format!(
        "answered requests: {} ({} accepted, {} refused, {} repeated){}",
        traffic.exchanges.len(),
        history.accepted,
        history.refused,
        history.repeats,
        match history.before {
            0 => String::new(),
            before => format!("; {before} of them before the table of --from"),
        }
    ));
    for (number, what) in [
        (traffic.open.len(), "requests without a reply"),
        (traffic.orphans.len(), "replies without a request"),
        (counts.copies, "repeats without a reply of their own"),
        (counts.owed, "repeats older than eight requests, answered as before"),
        (counts.unread, "messages that no unit reads (outcomes 3 to 5)"),
        (counts.damaged, "damaged packets, whose check sum or length is wrong"),
        (counts.put_together, "datagrams put together from fragments"),
    ] {
        if number > 0 {
            line(format!("{what}: {number}"));
        }
    }
    for note in &verdict.notes {
        line(format!("note: {note}"));
    }
    line(format!("live by the wire: {}", totals(&history.live)));
    line(format!("in the {}: {}", compared.what, totals(&compared.sessions)));
    for fault in &verdict.faults {
        line(format!("wrong: {fault}"));
    }
    for difference in &verdict.differences {
        line(described(options, compared, verdict, difference));
    }
    for text in &verdict.not_known {
        line(format!("not known: {text}"));
    }
    line(match verdict.result {
        Result::Same => format!("the same: the {} has what lives by the wire", compared.what),
        Result::Different => {
            format!("DIFFERENT: the {} is not what lives by the wire", compared.what)
        }
        Result::NotKnown if verdict.differences.is_empty() => {
            format!("NOT KNOWN: as far as the capture shows it the {} is the same", compared.what)
        }
        Result::NotKnown => {
            format!(
                "NOT KNOWN: the {} differs, and the capture does not show enough to say why",
                compared.what
            )
        }
    });
    text
}

fn totals(sessions: &Sessions) -> String {
    let sum = |of: fn(&second::session::Session) -> usize| sessions.values().map(of).sum::<usize>();
    format!(
        "{}, {}, {}, {}",
        count(sessions.len(), "session"),
        count(sum(|session| session.pdrs.len()), "PDR"),
        count(sum(|session| session.endpoints.len()), "endpoint"),
        count(sum(|session| session.fq_csids.len()), "FQ-CSID")
    )
}

/// A difference: what it is in, what both have, after which request it began, whether something explains it.
fn described(
    options: &Options,
    compared: &Compared,
    verdict: &Verdict,
    difference: &Difference,
) -> String {
    let (key, record) = difference.item;
    let (live, table) = (&verdict.history.live, &compared.sessions);
    let sure = if difference.is_doubted { "perhaps different" } else { "different" };
    let what = compared.what;
    let mut text = format!("{sure}: {}", session(key));
    let mut add = |words: String| {
        text.push_str("\n    ");
        text.push_str(&words);
    };
    match record {
        None => {
            let (has, lacks, which) = match live.get(&key) {
                Some(one) => ("lives by the wire", format!("is not in the {what}"), Some(one)),
                None => {
                    ("is not live by the wire", format!("stands in the {what}"), table.get(&key))
                }
            };
            add(format!("it {has} and {lacks}, with"));
            for record in which.iter().flat_map(|one| compare::records(one)) {
                let has = which.and_then(|one| compare::record_text(one, record));
                add(format!("  {}: {}", record.name(), has.unwrap_or_default()));
            }
        }
        Some(record) => {
            let of = |value: Option<String>| value.unwrap_or("not there".to_string());
            add(format!(
                "{} by the wire: {}",
                record.name(),
                of(compare::value(live, difference.item))
            ));
            add(format!(
                "{} in the {what}: {}",
                record.name(),
                of(compare::value(table, difference.item))
            ));
        }
    }
    for line in compare::given_to_another(table, live, difference.item) {
        add(line);
    }
    add(match (&difference.since, &options.from) {
        (Some(request), _) => format!("since {request}"),
        (None, Some(from)) => {
            format!("no request of the capture changed it: it is so since {from}")
        }
        (None, None) => "no request of the capture made it".to_string(),
    });
    text
}
