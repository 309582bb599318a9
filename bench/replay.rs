//! Writes the scripts that `castd replay` is measured on: one domain at site 1, whose process 1.1 is a member of group 1 with
//! 2.1, and whose home at site 9 never hears of it. Its program takes what it is pushed, so that it is never too slow.
//! `replay CASE ROUNDS FILE`, where CASE is one of
//!
//! - `kept-N`: 1.1 casts, a message of 2.1 comes and is said to be stable, site 2 acknowledges the cast of N rounds before, so
//!   N casts stay kept, and a millisecond passes;
//! - `views`: in each round a view, with a cast, an ABCAST and its place from 1.1 and a cast of 2.1, which all become stable;
//! - `holder`: an ABCAST of 1.1, which holds the order, and its place become stable, all in one view;
//! - `follower`: so with an ABCAST and its place from 2.1;
//! - `sessions`: a program connects, joins, and is gone; the home answers both requests;
//! - `passes-N`: N groups wait for messages that nobody sent; then one message lets so many ABCASTs as there are rounds go, each
//!   only once the place of the one before is told;
//! - `waiting-N`: in each round N messages of 2.1 come in reverse order, and are said to be stable;
//! - `lost-N`: in each round N messages, each of another process and group, wait for one of 2.1, which comes last; all are said to be
//!   stable;
//! - `members-N`: a view of N members, of which all but 1.1 are at sites 2 and 3; in each round each of these casts, after all that was
//!   cast, and its message is said to be stable;
//! - `groups-N`: so in N groups of four members, with stamps that name all groups;
//! - `crowds-N`: so in N groups of 64 members;
//! - `opened-N`: N programs connected and are gone again; in each round 1.1 and 2.1 cast, and both messages become stable;
//! - `tokens`: 1.1 casts an ABCAST, gives it its place, hands the token over to 2.1 and gets it back, and all four messages become
//!   stable, all in one view;
//! - `tenants-N-P`: N domains, each with P programs; in each round the last program of each domain casts and a message of 2.1 comes,
//!   and both become stable;
//! - `sender-N`: three sites with a member each; in each round 1.1 casts N times, and each of the other sites acknowledges each cast;
//! - `receiver-N`: so N messages of 2.1 come in each round, of which all but the last N are said to be stable;
//! - `wanting-N`: site 1 is the home, and the view of 2.1 and 3.1 ends, of which site 3 lacks N messages of 2.1; in each round one of them
//!   is forwarded;
//! - `partition-N`: 1.1 casts N times in a view with a member at each of 14 other sites, none of which answers; in each round all that
//!   is owed falls due.

use std::fmt::Write;
use std::{env, fs, process};

const PAYLOAD: &str = "000102030405060708090a0b0c0d0e0f";

/// What a message is: its body's kind.
const CAUSAL: u8 = 1;
const ATOMIC: u8 = 2;
const ORDER: u8 = 3;

/// The group in which ABCASTs go one after the other, beside those that wait.
const PASSING: usize = 32;

/// After so many events of a domain its program takes what it was pushed: an event pushes it at most two entries, and a take gives
/// at most 64.
const EVENTS_A_TAKE: usize = 32;

/// How many sites have a member where none answers.
const PARTED: usize = 15;

/// After how many milliseconds a frame that is owed is sent again.
const RESEND: usize = 60_000;

/// The bytes of a process's name, and of a message's.
fn process(site: usize) -> String {
    format!("{site:04x}00000001")
}

fn name(site: usize, count: usize) -> String {
    format!("{}{count:08x}", process(site))
}

/// A frame's first fields: its kind, the site that sends it, the group, and the number of the view or request.
fn header(kind: u8, from: usize, group: usize, number: usize) -> String {
    format!("frame 434401{kind:02x}01{from:04x}{group:04x}{number:08x}")
}

fn ack(group: usize, view: usize, count: usize) -> String {
    header(2, 2, group, view) + &name(1, count)
}

fn stable(view: usize, count: usize) -> String {
    header(3, 2, 1, view) + &name(2, count)
}

/// The home has applied a request.
fn asked(group: usize, number: usize) -> String {
    header(5, 9, group, number) + "00"
}

fn prepare(group: usize, view: usize) -> String {
    header(6, 9, group, view)
}

/// The first message of a view that 1.1 and 2.1 are members of, and the holder among them; the view before it ends with these
/// counts, and with this order.
fn install(group: usize, view: usize, holder: usize, cut: &[String], order: &[String]) -> String {
    install_at(2, group, view, holder, cut, order)
}

/// So of a view that has a member at each of the first sites.
fn install_at(
    sites: usize,
    group: usize,
    view: usize,
    holder: usize,
    cut: &[String],
    order: &[String],
) -> String {
    let members: Vec<String> = (1..=sites).map(process).collect();
    format!(
        "{}{sites:02x}{}{:02x}00000001{:02x}{}00000000{:04x}{}",
        header(10, 9, group, view),
        members.concat(),
        holder - 1,
        cut.len(),
        cut.concat(),
        order.len(),
        order.concat()
    )
}

/// A message of 2.1, whose program has delivered so many messages of 1.1.
fn message(group: usize, view: usize, count: usize, seen: usize, kind: u8, body: &str) -> String {
    let mut counts = vec![name(2, count)];
    if seen > 0 {
        counts.insert(0, name(1, seen));
    }
    format!(
        "{}{}{kind:02x}01{group:04x}{view:08x}{:02x}{}{body}",
        header(1, 2, group, view),
        name(2, count),
        counts.len(),
        counts.concat()
    )
}

fn payload() -> String {
    format!("{:04x}{PAYLOAD}", PAYLOAD.len() / 2)
}

/// The body of a message that gives a message of 2.1 its place.
fn place(position: usize, count: usize) -> String {
    format!("{position:08x}01{}", name(2, count))
}

/// A member of the group: it is joined, and view 2 of it is installed.
fn joined(group: usize, holder: usize) -> Vec<String> {
    vec![
        format!("join 1 1 7 {group}"),
        asked(group, 1),
        install(group, 2, holder, &[], &[]),
    ]
}

fn kept(number: usize, kept: usize) -> Vec<String> {
    let mut events = vec![
        format!("cast 1 1 {number} 1 {PAYLOAD}"),
        message(1, 2, number, number, CAUSAL, &payload()),
        stable(2, number),
    ];
    if number > kept {
        events.push(ack(1, 2, number - kept));
    }
    events.push(format!("tick {number}"));
    events
}

fn view(number: usize) -> Vec<String> {
    let view = number + 1;
    let mut events = vec![
        format!("cast 1 1 {number} 1 {PAYLOAD}"),
        format!("abcast 1 1 {number} 1 {PAYLOAD}"),
        message(1, view, 1, 1, CAUSAL, &payload()),
        stable(view, 1),
    ];
    events.extend((1..=3).map(|count| ack(1, view, count)));
    events.push(prepare(1, view));
    events.push(install(1, view + 1, 1, &[name(1, 3), name(2, 1)], &[name(1, 2)]));
    events.push(format!("tick {number}"));
    events
}

fn held(number: usize) -> Vec<String> {
    vec![
        format!("abcast 1 1 {number} 1 {PAYLOAD}"),
        ack(1, 2, 2 * number - 1),
        ack(1, 2, 2 * number),
    ]
}

fn followed(number: usize) -> Vec<String> {
    let (count, after) = (2 * number - 1, 2 * number);
    vec![
        message(1, 2, count, 0, ATOMIC, &payload()),
        message(1, 2, after, 0, ORDER, &place(number, count)),
        stable(2, after),
    ]
}

fn session(number: usize) -> Vec<String> {
    let serial = number + 1;
    vec![
        "open 1".to_string(),
        format!("join 1 {serial} 7 1"),
        asked(1, 2 * number),
        format!("gone 1 {serial}"),
        asked(1, 2 * number + 1),
    ]
}

/// Groups that wait for 64 messages that nobody sent, and then the chain, of which the first message comes last.
fn passes(waiting: usize, rounds: usize) -> Vec<String> {
    let mut events = Vec::new();
    for group in 1..=waiting {
        events.extend(joined(group, 1));
        events.push(prepare(group, 2));
        events.push(install(group, 3, 1, &[name(2, 64)], &[]));
    }
    events.extend(joined(PASSING, 1));
    let link = |number: usize| message(PASSING, 2, number, number - 1, ATOMIC, &payload());
    events.extend((2..=rounds).chain(1..2).map(link));
    events
}

/// Messages that come in reverse order, so many at a time.
fn waiting(number: usize, many: usize) -> Vec<String> {
    let first = (number - 1) * many + 1;
    let last = number * many;
    let mut events: Vec<String> = (first..=last)
        .rev()
        .map(|count| message(1, 2, count, 0, CAUSAL, &payload()))
        .collect();
    events.push(stable(2, last));
    events
}

/// A process by its site and serial.
type Member = (usize, usize);

fn member((site, serial): Member) -> String {
    format!("{site:04x}{serial:08x}")
}

/// The first members of a view: 1.1, and so many others at sites 2 and 3 in turn, or at site 2 alone.
fn members(others: usize, sites: usize) -> Vec<Member> {
    let mut all: Vec<Member> = (0..others).map(|place| (2 + place % sites, 1 + place / sites)).collect();
    all.push((1, 1));
    all.sort();
    all
}

/// A member of a group whose view 2 has these members.
fn joined_to(group: usize, members: &[Member]) -> Vec<String> {
    let named: Vec<String> = members.iter().map(|it| member(*it)).collect();
    vec![
        format!("join 1 1 7 {group}"),
        asked(group, 1),
        format!(
            "{}{:02x}{}000000000100000000000000",
            header(10, 9, group, 2),
            members.len(),
            named.concat()
        ),
    ]
}

/// In each round each member elsewhere casts in each group, after all that was cast in any.
fn spread(groups: usize, members: &[Member], rounds: usize) -> Vec<String> {
    let mut events = Vec::new();
    let others: Vec<Member> = members.iter().copied().filter(|it| it.0 != 1).collect();
    for group in 1..=groups {
        events.extend(joined_to(group, members));
    }
    let cast = |round: usize, group: usize, place: usize| {
        let clocks: Vec<String> = (1..=groups)
            .map(|other| {
                let counts: Vec<String> = others
                    .iter()
                    .enumerate()
                    .map(|(at, it)| (it, if (other, at) <= (group, place) { round } else { round - 1 }))
                    .filter(|(_, count)| *count > 0)
                    .map(|(it, count)| format!("{}{count:08x}", member(*it)))
                    .collect();
                format!("{other:04x}00000002{:02x}{}", counts.len(), counts.concat())
            })
            .collect();
        let sender = others[place];
        let name = format!("{}{round:08x}", member(sender));
        [
            format!(
                "{}{name}{CAUSAL:02x}{:02x}{}{}",
                header(1, sender.0, group, 2),
                clocks.len(),
                clocks.concat(),
                payload()
            ),
            format!("{}{name}", header(3, sender.0, group, 2)),
        ]
    };
    for round in 1..=rounds {
        for group in 1..=groups {
            for place in 0..others.len() {
                events.extend(cast(round, group, place));
            }
        }
    }
    events
}

/// Each message is of another process in one of the groups, and names the next message of 2.1 in group 1, which comes behind them.
fn lost(many: usize, rounds: usize) -> Vec<String> {
    let members = members(63, 2);
    let others: Vec<Member> = members.iter().copied().filter(|it| it.0 != 1 && *it != (2, 1)).collect();
    let mut events: Vec<String> = (1..=many.div_ceil(others.len())).flat_map(|group| joined_to(group, &members)).collect();
    let clock = |group: usize, counts: &[String]| format!("{group:04x}00000002{:02x}{}", counts.len(), counts.concat());
    for round in 1..=rounds {
        let missing = format!("{}{round:08x}", member((2, 1)));
        let mut stables = Vec::new();
        for place in 0..many {
            let (group, sender) = (1 + place / others.len(), others[place % others.len()]);
            let name = format!("{}{round:08x}", member(sender));
            let clocks = if group == 1 {
                let mut counts = [missing.clone(), name.clone()];
                counts.sort();
                vec![clock(1, &counts)]
            } else {
                vec![clock(1, &[missing.clone()]), clock(group, &[name.clone()])]
            };
            events.push(format!("{}{name}{CAUSAL:02x}{:02x}{}{}", header(1, sender.0, group, 2), clocks.len(), clocks.concat(), payload()));
            stables.push(format!("{}{name}", header(3, sender.0, group, 2)));
        }
        events.push(message(1, 2, round, 0, CAUSAL, &payload()));
        events.push(stable(2, round));
        events.extend(stables);
    }
    events
}

/// Programs that were here, and then casts that become stable.
fn opened(programs: usize, rounds: usize) -> Vec<String> {
    let mut events = joined(1, 1);
    for serial in 2..programs + 2 {
        events.push("open 1".to_string());
        events.push(format!("gone 1 {serial}"));
    }
    events.extend((1..=rounds).flat_map(|number| kept(number, 0)));
    events
}

/// 2.1 hands the token back to 1.1, after so many rounds.
fn handed_back(number: usize) -> String {
    let body = format!("{:08x}00{}", number + 1, process(1));
    // A frame whose message names a new holder is of version 2.
    message(1, 2, number, 3 * number, ORDER, &body).replacen("434401", "434402", 1)
}

fn token(number: usize) -> Vec<String> {
    vec![
        format!("abcast 1 1 {number} 1 {PAYLOAD}"),
        ack(1, 2, 3 * number - 2),
        ack(1, 2, 3 * number - 1),
        format!("pass 1 1 {number} 1 2.1"),
        ack(1, 2, 3 * number),
        handed_back(number),
        stable(2, number),
    ]
}

/// A frame as it comes to a domain. It is written for domain 1.
fn to_domain(frame: &str, domain: usize) -> String {
    let (kind, from) = ("frame 434401".len() + 2, "frame 434401".len() + 4);
    format!("{}{domain:02x}{}", &frame[..kind], &frame[from..])
}

/// So many domains, in each of which the last of so many programs is a member, and casts.
fn tenants(domains: usize, programs: usize, rounds: usize) -> Vec<String> {
    let caster = (1, programs);
    let begins = |domain: usize| {
        let opens = (1..programs).map(move |_| format!("open {domain}"));
        let joins = joined_to(1, &[caster, (2, 1)]).into_iter().map(move |line| match line.strip_prefix("join 1 1 ") {
            Some(rest) => format!("join {domain} {programs} {rest}"),
            None => to_domain(&line, domain),
        });
        opens.chain(joins)
    };
    let round = |number: usize, domain: usize| {
        [
            format!("cast {domain} {programs} {number} 1 {PAYLOAD}"),
            to_domain(&message(1, 2, number, 0, CAUSAL, &payload()), domain),
            to_domain(&stable(2, number), domain),
            to_domain(&format!("{}{}{number:08x}", header(2, 2, 1, 2), member(caster)), domain),
        ]
    };
    let mut events: Vec<String> = (1..=domains).flat_map(begins).collect();
    for number in 1..=rounds {
        events.extend((1..=domains).flat_map(|domain| round(number, domain)));
    }
    events
}

/// The events, and the takes of the last program of each domain.
fn with_takes(events: Vec<String>, domains: usize, programs: usize) -> Vec<String> {
    let takes: Vec<String> = (1..=domains).map(|domain| format!("take {domain} {programs} 64")).collect();
    events.chunks(EVENTS_A_TAKE * domains).flat_map(|chunk| chunk.iter().chain(&takes).cloned()).collect()
}

/// Casts of 1.1, so many in a round, which each of two other sites acknowledges.
fn sent(number: usize, many: usize) -> Vec<String> {
    let counts = (number - 1) * many + 1..=number * many;
    let casts = counts.clone().map(|count| format!("cast 1 1 {count} 1 {PAYLOAD}"));
    let acks = [2, 3].into_iter().flat_map(|site| counts.clone().map(move |count| header(2, site, 1, 2) + &name(1, count)));
    casts.chain(acks).collect()
}

/// Messages of 2.1, so many in a round, of which all but the last ones are said to be stable.
fn received(number: usize, many: usize) -> Vec<String> {
    let counts = (number - 1) * many + 1..=number * many;
    let mut events: Vec<String> = counts.map(|count| message(1, 2, count, 0, CAUSAL, &payload())).collect();
    if number > 1 {
        events.push(stable(2, (number - 1) * many));
    }
    events
}

/// Casts that no site answers, and the moments at which they fall due.
fn partition(casts: usize, rounds: usize) -> Vec<String> {
    let mut events = vec![
        "join 1 1 7 1".to_string(),
        asked(1, 1),
        install_at(PARTED, 1, 2, 1, &[], &[]),
    ];
    events.extend((1..=casts).map(|number| format!("cast 1 1 {number} 1 {PAYLOAD}")));
    events.extend((1..=rounds).map(|number| format!("tick {}", number * RESEND)));
    events
}

/// A site asks the home for the next change of its: that its process of this serial joins.
fn ask(site: usize, number: usize, serial: usize) -> String {
    format!("{}01{}", header(4, site, 1, number), member((site, serial)))
}

fn installed(site: usize, view: usize) -> String {
    header(11, site, 1, view)
}

/// A site reports that it has had so many messages of 2.1, and keeps these.
fn flushed(site: usize, view: usize, had: usize, kept: usize) -> String {
    let counts = if had > 0 { format!("01{}", name(2, had)) } else { "00".to_string() };
    let names: Vec<String> = (1..=kept).map(|count| name(2, count) + "00").collect();
    format!("{}{counts}000000000000{kept:04x}{}", header(7, site, 1, view), names.concat())
}

/// The home ends the view of 2.1 and 3.1, and wants for site 3 what only site 2 keeps.
fn wanting(many: usize, rounds: usize) -> Vec<String> {
    let mut events = vec![
        ask(2, 1, 1),
        installed(2, 1),
        ask(3, 1, 1),
        flushed(2, 1, 0, 0),
        installed(2, 2),
        installed(3, 2),
        ask(2, 2, 2),
        flushed(3, 2, 0, 0),
        flushed(2, 2, many, many),
    ];
    let forward = |count: usize| message(1, 2, count, 0, CAUSAL, &payload()).replacen("43440101", "43440109", 1);
    events.extend((1..=rounds).map(forward));
    events
}

/// The lines of a case behind those that open the first program of each domain, without the takes.
fn events(case: &str, rounds: usize) -> Option<Vec<String>> {
    let by_round = |holder: usize, round: fn(usize) -> Vec<String>| {
        let mut events = joined(1, holder);
        events.extend((1..=rounds).flat_map(round));
        events
    };
    match case.split_once('-') {
        None => match case {
            "views" => Some(by_round(1, view)),
            "holder" => Some(by_round(1, held)),
            "follower" => Some(by_round(2, followed)),
            "sessions" => Some(by_round(1, session)),
            "tokens" => Some(by_round(1, token)),
            _ => None,
        },
        Some(("kept", casts)) => {
            let casts = casts.parse().ok()?;
            let mut events = joined(1, 1);
            events.extend((1..=rounds).flat_map(|number| kept(number, casts)));
            Some(events)
        }
        Some(("waiting", many)) => {
            let many = many.parse().ok()?;
            let mut events = joined(1, 1);
            events.extend((1..=rounds).flat_map(|number| waiting(number, many)));
            Some(events)
        }
        Some(("lost", many)) => Some(lost(many.parse().ok()?, rounds)),
        Some(("members", many)) => Some(spread(1, &members(many.parse::<usize>().ok()? - 1, 2), rounds)),
        Some(("groups", many)) => Some(spread(many.parse().ok()?, &members(3, 1), rounds)),
        Some(("crowds", many)) => Some(spread(many.parse().ok()?, &members(63, 2), rounds)),
        Some(("opened", many)) => Some(opened(many.parse().ok()?, rounds)),
        Some(("passes", groups)) => Some(passes(groups.parse().ok()?, rounds)),
        Some((kind @ ("sender" | "receiver"), many)) => {
            let many = many.parse().ok()?;
            let round = if kind == "sender" { sent } else { received };
            let mut events = joined_to(1, &[(1, 1), (2, 1), (3, 1)]);
            events.extend((1..=rounds).flat_map(|number| round(number, many)));
            Some(events)
        }
        Some(("wanting", many)) => Some(wanting(many.parse().ok()?, rounds)),
        Some(("partition", casts)) => Some(partition(casts.parse().ok()?, rounds)),
        Some(("tenants", _)) => {
            let (domains, programs) = tenants_of(case)?;
            Some(tenants(domains, programs, rounds))
        }
        Some(_) => None,
    }
}

/// How many domains a case has, and how many programs each of them.
fn tenants_of(case: &str) -> Option<(usize, usize)> {
    let (domains, programs) = case.strip_prefix("tenants-")?.split_once('-')?;
    Some((domains.parse().ok()?, programs.parse().ok()?))
}

fn script(case: &str, rounds: usize) -> Option<String> {
    let (domains, programs) = tenants_of(case).unwrap_or((1, 1));
    let has_groups = ["passes", "groups", "crowds", "lost"].iter().any(|it| case.starts_with(it));
    let last = if has_groups { PASSING } else { 1 };
    let groups: Vec<String> = (1..=last).map(|group| group.to_string()).collect();
    let sites: Vec<String> = (1..=PARTED).map(|site| site.to_string()).collect();
    let sites = match case.split_once('-') {
        Some(("partition", _)) => sites.join(","),
        Some(("members" | "crowds" | "sender" | "receiver", _)) => "1,2,3,9".to_string(),
        Some(("wanting", _)) => "1,2,3".to_string(),
        _ => "1,2,9".to_string(),
    };
    let home = if case.starts_with("wanting") { 1 } else { 9 };
    let mut text = "site 1\n".to_string();
    for domain in 1..=domains {
        writeln!(text, "domain {domain} home {home} sites {sites} groups {} quotas 64 1024 4096 {RESEND}", groups.join(","))
            .expect("a string takes all that is written");
    }
    for domain in 1..=domains {
        writeln!(text, "open {domain}").expect("a string takes all that is written");
    }
    for line in with_takes(events(case, rounds)?, domains, programs) {
        writeln!(text, "{line}").expect("a string takes all that is written");
    }
    Some(text)
}

fn main() {
    let words: Vec<String> = env::args().skip(1).collect();
    let text = match &words[..] {
        [case, rounds, _] => rounds.parse().ok().and_then(|rounds| script(case, rounds)),
        _ => None,
    };
    let Some(text) = text else {
        eprintln!(
            "replay kept-N|views|holder|follower|sessions|tokens|waiting-N|lost-N|members-N|groups-N|opened-N|passes-N|wanting-N|tenants-N-P|partition-N ROUNDS FILE"
        );
        process::exit(2);
    };
    if let Err(error) = fs::write(&words[2], text) {
        eprintln!("{}: {error}", words[2]);
        process::exit(1);
    }
}
