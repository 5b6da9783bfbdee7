//! Holds the model's ring to demand 3: a message that stays strictly above every other waiting one goes
//! after at most 2N+1 short frames and one information frame of others. Random histories of rings of
//! several sizes, and for every size from 3 the run that reaches the bound.

use rtep::model::ring::Ring;
use rtep::model::station::{Frame, Kind, MESSAGES, PLACE};
use rtep::random::Random;

const SEED: u64 = 0x5254_4550_0000_0031;

/// Stations, and how many messages are followed to their frame.
const RUNS: [(u8, usize); 8] = [
    (2, 100_000),
    (3, 100_000),
    (4, 100_000),
    (5, 100_000),
    (8, 60_000),
    (16, 30_000),
    (33, 10_000),
    (64, 4_000),
];
/// A history begins anew after so many.
const HISTORY: usize = 40;
const CHANNELS: u16 = 8;
const LONGEST_PAYLOAD: u16 = PLACE as u16;

// ---------------------------------------------------------------------------------------------
// What is counted

/// What was composed before a message's own frame, and as which frame since its acceptance it went.
/// Or, of many messages, the most of each.
#[derive(Clone, Copy, Default, PartialEq, Eq, Debug)]
struct Wait {
    shorts: u32,
    informations: u32,
    octets: u32,
    frame: u32,
}

impl Wait {
    fn bound(members: u8) -> Wait {
        let shorts = 2 * u32::from(members) + 1;
        Wait { shorts, informations: 1, octets: shorts * 72 + 1526, frame: shorts + 2 }
    }

    fn count(&mut self, frame: &Frame) {
        match frame.kind {
            Kind::Token { .. } | Kind::Transmit { .. } => self.shorts += 1,
            Kind::Information(_) => self.informations += 1,
        }
        self.octets += frame.wire() as u32;
    }

    fn within(&self, bound: &Wait) -> bool {
        self.shorts <= bound.shorts
            && self.informations <= bound.informations
            && self.octets <= bound.octets
            && self.frame <= bound.frame
    }

    fn worst(&mut self, other: &Wait) {
        self.shorts = self.shorts.max(other.shorts);
        self.informations = self.informations.max(other.informations);
        self.octets = self.octets.max(other.octets);
        self.frame = self.frame.max(other.frame);
    }
}

// ---------------------------------------------------------------------------------------------
// A message on top, followed

#[derive(Clone, Copy, PartialEq, Eq, Debug)]
struct Call {
    from: u8,
    to: u8,
    priority: u8,
    channel: u8,
    length: u16,
}

impl Call {
    fn make(&self, ring: &mut Ring) -> Result<(), u32> {
        let [from, to, priority, channel] = [self.from, self.to, self.priority, self.channel];
        ring.queue(from.into(), to.into(), priority.into(), channel.into(), self.length.into())
    }
}

/// The priority of every waiting message, and its station.
fn waiting(ring: &Ring) -> impl Iterator<Item = (u8, u8)> + '_ {
    (0u8..)
        .zip(&ring.stations)
        .flat_map(|(own, station)| station.waiting().map(move |message| (own, message.priority)))
}

/// It waits, and everything else that waits is strictly below. So no other message of its station
/// has its priority.
fn is_on_top(ring: &Ring, call: &Call) -> bool {
    let mut own = 0;
    waiting(ring).all(|(from, priority)| {
        let is_own = (from, priority) == (call.from, call.priority);
        own += u32::from(is_own);
        is_own || priority < call.priority
    }) && own == 1
}

/// From its acceptance until it goes: `between` is called before every step.
fn follow(ring: &mut Ring, call: &Call, mut between: impl FnMut(&mut Ring)) -> Wait {
    let bound = Wait::bound(ring.stations.len() as u8);
    let mut wait = Wait::default();
    assert!(is_on_top(ring, call), "not on top: {call:?}");
    loop {
        between(ring);
        assert!(is_on_top(ring, call), "not on top: {call:?}");
        ring.step();
        let frame = ring.wire;
        wait.frame += 1;
        if let Kind::Information(message) = frame.kind {
            if (frame.from as u8, message.priority) == (call.from, call.priority) {
                let went = (frame.to as u8, message.channel, message.length as u16);
                assert_eq!(went, (call.to, call.channel, call.length));
                return wait;
            }
        }
        wait.count(&frame);
        assert!(wait.frame < bound.frame, "{call:?} has not gone: {wait:?}");
    }
}

// ---------------------------------------------------------------------------------------------
// Random histories

/// How a stretch of a history is: a queue call before a step once in `rarity`, of these priorities.
struct Load {
    rarity: usize,
    highest: u8,
    longest_only: bool,
}

impl Load {
    fn draw(random: &mut Random) -> Load {
        Load {
            rarity: random.pick(&[1, 2, 5, 20, 100, 1000]),
            highest: random.pick(&[1, 2, 5, 100, 250, 255]),
            longest_only: random.once_in(3),
        }
    }

    fn length(&self, random: &mut Random) -> u16 {
        if self.longest_only {
            return LONGEST_PAYLOAD;
        }
        let any = random.within(0..=usize::from(LONGEST_PAYLOAD)) as u16;
        random.pick(&[0, 38, 39, any, any, LONGEST_PAYLOAD])
    }

    /// Any call, with a priority of at most `highest`. It may be one that is refused: to its own
    /// station, of priority 0, and now and then from outside the ring or for no channel.
    fn call(&self, random: &mut Random, members: u8, highest: u8) -> Call {
        let beyond = usize::from(random.once_in(50));
        Call {
            from: random.below(usize::from(members) + beyond) as u8,
            to: random.below(members.into()) as u8,
            priority: random.within(0..=highest.min(self.highest).into()) as u8,
            channel: random.below(usize::from(CHANNELS) + beyond) as u8,
            length: self.length(random),
        }
    }

    fn calls(&self, random: &mut Random, ring: &mut Ring, highest: u8) {
        let members = ring.stations.len() as u8;
        if random.once_in(self.rarity) {
            for _ in 0..random.within(1..=3) {
                // A refusal changes nothing, and is as good.
                let _ = self.call(random, members, highest).make(ring);
            }
        }
    }
}

/// A call for a message that will be on top, where there is room for one.
fn topping(random: &mut Random, ring: &Ring, load: &Load) -> Option<Call> {
    let members = ring.stations.len();
    let from = if random.once_in(2) { ring.wire.from as u8 } else { random.below(members) as u8 };
    let highest = waiting(ring).map(|(_, priority)| priority).max().unwrap_or(0);
    if ring.stations[usize::from(from)].send.len() == MESSAGES || highest == 255 {
        return None;
    }
    let any = random.within(usize::from(highest) + 1..=255) as u8;
    let to = (usize::from(from) + random.within(1..=members - 1)) % members;
    Some(Call {
        from,
        to: to as u8,
        priority: random.pick(&[highest + 1, any, 255]),
        channel: random.below(CHANNELS.into()) as u8,
        length: load.length(random),
    })
}

/// The most of each over so many messages.
fn worst_seen(random: &mut Random, members: u8, runs: usize) -> Wait {
    let bound = Wait::bound(members);
    let mut worst = Wait::default();
    let mut followed = 0;
    while followed < runs {
        let mut ring = Ring::start(members.into());
        let last = (followed + HISTORY).min(runs);
        while followed < last {
            let load = Load::draw(random);
            for _ in 0..random.below(3 * usize::from(members)) {
                load.calls(random, &mut ring, 255);
                ring.step();
            }
            load.calls(random, &mut ring, 255);
            let Some(call) = topping(random, &ring, &load) else { continue };
            assert_eq!(call.make(&mut ring), Ok(()), "{call:?}");
            let load = Load::draw(random);
            let wait = follow(&mut ring, &call, |ring| {
                load.calls(random, ring, call.priority - 1);
            });
            assert!(wait.within(&bound), "{members} stations: {call:?} waited for {wait:?}");
            worst.worst(&wait);
            followed += 1;
        }
    }
    worst
}

// ---------------------------------------------------------------------------------------------
// The tests

#[test]
fn a_message_on_top_goes_within_the_bound() {
    let mut random = Random::new(SEED);
    for (members, runs) in RUNS {
        let worst = worst_seen(&mut random, members, runs);
        let bound = Wait::bound(members);
        println!(
            "{members:2} stations, {runs:6} runs: short frames {:3} of {:3}, information frames {} of {}, \
             octets {:5} of {:5}, latest frame {:3} of {:3}",
            worst.shorts,
            bound.shorts,
            worst.informations,
            bound.informations,
            worst.octets,
            bound.octets,
            worst.frame,
            bound.frame,
        );
        if members == 2 {
            assert_eq!(worst, Wait { shorts: 4, informations: 1, octets: 4 * 72 + 1526, frame: 6 });
        } else {
            assert_eq!(worst, bound, "{members} stations: the bound was not met");
        }
    }
}

/// After `ring N`: a message of 1,492 octets at station N−1, then a higher one at station 0, whose own
/// token is on the wire.
#[test]
fn from_three_stations_on_a_run_reaches_the_bound() {
    for members in 2..=64 {
        let mut ring = Ring::start(members.into());
        let foreign = Call {
            from: members - 1,
            to: if members == 2 { 0 } else { 1 },
            priority: 5,
            channel: 0,
            length: LONGEST_PAYLOAD,
        };
        let own = Call { from: 0, to: 1, priority: 9, channel: 0, length: 0 };
        assert_eq!(foreign.make(&mut ring), Ok(()));
        assert_eq!(own.make(&mut ring), Ok(()));
        let wait = follow(&mut ring, &own, |_| {});
        if members == 2 {
            assert_eq!(wait, Wait { shorts: 4, informations: 1, octets: 4 * 72 + 1526, frame: 6 });
        } else {
            assert_eq!(wait, Wait::bound(members), "{members} stations");
        }
    }
}
