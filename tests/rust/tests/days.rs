//! The model's recorded day: held to its fault-free ring where nothing is lost and no timer runs, to cases done by hand, to
//! what request CR 1 says of every day, and to the yardstick's day.

use rtep::days::{day, edges, longest, Made, Seen};
use rtep::model::capture::{self, capture, Event};
use rtep::model::day::{printed, run, Day, Line, MOST_FRAMES};
use rtep::model::ring::Ring as Bench;
use rtep::model::{read_ring, ring_file};
use rtep::random::Random;
use rtep::yardstick::day::replay;
use rtep::yardstick::out::Out;

const SEED: u64 = 0x5254_4550_0000_0041;
const DAYS: usize = 10_000;

fn ring_of(members: u64, retry_limit: u64) -> Vec<u8> {
    let addresses: Vec<u64> = (1..=members).map(|place| 2 * place).collect();
    ring_file(1, members - 1, retry_limit, 0, &addresses)
}

/// The printed lines of good events, between the heading and the end, and the end's lines.
fn lines(ring: &[u8], events: &[Event]) -> (Vec<String>, Vec<String>) {
    let text = printed(ring, &capture(events));
    let mut lines = text.lines().map(String::from);
    assert_eq!(lines.next().as_deref(), Some("no kind from to prio octets"));
    let lines: Vec<String> = lines.collect();
    let end = lines.iter().position(|line| line == "station state live send receive lost given-up");
    let end = end.expect("the end is always printed");
    (lines[..end].to_vec(), lines[end + 1..].to_vec())
}

fn queue(station: usize, destination: usize, priority: usize, length: usize) -> Event {
    Event::Queue { station, destination, priority, channel: 0, length }
}

// ---------------------------------------------------------------------------------------------
// As on the bench

#[test]
fn frames_and_messages_alone_are_the_bench() {
    let mut random = Random::new(SEED);
    for members in 2..=64 {
        let retry_limit = random.within(1..=15) as u64;
        let ring = ring_of(members as u64, retry_limit);
        let mut bench = Bench::start(members);
        let mut wanted = vec![Line::Frame(bench.wire)];
        let mut events = Vec::new();
        for _ in 0..4 * members + 100 {
            if random.once_in(3) {
                let [from, to] = [0, 1].map(|_| random.below(members));
                let (priority, length) = (random.below(10), random.pick(&[0, 38, 39, 1492, 1493]));
                events.push(queue(from, to, priority, length));
                let done = bench.queue(from, to, priority, 0, length);
                wanted.extend(done.err().map(Line::Refused));
            } else {
                events.push(Event::Delivered);
                bench.step();
                wanted.push(Line::Frame(bench.wire));
            }
        }
        let run = run(&ring, &capture(&events)).expect("a good day");
        assert_eq!(run.lines, wanted, "{members} stations");
        assert_eq!(run.day.wire, [bench.wire]);
        for (ours, theirs) in run.day.stations.iter().zip(&bench.stations) {
            assert_eq!((ours.state, &ours.live), (theirs.state, &theirs.live));
            assert_eq!((&ours.send, &ours.receive), (&theirs.send, &theirs.receive));
            assert_eq!((ours.lost, ours.given_up), (theirs.lost, theirs.given_up));
            assert_eq!((ours.handled, ours.awaited), (theirs.handled, theirs.awaited));
        }
    }
}

#[test]
fn the_page_ten_frames() {
    let mut events = vec![queue(1, 2, 5, 100), queue(0, 1, 9, 0)];
    events.extend([Event::Delivered; 9]);
    let (printed, end) = lines(&ring_of(3, 2), &events);
    let frames = [
        "0 T 0 1 0 72",
        "1 T 1 2 5 72",
        "2 T 2 0 5 72",
        "3 G 0 1 5 72",
        "4 I 1 2 5 134",
        "5 T 2 0 0 72",
        "6 T 0 1 9 72",
        "7 T 1 2 9 72",
        "8 G 2 0 9 72",
        "9 I 0 1 9 72",
    ];
    assert_eq!(printed, frames);
    // Frame 9 is on the wire: 2 has not heard it yet, and it answers 2's frame 8.
    assert_eq!(end, ["0 Waiting 111 1 0 0 0", "1 Idle 111 0 0 0 0", "2 Waiting 111 0 1 0 0"]);
}

// ---------------------------------------------------------------------------------------------
// By hand

/// With R = 1 the second timer strikes.
#[test]
fn a_silent_successor_is_struck_by_its_neighbour_and_then_by_all() {
    use Event::*;
    let events =
        [LostForAddressee, Timer { station: 0 }, LostForAddressee, Timer { station: 0 }, Delivered];
    let (printed, end) = lines(&ring_of(3, 1), &events);
    // The token that names 1 as failing goes to 2, and 1 hears it too.
    let wanted = [
        "0 T 0 1 0 72",
        "0 T 0 1 0 72",
        "struck 1 by 0",
        "1 T 0 2 0 72",
        "struck 1 by 1",
        "struck 1 by 2",
        "2 T 2 0 0 72",
    ];
    assert_eq!(printed, wanted);
    assert_eq!(end, ["0 Waiting 101 0 0 0 0", "1 Excluded 101 0 0 0 0", "2 Waiting 101 0 0 0 0"]);
}

/// The addressee does not hear it, the others do: a bystander of the failing token strikes too.
#[test]
fn lost_for_the_addressee_only_is_heard_by_the_others() {
    use Event::*;
    let events = [LostForAll, Timer { station: 0 }, LostForAll, Timer { station: 0 }];
    let (printed, _) = lines(&ring_of(3, 1), &events);
    assert_eq!(printed[2..], ["struck 1 by 0", "1 T 0 2 0 72"]);
    let with = |last| [&events[..], &[last]].concat();
    let (printed, end) = lines(&ring_of(3, 1), &with(LostForAddressee));
    assert_eq!(printed[4..], ["struck 1 by 1"]);
    assert_eq!(end[1..], ["1 Excluded 101 0 0 0 0", "2 Idle 111 0 0 0 0"]);
    let (printed, end) = lines(&ring_of(3, 1), &with(LostForAll));
    assert_eq!(printed[4..], [""; 0]);
    assert_eq!(end[1..], ["1 Idle 111 0 0 0 0", "2 Idle 111 0 0 0 0"]);
}

/// Frames leave in the order in which they came: the first send is answered before the resend.
#[test]
fn the_oldest_frame_is_taken() {
    use Event::*;
    let events = [Timer { station: 0 }, Delivered, Delivered, Delivered];
    let (printed, _) = lines(&ring_of(3, 2), &events);
    // The resend is of a number that 1 has handled: no answer. Then comes 1's frame.
    assert_eq!(printed, ["0 T 0 1 0 72", "0 T 0 1 0 72", "1 T 1 2 0 72", "2 T 2 0 0 72"]);
}

#[test]
fn with_no_frame_a_frame_record_does_nothing() {
    use Event::*;
    for none in [Delivered, LostForAddressee, LostForAll] {
        let events = [LostForAll, none, none, Timer { station: 0 }];
        let (printed, _) = lines(&ring_of(2, 1), &events);
        assert_eq!(printed, ["0 T 0 1 0 72", "0 T 0 1 0 72"]);
    }
}

/// Five members and R = 15: station 0 sends 16 frames to each of four, and the timer that strikes the last sends nothing.
#[test]
fn a_timer_that_sends_nothing_is_not_refused_beside_64_frames() {
    let timer = Event::Timer { station: 0 };
    let idle = Event::Timer { station: 3 };
    let ring = ring_of(5, 15);
    let full = run(&ring, &capture(&[timer; 63])).expect("a good day").day;
    assert_eq!(full.wire.len(), MOST_FRAMES);
    let (printed, end) = lines(&ring, &[&[timer; 63][..], &[idle, timer, timer]].concat());
    assert_eq!(printed.len(), 64 + 4);
    assert_eq!(printed.last().map(String::as_str), Some("struck 4 by 0"));
    assert_eq!(end[0], "0 Alone 10000 0 0 0 0");
}

#[test]
fn the_65th_frame_stops_the_run() {
    let timer = Event::Timer { station: 0 };
    let (stopped, end) = lines(&ring_of(6, 15), &[&[timer; 64][..], &[Event::Delivered]].concat());
    let (before, end_before) = lines(&ring_of(6, 15), &[timer; 63]);
    assert_eq!(before.iter().filter(|line| !line.starts_with("struck")).count(), 64);
    assert_eq!(stopped, [&before[..], &["stopped 36 at 63".into()]].concat());
    assert_eq!(end, end_before);
    // One frame less on the wire, and the same timer runs.
    let (on, _) = lines(&ring_of(6, 15), &[&[timer; 63][..], &[Event::LostForAll, timer]].concat());
    assert_eq!(on[..before.len()], before);
    assert_eq!(on[before.len()..], ["struck 4 by 0", "4 T 0 5 0 72"]);
}

#[test]
fn refusals_of_the_whole_come_first() {
    let bad = capture::record([5, 0, 0, 0, 0, 0, 0]);
    assert_eq!(printed(&ring_of(2, 1)[..13], &bad[..4]), "refused 1\n");
    assert_eq!(printed(&ring_of(2, 1), &[&bad[..], &[0]].concat()), "refused 24\n");
    assert_eq!(printed(&ring_of(2, 1), &[0; 60_005]), "refused 24\n");
    assert!(printed(&ring_of(2, 1), &[0; 60_000]).starts_with("no kind from to prio octets\n0 T "));
    let end =
        "station state live send receive lost given-up\n0 Waiting 11 0 0 0 0\n1 Idle 11 0 0 0 0\n";
    let heading = "no kind from to prio octets\n0 T 0 1 0 72\n";
    assert_eq!(printed(&ring_of(2, 1), &[]), format!("{heading}{end}"));
    assert_eq!(printed(&ring_of(2, 1), &bad), format!("{heading}stopped 25 at 0\n{end}"));
}

// ---------------------------------------------------------------------------------------------
// Of every day

/// A frame record takes one frame and adds at most one, which is the addressee's; a timer adds at most one; there are never more
/// than 64; and what is on the wire is between two members.
fn holds_of_each_record(made: &Made) {
    let Ok(ring) = read_ring(&made.ring) else { return };
    if capture::is_refused(&made.capture) {
        return;
    }
    let members = ring.addresses.len();
    let mut day = Day::start(&ring);
    for octets in made.capture.chunks(capture::RECORD) {
        let Ok(event) = capture::event(octets, members) else { return };
        let before = day.wire.clone();
        let Ok(printed) = day.apply(event) else { return };
        let taken = usize::from(!matches!(event, Event::Timer { .. } | Event::Queue { .. }));
        let stayed = before.len() - taken.min(before.len());
        assert!(day.wire.iter().take(stayed).eq(before.iter().skip(before.len() - stayed)));
        let added: Vec<_> = day.wire.iter().skip(stayed).collect();
        assert!(added.len() <= 1 && day.wire.len() <= MOST_FRAMES);
        for frame in added {
            assert!(frame.from < members && frame.to < members && frame.from != frame.to);
            assert_eq!(printed.last(), Some(&Line::Frame(*frame)));
            match event {
                Event::Delivered => assert_eq!(frame.from, before[0].to),
                Event::Timer { station } => assert_eq!(frame.from, station),
                _ => panic!("{event:?} is answered by {frame:?}"),
            }
        }
    }
}

/// The live set at the end is all members without those that the station was printed to strike.
fn live_without_the_struck(made: &Made) {
    let Ok(run) = run(&made.ring, &made.capture) else { return };
    for station in &run.day.stations {
        let mut live = vec![true; station.live.len()];
        for line in &run.lines {
            if let Line::Struck { station: struck, by } = line {
                if *by == station.own {
                    assert!(std::mem::replace(&mut live[*struck], false), "struck twice");
                }
            }
        }
        assert_eq!(station.live, live);
    }
}

/// A stopped run is the run of the records before the refused one, and the stop line.
fn stopped_is_the_run_before(made: &Made) {
    let Ok(stopped) = run(&made.ring, &made.capture) else { return };
    let Some(Line::Stopped { record, .. }) = stopped.lines.last() else { return };
    let before = run(&made.ring, &made.capture[..capture::RECORD * record]).expect("it was run");
    assert_eq!(stopped.lines[..stopped.lines.len() - 1], before.lines);
    assert_eq!(stopped.day.wire, before.day.wire);
    let end = |text: String| text[text.find("station state").expect("the end")..].to_string();
    assert_eq!(end(stopped.text()), end(before.text()));
}

fn yardstick(made: &Made) -> Vec<u8> {
    let mut text = Vec::new();
    let mut out = Out::new(&mut text);
    replay(&made.ring, &made.capture, &mut out).and_then(|()| out.flush()).expect("a list grows");
    drop(out);
    text
}

#[test]
fn random_days_hold_to_the_request_and_to_the_yardstick() {
    let mut random = Random::new(SEED);
    for made in edges(&mut random) {
        assert!(printed(&made.ring, &made.capture).as_bytes() == yardstick(&made));
    }
    let mut seen = Seen::default();
    for index in 0..DAYS {
        let made = day(&mut random);
        assert!(seen.look(&made).as_bytes() == yardstick(&made), "day {index} differs");
        holds_of_each_record(&made);
        live_without_the_struck(&made);
        stopped_is_the_run_before(&made);
    }
    println!("{DAYS} days: {}", seen.told());
}

#[test]
fn the_longest_days() {
    let mut random = Random::new(SEED);
    for lossy in [false, true] {
        let mut made = longest(&mut random, lossy, 1);
        assert_eq!(made.capture.len(), 60_000);
        let text = printed(&made.ring, &made.capture);
        assert!(text.as_bytes() == yardstick(&made) && !text.contains("stopped"));
        made.capture.extend(Event::Delivered.octets());
        assert_eq!(printed(&made.ring, &made.capture), "refused 24\n");
        assert_eq!(yardstick(&made), b"refused 24\n");
    }
}
