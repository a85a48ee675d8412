//! The open points of document 01 as the readings settle them. Numbers are
//! those of the readings.

use second::bench::{Bench, Counters, Event};
use second::description::{read, write, End, HostRecord, LinkRecord, Network, SwitchRecord};
use second::filter::{self, Triple};
use second::frame::{self, Header};
use second::refusal::Refusal;
use second::step::{step, Switch, Verdict};
use second::table::{Slot, Table};
use second::transcript::print;

const A: u64 = 0x0200_0000_0001;
const B: u64 = 0x0200_0000_0002;

fn bytes(parts: &[&[u8]]) -> Vec<u8> {
    parts.concat()
}

const SWITCH: &[u8] = &[0, 7, 1, 2, 16, 0, 0, 0, 1];
const HOST_A: &[u8] = &[0, 9, 2, 0, 0, 2, 0, 0, 0, 0, 1];

fn refused(parts: &[&[u8]]) -> u8 {
    read(&bytes(parts)).unwrap_err().0
}

/// Two switches with two ports, a host on port 0 of each, a link between.
fn network() -> Network {
    let mut network = Network::empty();
    network.switch_count = 2;
    network.host_count = 2;
    network.link_count = 1;
    for (number, address) in [(0, A), (1, B)] {
        network.switches[number] = SwitchRecord { ports: 2, hops: 16, salt: 1 };
        let end = End { switch: number as u8, port: 0 };
        network.hosts[number] = HostRecord { end, address };
    }
    network.links[0] =
        LinkRecord { ends: [End { switch: 0, port: 1 }, End { switch: 1, port: 1 }] };
    network
}

fn head() -> Switch {
    let table = Table::empty();
    Switch { ports: 4, live: 15, hosts: 1, limit: 16, salt: 1, next_nonce: 0, table }
}

fn host_frame(source: u64, destination: u64) -> Vec<u8> {
    let mut frame = vec![0; 60];
    frame[..6].copy_from_slice(&frame::address_bytes(destination));
    frame[6..12].copy_from_slice(&frame::address_bytes(source));
    frame
}

fn tagged_frame(source: u64, destination: u64, header: Header) -> Vec<u8> {
    let mut frame = vec![0; 66];
    frame::tag(&host_frame(source, destination), header, &mut frame).unwrap();
    frame
}

#[test]
fn r01_the_size_is_that_of_the_whole_input() {
    let mut input = bytes(&[&[1], &[0, 3, 6, 0, 0]]);
    input.resize(60_000, 0);
    assert_eq!(read(&input).unwrap().1, 1);
    assert_eq!(print(&input), "1 K 33 R 00000000 0\nstop 20\n");
    input.push(0);
    assert_eq!(print(&input), "refused 25\n");
    assert_eq!(print(&[2; 60_001]), "refused 25\n");
}

#[test]
fn r02_a_record_is_seen_with_its_kind_byte() {
    assert_eq!(refused(&[&[1], &[0, 0, 4]]), 20);
    assert_eq!(refused(&[&[1], &[0, 0]]), 20);
    assert_eq!(refused(&[&[1], &[0]]), 20);
    assert_eq!(refused(&[&[1], &[0, 3]]), 20);
    assert_eq!(read(&[1, 0xFF, 0xFF, 4]).unwrap().1, 1);
    assert_eq!(print(&[1, 0xFF, 0xFF, 4]), "stop 20\n");
    assert_eq!(print(&[1]), "");
    assert_eq!(print(&[]), "refused 21\n");
}

#[test]
fn r03_the_order_inside_a_record() {
    let sixteen = SWITCH.repeat(16);
    assert_eq!(refused(&[&[1], &sixteen, HOST_A, SWITCH]), 25);
    let fifteen = SWITCH.repeat(15);
    assert_eq!(refused(&[&[1], &fifteen, HOST_A, SWITCH]), 26);
    let nowhere: &[u8] = &[0, 5, 3, 9, 9, 9, 9];
    assert_eq!(refused(&[&[1], SWITCH, nowhere]), 26);
    let same: &[u8] = &[0, 5, 3, 0, 1, 0, 1];
    assert_eq!(refused(&[&[1], SWITCH, same]), 26);
}

#[test]
fn r05_two_hosts_on_one_port() {
    let other: &[u8] = &[0, 9, 2, 0, 0, 2, 0, 0, 0, 0, 2];
    assert_eq!(refused(&[&[1], SWITCH, HOST_A, other]), 26);
    let link: &[u8] = &[0, 5, 3, 0, 0, 0, 1];
    assert_eq!(refused(&[&[1], SWITCH, HOST_A, link]), 23);
}

#[test]
fn r06_a_flood_with_nowhere_to_go_is_sent() {
    let mut switch = head();
    (switch.ports, switch.live) = (1, 1);
    let (mut filter, mut out) = ([0; 160], [0xEE; 66]);
    let outcome = step(&mut switch, &mut filter, 0, &host_frame(A, B), &mut out).unwrap();
    assert_eq!((outcome.verdict, outcome.mask), (Verdict::F, 0));
    assert_eq!(outcome.header, Header { l: true, f: true, hc: 1, nonce: 0 });
    assert_eq!(out[12..18], [0x88, 0xB5, 0xC1, 0, 0, 0]);
}

#[test]
fn r07_room_for_the_tagged_frame_even_where_it_is_dropped() {
    let frame = tagged_frame(A, B, Header { l: false, f: false, hc: 63, nonce: 0 });
    let mut switch = head();
    let before = switch.clone();
    let mut filter = [0; 160];
    let short = step(&mut switch, &mut filter, 1, &frame, &mut [0; 65]);
    assert_eq!(short, Err(Refusal(9)));
    assert_eq!(switch, before);
    // 17: hop count 63 becomes 64.
    let outcome = step(&mut switch, &mut filter, 1, &frame, &mut [0; 66]).unwrap();
    assert_eq!(outcome.verdict, Verdict::X);
    let frame = host_frame(A, B);
    assert_eq!(step(&mut switch, &mut filter, 0, &frame, &mut [0; 65]), Err(Refusal(9)));
    assert!(step(&mut switch, &mut filter, 0, &frame, &mut [0; 66]).is_ok());
}

#[test]
fn r08_a_triple_may_stand_in_another_cell() {
    let triple = Triple { source: A, nonce: 0, l: true };
    let own = filter::cell_number(1, triple, 16);
    let mut filter = [0; 160];
    let other = (own + 1) % 16 * 10;
    filter[other..other + 10].copy_from_slice(&triple.to_bytes());
    assert!(filter::is_well_formed(&filter));
    assert!(!filter::is_duplicate(&filter, 1, triple));
}

#[test]
fn r09_destination_zero_finds_nothing() {
    let mut switch = head();
    let (mut filter, mut out) = ([0; 160], [0; 66]);
    assert!(!switch.table.learn(A, 0, 1));
    let outcome = step(&mut switch, &mut filter, 0, &host_frame(A, 0), &mut out).unwrap();
    assert_eq!(outcome.verdict, Verdict::N);
}

#[test]
fn r11_counters_may_be_eight_times_accepted() {
    let mut bench = Bench::fresh(&network()).unwrap();
    let event = Event::Link { link: 0, state: 1 };
    let good = Counters {
        placed: 16,
        taken: 8,
        cut: 8,
        lost: 8,
        delivered: 8,
        overwritten: 8,
        accepted: 1,
    };
    assert!(bench.event(&mut good.clone(), event).is_ok());
    for (number, placed) in [17, 17, 16, 16, 16].into_iter().enumerate() {
        let mut bad = Counters { placed, ..good };
        let counters = [
            &mut bad.taken,
            &mut bad.cut,
            &mut bad.lost,
            &mut bad.delivered,
            &mut bad.overwritten,
        ];
        **counters.into_iter().nth(number).as_mut().unwrap() += 1;
        assert_eq!(bench.event(&mut bad, event), Err(Refusal(28)));
    }
    let mut round =
        Counters { taken: u64::MAX, cut: 1, accepted: 999_999, ..Default::default() };
    assert_eq!(bench.event(&mut round, event), Err(Refusal(28)));
}

#[test]
fn r12_used_up_stands_before_out_of_shape() {
    let mut bench = Bench::fresh(&network()).unwrap();
    bench.copy_count = 600;
    let mut counters = Counters { accepted: 1_000_000, ..Default::default() };
    let event = Event::Host { host: 99, destination: [0; 6] };
    assert_eq!(bench.event(&mut counters, event), Err(Refusal(34)));
    counters.accepted = 999_999;
    assert_eq!(bench.event(&mut counters, event), Err(Refusal(28)));
    bench.copy_count = 0;
    assert_eq!(bench.event(&mut counters, event), Err(Refusal(30)));
}

#[test]
fn r13_a_hairpin_turn_on_a_host_port_delivers_to_the_sender() {
    let mut bench = Bench::fresh(&network()).unwrap();
    let mut counters = Counters::default();
    let event = Event::Host { host: 0, destination: frame::address_bytes(A) };
    bench.event(&mut counters, event).unwrap();
    let report = bench.event(&mut counters, event).unwrap();
    assert_eq!((report.letter(), report.hosts), ('H', 1));
    assert_eq!(counters.delivered, 1);
}

#[test]
fn r16_a_link_set_to_the_state_that_is() {
    let mut bench = Bench::fresh(&network()).unwrap();
    let mut counters = Counters::default();
    let before = bench.clone();
    let report = bench.event(&mut counters, Event::Link { link: 0, state: 1 }).unwrap();
    assert_eq!((report.letter(), report.cut), ('K', 0));
    assert_eq!(bench, before);
    assert_eq!(counters, Counters { accepted: 1, ..Default::default() });
    let wrong = bench.event(&mut counters, Event::Link { link: 0, state: 2 });
    assert_eq!(wrong, Err(Refusal(33)));
}

#[test]
fn r20_tagging_and_stripping_leave_the_source_alone() {
    let header = Header { l: true, f: false, hc: 5, nonce: 7 };
    let frame = host_frame(0, 0);
    let (mut tagged, mut stripped) = ([0; 66], [0; 60]);
    assert_eq!(frame::tag(&frame, header, &mut tagged), Ok(66));
    assert_eq!(frame::strip(&tagged, &mut stripped), Ok((60, header)));
    assert_eq!(stripped[..], frame[..]);
}

#[test]
fn r21_what_lies_behind_a_count_is_ignored() {
    let mut network = network();
    network.switches[2].ports = 99;
    network.hosts[2] = network.hosts[0];
    network.links[1] = network.links[0];
    let mut bench = Bench::fresh(&network).unwrap();
    bench.copies[0].header.hc = 200;
    bench.seats[2].switch.next_nonce = u32::MAX;
    bench.up[1] = !bench.up[1];
    let event = Event::Host { host: 0, destination: frame::address_bytes(B) };
    let report = bench.event(&mut Counters::default(), event).unwrap();
    assert_eq!((report.letter(), report.placed), ('F', 1));
}

#[test]
fn r22_what_a_number_can_hold_and_the_description_cannot() {
    let out = &mut [0; 1000];
    let mut wide = network();
    wide.hosts[1].address |= 1 << 48;
    assert_eq!(write(&wide, out), Err(Refusal(22)));
    assert_eq!(Bench::fresh(&wide).unwrap_err(), Refusal(22));

    let mut many = Network::empty();
    many.switch_count = 17;
    many.switches = [SwitchRecord { ports: 1, hops: 0, salt: 0 }; 16];
    assert_eq!(write(&many, out), Err(Refusal(25)));
    // The first faulty record decides.
    many.switches[15].ports = 0;
    assert_eq!(write(&many, out), Err(Refusal(22)));

    let mut switch = head();
    switch.table.slots[3] = Slot { address: A | 1 << 48, port: 0, hops: 1 };
    let refused = step(&mut switch, &mut [0; 160], 0, &host_frame(A, B), &mut [0; 66]);
    assert_eq!(refused, Err(Refusal(1)));

    let mut bench = Bench::fresh(&network()).unwrap();
    let mut counters = Counters::default();
    let event = Event::Host { host: 0, destination: frame::address_bytes(B) };
    bench.event(&mut counters, event).unwrap();
    let take = Event::Take { place: 0 };
    for wide in [A | 1 << 48, 1 << 48] {
        let mut bench = bench.clone();
        bench.copies[0].destination = wide;
        assert_eq!(bench.event(&mut counters, take), Err(Refusal(28)));
        bench.copies[0].destination = B;
        bench.copies[0].source = wide;
        assert_eq!(bench.event(&mut counters, take), Err(Refusal(28)));
    }
    assert!(bench.event(&mut counters, take).is_ok());
}

/// 14: a copy that is taken leaves its room to the step's first copy, and
/// lower ports get the room.
#[test]
fn r14_room() {
    // Three switches in a row, all three links from the middle one: 1 and 2
    // lead to switch 2, port 0 of the middle one to switch 0.
    let mut network = Network::empty();
    network.switch_count = 3;
    network.link_count = 3;
    for switch in &mut network.switches[..3] {
        *switch = SwitchRecord { ports: 4, hops: 16, salt: 1 };
    }
    let end = |switch, port| End { switch, port };
    network.links[0] = LinkRecord { ends: [end(0, 0), end(1, 0)] };
    network.links[1] = LinkRecord { ends: [end(1, 1), end(2, 1)] };
    network.links[2] = LinkRecord { ends: [end(1, 2), end(2, 2)] };
    let mut bench = Bench::fresh(&network).unwrap();
    let copy = second::bench::CopyInFlight {
        link: 0,
        end: 1,
        source: A,
        destination: B,
        header: Header { l: true, f: true, hc: 1, nonce: 0 },
    };
    bench.copies = [copy; 512];
    bench.copy_count = 512;
    let mut counters = Counters { placed: 512, ..Default::default() };
    let report = bench.event(&mut counters, Event::Take { place: 0 }).unwrap();
    assert_eq!((report.letter(), report.placed, report.lost), ('F', 1, 1));
    assert_eq!((bench.copies[511].link, bench.copies[511].end), (1, 1));
    assert_eq!(bench.copy_count, 512);
    let after = Counters { placed: 513, taken: 1, lost: 1, accepted: 1, ..Default::default() };
    assert_eq!(counters, after);
    let report = bench.event(&mut counters, Event::Link { link: 0, state: 0 }).unwrap();
    assert_eq!((report.cut, bench.copy_count), (511, 1));
    assert_eq!(bench.seats[1].switch.live, 0b0110);
}
