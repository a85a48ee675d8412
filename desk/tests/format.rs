//! The stand file's format, line by line: what is read, how it is numbered, and where and
//! how each kind of mistake is told.

use desk::mistake::Mistake;
use desk::numbering::stand;
use desk::stand::{Address, End, Event, Order, Until};

const PARTS: &str = "\
head b ports 4 hops 20 salt 0xffffffff # the first head is number 0
head a ports 8
gauge late on a port 1 address 02:00:00:00:00:0A
gauge early on b port 3 address 02:00:00:00:00:0b

cable two from a port 3 to b port 2
\tcable one from a port 0 to b port 1
cable self from a port 5 to a port 4
";

fn mistakes(text: &str) -> Vec<Mistake> {
    stand(text.as_bytes()).expect_err("a mistake")
}

/// Line, column and message of the only mistake of a line put behind `PARTS`.
fn only(line: &str) -> (usize, String) {
    let found = mistakes(&format!("{PARTS}{line}"));
    assert_eq!((found.len(), found[0].line), (1, 9), "{found:?}");
    (found[0].column, format!("{}; expected {}", found[0].what, found[0].expected))
}

#[test]
fn parts_are_sorted_and_numbered() {
    let stand = stand(PARTS.as_bytes()).expect("a stand");
    let heads: Vec<_> =
        stand.heads.iter().map(|h| (h.name.as_str(), h.ports, h.hops, h.salt)).collect();
    assert_eq!(heads, [("b", 4, 20, u32::MAX), ("a", 8, 0, 0)]);
    let gauges: Vec<_> = stand.gauges.iter().map(|g| (g.name.as_str(), g.at, g.line)).collect();
    let end = |head, port| End { head, port };
    assert_eq!(gauges, [("early", end(0, 3), 4), ("late", end(1, 1), 3)]);
    let cables: Vec<_> = stand.cables.iter().map(|c| (c.name.as_str(), c.ends)).collect();
    let ends = [[end(0, 1), end(1, 0)], [end(0, 2), end(1, 3)], [end(1, 4), end(1, 5)]];
    assert_eq!(cables, [("one", ends[0]), ("two", ends[1]), ("self", ends[2])]);
    assert_eq!(stand.record_lines(), [1, 2, 4, 3, 7, 6, 8]);
}

#[test]
fn events_are_read_by_name_and_by_number() {
    let events = "send late to early\r\nsend gauge 200 to everyone\nsend early to 02:00:00:00:00:99\n\
        take 65535\ntake all\ntake shuffled 18446744073709551615\npull one\nplug cable 255\nset self to 7";
    let stand = stand(format!("{PARTS}{events}").as_bytes()).expect("a stand");
    let address = |last| Address([2, 0, 0, 0, 0, last]);
    let orders: Vec<_> = stand.orders.iter().map(|order| order.what).collect();
    let expected = [
        Order::Once(Event::Send { gauge: 1, to: address(0x0b) }),
        Order::Once(Event::Send { gauge: 200, to: Address::EVERYONE }),
        Order::Once(Event::Send { gauge: 0, to: address(0x99) }),
        Order::Once(Event::Take { place: 65535 }),
        Order::Takes(Until::FirstCome),
        Order::Takes(Until::Shuffled { seed: u64::MAX }),
        Order::Once(Event::Set { cable: 0, state: 0 }),
        Order::Once(Event::Set { cable: 255, state: 1 }),
        Order::Once(Event::Set { cable: 2, state: 7 }),
    ];
    assert_eq!(orders, expected);
    assert_eq!(stand.orders[8].line, 17);
}

#[test]
fn a_byte_order_mark_and_carriage_returns_are_no_part_of_the_text() {
    let plain = stand(PARTS.as_bytes()).expect("a stand");
    let windows = format!("\u{feff}{}", PARTS.replace('\n', "\r\n"));
    assert_eq!(stand(windows.as_bytes()), Ok(plain));
}

#[test]
fn a_mistake_is_told_with_its_place_and_what_was_expected() {
    let (column, told) = only("sand P1 to P2");
    assert_eq!(column, 1);
    assert_eq!(
        told,
        "'sand' doesn't belong here; expected head, gauge, cable, send, take, pull or plug"
    );
    assert_eq!(only("head c ports"), (13, "the line ends too early; expected how many ports the head has, a number from 0 to 255".into()));
    assert_eq!(
        only("head c ports 256").1,
        "'256' is too large; expected how many ports the head has, a number from 0 to 255"
    );
    assert_eq!(only("gauge g on a port 2 address 02:00:00:00:00").0, 29);
    assert_eq!(
        only("head c ports 4 salt 1 hops 2").1,
        "'hops' doesn't belong here; expected the end of the line, or a comment after #"
    );
    assert_eq!(only("take -1").0, 6);
    assert_eq!(only("take shuffled").0, 14);
    assert_eq!(only("ä").0, 1);
    assert!(only("head port ports 4").1.starts_with("'port' is a word of the format"));
    assert!(only("head 4th ports 4").1.starts_with("'4th' doesn't belong here"));
}

#[test]
fn names_are_looked_up_and_stand_once() {
    assert_eq!(
        only("send nobody to early"),
        (6, "there is no gauge 'nobody'; expected a name that a gauge has".into())
    );
    assert!(only("pull late").1.starts_with("late is a gauge (line 3) and not a cable"));
    assert!(only("gauge one on a port 7 address 02:00:00:00:00:07")
        .1
        .starts_with("the name one stands on line 7 too"));
    assert!(only("cable x from a port 6 to early port 0").1.starts_with("early is a gauge"));
}

#[test]
fn all_mistakes_are_told_in_the_order_of_the_lines() {
    let text = "head S0 prots 4\ngauge P1 on S0 port 0 address 2\ncable C from S0 port 1 to S9 port 1\nsend P1 to P2\nhead S1 ports 2\n";
    let found = mistakes(text);
    let places: Vec<_> = found.iter().map(|mistake| (mistake.line, mistake.column)).collect();
    assert_eq!(places, [(1, 9), (2, 31), (3, 27), (4, 12), (5, 1)]);
}
