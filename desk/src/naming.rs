//! Stand files made from bytes: the names are invented, S for heads, P for gauges and
//! C for cables, each with the bench's number.

use std::fmt::Write;

use crate::bytes::Records;
use crate::stand::{Address, End, Event};

/// A stand file of which the desk makes the same bytes again.
pub fn text(records: &Records) -> String {
    let mut text = String::new();
    for (number, (ports, hops, salt)) in records.heads.iter().enumerate() {
        let hops = if *hops == 0 { "default".to_string() } else { hops.to_string() };
        let _ = writeln!(text, "head S{number} ports {ports} hops {hops} salt {salt:#010x}");
    }
    for (number, (at, address)) in records.gauges.iter().enumerate() {
        let _ = writeln!(text, "gauge P{number} on {} address {address}", plug(*at));
    }
    for (number, [first, second]) in records.cables.iter().enumerate() {
        let _ = writeln!(text, "cable C{number} from {} to {}", plug(*first), plug(*second));
    }
    for event in &records.events {
        let _ = writeln!(text, "{}", order(records, *event));
    }
    text
}

fn plug(end: End) -> String {
    format!("S{} port {}", end.head, end.port)
}

fn order(records: &Records, event: Event) -> String {
    match event {
        Event::Send { gauge, to } => {
            let from = which("gauge", 'P', gauge, records.gauges.len());
            format!("send {from} to {}", destination(records, to))
        }
        Event::Take { place } => format!("take {place}"),
        Event::Set { cable, state } => {
            let cable = which("cable", 'C', cable, records.cables.len());
            match state {
                0 => format!("pull {cable}"),
                1 => format!("plug {cable}"),
                _ => format!("set {cable} to {state}"),
            }
        }
    }
}

/// By name, or by number where there is none: such an event is refused.
fn which(kind: &str, letter: char, number: usize, count: usize) -> String {
    if number < count {
        format!("{letter}{number}")
    } else {
        format!("{kind} {number}")
    }
}

fn destination(records: &Records, to: Address) -> String {
    match records.gauges.iter().position(|(_, address)| *address == to) {
        Some(number) => format!("P{number}"),
        None if to == Address::EVERYONE => "everyone".to_string(),
        None => to.to_string(),
    }
}

#[cfg(test)]
mod tests {
    use super::*;
    use crate::bytes::{description, put_event, records};
    use crate::numbering::stand;
    use crate::stand::Order;

    fn bytes_again(text: &str) -> Vec<u8> {
        let stand = stand(text.as_bytes()).expect("the desk reads what it writes");
        let mut bytes = description(&stand).bytes;
        for order in &stand.orders {
            let Order::Once(event) = order.what else { panic!("no takes are written") };
            put_event(&mut bytes, event);
        }
        bytes
    }

    #[test]
    fn every_field_comes_back_from_the_text() {
        let input = b"\x01\0\x07\x01\x08\0\0\0\0\xa0\0\x07\x01\x04\x3e\xff\xff\xff\xff\
            \0\x09\x02\0\0\x02\0\0\0\0\x01\0\x09\x02\x01\x03\x02\0\0\0\0\x02\
            \0\x05\x03\0\x01\x01\x02\0\x05\x03\0\x02\0\x03\
            \0\x08\x04\0\x02\0\0\0\0\x02\0\x08\x04\xc8\xff\xff\xff\xff\xff\xff\
            \0\x08\x04\x01\0\0\0\0\0\0\0\x03\x05\x01\x02\0\x03\x06\x01\0\0\x03\x06\0\x01\
            \0\x03\x06\x09\0\0\x03\x06\xff\x07";
        let read = records(input).expect("these are records");
        assert_eq!(bytes_again(&text(&read)), input);
        assert!(text(&read).contains("hops default"));
        assert!(text(&read).contains("send gauge 200 to everyone"));
        assert!(text(&read).contains("set cable 255 to 7"));
    }

    #[test]
    fn what_is_no_record_is_not_taken_apart() {
        for input in [
            &b""[..],
            b"\x02",
            b"\x01\0",
            b"\x01\0\0",
            b"\x01\0\x03\x05\0",
            b"\x01\0\x03\x07\0\0",
        ] {
            assert_eq!(records(input), None);
        }
    }
}
