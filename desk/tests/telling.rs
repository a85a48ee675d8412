//! What the proved programs print, put into words.

use desk::answer::{self, Answer, Transcript};
use desk::numbering;
use desk::stand::{Event, Lined, Order, Stand};
use desk::words::{self, Happened};

const STAND: &str = "\
head S0 ports 2
head S1 ports 2
gauge P1 on S0 port 0 address 02:00:00:00:00:01
gauge P2 on S1 port 0 address 02:00:00:00:00:02
cable C from S0 port 1 to S1 port 1
send P1 to P2
take 0
pull C
";

const ANSWER: &str = "\
1 I 0 F 00000000 1
report F 0002 1 1 1 0 1 0 0 00000000 0 0 0 0000020000000001 0000020000000002
2 T 0 F 00000002 0
report F 0001 1 1 2 0 0 0 0 00000002 1 1 1 0000020000000001 0000020000000002
3 K 33 R 00000000 0
network 2 2 1
switch 0 2 0 00000000
link 0 0 1 1 1
states 0000000000000001
seat 0
head 2 0003 0001 16 00000000 1
slot 0 0000020000000001 0 1
filter 640
seat 1
slot 3 0000020000000001 1 2
copies 0
counters 1 1 0 0 1 1 2
end
";

fn stand() -> Stand {
    numbering::stand(STAND.as_bytes()).expect("a stand")
}

fn answer() -> Answer {
    answer::run(ANSWER).expect("an answer")
}

/// The words of an event whose report is like the second one but for verdict and mask.
fn told(verdict: char, mask: u16) -> String {
    let mut report = answer().reports[1].expect("a report");
    (report.verdict, report.mask, report.received, report.overwrote) =
        (verdict, mask, 0, false);
    let event = Lined { line: 7, what: Event::Take { place: 4 } };
    let happened = Happened { event, report: Some(&report), refusal: 0, in_flight: 13 };
    let told = words::sentence(&stand(), &happened);
    let told =
        told.strip_prefix("copy 4 (P1 to P2) is taken at S1 port 1: head S1 ").expect("who");
    told.strip_suffix("; 13 copies in flight").expect("how many").to_string()
}

#[test]
fn an_answer_is_taken_apart() {
    let answer = answer();
    assert_eq!(answer.lines[1], "2 T 0 F 00000002 0");
    assert_eq!(answer.reports[2], None);
    assert_eq!((answer.states, answer.in_flight), (1, 0));
    let entries: Vec<_> =
        answer.entries.iter().map(|e| (e.head, e.port, e.address.0[5])).collect();
    assert_eq!(entries, [(0, 0, 1), (1, 1, 1)]);
    let counters =
        "counters: placed 1, taken 1, cut 0, lost 0, delivered 1, overwritten 1, accepted 2";
    assert_eq!(words::counters(&answer.counters), counters);
}

#[test]
fn events_are_told_with_who_what_and_how_many() {
    let (stand, answer) = (stand(), answer());
    let told = |number: usize, refusal, in_flight| {
        let order = stand.orders[number];
        let Order::Once(what) = order.what else { panic!("one event") };
        let event = Lined { line: order.line, what };
        let report = answer.reports[number].as_ref();
        words::sentence(&stand, &Happened { event, report, refusal, in_flight })
    };
    assert_eq!(
        told(0, 0, 1),
        "gauge P1 sends to P2: head S0 floods on port 1; one copy in flight"
    );
    let second =
        "copy 0 (P1 to P2) is taken at S1 port 1: head S1 floods on port 0; P2 receives it; \
        a filter record is overwritten; no copies in flight";
    assert_eq!(told(1, 0, 0), second);
    let third = "cable C is pulled: refused 33, no such link, or its state not 0 or 1 (line 8)";
    assert_eq!(told(2, 33, 0), third);
}

#[test]
fn each_verdict_has_its_words() {
    assert_eq!(told('X', 0), "drops it, too many hops");
    assert_eq!(told('D', 0), "drops it, a duplicate");
    assert_eq!(told('F', 0), "floods on no port");
    assert_eq!(told('N', 6), "has no way to P2 and floods on ports 1, 2");
    assert_eq!(told('B', 7), "has no way to P2, floods and sends back, on ports 0, 1, 2");
    assert_eq!(told('G', 0), "has no way to P2 and drops it");
    assert_eq!(told('H', 2), "sends it back on port 1");
    assert_eq!(told('E', 0), "drops it and forgets P2");
    assert_eq!(told('U', 1), "sends it on port 0");
}

#[test]
fn a_transcript_is_taken_apart_or_complained_of() {
    assert_eq!(answer::transcript("refused 22\n"), Ok(Transcript::Refused(22)));
    let stopped = answer::transcript("1 T 32 R 00000000 5\nstop 20\n");
    let Ok(Transcript::Lines { lines, stopped: true }) = stopped else { panic!("{stopped:?}") };
    assert_eq!((lines[0].refusal, lines[0].in_flight), (32, 5));
    for nonsense in
        ["hello\n", "refused\n", "refused x\n", "1 T 0 F 00000000\n", "1 T x F 00000000 0\n"]
    {
        assert!(answer::transcript(nonsense).is_err(), "{nonsense}");
    }
    for nonsense in
        ["refused 20\n", "unreadable\n", "report F\n", "states xyz\n", "slot 0 1 2\nseat a\n"]
    {
        assert!(answer::run(nonsense).is_err(), "{nonsense}");
    }
}
