//! The examples of FORMAT.md, and one vector of each kind.

use second::vectors::answer;

#[test]
fn p1_as_a_vector() {
    let frame = format!("0200000000020200000000010800{}", "00".repeat(46));
    let line = format!("step 4 f 1 10 1 0 0 a0 0 0 {frame} 42 0");
    let expected = "step F 000e 1 1 1 0 0 0\n\
                    head 4 000f 0001 16 00000001 1\n\
                    slot 0 0000020000000001 0 1\n\
                    filter 160\n\
                    cell 3 02000000000100000001\n\
                    out 66\n\
                    piece 0 02000000000202000000\n\
                    piece 1 000188b5c10000000800\n\
                    piece 2 00000000000000000000\n\
                    piece 3 00000000000000000000\n\
                    piece 4 00000000000000000000\n\
                    piece 5 00000000000000000000\n\
                    piece 6 000000000000\n\
                    end\n";
    assert_eq!(answer(&line), expected);
}

#[test]
fn a_refused_step_shows_that_nothing_changed() {
    let line = "step 4 f 1 10 1 0 1 5 20000000001 0 1 a0 1 a 02000000000100000001 9 - 3 7";
    let expected = "refused 2\n\
                    head 4 000f 0001 16 00000001 0\n\
                    slot 5 0000020000000001 0 1\n\
                    filter 160\n\
                    cell 1 02000000000100000001\n\
                    out 3\n\
                    end\n";
    assert_eq!(answer(line), expected);
}

#[test]
fn the_other_kinds() {
    assert_eq!(answer("tag - 1 0 1 0 0 0"), "refused 4\nout 0\nend\n");
    assert_eq!(answer("strip - 2 ff"), "refused 4\nout 2\nend\n");
    assert_eq!(answer("read 01 0"), "read 1\nnetwork 0 0 0\nend\n");
    assert_eq!(answer("read 01 ea60"), "refused 25\nend\n");
    assert_eq!(answer("write 0 0 0 0 0 0 1 5"), "written 1\nout 1\npiece 0 01\nend\n");
    assert_eq!(
        answer("fresh 1 0 0 1 0 2 0 9 0 0"),
        "fresh\nnetwork 1 0 0\nswitch 0 2 0 00000009\nstates 0000000000000000\nseat 0\n\
         head 2 0000 0000 16 00000009 0\nfilter 640\ncopies 0\nend\n"
    );
    assert_eq!(
        answer("event l 0 0 0 0 0 0 0 0 0 0 0 0 0 0 0 0 0 5 0"),
        "refused 32\nsame\nend\n"
    );
    assert_eq!(
        answer("run 01000306000000030600 0"),
        "1 K 33 R 00000000 0\nstop 20\nnetwork 0 0 0\nstates 0000000000000000\ncopies 0\n\
         counters 0 0 0 0 0 0 0\nend\n"
    );
    assert_eq!(answer("step"), "unreadable\nend\n");
}

#[test]
fn the_second_event_of_the_whole_run() {
    let line = "event l 2 2 1 2 0 2 10 1 1 2 10 2 \
                2 0 0 0 20000000001 1 1 0 20000000002 \
                1 0 0 1 1 1 \
                1 \
                2 0 2 3 1 10 1 1 1 0 20000000001 0 1 280 1 1e 02000000000100000001 \
                1 2 3 1 10 2 0 0 280 0 \
                1 1 0 0 1 20000000001 20000000002 1 1 1 0 \
                1 0 0 0 0 0 1 \
                5 0";
    let expected =
        "report F 0001 1 1 2 0 0 0 0 00000002 0 1 1 0000020000000001 0000020000000002\n\
                    network 2 2 1\n\
                    switch 0 2 16 00000001\n\
                    switch 1 2 16 00000002\n\
                    host 0 0 0 0000020000000001\n\
                    host 1 1 0 0000020000000002\n\
                    link 0 0 1 1 1\n\
                    states 0000000000000001\n\
                    seat 0\n\
                    head 2 0003 0001 16 00000001 1\n\
                    slot 0 0000020000000001 0 1\n\
                    filter 640\n\
                    cell 3 02000000000100000001\n\
                    seat 1\n\
                    head 2 0003 0001 16 00000002 0\n\
                    slot 0 0000020000000001 1 2\n\
                    filter 640\n\
                    cell 35 02000000000100000001\n\
                    copies 0\n\
                    counters 1 1 0 0 1 0 2\n\
                    end\n";
    assert_eq!(answer(line), expected);
}
