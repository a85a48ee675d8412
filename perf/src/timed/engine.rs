//! The proved engine's functions, as the crates in perf/timed/ export them. A slice goes over as a
//! pointer and a length.
use perf::switch::{Answer, Switch};

extern "C" {
    fn timed_step(
        count: u8,
        live: u16,
        host: u16,
        limit: u8,
        salt: u32,
        nonce: *mut u32,
        addresses: *mut u64,
        naddresses: usize,
        ports: *mut u8,
        nports: usize,
        hops: *mut u8,
        nhops: usize,
        filter: *mut u8,
        nfilter: usize,
        port: u8,
        frame: *const u8,
        nframe: usize,
        out: *mut u8,
        nout: usize,
    ) -> u64;
    fn timed_inner_step(
        count: u8,
        live: u16,
        host: u16,
        limit: u8,
        salt: u32,
        nonce: *mut u32,
        addresses: *mut u64,
        naddresses: usize,
        ports: *mut u8,
        nports: usize,
        hops: *mut u8,
        nhops: usize,
        filter: *mut u8,
        nfilter: usize,
        port: u8,
        frame: *const u8,
        nframe: usize,
        out: *mut u8,
        nout: usize,
    ) -> u64;
    fn timed_test(
        count: u8,
        live: u16,
        host: u16,
        limit: u8,
        salt: u32,
        nonce: u32,
        addresses: *const u64,
        naddresses: usize,
        ports: *const u8,
        nports: usize,
        hops: *const u8,
        nhops: usize,
        filter: *const u8,
        nfilter: usize,
    ) -> u64;
    fn timed_value_steps(
        times: usize,
        count: u8,
        live: u16,
        host: u16,
        limit: u8,
        salt: u32,
        nonce: *mut u32,
        addresses: *mut u64,
        ports: *mut u8,
        hops: *mut u8,
        filter: *mut u8,
        nfilter: usize,
        port: u8,
        frame: *const u8,
        nframe: usize,
        out: *mut u8,
        nout: usize,
    ) -> u64;
    fn timed_events(input: *const u8, ninput: usize, out: *mut u64, nout: usize) -> usize;
    fn timed_transcript(input: *const u8, ninput: usize, out: *mut u8, nout: usize) -> usize;
}

/// An answer as the engine's one word: a refusal number; or the verdict's letter, the mask from bit
/// 8 on, L and F in 24 and 25, HC from 26, the nonce from 34, full and overwrote in 58 and 59.
pub fn word_of(answer: &Answer) -> u64 {
    match answer {
        Answer::Refused(n) => *n as u64,
        Answer::Done(r) => {
            let h = r.header;
            r.verdict as u64
                | (r.mask as u64) << 8
                | (h.l as u64) << 24
                | (h.f as u64) << 25
                | (h.hc as u64) << 26
                | (h.nonce as u64) << 34
                | (r.full as u64) << 58
                | (r.overwrote as u64) << 59
        }
    }
}

/// A function over a switch that lies in arrays, with filter, port, frame and output.
pub type Step = fn(&mut Switch, &mut [u8], u8, &[u8], &mut [u8]) -> u64;

macro_rules! steps_by {
    ($name:ident, $call:ident) => {
        pub fn $name(
            s: &mut Switch,
            filter: &mut [u8],
            port: u8,
            frame: &[u8],
            out: &mut [u8],
        ) -> u64 {
            let setup = s.setup;
            // SAFETY: each pointer goes with the length of the slice that it comes from.
            unsafe {
                $call(
                    setup.ports,
                    setup.live,
                    setup.host,
                    setup.limit,
                    setup.salt,
                    &mut s.nonce,
                    s.addresses.as_mut_ptr(),
                    s.addresses.len(),
                    s.ports.as_mut_ptr(),
                    s.ports.len(),
                    s.hops.as_mut_ptr(),
                    s.hops.len(),
                    filter.as_mut_ptr(),
                    filter.len(),
                    port,
                    frame.as_ptr(),
                    frame.len(),
                    out.as_mut_ptr(),
                    out.len(),
                )
            }
        }
    };
}

steps_by!(step, timed_step);
steps_by!(inner_step, timed_inner_step);

/// So many public steps by value on the same frame.
pub fn value_steps(
    times: usize,
    s: &mut Switch,
    filter: &mut [u8],
    port: u8,
    frame: &[u8],
    out: &mut [u8],
) -> u64 {
    let setup = s.setup;
    // SAFETY: the three arrays have 64 places; each other pointer goes with its slice's length.
    unsafe {
        timed_value_steps(
            times,
            setup.ports,
            setup.live,
            setup.host,
            setup.limit,
            setup.salt,
            &mut s.nonce,
            s.addresses.as_mut_ptr(),
            s.ports.as_mut_ptr(),
            s.hops.as_mut_ptr(),
            filter.as_mut_ptr(),
            filter.len(),
            port,
            frame.as_ptr(),
            frame.len(),
            out.as_mut_ptr(),
            out.len(),
        )
    }
}

pub fn test(s: &Switch, filter: &[u8]) -> u64 {
    let setup = s.setup;
    // SAFETY: each pointer goes with the length of the slice that it comes from.
    unsafe {
        timed_test(
            setup.ports,
            setup.live,
            setup.host,
            setup.limit,
            setup.salt,
            s.nonce,
            s.addresses.as_ptr(),
            s.addresses.len(),
            s.ports.as_ptr(),
            s.ports.len(),
            s.hops.as_ptr(),
            s.hops.len(),
            filter.as_ptr(),
            filter.len(),
        )
    }
}

/// The public events behind a description: a word for each, and how many there were.
pub fn events(input: &[u8], out: &mut [u64]) -> usize {
    // SAFETY: each pointer goes with the length of the slice that it comes from.
    unsafe { timed_events(input.as_ptr(), input.len(), out.as_mut_ptr(), out.len()) }
}

/// The transcript, and how many bytes it has.
pub fn transcript(input: &[u8], out: &mut [u8]) -> usize {
    // SAFETY: each pointer goes with the length of the slice that it comes from.
    unsafe { timed_transcript(input.as_ptr(), input.len(), out.as_mut_ptr(), out.len()) }
}
