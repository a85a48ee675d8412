//! Stands from random numbers: rings, meshes, parallel cables, self-cabled
//! switches.

use crate::addresses;
use crate::description::{Network, SwitchRecord, HOSTS_MAX, LINKS_MAX, SWITCHES_MAX};
use crate::plan::Plan;
use crate::random::Random;

/// A plan with switches alone, and ports in any order.
fn plan(r: &mut Random, count: usize, ports: impl Fn(&mut Random) -> u8) -> Plan {
    let mut plan = Plan::default();
    let low_limits = r.chance(20);
    for _ in 0..count {
        let ports = ports(r);
        let hops = if low_limits { r.pick(&[1, 2, 3]) } else { r.pick(&[0, 0, 16, 62, 7]) };
        let salt = r.pick(&[0, 1, 2, 3, u32::MAX]);
        let salt = if r.flag() { salt } else { r.word() };
        let mut free: Vec<u8> = (0..ports).collect();
        if r.flag() {
            r.shuffle(&mut free);
        }
        plan.switch(SwitchRecord { ports, hops, salt }, free);
    }
    plan
}

fn host(r: &mut Random, plan: &mut Plan, switch: usize) {
    plan.host(switch, |number, taken| loop {
        let address = if r.chance(50) {
            addresses::FIRST_HOST + number as u64
        } else {
            addresses::source(r)
        };
        if !taken(address) {
            return address;
        }
    });
}

/// A network that the writer accepts.
pub fn network(r: &mut Random, labels: &mut Vec<&'static str>) -> Network {
    let made = match r.below(20) {
        0 => little(r),
        1 => largest(r),
        2..=7 => ring(r, labels),
        8..=13 => mesh(r, labels),
        _ => anyhow(r),
    };
    label(&made, labels);
    made
}

/// A network with enough in it that frames meet.
pub fn busy(r: &mut Random, labels: &mut Vec<&'static str>) -> Network {
    loop {
        let made = network(r, labels);
        if made.host_count >= 2 && made.link_count >= 1 {
            return made;
        }
    }
}

fn little(r: &mut Random) -> Network {
    let switches = r.below(3);
    let mut plan = plan(r, switches, |r| r.between(1, 3) as u8);
    for switch in 0..switches {
        if r.flag() {
            host(r, &mut plan, switch);
        }
    }
    plan.network()
}

/// 16 switches with all ports taken: by 64 links, or 32 hosts and 48 links.
pub fn largest(r: &mut Random) -> Network {
    let mut plan = plan(r, SWITCHES_MAX, |_| 8);
    if r.flag() {
        for switch in 0..SWITCHES_MAX {
            host(r, &mut plan, switch);
            host(r, &mut plan, switch);
        }
    }
    for around in [1, 3, 5, 7] {
        for switch in 0..SWITCHES_MAX {
            plan.cable(switch, (switch + around) % SWITCHES_MAX);
        }
    }
    plan.network()
}

fn ring(r: &mut Random, labels: &mut Vec<&'static str>) -> Network {
    labels.push("ring");
    let count = r.between(2, 7);
    let mut plan = plan(r, count, |r| r.between(3, 6) as u8);
    for switch in 0..count {
        plan.cable(switch, (switch + 1) % count);
    }
    dress(r, &mut plan);
    plan.network()
}

fn mesh(r: &mut Random, labels: &mut Vec<&'static str>) -> Network {
    labels.push("mesh");
    let count = r.between(3, 7);
    let mut plan = plan(r, count, |r| r.between(count, 8) as u8);
    for a in 0..count {
        for b in a + 1..count {
            plan.cable(a, b);
        }
    }
    dress(r, &mut plan);
    plan.network()
}

fn anyhow(r: &mut Random) -> Network {
    let count = r.between(1, 8);
    let mut plan = plan(r, count, |r| r.between(1, 8) as u8);
    for _ in 0..r.below(3 * count) {
        let (a, b) = (r.below(count), r.below(count));
        plan.cable(a, b);
    }
    dress(r, &mut plan);
    plan.network()
}

/// Hosts on free ports, a cable more here and there.
fn dress(r: &mut Random, plan: &mut Plan) {
    let count = plan.switch_count();
    for switch in 0..count {
        if r.chance(70) {
            host(r, plan, switch);
        }
    }
    for _ in 0..r.below(4) {
        match r.below(4) {
            0 => {
                let switch = r.below(count);
                plan.cable(switch, switch);
            }
            1 => {
                let (a, b) = (r.below(count), r.below(count));
                plan.cable(a, b);
            }
            _ => {
                let switch = r.below(count);
                host(r, plan, switch);
            }
        }
    }
}

fn label(network: &Network, labels: &mut Vec<&'static str>) {
    let mut joined = Vec::new();
    for link in network.links() {
        let pair = [link.ends[0].switch, link.ends[1].switch];
        if pair[0] == pair[1] {
            labels.push("self-cabled switch");
        } else if joined.contains(&pair) {
            labels.push("parallel cables");
        }
        joined.push(pair);
    }
    if network.links().len() == LINKS_MAX {
        labels.push("64 links");
    }
    if network.hosts().len() == HOSTS_MAX {
        labels.push("32 hosts");
    }
}
