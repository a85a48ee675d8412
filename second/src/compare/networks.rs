//! Networks with something wrong, or something behind their counts.

use second::addresses::{BEYOND, GROUP};
use second::description::{End, HostRecord, Network, SwitchRecord, HOSTS_MAX};
use second::random::Random;
use second::stands::largest;

/// Something behind the counts, which no call may mind.
pub fn litter(r: &mut Random, network: &mut Network) {
    let counts =
        [network.switch_count, network.host_count, network.link_count].map(usize::from);
    for switch in network.switches.iter_mut().skip(counts[0]) {
        if r.flag() {
            *switch = SwitchRecord { ports: r.byte(), hops: r.byte(), salt: r.word() };
        }
    }
    for host in network.hosts.iter_mut().skip(counts[1]) {
        if r.flag() {
            let end = End { switch: r.below(3) as u8, port: r.below(9) as u8 };
            *host = HostRecord { end, address: r.draw() };
        }
    }
    for link in network.links.iter_mut().skip(counts[2]) {
        if r.flag() {
            let mut end = || End { switch: r.below(3) as u8, port: r.below(9) as u8 };
            link.ends = [end(), end()];
        }
    }
}

/// Puts something wrong into the records, most times. `wide` allows what a
/// number can hold and the description can't.
pub fn damage(r: &mut Random, network: &mut Network, wide: bool) {
    let (switches, hosts, links) =
        (network.switches().len(), network.hosts().len(), network.links().len());
    let kind = r.below(3);
    if wide && r.chance(12) || kind == 0 && switches == 0 {
        one_too_many(r, network);
    } else if kind == 1 && hosts > 0 {
        damage_host(r, network, wide);
    } else if kind == 2 && links > 0 {
        damage_link(r, network);
    } else if switches > 0 {
        damage_switch(r, network);
    }
}

/// A network with a full array and a count beyond it.
pub fn overfull(r: &mut Random) -> Network {
    let mut network = largest(r);
    let more = r.pick(&[1, 1, 2, 150]);
    if r.flag() {
        network.switch_count += more;
    } else if network.hosts().len() == HOSTS_MAX {
        network.host_count += more;
    } else {
        network.link_count += more;
    }
    network
}

/// A count beyond what is there, perhaps beyond the array.
fn one_too_many(r: &mut Random, network: &mut Network) {
    let more = r.pick(&[1, 1, 1, 2, 190]);
    let count = match r.below(3) {
        0 => &mut network.switch_count,
        1 => &mut network.host_count,
        _ => &mut network.link_count,
    };
    *count = count.saturating_add(more);
}

fn damage_switch(r: &mut Random, network: &mut Network) {
    let count = network.switches().len();
    let switch = &mut network.switches[r.below(count)];
    match r.below(6) {
        0 => switch.ports = 0,
        1 => switch.ports = 9,
        2 => switch.ports = r.pick(&[1, 2, 16, 255]),
        3 => switch.hops = 63,
        4 => switch.hops = r.pick(&[62, 64, 255]),
        // Fewer switches than hosts and links are on.
        _ => network.switch_count -= 1,
    }
}

fn damage_host(r: &mut Random, network: &mut Network, wide: bool) {
    let count = network.hosts().len();
    let other = network.hosts[r.below(count)];
    let place = r.below(count);
    let switches = network.switch_count;
    let switch_ports =
        network.switches[usize::from(network.hosts[place].end.switch) % 16].ports;
    let next = place + 1;
    let host = &mut network.hosts[place];
    match r.below(if wide { 12 } else { 10 }) {
        0 => host.address = 0,
        1 => host.address |= GROUP,
        2 => host.address = other.address,
        3 => host.end = other.end,
        4 => host.end.switch = switches,
        5 => host.end.switch = r.pick(&[16, 255]),
        6 => host.end.port = switch_ports,
        7 => host.end.port = r.pick(&[8, 255]),
        8 => {
            if next < count {
                network.hosts.swap(place, next);
            }
        }
        9 => {
            // Two faults of one record: order and range, or range and address.
            host.end = r.pick(&[End { switch: 0, port: 200 }, End { switch: 200, port: 0 }]);
            host.address = r.pick(&[0, GROUP, other.address]);
        }
        10 => host.address |= BEYOND,
        _ => host.address = r.pick(&[BEYOND, BEYOND | GROUP, u64::MAX, 1 << 63]),
    }
}

fn damage_link(r: &mut Random, network: &mut Network) {
    let count = network.links().len();
    let place = r.below(count);
    let other = network.links[r.below(count)];
    let host = end_of_a_host(r, network);
    let switches = network.switch_count;
    let taken = taken_behind(network, network.links[place].ends[0]);
    let ends = &mut network.links[place].ends;
    let side = r.below(2);
    let ports = network.switches[usize::from(ends[side].switch) % 16].ports;
    if !taken.is_empty() && r.chance(25) {
        ends[1] = r.pick(&taken);
        return;
    }
    match r.below(12) {
        0 => ends[side] = host,
        1 => ends[1] = host,
        2 => ends[1] = other.ends[1],
        3 => ends[1] = other.ends[0],
        4 => ends[side] = ends[1 - side],
        5 => ends.swap(0, 1),
        6 => ends[side].switch = switches,
        7 => ends[side].switch = r.pick(&[16, 255]),
        8 => ends[side].port = ports,
        9 => ends[side].port = r.pick(&[8, 255]),
        10 => {
            if place + 1 < count {
                network.links.swap(place, place + 1);
            }
        }
        _ => {
            // A taken end and one that isn't there, in either order.
            ends[0] = host;
            ends[1] = r.pick(&[End { switch: 200, port: 0 }, End { switch: 0, port: 200 }]);
        }
    }
}

/// Where some host is, or the lowest end if there is none.
fn end_of_a_host(r: &mut Random, network: &Network) -> End {
    if network.host_count == 0 {
        return End::default();
    }
    network.hosts[r.below(network.hosts().len())].end
}

/// Ends in use that may stand second without being out of order: 23 comes
/// behind 26, which would hide it.
fn taken_behind(network: &Network, first: End) -> Vec<End> {
    let of_hosts = network.hosts().iter().map(|host| host.end);
    let of_links = network.links().iter().flat_map(|link| link.ends);
    of_hosts.chain(of_links).filter(|end| *end > first).collect()
}
