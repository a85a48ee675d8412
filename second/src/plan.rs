//! A network in the making: which ports are free, and what is on the others.

use crate::addresses::FIRST_HOST;
use crate::description::{End, HostRecord, LinkRecord, Network, SwitchRecord};
use crate::description::{HOSTS_MAX, LINKS_MAX};

/// A stand by its cables: switches of 8 ports, a host on each and a second one
/// on switch 0.
pub fn cabled(switches: u8, limit: u8, cables: &[(usize, usize)]) -> Network {
    let mut plan = Plan::default();
    for switch in 0..u32::from(switches) {
        let record = SwitchRecord { ports: 8, hops: limit, salt: 77 * switch + 1 };
        plan.switch(record, (0..8).collect());
    }
    for switch in std::iter::once(0).chain(0..usize::from(switches)) {
        plan.host(switch, |number, _| address(number));
    }
    for (a, b) in cables {
        plan.cable(*a, *b);
    }
    plan.network()
}

/// Addresses of a cabled stand are so far apart that the first frames of two
/// hosts share no cell on the small ones.
pub fn address(number: usize) -> u64 {
    FIRST_HOST + number as u64 * 0x0002_8001
}

#[derive(Default)]
pub struct Plan {
    switches: Vec<SwitchRecord>,
    free: Vec<Vec<u8>>,
    hosts: Vec<HostRecord>,
    links: Vec<LinkRecord>,
}

impl Plan {
    /// One more switch; `free` are its ports in the order they shall be used.
    pub fn switch(&mut self, record: SwitchRecord, free: Vec<u8>) {
        self.switches.push(record);
        self.free.push(free);
    }

    pub fn switch_count(&self) -> usize {
        self.switches.len()
    }

    /// A cable on the next free ports, if there are such.
    pub fn cable(&mut self, a: usize, b: usize) {
        let needed = if a == b { 2 } else { 1 };
        if self.links.len() == LINKS_MAX
            || self.free[a].len() < needed
            || self.free[b].is_empty()
        {
            return;
        }
        let one = End { switch: a as u8, port: self.free[a].remove(0) };
        let other = End { switch: b as u8, port: self.free[b].remove(0) };
        self.links.push(LinkRecord { ends: [one.min(other), one.max(other)] });
    }

    /// A host on the next free port, if there is one. The address is chosen
    /// by its number and by whether another has it already.
    pub fn host(
        &mut self,
        switch: usize,
        choose: impl FnOnce(usize, &dyn Fn(u64) -> bool) -> u64,
    ) {
        if self.hosts.len() == HOSTS_MAX || self.free[switch].is_empty() {
            return;
        }
        let end = End { switch: switch as u8, port: self.free[switch].remove(0) };
        let taken = |address| self.hosts.iter().any(|host| host.address == address);
        let address = choose(self.hosts.len(), &taken);
        self.hosts.push(HostRecord { end, address });
    }

    pub fn network(mut self) -> Network {
        self.hosts.sort_by_key(|host| host.end);
        self.links.sort_by_key(|link| link.ends[0]);
        let mut network = Network::empty();
        network.switch_count = self.switches.len() as u8;
        network.host_count = self.hosts.len() as u8;
        network.link_count = self.links.len() as u8;
        network.switches[..self.switches.len()].copy_from_slice(&self.switches);
        network.hosts[..self.hosts.len()].copy_from_slice(&self.hosts);
        network.links[..self.links.len()].copy_from_slice(&self.links);
        network
    }
}
