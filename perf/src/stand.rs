//! The network description: read, and checked.
use crate::switch::{address_in, Setup};

pub const SWITCHES: usize = 16;
pub const HOSTS: usize = 32;
pub const LINKS: usize = 64;
pub const PORTS: usize = 8;

/// A switch's number and a port's on it; pairs order by switch first.
pub type Port = (u8, u8);

#[derive(Clone, Copy, Default)]
pub struct Switch {
    pub ports: u8,
    pub limit: u8,
    pub salt: u32,
}

#[derive(Clone, Copy, Default)]
pub struct Host {
    pub port: Port,
    pub address: u64,
}

#[derive(Clone, Copy, Default)]
pub struct Link {
    pub first: Port,
    pub second: Port,
}

#[derive(Clone, Copy)]
pub struct Stand {
    pub switches: [Switch; SWITCHES],
    pub hosts: [Host; HOSTS],
    pub links: [Link; LINKS],
    pub nswitches: usize,
    pub nhosts: usize,
    pub nlinks: usize,
}

#[derive(Clone, Copy, PartialEq)]
pub enum Plug {
    Open,
    Host(u8),
    /// A link, and whether its second end is here.
    Link(u8, bool),
}

/// What is plugged into each port of each switch.
pub type Plugs = [[Plug; PORTS]; SWITCHES];

/// A description so far: which ports have a cable, one mask for each switch.
struct Checked {
    stand: Stand,
    taken: [u8; SWITCHES],
}

impl Checked {
    fn new() -> Self {
        Checked {
            stand: Stand {
                switches: [Switch::default(); SWITCHES],
                hosts: [Host::default(); HOSTS],
                links: [Link::default(); LINKS],
                nswitches: 0,
                nhosts: 0,
                nlinks: 0,
            },
            taken: [0; SWITCHES],
        }
    }

    fn is_port(&self, p: Port) -> bool {
        let s = &self.stand;
        (p.0 as usize) < s.nswitches && p.1 < s.switches[p.0 as usize].ports
    }

    /// False if the port had a cable.
    fn plug(&mut self, p: Port) -> bool {
        let mask = &mut self.taken[p.0 as usize];
        let free = *mask >> p.1 & 1 == 0;
        *mask |= 1 << p.1;
        free
    }

    fn add_switch(&mut self, switch: Switch) -> Result<(), u8> {
        let s = &mut self.stand;
        if s.nswitches >= SWITCHES {
            return Err(25);
        }
        if s.nhosts > 0 || s.nlinks > 0 {
            return Err(26);
        }
        if !(1..=PORTS as u8).contains(&switch.ports) || switch.limit > 62 {
            return Err(22);
        }
        s.switches[s.nswitches] = switch;
        s.nswitches += 1;
        Ok(())
    }

    fn add_host(&mut self, host: Host) -> Result<(), u8> {
        let n = self.stand.nhosts;
        if n >= HOSTS {
            return Err(25);
        }
        if self.stand.nlinks > 0 || n > 0 && host.port <= self.stand.hosts[n - 1].port {
            return Err(26);
        }
        if !self.is_port(host.port) || host.address >= 1 << 48 {
            return Err(22);
        }
        if !self.plug(host.port) {
            return Err(23);
        }
        let twice = self.stand.hosts[..n].iter().any(|h| h.address == host.address);
        if host.address == 0 || host.address >> 40 & 1 == 1 || twice {
            return Err(24);
        }
        self.stand.hosts[n] = host;
        self.stand.nhosts += 1;
        Ok(())
    }

    fn add_link(&mut self, link: Link) -> Result<(), u8> {
        let n = self.stand.nlinks;
        if n >= LINKS {
            return Err(25);
        }
        if link.second <= link.first || n > 0 && link.first <= self.stand.links[n - 1].first {
            return Err(26);
        }
        if !self.is_port(link.first) || !self.is_port(link.second) {
            return Err(22);
        }
        if !self.plug(link.first) || !self.plug(link.second) {
            return Err(23);
        }
        self.stand.links[n] = link;
        self.stand.nlinks += 1;
        Ok(())
    }

    /// One record: its kind, and its bytes behind the kind.
    fn add(&mut self, kind: u8, body: &[u8]) -> Result<(), u8> {
        match (kind, body.len()) {
            (1, 6) => self.add_switch(Switch {
                ports: body[0],
                limit: body[1],
                salt: u32::from_be_bytes([body[2], body[3], body[4], body[5]]),
            }),
            (2, 8) => self
                .add_host(Host { port: (body[0], body[1]), address: address_in(&body[2..]) }),
            (3, 4) => {
                self.add_link(Link { first: (body[0], body[1]), second: (body[2], body[3]) })
            }
            _ => Err(20),
        }
    }
}

impl Stand {
    /// The stand, and where its description ends in the input.
    pub fn read(input: &[u8]) -> Result<(Stand, usize), u8> {
        if input.len() > 60_000 {
            return Err(25);
        }
        if input.first() != Some(&1) {
            return Err(21);
        }
        let mut checked = Checked::new();
        let mut at = 1;
        while at < input.len() {
            if input.len() - at < 3 {
                return Err(20);
            }
            let long = u16::from_be_bytes([input[at], input[at + 1]]) as usize;
            let kind = input[at + 2];
            if long > 0 && (4..=6).contains(&kind) {
                break;
            }
            if long == 0 || input.len() - at < long + 2 {
                return Err(20);
            }
            checked.add(kind, &input[at + 3..at + 2 + long])?;
            at += 2 + long;
        }
        Ok((checked.stand, at))
    }

    /// Whether the writer would refuse it.
    pub fn is_broken(&self) -> bool {
        if self.nswitches > SWITCHES || self.nhosts > HOSTS || self.nlinks > LINKS {
            return true;
        }
        let mut checked = Checked::new();
        self.switches[..self.nswitches].iter().any(|&s| checked.add_switch(s).is_err())
            || self.hosts[..self.nhosts].iter().any(|&h| checked.add_host(h).is_err())
            || self.links[..self.nlinks].iter().any(|&l| checked.add_link(l).is_err())
    }

    pub fn plugs(&self) -> Plugs {
        let mut plugs = [[Plug::Open; PORTS]; SWITCHES];
        let mut plug = |p: Port, what| plugs[p.0 as usize][p.1 as usize] = what;
        for (i, h) in self.hosts[..self.nhosts].iter().enumerate() {
            plug(h.port, Plug::Host(i as u8));
        }
        for (i, l) in self.links[..self.nlinks].iter().enumerate() {
            plug(l.first, Plug::Link(i as u8, false));
            plug(l.second, Plug::Link(i as u8, true));
        }
        plugs
    }

    /// The setup that a switch has with these links up.
    pub fn setup(&self, plugs: &Plugs, up: &[bool; LINKS], switch: usize) -> Setup {
        let s = &self.switches[switch];
        let (mut live, mut host) = (0, 0);
        for (port, plug) in plugs[switch].iter().enumerate().take(s.ports as usize) {
            match *plug {
                Plug::Open => {}
                Plug::Host(_) => {
                    live |= 1 << port;
                    host |= 1 << port;
                }
                Plug::Link(link, _) => live |= (up[link as usize] as u16) << port,
            }
        }
        let limit = if s.limit == 0 { 16 } else { s.limit };
        Setup { ports: s.ports, live, host, limit, salt: s.salt }
    }
}
