//! K12: polling up to 32 panels on a line. Each group is a sorted list of addresses; a panel that
//! changes group leaves one list and enters the other.

/// Most panels of a line.
pub const PANELS: usize = 32;
/// Lowest and highest address of a panel.
pub const LOWEST: u16 = 1;
pub const HIGHEST: u16 = 247;
/// A 33rd panel.
pub const FULL: u8 = 28;
/// An address already present.
pub const PRESENT: u8 = 29;
/// An address to register outside 1 to 247, or a report from one not registered.
pub const STRANGE: u8 = 32;

#[derive(Clone, Copy, Debug, PartialEq, Eq, Hash)]
pub enum Group {
    Ordinary,
    InError,
}

/// A group that takes turns.
#[derive(Clone, Debug, Default, PartialEq, Eq, Hash)]
pub struct Turns {
    /// Addresses, the lowest first.
    pub members: Vec<u16>,
    /// The address this group polled last, a member or not.
    pub polled: Option<u16>,
}

impl Turns {
    /// The member with the next higher address after the one polled last; at first or after the highest
    /// the lowest.
    pub fn next(&self) -> Option<u16> {
        let higher = |&&member: &&u16| self.polled.is_some_and(|polled| member > polled);
        self.members.iter().find(higher).or(self.members.first()).copied()
    }

    fn enter(&mut self, address: u16) {
        let place = self.members.iter().take_while(|&&member| member < address).count();
        self.members.insert(place, address);
    }

    fn leave(&mut self, address: u16) {
        self.members.retain(|&member| member != address);
    }
}

#[derive(Clone, Debug, Default, PartialEq, Eq, Hash)]
pub struct Dispatcher {
    pub ordinary: Turns,
    pub in_error: Turns,
    /// The group of the last poll.
    pub last: Option<Group>,
}

impl Dispatcher {
    /// Registers a panel, ordinary at first; 0 or why not.
    pub fn join(&mut self, address: u16) -> u8 {
        if !(LOWEST..=HIGHEST).contains(&address) {
            return STRANGE;
        }
        if self.group_of(address).is_some() {
            return PRESENT;
        }
        if self.count() == PANELS {
            return FULL;
        }
        self.ordinary.enter(address);
        0
    }

    /// A panel reports an error or none; 0 or why not.
    pub fn report(&mut self, address: u16, error: bool) -> u8 {
        let Some(group) = self.group_of(address) else {
            return STRANGE;
        };
        let other = if error { Group::InError } else { Group::Ordinary };
        if other != group {
            self.turns_mut(group).leave(address);
            self.turns_mut(other).enter(address);
        }
        0
    }

    /// Polls the next panel; none where none is registered.
    pub fn pick(&mut self) -> Option<u16> {
        let group = self.next_group();
        let turns = self.turns_mut(group);
        let address = turns.next()?;
        turns.polled = Some(address);
        self.last = Some(group);
        Some(address)
    }

    /// Those in error go first, but not twice in a row while an ordinary panel is registered.
    fn next_group(&self) -> Group {
        match self.in_error.members.is_empty() || self.bars() {
            true => Group::Ordinary,
            false => Group::InError,
        }
    }

    /// Whether the next poll may not be of a panel in error.
    pub fn bars(&self) -> bool {
        self.last == Some(Group::InError) && !self.ordinary.members.is_empty()
    }

    /// The group of a registered panel.
    pub fn group_of(&self, address: u16) -> Option<Group> {
        let groups = [Group::Ordinary, Group::InError];
        groups.into_iter().find(|&group| self.turns(group).members.contains(&address))
    }

    pub fn turns(&self, group: Group) -> &Turns {
        match group {
            Group::Ordinary => &self.ordinary,
            Group::InError => &self.in_error,
        }
    }

    fn turns_mut(&mut self, group: Group) -> &mut Turns {
        match group {
            Group::Ordinary => &mut self.ordinary,
            Group::InError => &mut self.in_error,
        }
    }

    /// Panels registered.
    pub fn count(&self) -> usize {
        self.ordinary.members.len() + self.in_error.members.len()
    }

    /// Addresses of all panels, the ordinary ones first.
    pub fn addresses(&self) -> Vec<u16> {
        [&self.ordinary.members[..], &self.in_error.members].concat()
    }
}
