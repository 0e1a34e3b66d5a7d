//! Scenes with senior and junior roles (document 02, A.8).

use crate::generator::Writer;
use crate::paper::{self, Call, Field, Tables};

/// Ties among the places of four roles, the senior of each tie before the junior.
const SHAPES: [&[(usize, usize)]; 6] = [
    &[(0, 1), (1, 2), (2, 3)],
    &[(2, 3), (0, 1), (1, 2)],
    &[(0, 1), (1, 2)],
    &[(0, 1), (0, 2), (1, 3), (2, 3)],
    &[(0, 1), (0, 2), (1, 2)],
    &[(0, 3), (1, 3), (0, 2)],
];

impl Writer {
    /// Roles of a level are tied in a chain, a diamond or otherwise. Some have rights on a sheet, and seats that hold
    /// others open it. Then ties end, rights are revoked and roles dropped, and each of the seats asks what it has left.
    pub fn tie(&mut self) {
        if !self.calls.contains(&Call::Join) {
            return self.aimed();
        }
        let keeps = |t: &Tables, seat: usize, level: usize| {
            t.seats[seat].roles[4 * level] && level <= paper::seat_level(seat)
        };
        let owns = |t: &Tables, seat: usize, level: usize, e: usize| {
            paper::entity_level(e) <= level && paper::has_right(t, seat, e, paper::OWN)
        };
        let some = |t: &Tables, seat: usize, level: usize| {
            keeps(t, seat, level) && (0..64).any(|e| owns(t, seat, level, e))
        };
        let owner = self.one_of(16, |t, seat| (0..4).any(|level| some(t, seat, level)));
        let level = self.one_of(4, |t, level| some(t, owner, level));
        if !some(self.tables(), owner, level) {
            return;
        }
        let sheet = self.one_of(64, |t, e| owns(t, owner, level, e));
        let roles = self.tied_roles(owner, level);
        self.ask_for_rings(owner, &roles);
        self.hand_to(owner, &roles, sheet);
        let mut seats = self.adjusters(owner, &roles, sheet);
        if self.random.chance(1, 2) {
            seats.push(owner);
            let role = self.random.pick(&roles);
            self.list_and_take(owner, owner, role);
            let keeper = 4 * level;
            if role != keeper && !paper::is_root(sheet) && self.random.chance(1, 2) {
                // So that it has them by its ties.
                self.wish(Call::Revoke, &given(owner, keeper, sheet, 3));
            }
        }
        self.open_all(&seats, sheet);
        for _ in 0..self.random.between(1, 4) {
            self.change_ties(owner, &roles, &seats, sheet);
            self.ask_what_is_left(&seats, sheet);
            if self.random.chance(1, 3) {
                self.open_all(&seats, sheet);
            }
        }
        if self.random.chance(1, 2) {
            for role in roles {
                self.untie(role);
            }
        }
    }

    /// The four roles of the level in some order, tied in one of the shapes. Often the keeper is the last of a chain: it
    /// mostly has rights that the others have not.
    fn tied_roles(&mut self, owner: usize, level: usize) -> Vec<usize> {
        let mut roles: Vec<usize> = (4 * level..4 * level + 4).collect();
        self.random.shuffle(&mut roles);
        let mut shape = self.random.pick(&SHAPES);
        if self.random.chance(1, 4) {
            roles.sort_by_key(|&role| paper::is_keeper(role));
            shape = SHAPES[0];
        }
        for &role in &roles {
            if self.tables().roles[role].live {
                if self.random.chance(2, 3) {
                    self.untie(role);
                }
            } else if self.random.chance(7, 8) {
                self.wish(Call::Make, &[(Field::Seat, owner), (Field::Role, role)]);
            }
        }
        for &(senior, junior) in shape {
            self.wish(Call::Join, &tie(owner, roles[senior], roles[junior]));
        }
        roles
    }

    /// Ties that would close a ring, or that are there already.
    fn ask_for_rings(&mut self, owner: usize, roles: &[usize]) {
        for _ in 0..self.random.between(1, 3) {
            let one = self.random.pick(roles);
            let other = self.one_of(16, |t, role| paper::is_below(t, one, role));
            let below = self.one_of(16, |t, role| paper::is_below(t, role, one));
            let (senior, junior) = match self.random.below(8) {
                0 => (one, one),
                1..=4 => (one, other),
                5 => (one, below),
                _ => (one, self.random.pick(roles)),
            };
            let call = match self.random.below(5) {
                0 => Call::Unjoin,
                _ => Call::Join,
            };
            self.ask(call, &tie(owner, senior, junior));
        }
        if self.random.chance(1, 4) {
            // A tie that is there, by one that may not name it.
            let one = self.random.pick(roles);
            let below = self.one_of(16, |t, role| t.roles[one].juniors[role]);
            let seat = match self.random.below(4) {
                0 => self.past_range(Field::Seat, owner),
                1 => self.one_of(16, |t, seat| !t.seats[seat].live),
                2 => self.one_of(16, |_, seat| seat / 4 < one / 4),
                _ => self.random.below(16),
            };
            self.ask(Call::Join, &tie(seat, one, below));
        }
    }

    /// Some of the roles get rights on the sheet, and others execute on what is above it.
    fn hand_to(&mut self, owner: usize, roles: &[usize], sheet: usize) {
        for _ in 0..self.random.between(1, 2) {
            let role = match self.random.below(3) {
                0 => self.random.pick(roles),
                _ => roles[3],
            };
            let rights = self.random.pick(&[1, 2, 3, 3, 7, 7, 8, 15]);
            self.wish(Call::Grant, &given(owner, role, sheet, rights));
        }
        let mut at = sheet;
        while !paper::is_root(at) {
            at = self.tables().entities[at].parent;
            let role = self.random.pick(roles);
            self.wish(Call::Grant, &given(owner, role, at, paper::EXECUTE));
        }
    }

    /// Two seats of the sheet's label, one of them of its level, that hold one or two of the roles each.
    fn adjusters(&mut self, owner: usize, roles: &[usize], sheet: usize) -> Vec<usize> {
        let label = self.tables().entities[sheet].label;
        let level = paper::entity_level(sheet);
        let mut seats = Vec::new();
        for levels in [level..level + 1, 0..4] {
            let seat = self.one_of(16, |t, seat| {
                levels.contains(&paper::seat_level(seat))
                    && seat != owner
                    && (!t.seats[seat].live || t.seats[seat].label == label)
            });
            if !self.tables().seats[seat].live {
                let as_the_sheet = [
                    (Field::Seat, seat),
                    (Field::Level, label.grade),
                    (Field::Cats, label.cats),
                ];
                self.wish(Call::Login, &as_the_sheet);
            }
            // What it holds besides would hide what the ties give.
            for role in 0..16 {
                if self.tables().seats[seat].roles[role] && self.random.chance(2, 3) {
                    self.wish(Call::Drop, &[(Field::Seat, seat), (Field::Role, role)]);
                }
            }
            for _ in 0..self.random.pick(&[1, 1, 2]) {
                let role = self
                    .random
                    .pick(&[roles[0], roles[0], roles[1], roles[2], roles[3]]);
                self.list_and_take(owner, seat, role);
            }
            seats.push(seat);
        }
        seats
    }

    /// Lists the seat's user for the role, which the seat takes, and sometimes another one that it may not.
    fn list_and_take(&mut self, owner: usize, seat: usize, role: usize) {
        let listed = [
            (Field::Seat, owner),
            (Field::Role, role),
            (Field::User, self.tables().seats[seat].user),
        ];
        self.wish(Call::List, &listed);
        self.wish(Call::Take, &[(Field::Seat, seat), (Field::Role, role)]);
        if self.random.chance(1, 3) {
            let level = paper::role_level(role);
            let other = self.random.between(4 * level, 4 * level + 3);
            let call = self.random.pick(&[Call::Take, Call::Drop]);
            let number = if call == Call::Take { 12 } else { 16 };
            self.near(
                call,
                &[(Field::Seat, seat), (Field::Role, other)],
                &[number],
            );
        }
    }

    fn open_all(&mut self, seats: &[usize], sheet: usize) {
        for &seat in seats {
            for call in [Call::Openr, Call::Openw] {
                let named = [(Field::Seat, seat), (Field::Entity, sheet)];
                if self.random.chance(1, 6) {
                    self.ask(call, &named);
                } else {
                    self.wish(call, &named);
                }
            }
            if self.tables().seats[seat].writing[sheet] {
                self.wish(Call::Create, &[(Field::Seat, seat), (Field::Parent, sheet)]);
            }
        }
    }

    /// One thing that ties have to do with.
    fn change_ties(&mut self, owner: usize, roles: &[usize], seats: &[usize], sheet: usize) {
        let (seat, role) = (self.random.pick(seats), self.random.pick(roles));
        let senior = self.one_of(16, |t, senior| {
            roles.contains(&senior) && t.roles[senior].juniors.contains(&true)
        });
        let junior = self.one_of(16, |t, junior| t.roles[senior].juniors[junior]);
        let rights = self.random.pick(&[1, 2, 3, 3, 15]);
        match self.random.below(18) {
            0..=3 => {
                self.wish(Call::Unjoin, &tie(owner, senior, junior));
            }
            4 => {
                self.ask(Call::Unjoin, &tie(seat, senior, junior));
            }
            5..=6 => {
                let having = self.one_of(16, |t, role| t.roles[role].rights[sheet] % 4 > 0);
                self.wish(Call::Revoke, &given(owner, having, sheet, rights));
            }
            7 => {
                let held = self.one_of(16, |t, role| t.seats[seat].roles[role]);
                self.wish(Call::Drop, &[(Field::Seat, seat), (Field::Role, held)]);
            }
            8 => {
                self.ask(Call::Unmake, &[(Field::Seat, owner), (Field::Role, role)]);
            }
            9 => {
                let other = self.random.pick(roles);
                self.wish(Call::Join, &tie(owner, role, other));
            }
            10 => {
                self.wish(Call::Grant, &given(owner, role, sheet, rights));
            }
            11..=12 => {
                // By own that ties may give.
                let own = self.random.pick(roles);
                self.wish(Call::Grant, &given(owner, own, sheet, paper::OWN));
                let call =
                    self.random
                        .pick(&[Call::Grant, Call::Revoke, Call::Revoke, Call::Share]);
                let named = [(Field::Seat, seat), (Field::Entity, sheet)];
                if self.random.chance(1, 2) {
                    self.near(call, &named, &[13]);
                } else {
                    self.ask(call, &named);
                }
            }
            13 => self.share_and_try(owner, roles, seats, sheet),
            14 => self.create_for_another(),
            _ => self.ask_as_keeper(owner, roles),
        }
    }

    /// The sheet, or the container that it lies in, is shared, and seats try to change what is in it.
    fn share_and_try(&mut self, owner: usize, roles: &[usize], seats: &[usize], sheet: usize) {
        let parent = self.tables().entities[sheet].parent;
        let drawer = self.random.pick(&[sheet, parent]);
        let mark = [
            (Field::Seat, owner),
            (Field::Entity, drawer),
            (Field::Shared, 1),
        ];
        self.wish(Call::Share, &mark);
        let inside = [(Field::Seat, owner), (Field::Parent, drawer)];
        self.wish(Call::Create, &inside);
        let child = self.one_of(64, |t, e| paper::is_child(t, e, drawer));
        for rights in [paper::OWN, paper::EXECUTE + paper::WRITE] {
            let role = self.random.pick(roles);
            let on = if rights == paper::OWN { child } else { drawer };
            self.wish(Call::Grant, &given(owner, role, on, rights));
        }
        for &seat in seats {
            self.wish(Call::Openw, &[(Field::Seat, seat), (Field::Entity, drawer)]);
        }
        self.try_sheets(seats, drawer);
        for &seat in seats {
            let call = self.random.pick(&[Call::Delete, Call::Rename]);
            self.wish(call, &[(Field::Seat, seat), (Field::Entity, child)]);
        }
    }

    /// A seat that holds a role above the keeper, and not the keeper, asks for what needs it, if there is such a seat.
    fn ask_as_keeper(&mut self, owner: usize, roles: &[usize]) {
        let keeper = paper::keeper_of(roles[0]);
        let seat = self.one_of(16, |t, seat| {
            let held = &t.seats[seat].roles;
            let above = |&role: &usize| held[role] && paper::is_below(t, keeper, role);
            seat / 4 >= keeper / 4 && !held[keeper] && roles.iter().any(above)
        });
        // One that is not above the keeper can do without its ties.
        let role = self.one_of(16, |t, role| {
            roles.contains(&role) && role != keeper && !paper::is_below(t, keeper, role)
        });
        let named = [(Field::Seat, seat), (Field::Role, role)];
        for calls in [
            [Call::List, Call::Unlist],
            [Call::Join, Call::Unjoin],
            [Call::Make, Call::Unmake],
        ] {
            let call = self.random.pick(&calls);
            if call == Call::Make || call == Call::Unmake {
                self.untie(role);
            }
            if call == Call::Make {
                self.wish(Call::Unmake, &[(Field::Seat, owner), (Field::Role, role)]);
            }
            self.near(call, &named, &[12]);
        }
    }

    /// A seat makes something in what it has open for writing, for a role that it does not hold: one below or above one
    /// that it holds, if there is one.
    fn create_for_another(&mut self) {
        let beside = |t: &Tables, seat: usize, role: usize| {
            let held = &t.seats[seat].roles;
            let tied = |other| paper::is_below(t, role, other) || paper::is_below(t, other, role);
            !held[role] && (0..16).any(|other| held[other] && tied(other))
        };
        let seat = self.one_of(16, |t, seat| {
            t.seats[seat].writing.contains(&true) && (0..16).any(|role| beside(t, seat, role))
        });
        let role = self.one_of(16, |t, role| beside(t, seat, role));
        let parent = self.one_of(64, |t, e| {
            t.seats[seat].writing[e]
                && t.entities[e].kind == paper::CONTAINER
                && paper::entity_level(e) <= paper::role_level(role)
        });
        let wanted = [
            (Field::Seat, seat),
            (Field::Parent, parent),
            (Field::Role, role),
        ];
        self.near(Call::Create, &wanted, &[12]);
    }

    /// Ends every tie of the role, as far as a seat may.
    pub fn untie(&mut self, role: usize) {
        for other in 0..16 {
            for (senior, junior) in [(role, other), (other, role)] {
                if self.tables().roles[senior].juniors[junior] {
                    let fixed = [(Field::Role, senior), (Field::Junior, junior)];
                    self.wish(Call::Unjoin, &fixed);
                }
            }
        }
    }
}

fn tie(seat: usize, senior: usize, junior: usize) -> [(Field, usize); 3] {
    [
        (Field::Seat, seat),
        (Field::Role, senior),
        (Field::Junior, junior),
    ]
}

fn given(seat: usize, role: usize, entity: usize, rights: usize) -> [(Field, usize); 4] {
    [
        (Field::Seat, seat),
        (Field::Role, role),
        (Field::Entity, entity),
        (Field::Rights, rights),
    ]
}
