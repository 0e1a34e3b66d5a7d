//! What a file is made of: `user` lines, seats that begin, single requests, and scenes of several requests that lead to
//! tables which single ones seldom reach.

use crate::generator::{Writer, DONE};
use crate::lines;
use crate::paper::{self, Call, Field, Label, Tables, Values};
use crate::program::What;

impl Writer {
    pub fn body(&mut self, count: usize) {
        self.users();
        let end = self.line_count + count;
        self.settle();
        while self.line_count < end {
            if self.reads_down() && self.random.chance(1, 10) {
                self.read_down();
            }
            if self.reads_down() && self.random.chance(1, 15) {
                self.ways_in();
            }
            match self.random.below(100) {
                0..=3 => self.deepen(),
                4..=6 => self.put_under_label(),
                7..=8 => self.recycle_entity(),
                9 => self.recycle_role(),
                10 => self.recycle_seat(),
                11..=13 => self.undermine(),
                14..=15 => self.survey(),
                16..=17 => self.hand_on(),
                18 => self.write_object(),
                19..=21 => self.drawer(),
                22..=24 => self.end_opens(),
                25..=28 => self.tie(),
                _ => self.aimed(),
            }
            if self.random.chance(self.habits.unreadable, 100) {
                self.unreadable();
            }
            if self.program.shut && self.random.chance(1, 150) {
                self.late_user();
            }
            if self.stuck() {
                break;
            }
        }
    }

    /// The `user` lines at the top, with a few other lines among them.
    fn users(&mut self) {
        let all = self.random.chance(1, 4);
        let count = if all { 20 } else { self.random.below(9) };
        let strong = self.random.chance(9, 10);
        let mut set: Vec<usize> = Vec::new();
        for turn in 0..count + 1 {
            if self.random.chance(self.habits.unreadable, 40) {
                self.unreadable();
            }
            let user = if turn == 0 { 0 } else { self.random.below(16) };
            let mut values = Values::default();
            let label = if turn == 0 && strong {
                Label {
                    grade: 3,
                    cats: self.random.pick(&[65_535, 65_535, 65_535, 255, 65_280]),
                }
            } else {
                let labels = self.habits.labels.clone();
                self.random.pick(&labels)
            };
            values[Field::User as usize] = user;
            values[Field::Level as usize] = label.grade;
            values[Field::Cats as usize] = label.cats;
            values[Field::Ceiling as usize] = if turn == 0 && strong {
                3
            } else {
                self.random.below(4)
            };
            if turn == count && self.random.chance(1, 3) {
                break;
            }
            let mut form = if set.contains(&user) {
                Some(lines::USER_TWICE)
            } else {
                None
            };
            match (self.last, self.last_answer) {
                (Some(What::Unreadable), _) => form = Some(lines::USER_AFTER_UNREADABLE),
                (Some(What::User), 2) => form = Some(lines::USER_AFTER_FAULT),
                _ => {}
            }
            if self.random.chance(1, 8) {
                let (field, past_form) = self.random.pick(&[
                    (Field::User, lines::USER_PAST_USER),
                    (Field::Level, lines::USER_PAST_LEVEL),
                    (Field::Cats, lines::USER_PAST_CATS),
                    (Field::Ceiling, lines::USER_PAST_CEILING),
                ]);
                values[field as usize] = self.past_range(field, values[field as usize]);
                form = Some(past_form);
            } else {
                set.push(user);
            }
            let good = self.good("user", &paper::USER_USES, &values);
            self.write(&good.line(), form);
        }
    }

    /// `user` when it is too late.
    fn late_user(&mut self) {
        let mut values = Values::default();
        for field in paper::USER_USES {
            values[field as usize] = self.random.below(field.last() + 1);
        }
        let mut form = lines::USER_LATE;
        if self.random.chance(1, 4) {
            let field = self.random.pick(&paper::USER_USES);
            values[field as usize] = field.last() + 1;
            form = lines::USER_LATE_PAST;
        }
        let good = self.good("user", &paper::USER_USES, &values);
        self.write(&good.line(), Some(form));
    }

    /// A line that can't be read, from one that would be done.
    pub fn unreadable(&mut self) {
        let nameless = !self.nameless.is_empty() && self.random.chance(1, 12);
        let user = !nameless && !self.program.shut && self.random.chance(1, 2);
        let good = if nameless {
            let call = self.random.pick(&self.nameless);
            self.good_request(call)
        } else if user {
            let mut values = Values::default();
            for field in paper::USER_USES {
                values[field as usize] = self.random.below(field.last() + 1);
            }
            self.good("user", &paper::USER_USES, &values)
        } else {
            let call = self.call();
            self.good_request(call)
        };
        let forms = if nameless {
            lines::NAMELESS
        } else if !good.optional_used.is_empty() && self.random.chance(1, 2) {
            lines::OPTIONAL_USED
        } else if !good.optional_unused.is_empty() && self.random.chance(1, 8) {
            if user {
                lines::OPTIONAL_IN_USER
            } else {
                lines::OPTIONAL_UNUSED
            }
        } else {
            lines::UNREADABLE
        };
        let form = &forms[self.random.below(forms.len())];
        let line = (form.spoil)(&mut self.random, &good);
        self.write(&line, Some(form.name));
    }

    /// The line of a request that would be done, or nearly.
    fn good_request(&mut self, call: Call) -> lines::Good {
        let (request, _) = self.aim(call, &[], DONE);
        self.good(call.word(), call.uses(), &request.values)
    }

    /// A few seats that can begin. Sometimes the first request of all is one past its range.
    fn settle(&mut self) {
        if self.random.chance(1, 6) {
            let call = self.random.pick(&self.calls);
            let (request, _) = self.aim(call, &[], 1);
            self.request(&request);
            let good = self.good("user", &paper::USER_USES, &Values::default());
            self.write(&good.line(), Some(lines::USER_LATE_AT_ONCE));
        }
        for _ in 0..self.random.between(1, 5) {
            let level = match self.habits.level {
                Some(level) => level,
                None => self.random.below(4),
            };
            let seat = self.random.between(level * 4, 15);
            let plain = [
                (Field::Seat, seat),
                (Field::User, 0),
                (Field::Level, 0),
                (Field::Cats, 0),
            ];
            self.wish(Call::Login, &plain);
            self.wish(Call::Take, &[(Field::Seat, seat), (Field::Role, level * 4)]);
            self.wish(
                Call::Openw,
                &[(Field::Seat, seat), (Field::Entity, level * 16)],
            );
        }
    }

    /// A chain of containers, one in the other, each opened for writing, from one that a seat has open for writing.
    fn deepen(&mut self) {
        let seat = self.one_of(16, |t, seat| t.seats[seat].writing.contains(&true));
        let mut parent = self.one_of(64, |t, e| {
            t.seats[seat].writing[e] && t.entities[e].kind == paper::CONTAINER
        });
        let label = self.tables().seats[seat].label;
        for _ in 0..self.random.pick(&[1, 2, 3, 5, 15]) {
            let wanted = [
                (Field::Seat, seat),
                (Field::Parent, parent),
                (Field::Kind, paper::CONTAINER),
                (Field::Level, label.grade),
                (Field::Cats, label.cats),
            ];
            if !self.wish(Call::Create, &wanted) {
                return;
            }
            let created = self.last_request();
            let (entity, role) = (created.at(Field::Entity), created.at(Field::Role));
            let rights = self.random.pick(&[6, 7, 14, 15]);
            let given = [
                (Field::Seat, seat),
                (Field::Role, role),
                (Field::Entity, entity),
                (Field::Rights, rights),
            ];
            if !self.wish(Call::Grant, &given)
                || !self.wish(Call::Openw, &[(Field::Seat, seat), (Field::Entity, entity)])
            {
                return;
            }
            parent = entity;
        }
    }

    /// A container with a label of the file's, and a seat of that label which opens it for writing.
    fn put_under_label(&mut self) {
        let labels = self.habits.labels.clone();
        let label = self.random.pick(&labels);
        let wanted = [
            (Field::Kind, paper::CONTAINER),
            (Field::Level, label.grade),
            (Field::Cats, label.cats),
        ];
        if !self.wish(Call::Create, &wanted) {
            return;
        }
        let created = self.last_request();
        let (entity, role) = (created.at(Field::Entity), created.at(Field::Role));
        let given = [
            (Field::Role, role),
            (Field::Entity, entity),
            (Field::Rights, 15),
        ];
        self.wish(Call::Grant, &given);
        let seat = self.random.between(paper::entity_level(entity) * 4, 15);
        let as_asked = [
            (Field::Seat, seat),
            (Field::Level, label.grade),
            (Field::Cats, label.cats),
        ];
        if self.tables().seats[seat].live && !self.wish(Call::Logout, &[(Field::Seat, seat)]) {
            return;
        }
        self.wish(Call::Login, &as_asked);
        self.wish(Call::Take, &[(Field::Seat, seat), (Field::Role, role)]);
        self.wish(Call::Openw, &[(Field::Seat, seat), (Field::Entity, entity)]);
        let inside = [(Field::Seat, seat), (Field::Parent, entity)];
        self.wish(Call::Create, &inside);
        self.near(Call::Create, &inside, &[11]);
        self.near(Call::Create, &inside, &[11, 14]);
    }

    /// An object that a seat has open for writing and may execute: only its kind keeps others from being made in it.
    fn write_object(&mut self) {
        let seat = self.one_of(16, |t, seat| t.seats[seat].writing.contains(&true));
        let label = self.tables().seats[seat].label;
        let wanted = [
            (Field::Seat, seat),
            (Field::Kind, paper::OBJECT),
            (Field::Level, label.grade),
            (Field::Cats, label.cats),
        ];
        if !self.wish(Call::Create, &wanted) {
            return;
        }
        let created = self.last_request();
        let (entity, role) = (created.at(Field::Entity), created.at(Field::Role));
        let given = [
            (Field::Seat, seat),
            (Field::Role, role),
            (Field::Entity, entity),
            (Field::Rights, 7),
        ];
        self.wish(Call::Grant, &given);
        self.wish(Call::Openw, &[(Field::Seat, seat), (Field::Entity, entity)]);
        let inside = [(Field::Seat, seat), (Field::Parent, entity)];
        self.near(Call::Create, &inside, &[9]);
    }

    /// Deletes an entity, makes its number again, and asks who still gets at it.
    fn recycle_entity(&mut self) {
        let entity = self.one_of(64, |t, e| {
            t.entities[e].live
                && !paper::is_root(e)
                && !(0..64).any(|child| paper::is_child(t, child, e))
                && (t
                    .seats
                    .iter()
                    .any(|seat| seat.writing[e] || seat.reading[e])
                    || t.roles.iter().any(|role| role.rights[e] != 0))
        });
        let before = self.tables().entities[entity];
        if !self.wish(Call::Delete, &[(Field::Entity, entity)]) {
            return;
        }
        if self.random.chance(1, 4) {
            self.ask_all_seats(Call::Close, Field::Entity, entity);
        }
        let mut again = vec![(Field::Entity, entity)];
        if before.shared == 1 {
            again.push((Field::Kind, paper::CONTAINER));
        }
        if self.wish(Call::Create, &again) {
            if before.shared == 1 {
                let unmark = [(Field::Entity, entity), (Field::Shared, 0)];
                self.near(Call::Share, &unmark, &[16]);
                if self.last_answer == 16 {
                    self.forms.push((self.line_count, lines::MADE_AGAIN));
                }
            }
            if self.random.chance(1, 2) {
                self.ask_all_seats(Call::Close, Field::Entity, entity);
            }
            self.ask_all_seats(Call::Openr, Field::Entity, entity);
            self.ask_all_seats(Call::Openw, Field::Entity, entity);
            self.ask_all_seats(Call::Grant, Field::Entity, entity);
        }
    }

    /// Unmakes a role, makes its number again, and asks who still holds it, who is listed and what it can do.
    fn recycle_role(&mut self) {
        let role = self.one_of(16, |t, role| {
            t.roles[role].live
                && !paper::is_keeper(role)
                && (t.roles[role].rights.iter().any(|&rights| rights != 0)
                    || t.seats.iter().any(|seat| seat.roles[role]))
        });
        let before = self.tables().roles[role];
        if self.random.chance(3, 4) {
            self.untie(role);
        }
        if !self.wish(Call::Unmake, &[(Field::Role, role)])
            || !self.wish(Call::Make, &[(Field::Role, role)])
        {
            return;
        }
        let first = self.random.pick(&[Call::Drop, Call::Take]);
        self.ask_all_seats(first, Field::Role, role);
        let user = self.random.below(16);
        self.wish(Call::List, &[(Field::Role, role), (Field::User, user)]);
        self.ask_all_seats(Call::Take, Field::Role, role);
        for entity in 0..64 {
            if before.rights[entity] != 0 && self.random.chance(1, 3) {
                let call = self.random.pick(&[Call::Openr, Call::Openw, Call::Grant]);
                self.ask_all_seats(call, Field::Entity, entity);
            }
        }
    }

    /// Empties a seat, fills it again, and asks what it still holds or has open.
    fn recycle_seat(&mut self) {
        let seat = self.one_of(16, |t, seat| {
            t.seats[seat].roles.contains(&true) && t.seats[seat].writing.contains(&true)
        });
        let before = self.tables().seats[seat];
        if !self.wish(Call::Logout, &[(Field::Seat, seat)])
            || !self.wish(Call::Login, &[(Field::Seat, seat)])
        {
            return;
        }
        for role in 0..16 {
            if before.roles[role] {
                let call = self.random.pick(&[Call::Drop, Call::Take]);
                self.ask(call, &[(Field::Seat, seat), (Field::Role, role)]);
            }
        }
        for entity in 0..64 {
            if before.writing[entity] || before.reading[entity] {
                let call = self
                    .random
                    .pick(&[Call::Close, Call::Openr, Call::Openw, Call::Delete]);
                self.ask(call, &[(Field::Seat, seat), (Field::Entity, entity)]);
            }
        }
    }

    /// Takes away what stands behind an open, a holding or a listing, and asks again.
    fn undermine(&mut self) {
        let seat = self.one_of(16, |t, seat| {
            t.seats[seat].writing.contains(&true) || t.seats[seat].reading.contains(&true)
        });
        let entity = self.one_of(64, |t, e| {
            t.seats[seat].writing[e] || t.seats[seat].reading[e]
        });
        let role = self.one_of(16, |t, role| t.seats[seat].roles[role]);
        match self.random.below(5) {
            0 => {
                let rights = self.random.pick(&[1, 2, 3, 4, 7]);
                let taken = [
                    (Field::Role, role),
                    (Field::Entity, entity),
                    (Field::Rights, rights),
                ];
                self.wish(Call::Revoke, &taken);
            }
            1 => {
                self.wish(Call::Drop, &[(Field::Seat, seat), (Field::Role, role)]);
            }
            2 if !paper::is_keeper(role) => {
                if self.random.chance(3, 4) {
                    self.untie(role);
                }
                self.wish(Call::Unmake, &[(Field::Role, role)]);
            }
            _ => {
                let user = self.tables().seats[seat].user;
                let listed = [(Field::Role, role), (Field::User, user)];
                self.wish(Call::Unlist, &listed);
                if self.random.chance(1, 4) {
                    self.ask(Call::Unlist, &listed);
                }
                self.ask(Call::Take, &[(Field::Seat, seat), (Field::Role, role)]);
            }
        }
        for call in [Call::Openr, Call::Openw] {
            self.ask(call, &[(Field::Seat, seat), (Field::Entity, entity)]);
        }
        match self.random.below(4) {
            0 => {
                self.wish(
                    Call::Create,
                    &[(Field::Seat, seat), (Field::Parent, entity)],
                );
            }
            1 => {
                let child = self.one_of(64, |t, e| paper::is_child(t, e, entity));
                let call = self.random.pick(&[Call::Delete, Call::Rename]);
                self.wish(call, &[(Field::Seat, seat), (Field::Entity, child)]);
            }
            2 => {
                self.ask(Call::Close, &[(Field::Seat, seat), (Field::Entity, entity)]);
                self.ask(Call::Openw, &[(Field::Seat, seat), (Field::Entity, entity)]);
            }
            _ => {}
        }
    }

    /// Seats of several levels open a sheet by one role or by two. Then a role is dropped, loses rights or is unmade, and
    /// each of them asks what it has left; and again, where it may open the sheet once more.
    fn end_opens(&mut self) {
        let owns = |t: &Tables, seat, e| {
            paper::has_right(t, seat, e, paper::OWN)
                && paper::seat_level(seat) >= paper::entity_level(e)
        };
        let owner = self.one_of(16, |t, seat| (0..64).any(|e| owns(t, seat, e)));
        let sheet = self.one_of(64, |t, e| owns(t, owner, e));
        if !owns(self.tables(), owner, sheet) {
            return;
        }
        let (level, label) = (
            paper::entity_level(sheet),
            self.tables().entities[sheet].label,
        );
        let mut roles: Vec<usize> = (4 * level..4 * (paper::seat_level(owner) + 1)).collect();
        roles.retain(|&role| {
            !paper::is_keeper(role) && self.tables().seats[owner].roles[paper::keeper_of(role)]
        });
        self.random.shuffle(&mut roles);
        roles.truncate(2);
        if roles.is_empty() {
            return;
        }
        let give = |role, entity, rights| {
            [
                (Field::Seat, owner),
                (Field::Role, role),
                (Field::Entity, entity),
                (Field::Rights, rights),
            ]
        };
        for &role in &roles {
            if !self.tables().roles[role].live {
                self.wish(Call::Make, &[(Field::Seat, owner), (Field::Role, role)]);
            }
            let rights = self.random.pick(&[3, 3, 7, 1, 2, 15]);
            self.wish(Call::Grant, &give(role, sheet, rights));
            let mut at = sheet;
            while !paper::is_root(at) {
                at = self.tables().entities[at].parent;
                self.wish(Call::Grant, &give(role, at, paper::EXECUTE));
            }
        }
        // One of the sheet's level, which can have it open in both ways in any edition, one below the owner, and another.
        let mut seats = vec![owner];
        for levels in [level..level + 1, 0..paper::seat_level(owner), 0..4] {
            let seat = self.one_of(16, |t, seat| {
                levels.contains(&paper::seat_level(seat))
                    && (!t.seats[seat].live || t.seats[seat].label == label)
            });
            if !self.tables().seats[seat].live {
                let as_the_sheet = [
                    (Field::Seat, seat),
                    (Field::Level, label.grade),
                    (Field::Cats, label.cats),
                ];
                self.wish(Call::Login, &as_the_sheet);
            }
            seats.push(seat);
        }
        for &seat in &seats {
            let user = self.tables().seats[seat].user;
            for &role in &roles {
                let listed = [
                    (Field::Seat, owner),
                    (Field::Role, role),
                    (Field::User, user),
                ];
                self.wish(Call::List, &listed);
                if self.random.chance(4, 5) {
                    self.wish(Call::Take, &[(Field::Seat, seat), (Field::Role, role)]);
                }
            }
            for call in [Call::Openr, Call::Openw] {
                self.wish(call, &[(Field::Seat, seat), (Field::Entity, sheet)]);
                if self.random.chance(1, 3) {
                    self.wish(call, &[(Field::Seat, seat)]);
                }
            }
            if self.tables().seats[seat].writing[sheet] {
                self.wish(Call::Create, &[(Field::Seat, seat), (Field::Parent, sheet)]);
            }
        }
        for _ in 0..self.random.between(1, 3) {
            let (seat, role) = (self.random.pick(&seats), self.random.pick(&roles));
            let held = [(Field::Seat, seat), (Field::Role, role)];
            let rights = self.random.pick(&[1, 1, 2, 2, 3, 15, 4, 8, 12, 7]);
            match self.random.below(8) {
                0..=2 => self.wish(Call::Drop, &held),
                3..=5 => self.wish(Call::Revoke, &give(role, sheet, rights)),
                6 => {
                    if self.random.chance(3, 4) {
                        self.untie(role);
                    }
                    self.wish(Call::Unmake, &[(Field::Seat, owner), (Field::Role, role)])
                }
                // By one that may not, most often.
                _ => {
                    let call = self.random.pick(&[Call::Unmake, Call::Revoke]);
                    let mut asked = give(role, sheet, rights);
                    asked[0] = (Field::Seat, seat);
                    self.ask(call, &asked)
                }
            };
            self.ask_what_is_left(&seats, sheet);
            if self.random.chance(1, 2) {
                self.wish(Call::Grant, &give(role, sheet, rights));
                self.wish(Call::Take, &held);
                self.ask_what_is_left(&[seat], sheet);
            }
        }
    }

    /// Each of the seats asks for the entity, so that its answers tell whether it has it open and in which way.
    pub fn ask_what_is_left(&mut self, seats: &[usize], entity: usize) {
        for &seat in seats {
            let named = [(Field::Seat, seat), (Field::Entity, entity)];
            match self.random.below(7) {
                0 => self.ask(Call::Openr, &named),
                1 => self.ask(Call::Openw, &named),
                2 => self.ask(Call::Close, &named),
                3 => {
                    let inside = [(Field::Seat, seat), (Field::Parent, entity)];
                    self.ask(Call::Create, &inside)
                }
                4 | 5 => {
                    let child = self.one_of(64, |t, e| paper::is_child(t, e, entity));
                    let call = self.random.pick(&[Call::Delete, Call::Rename]);
                    self.ask(call, &[(Field::Seat, seat), (Field::Entity, child)])
                }
                _ => false,
            };
        }
    }

    /// Two seats that write in one container, each with a role of its own, while it is shared and when it no longer is.
    fn drawer(&mut self) {
        let seat = self.one_of(16, |t, seat| t.seats[seat].writing.contains(&true));
        let drawer = self.one_of(64, |t, e| {
            t.seats[seat].writing[e] && t.entities[e].kind == paper::CONTAINER
        });
        let (level, label) = (
            paper::entity_level(drawer),
            self.tables().entities[drawer].label,
        );
        let role = self.one_of(16, |t, role| {
            paper::role_level(role) >= level
                && !paper::is_keeper(role)
                && !t.seats[seat].roles[role]
        });
        let other = self.one_of(16, |t, other| {
            other != seat
                && paper::seat_level(other) >= level
                && (!t.seats[other].live || t.seats[other].label == label)
        });
        if !self.tables().seats[other].live {
            let as_the_drawer = [
                (Field::Seat, other),
                (Field::Level, label.grade),
                (Field::Cats, label.cats),
            ];
            self.wish(Call::Login, &as_the_drawer);
        }
        if !self.tables().roles[role].live {
            self.wish(Call::Make, &[(Field::Role, role)]);
        }
        let user = self.tables().seats[other].user;
        self.wish(Call::List, &[(Field::Role, role), (Field::User, user)]);
        let rights = self.random.pick(&[6, 7, 14]);
        let given = [
            (Field::Role, role),
            (Field::Entity, drawer),
            (Field::Rights, rights),
        ];
        self.wish(Call::Grant, &given);
        self.wish(Call::Take, &[(Field::Seat, other), (Field::Role, role)]);
        self.wish(
            Call::Openw,
            &[(Field::Seat, other), (Field::Entity, drawer)],
        );
        let mark = |mark| [(Field::Entity, drawer), (Field::Shared, mark)];
        let early = self.random.chance(1, 2);
        if early {
            self.wish(Call::Share, &mark(1));
        }
        self.wish(
            Call::Create,
            &[(Field::Seat, seat), (Field::Parent, drawer)],
        );
        let with_role = [
            (Field::Seat, other),
            (Field::Parent, drawer),
            (Field::Role, role),
        ];
        self.wish(Call::Create, &with_role);
        if !early {
            self.wish(Call::Share, &mark(1));
        }
        self.try_sheets(&[seat, other], drawer);
        if self.random.chance(1, 2) {
            // Own on a sheet is given or taken away.
            let sheet = self.one_of(64, |t, e| paper::is_child(t, e, drawer));
            let to = self.random.pick(&[role, paper::keeper_of(role)]);
            let call = self.random.pick(&[Call::Grant, Call::Revoke]);
            let own = [
                (Field::Role, to),
                (Field::Entity, sheet),
                (Field::Rights, paper::OWN),
            ];
            self.wish(call, &own);
            self.try_sheets(&[seat, other], drawer);
        }
        if self.random.chance(1, 4) {
            if self.random.chance(1, 2) {
                self.wish(
                    Call::Close,
                    &[(Field::Seat, other), (Field::Entity, drawer)],
                );
            } else {
                let execute = [
                    (Field::Role, role),
                    (Field::Entity, drawer),
                    (Field::Rights, paper::EXECUTE),
                ];
                self.wish(Call::Revoke, &execute);
            }
            self.try_sheets(&[other], drawer);
        }
        if self.random.chance(2, 3) {
            self.wish(Call::Share, &mark(0));
            self.try_sheets(&[seat, other], drawer);
        }
    }

    /// Each of the seats tries to delete or rename some of what is in the container, and to share it.
    pub fn try_sheets(&mut self, seats: &[usize], container: usize) {
        for &seat in seats {
            for _ in 0..2 {
                let sheet = self.one_of(64, |t, e| paper::is_child(t, e, container));
                let mut asked = vec![(Field::Seat, seat), (Field::Entity, sheet)];
                match self.random.below(8) {
                    0..=2 => self.ask(Call::Delete, &asked),
                    3..=5 => self.ask(Call::Rename, &asked),
                    6 => {
                        let named = self.one_of(64, |t, e| paper::is_child(t, e, container));
                        asked.push((Field::Name, self.tables().entities[named].name.max(1)));
                        self.ask(Call::Rename, &asked)
                    }
                    _ => {
                        asked.push((Field::Shared, self.random.below(2)));
                        self.ask(Call::Share, &asked)
                    }
                };
            }
        }
    }

    /// A note below, a role by which a seat above may read it, and what becomes of the open. The seat asks at every
    /// step, so that it is refused for what is still missing.
    fn read_down(&mut self) {
        let owned = |t: &Tables, e| (0..16).any(|seat| paper::has_right(t, seat, e, paper::OWN));
        let fill = self.random.chance(1, 3);
        let seat = self.one_of(16, |t, seat| {
            paper::seat_level(seat) > 0 && t.seats[seat].live != fill
        });
        let note = self.one_of(64, |t, e| {
            paper::entity_level(e) < paper::seat_level(seat) && t.entities[e].live && owned(t, e)
        });
        let (level, label) = (
            paper::entity_level(note),
            self.tables().entities[note].label,
        );
        let read = [(Field::Seat, seat), (Field::Entity, note)];
        if !self.tables().seats[seat].live {
            self.ask(Call::Openr, &read);
            let as_the_note = [
                (Field::Seat, seat),
                (Field::Level, label.grade),
                (Field::Cats, label.cats),
            ];
            self.wish(Call::Login, &as_the_note);
        }
        let role = self.one_of(16, |t, role| {
            paper::role_level(role) >= level && !t.seats[seat].roles[role]
        });
        if !self.tables().roles[role].live {
            self.wish(Call::Make, &[(Field::Role, role)]);
        }
        let user = self.tables().seats[seat].user;
        self.wish(Call::List, &[(Field::Role, role), (Field::User, user)]);
        self.wish(Call::Take, &[(Field::Seat, seat), (Field::Role, role)]);
        self.ask(Call::Openr, &read);
        let give = |entity, rights| {
            [
                (Field::Role, role),
                (Field::Entity, entity),
                (Field::Rights, rights),
            ]
        };
        let rights = self.random.pick(&[1, 1, 3, 5, 9]);
        self.wish(Call::Grant, &give(note, rights));
        let mut at = note;
        while !paper::is_root(at) {
            self.ask(Call::Openr, &read);
            at = self.tables().entities[at].parent;
            if !paper::has_right(self.tables(), seat, at, paper::EXECUTE) {
                self.wish(Call::Grant, &give(at, paper::EXECUTE));
            }
        }
        self.ask(Call::Openr, &read);
        if !self.tables().seats[seat].reading[note] {
            return;
        }
        match self.random.below(8) {
            0 => self.ask(Call::Openr, &read),
            1 => self.wish(Call::Close, &read),
            2 => self.wish(Call::Revoke, &give(note, paper::READ)),
            3 => self.wish(Call::Drop, &[(Field::Seat, seat), (Field::Role, role)]),
            4 => self.wish(Call::Unmake, &[(Field::Role, role)]),
            5 => self.wish(Call::Delete, &[(Field::Entity, note)]),
            6 => self.wish(Call::Logout, &[(Field::Seat, seat)]),
            _ => false,
        };
        self.ask(Call::Openr, &read);
    }

    /// A sheet that a seat may open by several roles, which it takes in any order and some of which go again, so that
    /// another one lets it in. The rights are given from a seat below, if there is such a one.
    fn ways_in(&mut self) {
        let owns = |t: &Tables, seat, e| {
            paper::has_right(t, seat, e, paper::OWN)
                && paper::seat_level(seat) >= paper::entity_level(e)
        };
        let seat = self.one_of(16, |t, seat| t.seats[seat].live);
        let level = paper::seat_level(seat);
        let sheet = self.one_of(64, |t, e| {
            paper::dominates(t.seats[seat].label, t.entities[e].label)
                && (0..4 * level).any(|owner| owns(t, owner, e))
        });
        let owner = self.one_of(16, |t, owner| {
            paper::seat_level(owner) < level && owns(t, owner, sheet)
        });
        if !owns(self.tables(), owner, sheet) {
            return;
        }
        let mut roles: Vec<usize> = (4 * paper::entity_level(sheet)..16).collect();
        self.random.shuffle(&mut roles);
        roles.truncate(self.random.between(2, 4));
        let user = self.tables().seats[seat].user;
        let give = |role, entity, rights| {
            [
                (Field::Seat, owner),
                (Field::Role, role),
                (Field::Entity, entity),
                (Field::Rights, rights),
            ]
        };
        for &role in &roles {
            if !self.tables().roles[role].live {
                self.wish(Call::Make, &[(Field::Role, role)]);
            }
            self.wish(Call::List, &[(Field::Role, role), (Field::User, user)]);
            let rights = self.random.pick(&[1, 1, 2, 3, 3, 4]);
            self.wish(Call::Grant, &give(role, sheet, rights));
        }
        self.random.shuffle(&mut roles);
        for &role in &roles {
            self.wish(Call::Take, &[(Field::Seat, seat), (Field::Role, role)]);
        }
        let mut at = sheet;
        while !paper::is_root(at) {
            at = self.tables().entities[at].parent;
            let role = self.random.pick(&roles);
            self.wish(Call::Grant, &give(role, at, paper::EXECUTE));
        }
        let opened = [(Field::Seat, seat), (Field::Entity, sheet)];
        for _ in 0..3 {
            self.ask(Call::Openr, &opened);
            self.ask(Call::Openw, &opened);
            self.wish(Call::Close, &opened);
            let role = self.random.pick(&roles);
            let rights = self.random.pick(&[1, 2, 3]);
            let held = [(Field::Seat, seat), (Field::Role, role)];
            match self.random.below(4) {
                0 => self.wish(Call::Drop, &held),
                1 => self.wish(Call::Take, &held),
                2 => self.wish(Call::Revoke, &give(role, sheet, rights)),
                _ => self.wish(Call::Grant, &give(role, sheet, rights)),
            };
        }
    }

    /// Hands rights on one entity to another role, and lets a seat with that role open it.
    fn hand_on(&mut self) {
        let entity = self.one_of(64, |t, e| t.entities[e].live);
        let role = self.one_of(16, |t, role| {
            t.roles[role].live && paper::role_level(role) >= paper::entity_level(entity)
        });
        self.wish(Call::Grant, &[(Field::Role, role), (Field::Entity, entity)]);
        self.wish(Call::List, &[(Field::Role, role)]);
        self.wish(Call::Take, &[(Field::Role, role)]);
        self.wish(Call::Openr, &[(Field::Entity, entity)]);
        self.wish(Call::Openw, &[(Field::Entity, entity)]);
    }

    /// Goes through all seats, roles, users or entities with one call.
    fn survey(&mut self) {
        let seat = self.one_of(16, |t, seat| t.seats[seat].live);
        let entity = self.one_of(64, |t, e| t.entities[e].live);
        match self.random.below(10) {
            0 => {
                for role in 0..16 {
                    self.ask(Call::Take, &[(Field::Seat, seat), (Field::Role, role)]);
                }
            }
            1 => {
                let level = self.random.below(4);
                for entity in level * 16..level * 16 + 16 {
                    self.ask(Call::Close, &[(Field::Seat, seat), (Field::Entity, entity)]);
                }
            }
            2 => self.ask_all_seats(Call::Openr, Field::Entity, entity),
            3 => self.ask_all_seats(Call::Openw, Field::Entity, entity),
            4 => {
                let level = paper::entity_level(entity);
                for entity in level * 16..level * 16 + 16 {
                    let call = self.random.pick(&[Call::Openr, Call::Openw]);
                    self.ask(call, &[(Field::Seat, seat), (Field::Entity, entity)]);
                }
            }
            5 => {
                let role = self.one_of(16, |t, role| t.roles[role].live);
                for user in 0..16 {
                    self.wish(Call::List, &[(Field::Role, role), (Field::User, user)]);
                }
            }
            6 => self.ask_all_seats(Call::Share, Field::Entity, entity),
            7 => {
                let level = self.random.below(4);
                for entity in level * 16..level * 16 + 16 {
                    let mut asked = vec![(Field::Seat, seat), (Field::Entity, entity)];
                    if self.random.chance(1, 10) {
                        asked.push((Field::Shared, self.past_range(Field::Shared, 1)));
                    }
                    self.ask(Call::Share, &asked);
                }
            }
            8 => {
                let parent = self.one_of(64, |t, e| t.seats[seat].writing[e]);
                for name in 1..self.habits.names.min(16) {
                    self.wish(
                        Call::Create,
                        &[
                            (Field::Seat, seat),
                            (Field::Parent, parent),
                            (Field::Name, name),
                        ],
                    );
                }
            }
            _ => {
                let parent = self.one_of(64, |t, e| t.seats[seat].writing[e]);
                for entity in 0..64 {
                    if paper::is_child(self.tables(), entity, parent) {
                        self.ask(
                            Call::Rename,
                            &[(Field::Seat, seat), (Field::Entity, entity)],
                        );
                    }
                }
            }
        }
    }
}
