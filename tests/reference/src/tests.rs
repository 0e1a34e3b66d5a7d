mod ties;

use crate::*;

const NONE: UserRecord = UserRecord {
    ceiling: 0,
    level: 0,
    cats: 0,
};

fn records(set: &[(usize, u32, u32, u32)]) -> [UserRecord; USERS] {
    let mut records = [NONE; USERS];
    for &(user, ceiling, level, cats) in set {
        records[user] = UserRecord {
            ceiling,
            level,
            cats,
        };
    }
    records
}

/// Fresh tables of an edition over the users of the paper's morning.
fn morning_in(edition: u32) -> Tables {
    let (tables, answer) = Tables::fresh(&records(&[(0, 3, 3, 255), (1, 1, 1, 0)]), edition);
    assert_eq!(answer, 0);
    tables
}

/// In that of the program.
fn morning() -> Tables {
    morning_in(1)
}

/// What a field that the request does not use is filled with: no range has it.
const UNUSED: u32 = 77_777;

fn of(call: u32, seat: u32) -> Request {
    Request {
        call,
        seat,
        user: UNUSED,
        role: UNUSED,
        entity: UNUSED,
        parent: UNUSED,
        kind: UNUSED,
        name: UNUSED,
        level: UNUSED,
        cats: UNUSED,
        rights: UNUSED,
        shared: UNUSED,
        junior: UNUSED,
    }
}

fn login(seat: u32, user: u32, level: u32, cats: u32) -> Request {
    Request {
        user,
        level,
        cats,
        ..of(call::LOGIN, seat)
    }
}

fn logout(seat: u32) -> Request {
    of(call::LOGOUT, seat)
}

fn with_role(call: u32, seat: u32, role: u32) -> Request {
    Request {
        role,
        ..of(call, seat)
    }
}

fn take(seat: u32, role: u32) -> Request {
    with_role(call::TAKE, seat, role)
}

fn drop(seat: u32, role: u32) -> Request {
    with_role(call::DROP, seat, role)
}

fn make(seat: u32, role: u32) -> Request {
    with_role(call::MAKE, seat, role)
}

fn unmake(seat: u32, role: u32) -> Request {
    with_role(call::UNMAKE, seat, role)
}

fn with_entity(call: u32, seat: u32, entity: u32) -> Request {
    Request {
        entity,
        ..of(call, seat)
    }
}

fn openr(seat: u32, entity: u32) -> Request {
    with_entity(call::OPENR, seat, entity)
}

fn openw(seat: u32, entity: u32) -> Request {
    with_entity(call::OPENW, seat, entity)
}

fn close(seat: u32, entity: u32) -> Request {
    with_entity(call::CLOSE, seat, entity)
}

fn delete(seat: u32, entity: u32) -> Request {
    with_entity(call::DELETE, seat, entity)
}

fn rename(seat: u32, entity: u32, name: u32) -> Request {
    Request {
        name,
        ..with_entity(call::RENAME, seat, entity)
    }
}

fn create(seat: u32, entity: u32, kind: u8, parent: u32, name: u32, role: u32) -> Request {
    Request {
        call: call::CREATE,
        seat,
        role,
        entity,
        parent,
        kind: kind.into(),
        name,
        level: 0,
        cats: 0,
        ..of(call::CREATE, seat)
    }
}

/// A container with a label, and its number as its name.
fn labelled(seat: u32, entity: u32, parent: u32, level: u32, cats: u32) -> Request {
    Request {
        level,
        cats,
        ..create(seat, entity, CONTAINER, parent, entity, 12)
    }
}

fn with_rights(call: u32, seat: u32, role: u32, entity: u32, rights: u32) -> Request {
    Request {
        role,
        entity,
        rights,
        ..of(call, seat)
    }
}

fn grant(seat: u32, role: u32, entity: u32, rights: u32) -> Request {
    with_rights(call::GRANT, seat, role, entity, rights)
}

fn revoke(seat: u32, role: u32, entity: u32, rights: u32) -> Request {
    with_rights(call::REVOKE, seat, role, entity, rights)
}

fn with_user(call: u32, seat: u32, role: u32, user: u32) -> Request {
    Request {
        role,
        user,
        ..of(call, seat)
    }
}

fn list(seat: u32, role: u32, user: u32) -> Request {
    with_user(call::LIST, seat, role, user)
}

fn unlist(seat: u32, role: u32, user: u32) -> Request {
    with_user(call::UNLIST, seat, role, user)
}

fn share(seat: u32, entity: u32, shared: u32) -> Request {
    Request {
        shared,
        ..with_entity(call::SHARE, seat, entity)
    }
}

fn with_junior(call: u32, seat: u32, senior: u32, junior: u32) -> Request {
    Request {
        junior,
        ..with_role(call, seat, senior)
    }
}

fn join(seat: u32, senior: u32, junior: u32) -> Request {
    with_junior(call::JOIN, seat, senior, junior)
}

fn unjoin(seat: u32, senior: u32, junior: u32) -> Request {
    with_junior(call::UNJOIN, seat, senior, junior)
}

/// Steps through the requests and asks for the answer of each; the tables stay
/// sound, and a refusal leaves them as they were. "Accepted openr and openw" tell
/// a role, and nothing else does.
#[track_caller]
fn run(tables: &mut Tables, requests: &[(Request, u8)]) {
    for (place, (request, answer)) in requests.iter().enumerate() {
        let before = tables.clone();
        let given = tables.step(request);
        let number = given.number();
        assert_eq!(number, *answer, "request {place}: {request:?}");
        assert!(number == 0 || *tables == before, "request {place}");
        assert!(tables.is_sound(), "request {place}");
        let opened = number == 0 && [call::OPENR, call::OPENW].contains(&request.call);
        assert_eq!(given.role().is_some(), opened, "request {place}");
    }
}

/// The open is done, and this role is told.
#[track_caller]
fn opens(tables: &mut Tables, request: Request, role: u8) {
    assert_eq!(tables.step(&request), Answer::By(role), "{request:?}");
    assert!(tables.is_sound());
}

/// The morning's tables with seat 12 (user 0, label 0/0) holding role 12 and
/// having root 48 open for writing.
fn at_work() -> Tables {
    let mut tables = morning();
    run(
        &mut tables,
        &[
            (login(12, 0, 0, 0), 0),
            (take(12, 12), 0),
            (openw(12, 48), 0),
        ],
    );
    tables
}

#[test]
fn the_sample() {
    let mut tables = Tables::fresh(&records(&[(0, 3, 3, 255)]), 1).0;
    run(
        &mut tables,
        &[
            (login(12, 0, 0, 0), 0),
            (take(12, 12), 0),
            (openw(12, 48), 0),
            (openw(12, 48), 16),
            (logout(13), 5),
        ],
    );
}

#[test]
fn one_morning() {
    run(
        &mut morning(),
        &[
            (login(12, 0, 0, 0), 0),
            (login(13, 1, 0, 0), 4),
            (login(4, 1, 0, 0), 0),
            (take(12, 12), 0),
            (take(4, 12), 12),
            (openw(12, 48), 0),
            (openr(4, 48), 13),
            (openw(4, 48), 10),
            (create(12, 49, OBJECT, 48, 7, 12), 0),
            (create(12, 50, OBJECT, 48, 7, 12), 14),
            (create(12, 33, OBJECT, 48, 7, 12), 10),
            (delete(12, 48), 6),
            (rename(12, 49, 7), 14),
            (delete(12, 49), 0),
        ],
    );
}

#[test]
fn edges() {
    run(
        &mut at_work(),
        &[
            (openr(12, 63), 7),
            (openr(12, 64), 2),
            (create(12, 63, OBJECT, 48, 65_535, 12), 0),
            (create(12, 62, OBJECT, 48, 65_536, 12), 2),
            (create(12, 62, OBJECT, 48, 0, 12), 2),
            (create(12, 62, 2, 48, 1, 12), 2),
            (create(12, 64, OBJECT, 48, 1, 12), 2),
            (create(12, 62, OBJECT, 64, 1, 12), 2),
            (create(12, 62, OBJECT, 48, 1, 16), 2),
            (rename(12, 63, 65_536), 2),
            (rename(12, 63, 0), 2),
            (rename(12, 63, 1), 0),
            (grant(12, 12, 63, 15), 0),
            (grant(12, 12, 63, 16), 2),
            (grant(12, 12, 63, 0), 2),
            (revoke(12, 12, 63, 16), 2),
            (login(13, 0, 3, 255), 0),
            (login(14, 0, 4, 0), 2),
            (login(14, 0, 0, 256), 4),
            (login(14, 0, 0, 65_535), 4),
            (login(14, 0, 0, 65_536), 2),
            (login(14, 0, 0, 99_999), 2),
            (login(14, 0, 0, u32::MAX), 2),
            (labelled(12, 62, 48, 3, 65_535), 0),
            (labelled(12, 61, 48, 3, 65_536), 2),
            (labelled(12, 61, 48, 3, 65_536 + 255), 2),
            (labelled(12, 61, 48, 4, 65_535), 2),
            (login(14, 16, 0, 0), 2),
            (login(16, 0, 0, 0), 2),
            (take(15, 15), 5),
            (take(12, 15), 7),
            (take(12, 16), 2),
            (list(12, 12, 15), 0),
            (list(12, 12, 16), 2),
            (share(12, 63, 0), 9),
            (share(12, 64, 0), 2),
            (share(15, 48, 0), 5),
            (share(16, 48, 0), 2),
            (share(12, 48, 0), 16),
            (share(12, 48, 1), 0),
            (share(12, 48, 2), 2),
            (share(12, 48, 256), 2),
            (share(12, 48, 65_535), 2),
            (share(12, 48, 65_536), 2),
            (share(12, 48, 99_999), 2),
            (share(12, 48, u32::MAX), 2),
            (of(19, 12), 2),
            (of(u32::MAX, 12), 2),
            (logout(u32::MAX), 2),
            // A number out of range comes before a dead seat.
            (openr(0, 64), 2),
        ],
    );
}

#[test]
fn fresh_tables() {
    let (tables, answer) = Tables::fresh(&records(&[(14, 0, 0, 256), (15, 3, 3, 65_535)]), 1);
    assert_eq!(answer, 0);
    assert!(tables.is_sound());
    assert_eq!(tables.users[15].ceiling, 3);
    assert_eq!(tables.users[14].clearance.cats, 256);
    assert_eq!(tables.users[15].clearance.cats, 65_535);
    assert!(tables.entities.iter().all(|entity| entity.shared == 0));
    for (r, role) in tables.roles.iter().enumerate() {
        assert_eq!(role.live, r % 4 == 0);
        assert_eq!(role.users, u16::from(r % 4 == 0));
        for (e, rights) in role.rights.iter().enumerate() {
            let own_root = r % 4 == 0 && e == r * 4;
            assert_eq!(*rights, if own_root { 15 } else { 0 });
        }
    }
    let empty = Tables::fresh(&[NONE; USERS], 1);
    assert_eq!(empty.1, 0);
    for past in [
        (3, 4, 0, 0),
        (3, 0, 4, 0),
        (3, 0, 0, 65_536),
        (3, 0, 0, 65_537),
        (3, 0, 0, 99_999),
        (3, 0, 0, u32::MAX),
    ] {
        let (tables, answer) = Tables::fresh(&records(&[(0, 3, 3, 65_535), past]), 1);
        assert_eq!(answer, 2);
        assert_eq!(tables, empty.0);
    }
}

#[test]
fn categories_are_sets() {
    let (mut tables, _) = Tables::fresh(&records(&[(0, 3, 3, 4), (1, 3, 3, 7)]), 1);
    run(
        &mut tables,
        &[
            (login(12, 0, 0, 3), 4),
            (login(12, 1, 0, 3), 0),
            (login(13, 1, 3, 4), 0),
        ],
    );
}

#[test]
fn both_halves_of_a_set_count() {
    // Each set with one that it contains and one that it does not.
    let sets = [
        (0x00ff, 0x00ff, 0x0100),
        (0x0100, 0x0100, 0x00ff),
        (0x0100, 0x0000, 0x0001),
        (0xff00, 0x8100, 0x00ff),
        (0x00ff, 0x0081, 0xff00),
        (0x0300, 0x0200, 0x0003),
        (0x0004, 0x0004, 0x0304),
        (0x0403, 0x0401, 0x0303),
        (0x7fff, 0x7f00, 0x8000),
        (0x8000, 0x8000, 0x0080),
        (0x80ff, 0x80f0, 0x40ff),
        (0xfeff, 0xfe01, 0x0100),
        (0xff7f, 0xff00, 0x0080),
    ];
    for (set, inside, outside) in sets {
        let (mut tables, _) = Tables::fresh(&records(&[(0, 3, 3, set)]), 1);
        run(
            &mut tables,
            &[
                (login(0, 0, 0, outside), 4),
                (login(0, 0, 0, 65_535), 4),
                (login(0, 0, 0, inside), 0),
                (login(1, 0, 3, set), 0),
                (login(2, 0, 0, 0), 0),
            ],
        );
    }
    // 65,535 contains them all.
    let (mut tables, _) = Tables::fresh(&records(&[(0, 3, 3, 65_535)]), 1);
    for (set, _, outside) in sets {
        for cats in [set, outside, 65_535] {
            run(&mut tables, &[(login(0, 0, 3, cats), 0), (logout(0), 0)]);
        }
    }
}

#[test]
fn no_right_for_a_role_below_the_entity() {
    let mut tables = at_work();
    run(
        &mut tables,
        &[
            (grant(12, 8, 48, 1), 10),
            (revoke(12, 8, 48, 1), 10),
            (grant(12, 12, 48, 1), 0),
        ],
    );
    // A role above the entity may have rights on it.
    run(
        &mut tables,
        &[(take(12, 0), 0), (grant(12, 12, 0, 5), 0), (drop(12, 0), 0)],
    );
    assert_eq!(tables.roles[12].rights[0], 5);
}

#[test]
fn the_level_is_the_seat_s() {
    // User 0 has ceiling 3, but its seat 0 has level 0.
    let mut tables = morning();
    run(
        &mut tables,
        &[
            (login(0, 0, 0, 0), 0),
            (take(0, 12), 0),
            (openw(0, 48), 10),
            (grant(0, 12, 48, 1), 10),
            (make(0, 13), 10),
            (list(0, 12, 1), 10),
            (openr(0, 48), 0),
            (login(12, 0, 0, 0), 0),
            (take(12, 0), 0),
            (openr(12, 0), 10),
            (openw(12, 0), 0),
        ],
    );
}

#[test]
fn a_deleted_number_keeps_no_rights_and_no_opens() {
    let mut tables = at_work();
    run(
        &mut tables,
        &[
            (create(12, 49, OBJECT, 48, 7, 12), 0),
            (grant(12, 12, 49, 3), 0),
            (openr(12, 49), 0),
            (openw(12, 49), 0),
            (delete(12, 49), 0),
            (openr(12, 49), 7),
            (close(12, 49), 7),
            (create(12, 49, OBJECT, 48, 8, 12), 0),
            (openr(12, 49), 13),
            (close(12, 49), 16),
        ],
    );
    assert_eq!(tables.roles[12].rights[49], OWN);
}

#[test]
fn a_rename_to_the_present_name() {
    run(
        &mut at_work(),
        &[
            (create(12, 49, OBJECT, 48, 7, 12), 0),
            (create(12, 50, OBJECT, 48, 8, 12), 0),
            (rename(12, 49, 7), 14),
            (rename(12, 49, 8), 14),
            (rename(12, 49, 9), 0),
            (rename(12, 50, 7), 0),
        ],
    );
}

#[test]
fn containers() {
    let mut tables = at_work();
    run(
        &mut tables,
        &[
            (create(12, 49, CONTAINER, 48, 1, 12), 0),
            (create(12, 50, OBJECT, 49, 1, 12), 13),
            (openw(12, 49), 13),
            (grant(12, 12, 49, 2), 0),
            (openw(12, 49), 0),
            (create(12, 50, OBJECT, 49, 1, 12), 13),
            (grant(12, 12, 49, 4), 0),
            (create(12, 50, OBJECT, 49, 1, 12), 0),
            (create(12, 51, OBJECT, 50, 1, 12), 9),
            (create(12, 51, OBJECT, 51, 1, 12), 7),
            (create(12, 50, OBJECT, 49, 1, 12), 8),
            (create(12, 51, OBJECT, 48, 2, 13), 7),
            (create(12, 51, OBJECT, 48, 2, 8), 10),
            (make(12, 13), 0),
            (create(12, 51, OBJECT, 48, 2, 13), 12),
            (delete(12, 49), 15),
            (grant(12, 12, 50, 3), 0),
            (openr(12, 50), 0),
            (revoke(12, 12, 49, 4), 0),
            // Open still, but out of reach.
            (openr(12, 50), 13),
            (openw(12, 50), 13),
            (delete(12, 50), 13),
            (grant(12, 12, 49, 4), 0),
            (openr(12, 50), 16),
            (delete(12, 50), 0),
            (delete(12, 49), 0),
            (close(12, 49), 7),
        ],
    );
}

#[test]
fn different_roles_may_carry_one_chain() {
    let mut tables = at_work();
    run(
        &mut tables,
        &[
            (create(12, 49, CONTAINER, 48, 1, 12), 0),
            (grant(12, 12, 49, 6), 0),
            (openw(12, 49), 0),
            (create(12, 50, OBJECT, 49, 1, 12), 0),
            (make(12, 13), 0),
            (make(12, 14), 0),
            (list(12, 13, 0), 0),
            (list(12, 14, 0), 0),
            (grant(12, 13, 48, 4), 0),
            (grant(12, 14, 49, 4), 0),
            (grant(12, 13, 50, 1), 0),
            (login(0, 0, 0, 0), 0),
            (take(0, 13), 0),
            (openr(0, 50), 13),
            (take(0, 14), 0),
            (openr(0, 50), 0),
            (drop(0, 14), 0),
            (drop(0, 14), 16),
            // Out of reach, but read by the other role.
            (openr(0, 50), 13),
            (close(0, 50), 0),
            (close(0, 50), 16),
            (openr(0, 50), 13),
        ],
    );
}

#[test]
fn labels() {
    let mut tables = at_work();
    run(
        &mut tables,
        &[
            (labelled(12, 49, 48, 1, 3), 0),
            (labelled(12, 50, 49, 3, 4), 11),
            (labelled(12, 50, 49, 0, 3), 11),
            (labelled(12, 50, 49, 1, 7), 13),
            (grant(12, 12, 49, 7), 0),
            (openr(12, 49), 11),
            (openw(12, 49), 11),
            (login(13, 0, 3, 255), 0),
            (take(13, 12), 0),
            (openr(13, 49), 0),
            (openw(13, 49), 11),
            (login(14, 0, 1, 3), 0),
            (take(14, 12), 0),
            (openw(14, 49), 0),
            (openr(14, 49), 0),
            (close(14, 49), 0),
        ],
    );
}

#[test]
fn labels_that_differ_in_the_upper_half() {
    let (mut tables, _) = Tables::fresh(&records(&[(0, 3, 3, 65_535)]), 1);
    run(
        &mut tables,
        &[
            (login(12, 0, 0, 0), 0),
            (take(12, 12), 0),
            (openw(12, 48), 0),
            (labelled(12, 49, 48, 1, 0x0103), 0),
            (grant(12, 12, 49, 7), 0),
            (login(13, 0, 1, 0x0003), 0),
            (take(13, 12), 0),
            (openr(13, 49), 11),
            (openw(13, 49), 11),
            (login(14, 0, 1, 0xff03), 0),
            (take(14, 12), 0),
            (openr(14, 49), 0),
            (openw(14, 49), 11),
            (login(15, 0, 1, 0x0103), 0),
            (take(15, 12), 0),
            (openr(15, 49), 0),
            (openw(15, 49), 0),
            (labelled(15, 50, 49, 1, 0x0003), 11),
            (labelled(15, 50, 49, 1, 0x8003), 11),
            (labelled(15, 50, 49, 1, 0x0301), 11),
            (labelled(15, 50, 49, 1, 0x8103), 0),
            (labelled(15, 51, 49, 3, 0xffff), 0),
        ],
    );
    assert_eq!(tables.entities[50].label.cats, 0x8103);
    assert_eq!(tables.seats[14].label.cats, 0xff03);
}

#[test]
fn roles() {
    let mut tables = at_work();
    run(
        &mut tables,
        &[
            (make(12, 12), 8),
            (make(12, 13), 0),
            (make(12, 13), 8),
            (make(12, 9), 12),
            (take(12, 13), 12),
            (list(12, 13, 0), 0),
            (list(12, 13, 0), 16),
            (take(12, 13), 0),
            (take(12, 13), 16),
            (unlist(12, 13, 0), 0),
            (unlist(12, 13, 0), 16),
            // Held and no longer listed.
            (take(12, 13), 12),
            (grant(12, 13, 48, 15), 0),
            (unmake(12, 12), 6),
            (unmake(12, 14), 7),
            (unmake(12, 13), 0),
            (drop(12, 13), 7),
            (make(12, 13), 0),
            (drop(12, 13), 16),
            (list(12, 14, 0), 7),
            (list(12, 8, 0), 12),
            (drop(12, 12), 0),
            (unmake(12, 13), 12),
            // What was open by it is closed.
            (openw(12, 48), 13),
            (close(12, 48), 16),
            (logout(12), 0),
            (logout(12), 5),
        ],
    );
    assert_eq!(
        tables.roles[13],
        Role {
            live: true,
            ..Role::EMPTY
        }
    );
    assert_eq!(tables.seats[12], Seat::default());
}

#[test]
fn a_level_can_lock_itself_out() {
    run(
        &mut at_work(),
        &[
            (revoke(12, 12, 48, 8), 0),
            (revoke(12, 12, 48, 8), 13),
            (unlist(12, 12, 0), 0),
            (logout(12), 0),
            (login(12, 0, 0, 0), 0),
            (take(12, 12), 12),
        ],
    );
}

/// As `at_work`, with seat 13 (user 0, label 0/0) holding role 13, which may write
/// and execute root 48, and having it open. Role 12 owns object 49 in it, with
/// name 1, and role 13 object 50, with name 2.
fn two_adjusters() -> Tables {
    let mut tables = at_work();
    run(
        &mut tables,
        &[
            (make(12, 13), 0),
            (list(12, 13, 0), 0),
            (grant(12, 13, 48, 6), 0),
            (login(13, 0, 0, 0), 0),
            (take(13, 13), 0),
            (openw(13, 48), 0),
            (create(12, 49, OBJECT, 48, 1, 12), 0),
            (create(13, 50, OBJECT, 48, 2, 13), 0),
        ],
    );
    tables
}

#[test]
fn a_mark_changes_nothing_else() {
    let mut tables = two_adjusters();
    for mark in [1, 0, 1] {
        let mut wanted = tables.clone();
        wanted.entities[48].shared = mark;
        run(&mut tables, &[(share(12, 48, mark.into()), 0)]);
        assert_eq!(tables, wanted);
    }
}

#[test]
fn a_shared_drawer() {
    let mut tables = two_adjusters();
    run(
        &mut tables,
        &[
            // Each can change what is the other's.
            (rename(12, 50, 4), 0),
            (rename(13, 49, 3), 0),
            (share(13, 48, 1), 13),
            (share(12, 48, 1), 0),
            (delete(12, 50), 13),
            (delete(13, 49), 13),
            (rename(12, 50, 5), 13),
            (rename(13, 49, 5), 13),
            // Before 14.
            (rename(13, 49, 3), 13),
            (rename(13, 49, 4), 13),
            (rename(12, 49, 4), 14),
            (rename(12, 49, 1), 0),
            (rename(13, 50, 2), 0),
            // Create asks nothing more.
            (create(13, 51, CONTAINER, 48, 3, 13), 0),
            (grant(13, 13, 51, 6), 0),
            (openw(13, 51), 0),
            (create(13, 52, OBJECT, 51, 1, 13), 0),
            // Before 15.
            (delete(12, 51), 13),
            (delete(13, 51), 15),
            // Own by any role held, and by it alone.
            (take(12, 13), 0),
            (rename(12, 50, 6), 0),
            (drop(12, 13), 0),
            (rename(12, 50, 7), 13),
            (grant(13, 12, 50, 7), 0),
            (rename(12, 50, 7), 13),
            (grant(13, 12, 50, 8), 0),
            (rename(12, 50, 7), 0),
            // Own does not stand for the open or for execute.
            (close(13, 48), 0),
            (delete(13, 50), 13),
            (openw(13, 48), 0),
            (revoke(12, 13, 48, 4), 0),
            (delete(13, 50), 13),
            (grant(12, 13, 48, 4), 0),
            (delete(13, 50), 0),
            // Not shared any longer.
            (delete(13, 49), 13),
            (share(12, 48, 0), 0),
            (delete(12, 51), 15),
            (delete(13, 49), 0),
        ],
    );
}

#[test]
fn refusals_of_share() {
    let mut tables = two_adjusters();
    run(
        &mut tables,
        &[
            (create(12, 51, CONTAINER, 48, 3, 12), 0),
            (login(8, 0, 0, 0), 0),
            (take(8, 12), 0),
            (login(9, 0, 0, 0), 0),
            (share(0, 64, 1), 2),
            (share(0, 52, 2), 2),
            (share(0, 52, 1), 5),
            (share(0, 49, 0), 5),
            (share(0, 51, 0), 5),
            (share(12, 52, 1), 7),
            (share(9, 52, 0), 7),
            // An object, whoever asks and for whatever mark.
            (share(12, 49, 1), 9),
            (share(12, 49, 0), 9),
            (share(13, 49, 1), 9),
            (share(8, 49, 1), 9),
            (share(9, 49, 0), 9),
            (share(8, 51, 1), 10),
            (share(8, 51, 0), 10),
            (share(9, 51, 1), 10),
            (share(13, 51, 1), 13),
            (share(13, 51, 0), 13),
            (share(12, 51, 0), 16),
            (share(12, 51, 1), 0),
            (share(12, 51, 1), 16),
            (share(13, 51, 1), 13),
            (share(8, 51, 1), 10),
            (share(12, 51, 0), 0),
            (share(12, 51, 0), 16),
            // A higher seat may, by a role of any level from the entity's on.
            (share(12, 0, 1), 13),
            (take(12, 0), 0),
            (share(12, 0, 1), 0),
            (grant(12, 13, 0, 8), 0),
            (share(13, 0, 0), 0),
            // Write and execute are not own.
            (share(13, 48, 1), 13),
            (grant(12, 13, 48, 15), 0),
            (share(13, 48, 1), 0),
        ],
    );
}

#[test]
fn share_asks_for_no_reach_no_open_and_no_label() {
    let mut tables = at_work();
    run(
        &mut tables,
        &[
            (labelled(12, 49, 48, 1, 3), 0),
            (revoke(12, 12, 48, 4), 0),
            (close(12, 48), 0),
            (login(13, 0, 3, 255), 0),
            (take(13, 12), 0),
            (share(12, 49, 1), 0),
            (share(13, 49, 0), 0),
            (share(13, 48, 1), 0),
        ],
    );
}

#[test]
fn the_mark_of_the_parent_counts() {
    let mut tables = at_work();
    run(
        &mut tables,
        &[
            (create(12, 49, CONTAINER, 48, 1, 12), 0),
            (grant(12, 12, 49, 6), 0),
            (openw(12, 49), 0),
            (create(12, 50, CONTAINER, 49, 1, 12), 0),
            (share(12, 48, 1), 0),
            (share(12, 50, 1), 0),
            (revoke(12, 12, 50, 8), 0),
            (rename(12, 50, 2), 0),
            (share(12, 49, 1), 0),
            (rename(12, 50, 3), 13),
            (delete(12, 50), 13),
            (share(12, 49, 0), 0),
            (delete(12, 50), 0),
        ],
    );
}

#[test]
fn roots_can_be_shared() {
    let mut tables = morning();
    run(
        &mut tables,
        &[(login(15, 0, 0, 0), 0), (share(15, 0, 1), 13)],
    );
    for level in 0..4 {
        run(
            &mut tables,
            &[
                (take(15, 4 * level), 0),
                (share(15, 16 * level, 0), 16),
                (share(15, 16 * level, 1), 0),
                (share(15, 16 * level, 1), 16),
                (delete(15, 16 * level), 6),
                (rename(15, 16 * level, 1), 6),
            ],
        );
    }
    assert!((0..64).all(|e| tables.entities[e].shared == u8::from(e % 16 == 0)));
}

#[test]
fn a_number_made_again_is_not_shared() {
    let mut tables = at_work();
    run(
        &mut tables,
        &[
            (create(12, 49, CONTAINER, 48, 1, 12), 0),
            (share(12, 49, 1), 0),
            (rename(12, 49, 2), 0),
            (share(12, 49, 1), 16),
            (delete(12, 49), 0),
            (share(12, 49, 0), 7),
            (create(12, 49, CONTAINER, 48, 1, 12), 0),
            (share(12, 49, 0), 16),
            (share(12, 49, 1), 0),
            (delete(12, 49), 0),
            (create(12, 49, OBJECT, 48, 1, 12), 0),
            (share(12, 49, 1), 9),
        ],
    );
    assert_eq!(tables.entities[49].shared, 0);
}

/// Tables in which each kind of record is there.
fn full() -> Tables {
    let mut tables = at_work();
    run(
        &mut tables,
        &[
            (create(12, 49, CONTAINER, 48, 1, 12), 0),
            (grant(12, 12, 49, 7), 0),
            (openw(12, 49), 0),
            (openr(12, 49), 0),
            (create(12, 50, CONTAINER, 49, 1, 12), 0),
            (create(12, 51, OBJECT, 49, 2, 12), 0),
            (make(12, 13), 0),
            (list(12, 13, 0), 0),
            (take(12, 13), 0),
        ],
    );
    tables
}

#[test]
fn unsound_tables_give_1() {
    let changes: &[fn(&mut Tables)] = &[
        |t| t.users[5].ceiling = 4,
        |t| t.users[5].clearance.grade = 4,
        // Editions.
        |t| t.edition = 0,
        |t| t.edition = 3,
        |t| t.edition = 255,
        // Roots and keepers.
        |t| t.entities[16] = Entity::default(),
        |t| t.entities[16].live = false,
        |t| t.entities[16].kind = OBJECT,
        |t| t.entities[16].name = 1,
        |t| t.entities[16].parent = 0,
        |t| t.entities[16].label.grade = 1,
        |t| t.entities[16].label.cats = 1,
        |t| t.entities[16].label.cats = 256,
        |t| t.entities[16].shared = 2,
        |t| t.entities[16].shared = 255,
        |t| t.roles[4] = Role::EMPTY,
        // Live entities.
        |t| t.entities[51].kind = 2,
        |t| t.entities[51].name = 0,
        |t| t.entities[51].parent = 64,
        |t| t.entities[51].parent = 255,
        |t| t.entities[51].parent = 32,
        |t| t.entities[51].parent = 52,
        |t| t.entities[50].parent = 51,
        |t| t.entities[51].name = 1,
        |t| t.entities[51].label.grade = 4,
        |t| t.entities[49].label.cats = 1,
        |t| t.entities[49].label.cats = 256,
        |t| t.entities[49].parent = 50,
        |t| t.entities[50].parent = 50,
        |t| t.entities[51].shared = 1,
        |t| t.entities[51].shared = 2,
        |t| t.entities[50].shared = 2,
        |t| t.entities[50].shared = 3,
        // Records that are not live.
        |t| t.entities[1].kind = 1,
        |t| t.entities[1].name = 1,
        |t| t.entities[1].parent = 16,
        |t| t.entities[1].label.cats = 1,
        |t| t.entities[1].label.cats = 256,
        |t| t.entities[1].label.grade = 1,
        |t| t.entities[1].shared = 1,
        |t| t.roles[1].users = 1,
        |t| t.roles[1].rights[0] = 1,
        |t| t.seats[0].user = 1,
        |t| t.seats[0].label.grade = 1,
        |t| t.seats[0].label.cats = 1,
        |t| t.seats[0].label.cats = 32_768,
        |t| t.seats[0].roles = 1,
        |t| t.seats[0].reading = 1,
        |t| t.seats[0].writing = 1,
        // Rights.
        |t| t.roles[12].rights[48] = 16,
        |t| t.roles[12].rights[52] = 1,
        |t| t.roles[8].rights[48] = 1,
        // Seats.
        |t| t.seats[12].user = 16,
        |t| t.seats[12].label.grade = 4,
        |t| t.seats[12].roles |= 1 << 1,
        |t| t.seats[12].reading |= 1 << 52,
        |t| t.seats[12].writing |= 1 << 52,
        |t| {
            t.roles[12].rights[32] = READ;
            t.seats[12].reading |= 1 << 32;
        },
        |t| {
            t.seats[8] = Seat {
                live: true,
                roles: 1 << 12,
                writing: 1 << 48,
                ..Seat::default()
            }
        },
        |t| t.seats[12].label.cats = 1,
        |t| t.seats[12].label.cats = 256,
        |t| {
            t.roles[12].rights[51] = READ;
            t.entities[51].label.cats = 1;
            t.seats[12].reading |= 1 << 51;
        },
        |t| {
            t.roles[12].rights[51] = READ;
            t.entities[51].label.cats = 256;
            t.seats[12].reading |= 1 << 51;
        },
        |t| {
            t.roles[12].rights[51] = WRITE;
            t.entities[51].label.cats = 1;
            t.seats[12].writing |= 1 << 51;
        },
        |t| {
            t.roles[12].rights[51] = WRITE;
            t.entities[51].label.cats = 256;
            t.seats[12].writing |= 1 << 51;
        },
        // Opens without the right behind them, or with the other one alone.
        |t| t.seats[12].roles = 1 << 13,
        |t| t.roles[12].rights[48] &= !WRITE,
        |t| t.roles[12].rights[49] &= !READ,
        |t| t.roles[12].rights[49] &= !WRITE,
        |t| t.roles[12].rights[49] = 0,
        |t| t.seats[12].reading |= 1 << 51,
        |t| t.seats[12].writing |= 1 << 51,
        |t| {
            t.roles[12].rights[51] = WRITE | EXECUTE | OWN;
            t.seats[12].reading |= 1 << 51;
        },
        |t| {
            t.roles[12].rights[51] = READ | EXECUTE | OWN;
            t.seats[12].writing |= 1 << 51;
        },
        // That a role has it which is not held does not count.
        |t| {
            t.seats[13] = Seat {
                live: true,
                roles: 1 << 13,
                reading: 1 << 48,
                ..Seat::default()
            }
        },
        |t| {
            t.seats[0] = Seat {
                live: true,
                reading: 1 << 48,
                ..Seat::default()
            }
        },
    ];
    let tables = full();
    for (place, change) in changes.iter().enumerate() {
        let mut changed = tables.clone();
        change(&mut changed);
        let before = changed.clone();
        for request in [logout(12), logout(16), share(12, 48, 1), of(19, 0)] {
            assert_eq!(changed.step(&request), Answer::Plain(1), "change {place}");
        }
        assert_eq!(changed, before);
    }
}

#[test]
fn what_soundness_does_not_ask() {
    let changes: &[fn(&mut Tables)] = &[
        |t| t.roles[12].users = 0,
        // Of an open the read or write right alone, and no reach.
        |t| {
            for rights in &mut t.roles[12].rights {
                *rights &= READ | WRITE;
            }
        },
        |t| {
            t.roles[13].rights[49] = READ | WRITE;
            t.roles[12].rights[49] = 0;
        },
        |t| t.users[0] = User::default(),
        |t| {
            t.entities[51].label = Label {
                grade: 3,
                cats: 65_535,
            }
        },
        |t| t.users[0].clearance.cats = 65_535,
        |t| t.edition = 2,
        |t| t.entities[16].shared = 1,
        |t| t.entities[50].shared = 1,
        |t| t.roles[12].rights[0] = 15,
        |t| {
            t.roles[12].rights[0] = WRITE;
            t.seats[12].writing |= 1;
        },
        |t| {
            t.seats[0] = Seat {
                live: true,
                roles: 1 << 12,
                reading: 1 << 48,
                ..Seat::default()
            }
        },
    ];
    for (place, change) in changes.iter().enumerate() {
        let mut changed = full();
        change(&mut changed);
        assert!(changed.is_sound(), "change {place}");
        assert_eq!(changed.step(&logout(12)), Answer::Plain(0));
    }
}

#[test]
fn builds() {
    let good = records(&[(0, 3, 3, 255), (1, 1, 1, 0)]);
    let (nobody, _) = Tables::fresh(&[NONE; USERS], 1);
    assert_eq!(nobody.edition, 1);
    for edition in [1, 2] {
        let (tables, answer) = Tables::fresh(&good, edition);
        assert_eq!(answer, 0);
        assert!(tables.is_sound());
        let wanted = Tables {
            edition: edition as u8,
            ..morning()
        };
        assert_eq!(tables, wanted);
    }
    // A bad edition, a bad user, or both.
    for edition in [0, 3, 255, 256, 257, 258, 65_537, 65_538, u32::MAX] {
        assert_eq!(Tables::fresh(&good, edition), (nobody.clone(), 2));
    }
    for past in [(3, 4, 0, 0), (3, 0, 4, 0), (15, 0, 0, 65_536)] {
        for edition in [1, 2, 0, 3, 255] {
            let bad = records(&[(0, 3, 3, 255), past]);
            assert_eq!(Tables::fresh(&bad, edition), (nobody.clone(), 2));
        }
    }
}

#[test]
fn other_editions_give_1() {
    let requests = [
        login(13, 0, 0, 0),
        logout(12),
        openr(12, 48),
        openr(12, 64),
        close(12, 48),
        share(12, 48, 1),
        of(19, 0),
    ];
    for edition in [0, 3, 4, 128, 254, 255] {
        let mut tables = at_work();
        tables.edition = edition;
        assert!(!tables.is_sound());
        let before = tables.clone();
        for request in &requests {
            assert_eq!(tables.step(request), Answer::Plain(1));
        }
        assert_eq!(tables, before);
    }
}

/// The morning's tables of an edition, seat 15 (user 0, label 0/0) holding the keepers
/// of levels 0 and 3 and having roots 0 and 48 open for writing. In root 0 are the
/// container 1 and in it the object 2, both of label 0/0 and with all rights for role
/// 0, and the object 3 of label 1/3, with read for role 0.
fn counter(edition: u32) -> Tables {
    let mut tables = morning_in(edition);
    let grade_1 = Request {
        level: 1,
        cats: 3,
        ..create(15, 3, OBJECT, 0, 3, 0)
    };
    run(
        &mut tables,
        &[
            (login(15, 0, 0, 0), 0),
            (take(15, 0), 0),
            (take(15, 12), 0),
            (openw(15, 0), 0),
            (openw(15, 48), 0),
            (create(15, 1, CONTAINER, 0, 1, 0), 0),
            (grant(15, 0, 1, 15), 0),
            (openw(15, 1), 0),
            (create(15, 2, OBJECT, 1, 2, 0), 0),
            (grant(15, 0, 2, 15), 0),
            (grade_1, 0),
            (grant(15, 0, 3, 1), 0),
        ],
    );
    tables
}

#[test]
fn reading_down() {
    // From level 3 at level 0.
    let mut tables = counter(2);
    run(
        &mut tables,
        &[
            (openr(15, 0), 0),
            (openr(15, 1), 0),
            (openr(15, 2), 0),
            (openr(15, 2), 16),
        ],
    );
    assert_eq!(tables.seats[15].reading, 0b111);
    assert_eq!(tables.edition, 2);
    let mut tables = counter(1);
    run(
        &mut tables,
        &[
            (openr(15, 0), 10),
            (openr(15, 1), 10),
            (openr(15, 2), 10),
            // 5 and 7 before it, 11 and 13 behind it.
            (openr(14, 2), 5),
            (openr(15, 4), 7),
            (openr(15, 3), 10),
            (drop(15, 0), 0),
            (openr(15, 2), 10),
            // At its own level.
            (openr(15, 48), 0),
        ],
    );
    assert_eq!(tables.seats[15].reading, 1 << 48);
}

#[test]
fn every_pair_of_levels() {
    for edition in [1, 2] {
        for upper in 0..4 {
            for lower in 0..4 {
                let mut tables = morning_in(edition);
                let x = 4 * upper + 1;
                let down = lower < upper;
                let answer = if down && edition == 1 { 10 } else { 0 };
                run(
                    &mut tables,
                    &[
                        (login(x, 0, 0, 0), 0),
                        (take(x, 4 * lower), 0),
                        (openr(x, 16 * lower), answer),
                        // Writing is as it was.
                        (openw(x, 16 * lower), if upper < lower { 10 } else { 0 }),
                    ],
                );
            }
        }
    }
}

#[test]
fn what_reading_down_still_asks() {
    run(
        &mut counter(2),
        &[
            (openr(14, 2), 5),
            (openr(15, 4), 7),
            // The label.
            (openr(15, 3), 11),
            (login(14, 0, 1, 1), 0),
            (take(14, 0), 0),
            (openr(14, 3), 11),
            (login(13, 0, 0, 3), 0),
            (take(13, 0), 0),
            (openr(13, 3), 11),
            (login(12, 0, 1, 3), 0),
            (openr(12, 3), 13),
            (take(12, 0), 0),
            (openr(12, 3), 0),
            // The right, by a role held.
            (drop(15, 0), 0),
            (openr(15, 2), 13),
            (openr(15, 0), 13),
            (take(15, 0), 0),
            (revoke(15, 0, 2, 1), 0),
            (openr(15, 2), 13),
            (grant(15, 0, 2, 1), 0),
            // And each container above.
            (revoke(15, 0, 1, 4), 0),
            (openr(15, 2), 13),
            (openr(15, 1), 0),
            (grant(15, 0, 1, 4), 0),
            (revoke(15, 0, 0, 4), 0),
            (openr(15, 2), 13),
            (grant(15, 0, 0, 4), 0),
            (openr(15, 2), 0),
            (openr(15, 2), 16),
        ],
    );
}

#[test]
fn the_role_behind_a_read_down() {
    // Of any level from the entity's on.
    for role in [1, 5, 9, 13] {
        let keeper = role - 1;
        let mut tables = counter(2);
        if tables.seats[15].roles >> keeper & 1 == 0 {
            run(&mut tables, &[(take(15, keeper), 0)]);
        }
        run(
            &mut tables,
            &[
                (make(15, role), 0),
                (list(15, role, 0), 0),
                (login(12, 0, 0, 0), 0),
                (take(12, role), 0),
                (openr(12, 2), 13),
                (grant(15, role, 2, 1), 0),
                (openr(12, 2), 13),
                (grant(15, role, 0, 4), 0),
                (grant(15, role, 1, 4), 0),
                (openr(12, 2), 0),
            ],
        );
        // The open ends with the right and with the role.
        for ends in [revoke(15, role, 2, 1), drop(12, role), unmake(15, role)] {
            let mut tables = tables.clone();
            assert_eq!(tables.seats[12].reading, 1 << 2);
            run(
                &mut tables,
                &[(ends, 0), (openr(12, 2), 13), (close(12, 2), 16)],
            );
            assert_eq!(tables.seats[12].reading, 0);
        }
    }
}

#[test]
fn what_ends_a_read_down() {
    let mut tables = counter(2);
    run(
        &mut tables,
        &[
            (openr(15, 1), 0),
            (openr(15, 2), 0),
            // Both ways at once.
            (openw(15, 2), 0),
            (close(15, 2), 0),
            (close(15, 2), 16),
            (openr(15, 2), 0),
            (delete(15, 2), 0),
        ],
    );
    assert_eq!(tables.seats[15].reading, 1 << 1);
    run(
        &mut tables,
        &[
            // The number made again is not read.
            (create(15, 2, OBJECT, 1, 2, 0), 0),
            (close(15, 2), 16),
            (logout(15), 0),
            (login(15, 0, 0, 0), 0),
        ],
    );
    assert_eq!(tables.seats[15].reading, 0);
}

#[test]
fn soundness_of_reads_down() {
    let mut tables = counter(2);
    run(&mut tables, &[(openr(15, 2), 0), (openr(15, 48), 0)]);
    let requests = [logout(15), close(15, 2), openr(15, 2), of(19, 0)];
    // "Edition 1 is the rule so far."
    tables.edition = 1;
    assert!(!tables.is_sound());
    let before = tables.clone();
    for request in &requests {
        assert_eq!(tables.step(request), Answer::Plain(1));
    }
    assert_eq!(tables, before);
    tables.edition = 2;
    run(&mut tables, &[(openr(15, 2), 16), (close(15, 2), 0)]);
    tables.edition = 1;
    run(&mut tables, &[(openr(15, 2), 10), (close(15, 48), 0)]);
    // Of reading the level condition alone goes; the others stay, and those on writing.
    let changes: &[fn(&mut Tables)] = &[
        |t| t.seats[15].reading |= 1 << 3,
        |t| t.seats[15].reading |= 1 << 4,
        |t| {
            t.roles[0].rights[3] |= WRITE;
            t.seats[15].writing |= 1 << 3;
        },
        |t| {
            t.seats[11] = Seat {
                live: true,
                roles: 1 << 12,
                writing: 1 << 48,
                ..Seat::default()
            }
        },
        // The right behind it.
        |t| {
            t.seats[14] = Seat {
                live: true,
                reading: 1 << 2,
                ..Seat::default()
            }
        },
        |t| t.seats[14].reading = 1 << 2,
        |t| t.roles[11].rights[2] = READ,
        |t| t.roles[8].rights[48] = READ,
    ];
    for (place, change) in changes.iter().enumerate() {
        let mut changed = counter(2);
        change(&mut changed);
        assert!(!changed.is_sound(), "change {place}");
        assert_eq!(changed.step(&logout(15)), Answer::Plain(1));
    }
}

#[test]
fn no_request_changes_the_edition() {
    for edition in [1, 2] {
        let mut tables = full();
        tables.edition = edition;
        for call in 0..=19 {
            for seat in [12, 13] {
                let request = Request {
                    call,
                    seat,
                    user: 0,
                    role: 13,
                    entity: 51,
                    parent: 48,
                    kind: 0,
                    name: 9,
                    level: 0,
                    cats: 0,
                    rights: 15,
                    shared: 1,
                    junior: 12,
                };
                tables.step(&request);
                assert_eq!(tables.edition, edition);
            }
        }
    }
}

/// As `at_work`, with roles 13, 14 and 15, for which user 0 is listed. In root 48 is
/// the container 49, with all rights for role 12, and in it the object 50, with own
/// for role 12.
fn four_roles() -> Tables {
    let mut tables = at_work();
    run(
        &mut tables,
        &[
            (create(12, 49, CONTAINER, 48, 1, 12), 0),
            (grant(12, 12, 49, 15), 0),
            (openw(12, 49), 0),
            (create(12, 50, OBJECT, 49, 1, 12), 0),
        ],
    );
    for role in [13, 14, 15] {
        run(&mut tables, &[(make(12, role), 0), (list(12, role, 0), 0)]);
    }
    tables
}

#[test]
fn the_lowest_numbered_role_is_told() {
    let mut tables = four_roles();
    run(
        &mut tables,
        &[
            (grant(12, 13, 50, 3), 0),
            (grant(12, 14, 50, 3), 0),
            (grant(12, 15, 50, 3), 0),
            // The highest first.
            (take(12, 15), 0),
        ],
    );
    opens(&mut tables, openr(12, 50), 15);
    opens(&mut tables, openw(12, 50), 15);
    run(&mut tables, &[(close(12, 50), 0), (take(12, 13), 0)]);
    opens(&mut tables, openr(12, 50), 13);
    opens(&mut tables, openw(12, 50), 13);
    // One between them changes nothing.
    run(&mut tables, &[(close(12, 50), 0), (take(12, 14), 0)]);
    opens(&mut tables, openr(12, 50), 13);
    opens(&mut tables, openw(12, 50), 13);
    // The next one, when the right goes and when the role goes.
    run(
        &mut tables,
        &[(close(12, 50), 0), (revoke(12, 13, 50, 1), 0)],
    );
    opens(&mut tables, openr(12, 50), 14);
    opens(&mut tables, openw(12, 50), 13);
    run(&mut tables, &[(close(12, 50), 0), (drop(12, 13), 0)]);
    opens(&mut tables, openw(12, 50), 14);
    run(&mut tables, &[(close(12, 50), 0), (unmake(12, 14), 0)]);
    opens(&mut tables, openr(12, 50), 15);
    // That a lower-numbered one has the right counts for those who hold it.
    run(
        &mut tables,
        &[(close(12, 50), 0), (grant(12, 13, 50, 15), 0)],
    );
    opens(&mut tables, openr(12, 50), 15);
    opens(&mut tables, openw(12, 50), 15);
}

#[test]
fn the_role_is_that_of_the_right_asked() {
    let mut tables = four_roles();
    run(
        &mut tables,
        &[
            (take(12, 13), 0),
            (take(12, 14), 0),
            (take(12, 15), 0),
            (grant(12, 13, 50, 1), 0),
            (grant(12, 14, 50, 12), 0),
            (grant(12, 15, 50, 2), 0),
        ],
    );
    // Role 12 owns it, and 14 owns and executes it.
    opens(&mut tables, openr(12, 50), 13);
    opens(&mut tables, openw(12, 50), 15);
    run(
        &mut tables,
        &[
            (close(12, 50), 0),
            (revoke(12, 13, 50, 1), 0),
            (grant(12, 13, 50, 2), 0),
            (grant(12, 15, 50, 1), 0),
        ],
    );
    opens(&mut tables, openr(12, 50), 15);
    opens(&mut tables, openw(12, 50), 13);
}

#[test]
fn roles_that_only_reach_are_not_told() {
    let mut tables = four_roles();
    run(
        &mut tables,
        &[
            (grant(12, 13, 48, 4), 0),
            (grant(12, 14, 49, 7), 0),
            (grant(12, 15, 50, 3), 0),
            (login(13, 0, 0, 0), 0),
            (take(13, 15), 0),
            (openr(13, 50), 13),
            (take(13, 14), 0),
            (openr(13, 50), 13),
            (openw(13, 50), 13),
            (take(13, 13), 0),
        ],
    );
    // 13 executes the root, 14 has all but own on the container, 15 reads the object.
    opens(&mut tables, openr(13, 50), 15);
    opens(&mut tables, openw(13, 50), 15);
    opens(&mut tables, openr(13, 49), 14);
    run(&mut tables, &[(openr(13, 48), 13)]);
}

#[test]
fn role_0_is_a_role() {
    let mut tables = morning();
    run(&mut tables, &[(login(0, 0, 0, 0), 0), (take(0, 0), 0)]);
    assert_eq!(tables.step(&openr(0, 0)).role(), Some(0));
    assert_eq!(tables.step(&openr(0, 0)), Answer::Plain(16));
    opens(&mut tables, openw(0, 0), 0);
    // Before any other that gives the right.
    run(
        &mut tables,
        &[(close(0, 0), 0), (take(0, 4), 0), (grant(0, 4, 0, 3), 0)],
    );
    opens(&mut tables, openr(0, 0), 0);
    opens(&mut tables, openw(0, 0), 0);
    run(&mut tables, &[(close(0, 0), 0), (drop(0, 0), 0)]);
    opens(&mut tables, openr(0, 0), 4);
}

#[test]
fn what_tells_no_role() {
    // Refusals of an open, for each of which a role has the right.
    let mut tables = four_roles();
    run(
        &mut tables,
        &[
            (grant(12, 12, 50, 7), 0),
            (openr(12, 50), 0),
            (openw(12, 50), 0),
            (login(0, 0, 0, 0), 0),
            (take(0, 12), 0),
            (login(13, 0, 1, 1), 0),
            (take(13, 12), 0),
            (take(12, 0), 0),
        ],
    );
    for (request, answer) in [
        (openr(12, 50), 16),
        (openw(12, 50), 16),
        (openw(0, 50), 10),
        (openr(12, 0), 10),
        (openw(13, 50), 11),
        (openr(12, 64), 2),
        (openr(14, 50), 5),
        (openw(12, 51), 7),
    ] {
        assert_eq!(tables.step(&request), Answer::Plain(answer));
    }
    run(
        &mut tables,
        &[(close(12, 50), 0), (revoke(12, 12, 49, 4), 0)],
    );
    assert_eq!(tables.step(&openr(12, 50)), Answer::Plain(13));
    assert_eq!(tables.step(&openw(12, 50)), Answer::Plain(13));
    // Every other request, done.
    run(
        &mut tables,
        &[(grant(12, 12, 49, 4), 0), (openr(12, 50), 0)],
    );
    for request in [
        close(12, 50),
        grant(12, 12, 50, 1),
        revoke(12, 12, 50, 1),
        create(12, 51, CONTAINER, 49, 2, 12),
        share(12, 51, 1),
        rename(12, 51, 3),
        delete(12, 51),
        unlist(12, 15, 0),
        list(12, 15, 0),
        take(12, 15),
        drop(12, 15),
        unmake(12, 15),
        make(12, 15),
        logout(12),
        login(12, 0, 0, 0),
    ] {
        assert_eq!(tables.step(&request), Answer::Plain(0), "{request:?}");
    }
    assert_eq!(tables.step(&of(19, 12)), Answer::Plain(2));
    // Unsound tables.
    tables.edition = 3;
    assert_eq!(tables.step(&openr(12, 48)), Answer::Plain(1));
}

/// A seat of each level that holds every keeper, at the root of each level: the
/// keeper of the root's level is told.
#[test]
fn the_role_told_for_each_pair_of_levels() {
    for seat_level in 0..4 {
        for entity_level in 0..4 {
            let mut tables = morning_in(2);
            let (x, root) = (4 * seat_level, 16 * entity_level);
            run(&mut tables, &[(login(x, 0, 0, 0), 0)]);
            for keeper in [12, 8, 4, 0] {
                run(&mut tables, &[(take(x, keeper), 0)]);
            }
            opens(&mut tables, openr(x, root), 4 * entity_level as u8);
            if entity_level <= seat_level {
                opens(&mut tables, openw(x, root), 4 * entity_level as u8);
            }
        }
    }
}

/// As `four_roles`, with these rights on the object 50 for roles 13, 14 and 15. Seat 12,
/// of level 3, holds role 12 alone. Seat 13, of its level, and seat 5, of level 1, hold
/// these three, and also 12, by which they reach the object.
fn three_rights(rights: [u32; 3]) -> Tables {
    let mut tables = four_roles();
    run(
        &mut tables,
        &[(login(13, 0, 0, 0), 0), (login(5, 0, 0, 0), 0)],
    );
    run(&mut tables, &[(take(13, 12), 0), (take(5, 12), 0)]);
    for (role, rights) in (13..).zip(rights) {
        run(
            &mut tables,
            &[
                (grant(12, role, 50, rights), 0),
                (take(13, role), 0),
                (take(5, role), 0),
            ],
        );
    }
    tables
}

/// What the seat has open for reading and for writing.
fn open(tables: &Tables, seat: usize) -> [u64; 2] {
    [tables.seats[seat].reading, tables.seats[seat].writing]
}

#[test]
fn who_revokes_write_from_its_own_role() {
    let mut tables = at_work();
    run(
        &mut tables,
        &[
            (create(12, 49, OBJECT, 48, 1, 12), 0),
            (openr(12, 48), 0),
            (revoke(12, 12, 48, 2), 0),
            (create(12, 50, OBJECT, 48, 2, 12), 13),
            (rename(12, 49, 2), 13),
            (delete(12, 49), 13),
            (openw(12, 48), 13),
            (openr(12, 48), 16),
            // The right is there again, the open is not.
            (grant(12, 12, 48, 2), 0),
            (create(12, 50, OBJECT, 48, 2, 12), 13),
            (openw(12, 48), 0),
            (create(12, 50, OBJECT, 48, 2, 12), 0),
            (openw(12, 48), 16),
        ],
    );
}

#[test]
fn a_dropped_role_ends_its_opens() {
    let mut tables = three_rights([3, 3, 3]);
    let (root, inner, object) = (1 << 48, 1 << 49, 1 << 50);
    run(
        &mut tables,
        &[
            (openr(13, 50), 0),
            (openw(13, 50), 0),
            (openw(13, 49), 0),
            (openr(13, 48), 0),
            // Another one held gives both.
            (drop(13, 13), 0),
            (drop(13, 15), 0),
        ],
    );
    assert_eq!(open(&tables, 13), [root | object, inner | object]);
    // Some end and some stay.
    run(&mut tables, &[(drop(13, 14), 0)]);
    assert_eq!(open(&tables, 13), [root, inner]);
    run(&mut tables, &[(drop(13, 12), 0)]);
    assert_eq!(open(&tables, 13), [0, 0]);
    // The acting seat's alone: the others hold it still.
    assert_eq!(open(&tables, 12), [0, root | inner]);
    // Taking the roles again brings nothing back.
    run(
        &mut tables,
        &[
            (take(13, 12), 0),
            (take(13, 14), 0),
            (close(13, 48), 16),
            (close(13, 49), 16),
            (close(13, 50), 16),
            (openr(13, 50), 0),
        ],
    );
    assert_eq!(open(&tables, 13), [object, 0]);
}

#[test]
fn each_open_by_its_own_right() {
    // Read by 13 and 15, write by 14 and 15.
    let mut tables = three_rights([1, 2, 3]);
    run(&mut tables, &[(openr(13, 50), 0), (openw(13, 50), 0)]);
    let both = [1 << 50, 1 << 50];
    for (gone, left) in [
        ([13, 14], both),
        ([13, 15], [0, 1 << 50]),
        ([14, 15], [1 << 50, 0]),
    ] {
        let mut tables = tables.clone();
        assert_eq!(open(&tables, 13), both);
        run(&mut tables, &[(drop(13, gone[0]), 0)]);
        assert_eq!(open(&tables, 13), both);
        run(&mut tables, &[(drop(13, gone[1]), 0)]);
        assert_eq!(open(&tables, 13), left);
    }
}

#[test]
fn a_revoke_ends_the_opens_of_every_seat() {
    let mut tables = three_rights([3, 1, 2]);
    run(
        &mut tables,
        &[
            (grant(12, 12, 50, 3), 0),
            (openr(12, 50), 0),
            (openw(12, 50), 0),
            (openr(13, 50), 0),
            (openw(13, 50), 0),
            (openr(5, 50), 0),
            (openr(5, 49), 0),
            (revoke(12, 12, 50, 3), 0),
        ],
    );
    let (object, inner) = (1 << 50, 1 << 49);
    // The acting one has no other role.
    assert_eq!(open(&tables, 12), [0, 1 << 48 | inner]);
    assert_eq!(open(&tables, 13), [object, object]);
    assert_eq!(open(&tables, 5), [object | inner, 0]);
    // Read by 14 and write by 15 are left.
    run(&mut tables, &[(revoke(12, 13, 50, 15), 0)]);
    assert_eq!(open(&tables, 13), [object, object]);
    // Of read alone; what is open for writing stays.
    run(&mut tables, &[(revoke(12, 14, 50, 1), 0)]);
    assert_eq!(open(&tables, 13), [0, object]);
    assert_eq!(open(&tables, 5), [inner, 0]);
    // Nothing is taken away.
    run(&mut tables, &[(revoke(12, 14, 50, 3), 0)]);
    assert_eq!(open(&tables, 13), [0, object]);
    run(
        &mut tables,
        &[
            (revoke(12, 15, 50, 2), 0),
            (grant(12, 15, 50, 3), 0),
            (close(13, 50), 16),
            (close(5, 50), 16),
            (openr(5, 50), 0),
        ],
    );
}

#[test]
fn unmake_ends_opens_at_every_level() {
    let mut tables = three_rights([3, 1, 0b1100]);
    run(
        &mut tables,
        &[
            (openr(13, 50), 0),
            (openw(13, 50), 0),
            (openr(5, 50), 0),
            (openr(5, 48), 0),
            (drop(5, 14), 0),
            (unmake(12, 15), 0),
        ],
    );
    let (root, object) = (1 << 48, 1 << 50);
    assert_eq!(open(&tables, 13), [object, object]);
    assert_eq!(open(&tables, 5), [root | object, 0]);
    let acting = open(&tables, 12);
    run(&mut tables, &[(unmake(12, 13), 0)]);
    assert_eq!(open(&tables, 13), [object, 0]);
    assert_eq!(open(&tables, 5), [root, 0]);
    assert_eq!(open(&tables, 12), acting);
    // Made again, listed, granted and taken, it brings nothing back.
    run(
        &mut tables,
        &[
            (make(12, 13), 0),
            (list(12, 13, 0), 0),
            (grant(12, 13, 50, 3), 0),
            (take(5, 13), 0),
            (take(13, 13), 0),
            (close(5, 50), 16),
            (openw(13, 50), 0),
            (openr(5, 50), 0),
        ],
    );
}

#[test]
fn what_ends_no_open() {
    let mut tables = three_rights([3, 8, 3]);
    run(
        &mut tables,
        &[
            (grant(12, 12, 50, 7), 0),
            (openr(13, 50), 0),
            (openw(13, 50), 0),
            (openw(13, 49), 0),
            (openr(5, 50), 0),
            (drop(13, 12), 0),
            (drop(13, 15), 0),
        ],
    );
    let object = 1 << 50;
    assert_eq!(open(&tables, 13), [object, object]);
    let all: Vec<_> = tables
        .seats
        .iter()
        .map(|s| (s.reading, s.writing))
        .collect();
    for (request, answer) in [
        // Execute and own, also where the object is no longer reached by it.
        (revoke(12, 12, 50, 12), 0),
        (grant(13, 12, 50, 8), 0),
        (revoke(12, 12, 49, 4), 0),
        (revoke(12, 12, 48, 4), 0),
        (openr(5, 50), 13),
        (revoke(12, 14, 50, 8), 0),
        // Refused.
        (revoke(13, 13, 50, 3), 13),
        (revoke(5, 13, 50, 3), 10),
        (revoke(14, 13, 50, 3), 5),
        (revoke(12, 13, 50, 16), 2),
        (unmake(13, 13), 12),
        (unmake(5, 13), 10),
        (unmake(12, 12), 6),
        (drop(13, 12), 16),
        // The holding and the open stay without the listing.
        (unlist(12, 13, 0), 0),
        (list(12, 13, 0), 0),
        (take(13, 15), 0),
        (grant(12, 14, 50, 1), 0),
        (share(12, 49, 1), 0),
        (unmake(12, 14), 0),
        (make(12, 14), 0),
    ] {
        run(&mut tables, &[(request, answer)]);
        let now: Vec<_> = tables
            .seats
            .iter()
            .map(|s| (s.reading, s.writing))
            .collect();
        assert_eq!(now, all, "{request:?}");
    }
}
