//! Senior and junior roles (document 02, A.8).

use super::*;

/// As `four_roles`, with these ties, and with seat 13 (user 0, label 0/0) holding
/// role 13 alone. Of the four roles only 12, the keeper, has rights: all on root 48
/// and on the container 49, and own on the object 50.
fn tied(ties: &[(u32, u32)]) -> Tables {
    let mut tables = four_roles();
    for &(senior, junior) in ties {
        run(&mut tables, &[(join(12, senior, junior), 0)]);
    }
    run(&mut tables, &[(login(13, 0, 0, 0), 0), (take(13, 13), 0)]);
    tables
}

const CHAIN: [(u32, u32); 3] = [(13, 14), (14, 15), (15, 12)];

/// What every seat has open.
fn all_open(tables: &Tables) -> Vec<[u64; 2]> {
    (0..SEATS).map(|seat| open(tables, seat)).collect()
}

#[test]
fn edges_of_ties() {
    let mut tables = four_roles();
    for past in [16, 17, 255, 256, 256 + 13, 65_535, 65_536 + 13, u32::MAX] {
        for request in [join, unjoin] {
            run(
                &mut tables,
                &[
                    (request(past, 12, 13), 2),
                    (request(12, past, 13), 2),
                    (request(12, 12, past), 2),
                    (request(12, past, past), 2),
                    // Before a dead seat and a dead role.
                    (request(0, 12, past), 2),
                    (request(12, 1, past), 2),
                ],
            );
        }
    }
    run(
        &mut tables,
        &[
            (join(12, 15, 12), 0),
            (join(12, 15, 14), 0),
            (unjoin(12, 15, 12), 0),
            (unjoin(12, 15, 14), 0),
        ],
    );
}

#[test]
fn a_tie_changes_nothing_else() {
    let mut tables = tied(&[(13, 14)]);
    run(
        &mut tables,
        &[(grant(12, 14, 50, 3), 0), (grant(12, 13, 48, 5), 0)],
    );
    let ties = [(13, 12), (14, 12), (15, 14), (13, 15)];
    for (senior, junior) in ties {
        let mut wanted = tables.clone();
        wanted.roles[senior as usize].juniors |= 1 << junior;
        run(&mut tables, &[(join(12, senior, junior), 0)]);
        assert_eq!(tables, wanted);
    }
    assert_eq!(tables.roles[13].juniors, 1 << 12 | 1 << 14 | 1 << 15);
    for (senior, junior) in ties {
        let mut wanted = tables.clone();
        wanted.roles[senior as usize].juniors &= !(1 << junior);
        run(&mut tables, &[(unjoin(12, senior, junior), 0)]);
        assert_eq!(tables, wanted);
    }
    assert_eq!(tables.roles[13].juniors, 1 << 14);
}

#[test]
fn refusals_of_ties() {
    let mut tables = four_roles();
    run(
        &mut tables,
        &[
            (take(12, 8), 0),
            (make(12, 9), 0),
            // Seat 11 is of level 2 and holds both keepers, seat 13 holds none.
            (login(11, 0, 0, 0), 0),
            (take(11, 12), 0),
            (take(11, 8), 0),
            (login(13, 0, 0, 0), 0),
            (unmake(12, 15), 0),
            (join(12, 13, 14), 0),
        ],
    );
    for (request, numbers) in [
        (join as fn(u32, u32, u32) -> Request, [22, 16]),
        (unjoin, [16, 0]),
    ] {
        let [ring, again] = numbers;
        run(
            &mut tables,
            &[
                // A seat that is not live, whatever else there is.
                (request(0, 15, 15), 5),
                (request(0, 12, 8), 5),
                (request(0, 13, 13), 5),
                (request(0, 13, 14), 5),
                // The senior or the junior, or both.
                (request(12, 15, 13), 7),
                (request(12, 13, 15), 7),
                (request(12, 15, 10), 7),
                (request(12, 15, 15), 7),
                (request(12, 8, 15), 7),
                (request(11, 12, 15), 7),
                (request(13, 15, 12), 7),
                // The seat is below the senior, or the levels differ.
                (request(11, 13, 12), 10),
                (request(11, 13, 14), 10),
                (request(11, 14, 13), 10),
                (request(11, 13, 13), 10),
                (request(11, 13, 8), 10),
                (request(11, 8, 13), 10),
                (request(12, 8, 12), 10),
                (request(12, 12, 8), 10),
                (request(12, 12, 9), 10),
                (request(13, 12, 9), 10),
                (request(13, 9, 12), 10),
                // The keeper.
                (request(13, 12, 13), 12),
                (request(13, 13, 14), 12),
                (request(13, 14, 13), 12),
                (request(13, 13, 13), 12),
                (request(13, 9, 8), 12),
                (request(12, 13, 13), ring),
                (request(12, 14, 13), ring),
                (request(12, 13, 14), again),
            ],
        );
    }
    // A seat above may, by the keeper of their level.
    run(
        &mut tables,
        &[
            (unjoin(12, 13, 14), 16),
            (join(12, 8, 9), 0),
            (unjoin(11, 8, 9), 0),
            (join(11, 9, 8), 0),
            (drop(12, 8), 0),
            (unjoin(12, 9, 8), 12),
            (drop(11, 12), 0),
            (unjoin(11, 9, 8), 0),
        ],
    );
}

/// Every pair of the sixteen roles, tied from fresh tables by a seat of each level that
/// holds the four keepers.
#[test]
fn every_pair_of_roles() {
    let mut tables = morning();
    run(&mut tables, &[(login(15, 0, 0, 0), 0)]);
    for keeper in [0, 4, 8, 12] {
        run(&mut tables, &[(take(15, keeper), 0)]);
        for role in keeper + 1..keeper + 4 {
            run(&mut tables, &[(make(15, role), 0)]);
        }
    }
    for x in [0, 4, 8, 12] {
        run(&mut tables, &[(login(x, 0, 0, 0), 0)]);
        for keeper in [0, 4, 8, 12] {
            run(&mut tables, &[(take(x, keeper), 0)]);
        }
        for (senior, junior) in (0..256).map(|pair| (pair / 16, pair % 16)) {
            let (of_senior, of_junior) = (senior / 4, junior / 4);
            let answer = if x / 4 < of_senior || of_senior != of_junior {
                10
            } else if senior == junior {
                22
            } else {
                0
            };
            let ends = if answer == 22 { 16 } else { answer };
            let before = tables.clone();
            run(&mut tables, &[(join(x, senior, junior), answer)]);
            if answer == 0 {
                assert_eq!(tables.roles[senior as usize].juniors, 1 << junior);
            }
            run(
                &mut tables,
                &[
                    (
                        join(x, senior, junior),
                        if answer == 0 { 16 } else { answer },
                    ),
                    (unjoin(x, senior, junior), ends),
                    (
                        unjoin(x, senior, junior),
                        if answer == 0 { 16 } else { ends },
                    ),
                ],
            );
            assert_eq!(tables, before);
        }
    }
}

#[test]
fn a_chain_of_four() {
    let mut tables = tied(&CHAIN);
    let records = tables.roles;
    opens(&mut tables, openr(13, 48), 13);
    opens(&mut tables, openw(13, 48), 13);
    opens(&mut tables, openr(13, 49), 13);
    opens(&mut tables, openw(13, 49), 13);
    run(
        &mut tables,
        &[
            // Of the object the last has own alone.
            (openr(13, 50), 13),
            (grant(13, 13, 50, 1), 0),
        ],
    );
    opens(&mut tables, openr(13, 50), 13);
    run(
        &mut tables,
        &[
            // Holding is of the role itself.
            (create(13, 51, OBJECT, 49, 2, 12), 12),
            (create(13, 51, OBJECT, 49, 2, 14), 12),
            (create(13, 51, OBJECT, 49, 2, 13), 0),
            (share(13, 49, 1), 0),
            (rename(13, 50, 3), 0),
            (rename(13, 51, 4), 0),
            // The last has nothing of the first.
            (rename(12, 51, 5), 13),
            (grant(12, 12, 51, 1), 13),
            (revoke(13, 13, 50, 1), 0),
            (close(13, 50), 16),
        ],
    );
    // Own on the new object, and of the others nothing has changed.
    let mut wanted = records;
    wanted[13].rights[51] = OWN;
    assert_eq!(tables.roles, wanted);
    run(&mut tables, &[(delete(13, 50), 0), (delete(13, 51), 0)]);
}

#[test]
fn each_tie_of_a_chain_is_needed() {
    for (senior, junior) in CHAIN {
        let mut ties = CHAIN.to_vec();
        ties.retain(|&tie| tie != (senior, junior));
        let mut tables = tied(&ties);
        run(
            &mut tables,
            &[
                (openr(13, 48), 13),
                (openw(13, 49), 13),
                (grant(13, 13, 50, 1), 13),
                (share(13, 49, 1), 13),
            ],
        );
        run(&mut tables, &[(join(12, senior, junior), 0)]);
        opens(&mut tables, openr(13, 48), 13);
        opens(&mut tables, openw(13, 49), 13);
        run(
            &mut tables,
            &[(grant(13, 13, 50, 1), 0), (share(13, 49, 1), 0)],
        );
    }
}

/// A right in the record of one role of the chain 15, 14, 13, 12, and a seat that holds one:
/// from that one downward it counts, and not upward.
#[test]
fn rights_do_not_rise() {
    let mut tables = four_roles();
    run(
        &mut tables,
        &[
            (join(12, 15, 14), 0),
            (join(12, 14, 13), 0),
            (join(12, 13, 12), 0),
            (login(13, 0, 0, 0), 0),
        ],
    );
    for having in 12..16 {
        for held in 12..16 {
            let mut tables = tables.clone();
            let answer = if held >= having { 0 } else { 13 };
            run(
                &mut tables,
                &[
                    (grant(12, having, 50, 3), 0),
                    (take(13, held), 0),
                    (openr(13, 50), answer),
                    (openw(13, 50), answer),
                ],
            );
            assert_eq!(
                open(&tables, 13),
                [u64::from(held >= having) << 50; 2],
                "{having} {held}"
            );
        }
    }
}

#[test]
fn a_diamond() {
    let ties = [(13, 14), (13, 15), (14, 12), (15, 12)];
    let root = [1 << 48, 1 << 48];
    // The two ties of each way.
    for (one, other) in [(0, 1), (0, 3), (2, 1), (2, 3)] {
        for (first, second) in [(one, other), (other, one)] {
            let mut tables = tied(&ties);
            run(&mut tables, &[(openr(13, 48), 0), (openw(13, 48), 0)]);
            let (senior, junior) = ties[first];
            run(&mut tables, &[(unjoin(12, senior, junior), 0)]);
            assert_eq!(open(&tables, 13), root);
            run(&mut tables, &[(openr(13, 48), 16)]);
            let (senior, junior) = ties[second];
            run(&mut tables, &[(unjoin(12, senior, junior), 0)]);
            assert_eq!(open(&tables, 13), [0, 0]);
            run(&mut tables, &[(openr(13, 48), 13), (close(13, 48), 16)]);
        }
    }
    // Both ties of one way leave the other.
    for pair in [[0, 2], [1, 3]] {
        let mut tables = tied(&ties);
        run(&mut tables, &[(openr(13, 48), 0), (openw(13, 48), 0)]);
        for (senior, junior) in pair.map(|at: usize| ties[at]) {
            run(&mut tables, &[(unjoin(12, senior, junior), 0)]);
            assert_eq!(open(&tables, 13), root);
        }
    }
}

#[test]
fn no_rings() {
    let mut tables = four_roles();
    run(
        &mut tables,
        &[(join(12, 12, 12), 22), (join(12, 15, 15), 22)],
    );
    // The junior of the last tie comes round to each one above it.
    run(
        &mut tables,
        &[(join(12, 13, 14), 0), (join(12, 14, 13), 22)],
    );
    run(
        &mut tables,
        &[
            (join(12, 14, 15), 0),
            (join(12, 15, 14), 22),
            (join(12, 15, 13), 22),
        ],
    );
    run(
        &mut tables,
        &[
            (join(12, 15, 12), 0),
            (join(12, 12, 15), 22),
            (join(12, 12, 14), 22),
            (join(12, 12, 13), 22),
            (join(12, 12, 12), 22),
        ],
    );
    // Without a tie of the chain there is no ring; then the missing tie would close it.
    for (senior, junior) in CHAIN {
        let mut tables = tables.clone();
        run(
            &mut tables,
            &[
                (unjoin(12, senior, junior), 0),
                (join(12, 12, 13), 0),
                (join(12, senior, junior), 22),
                (unjoin(12, 12, 13), 0),
                (join(12, senior, junior), 0),
            ],
        );
    }
}

#[test]
fn the_very_tie() {
    run(
        &mut tied(&CHAIN),
        &[
            (join(12, 13, 14), 16),
            (join(12, 15, 12), 16),
            // Below by others already.
            (unjoin(12, 13, 15), 16),
            (unjoin(12, 13, 12), 16),
            (join(12, 13, 15), 0),
            (join(12, 13, 12), 0),
            (join(12, 14, 12), 0),
            (join(12, 13, 12), 16),
            (unjoin(12, 13, 12), 0),
            (unjoin(12, 13, 12), 16),
            // The other way round, and with itself.
            (unjoin(12, 14, 13), 16),
            (unjoin(12, 12, 15), 16),
            (unjoin(12, 13, 13), 16),
            (unjoin(12, 12, 12), 16),
            (unjoin(12, 13, 14), 0),
            (unjoin(12, 13, 14), 16),
        ],
    );
}

#[test]
fn unjoin_in_the_middle_of_a_chain() {
    let mut tables = tied(&CHAIN);
    let (root, inner) = (1 << 48, 1 << 49);
    run(
        &mut tables,
        &[
            (grant(12, 14, 49, 3), 0),
            // Seats of three levels: the first, the second, and the one behind the tie.
            (login(5, 0, 0, 0), 0),
            (take(5, 14), 0),
            (login(10, 0, 0, 0), 0),
            (take(10, 15), 0),
            (openr(13, 48), 0),
            (openw(13, 48), 0),
            (openr(13, 49), 0),
            (openw(13, 49), 0),
            (openr(5, 48), 0),
            (openr(5, 49), 0),
            (openr(10, 48), 0),
            (openr(10, 49), 0),
        ],
    );
    let acting = open(&tables, 12);
    for (request, answer) in [
        (unjoin(12, 15, 14), 16),
        (unjoin(13, 14, 15), 12),
        (unjoin(5, 14, 15), 10),
        (unjoin(0, 14, 15), 5),
        (unjoin(12, 14, 16), 2),
    ] {
        let before = all_open(&tables);
        run(&mut tables, &[(request, answer)]);
        assert_eq!(all_open(&tables), before);
    }
    run(&mut tables, &[(unjoin(12, 14, 15), 0)]);
    // What 14 has itself stays, though it is no longer reached.
    assert_eq!(open(&tables, 13), [inner, inner]);
    assert_eq!(open(&tables, 5), [inner, 0]);
    assert_eq!(open(&tables, 10), [root | inner, 0]);
    assert_eq!(open(&tables, 12), acting);
    run(&mut tables, &[(openr(13, 49), 13), (openr(5, 49), 13)]);
    // The tie brings the rights back and no open.
    run(&mut tables, &[(join(12, 14, 15), 0)]);
    assert_eq!(open(&tables, 13), [inner, inner]);
    assert_eq!(open(&tables, 5), [inner, 0]);
    run(
        &mut tables,
        &[
            (close(13, 48), 16),
            (close(5, 48), 16),
            (openr(5, 48), 0),
            (openr(13, 49), 16),
        ],
    );
}

#[test]
fn unjoin_ends_what_the_acting_seat_has() {
    // Seat 12 holds 13 beside the keeper, which has a right on the root no longer.
    let mut tables = tied(&[(13, 14)]);
    run(
        &mut tables,
        &[
            (take(12, 13), 0),
            (grant(12, 14, 48, 3), 0),
            (revoke(12, 12, 48, 3), 0),
            // It stays by the tie.
            (openw(12, 48), 16),
            (openr(12, 48), 0),
            (openr(12, 49), 0),
        ],
    );
    let (root, inner) = (1 << 48, 1 << 49);
    assert_eq!(open(&tables, 12), [root | inner, root | inner]);
    run(&mut tables, &[(unjoin(12, 13, 14), 0)]);
    assert_eq!(open(&tables, 12), [inner, inner]);
    run(&mut tables, &[(create(12, 51, OBJECT, 48, 9, 12), 13)]);
}

#[test]
fn each_open_by_its_own_tie() {
    // Read by 14 and write by 15.
    let mut tables = tied(&[(13, 14), (13, 15)]);
    run(
        &mut tables,
        &[
            (grant(12, 13, 48, 4), 0),
            (grant(12, 13, 49, 4), 0),
            (grant(12, 14, 50, 1), 0),
            (grant(12, 15, 50, 2), 0),
            (openr(13, 50), 0),
            (openw(13, 50), 0),
        ],
    );
    for (junior, left) in [(14, [0, 1 << 50]), (15, [1 << 50, 0])] {
        let mut tables = tables.clone();
        run(&mut tables, &[(unjoin(12, 13, junior), 0)]);
        assert_eq!(open(&tables, 13), left);
    }
}

#[test]
fn what_else_ends_opens_by_ties() {
    let mut tables = tied(&[(13, 14), (14, 15)]);
    run(
        &mut tables,
        &[
            (grant(12, 15, 48, 7), 0),
            (openr(13, 48), 0),
            (openw(13, 48), 0),
            (login(14, 0, 0, 0), 0),
            (take(14, 15), 0),
            (openr(14, 48), 0),
        ],
    );
    let root = 1 << 48;
    // A revoke from the last, for every seat that had the right by it.
    let mut revoked = tables.clone();
    run(&mut revoked, &[(revoke(12, 15, 48, 1), 0)]);
    assert_eq!(open(&revoked, 13), [0, root]);
    assert_eq!(open(&revoked, 14), [0, 0]);
    // Of a right that the senior has not itself nothing is taken away.
    for role in [13, 14] {
        let before = all_open(&tables);
        run(&mut tables, &[(revoke(12, role, 48, 3), 0)]);
        assert_eq!(all_open(&tables), before);
    }
    // And of one that both have it stays by the other.
    run(
        &mut tables,
        &[(grant(12, 14, 48, 1), 0), (revoke(12, 15, 48, 3), 0)],
    );
    assert_eq!(open(&tables, 13), [root, 0]);
    assert_eq!(open(&tables, 14), [0, 0]);
    run(&mut tables, &[(revoke(12, 14, 48, 1), 0)]);
    assert_eq!(open(&tables, 13), [0, 0]);
    // The senior is dropped.
    run(
        &mut tables,
        &[
            (grant(12, 15, 48, 3), 0),
            (openr(13, 48), 0),
            (openw(13, 48), 0),
        ],
    );
    run(&mut tables, &[(drop(13, 13), 0)]);
    assert_eq!(open(&tables, 13), [0, 0]);
    // One that holds the senior and the junior may drop either, not both.
    for (first, second) in [(13, 15), (15, 13)] {
        let mut tables = tables.clone();
        run(
            &mut tables,
            &[
                (take(13, 13), 0),
                (take(13, 15), 0),
                (openr(13, 48), 0),
                (drop(13, first), 0),
            ],
        );
        assert_eq!(open(&tables, 13), [root, 0]);
        run(&mut tables, &[(drop(13, second), 0)]);
        assert_eq!(open(&tables, 13), [0, 0]);
    }
}

#[test]
fn join_ends_nothing() {
    let mut tables = three_rights([3, 1, 2]);
    run(
        &mut tables,
        &[
            (openr(13, 50), 0),
            (openw(13, 50), 0),
            (openr(5, 50), 0),
            (openr(5, 48), 0),
        ],
    );
    let before = all_open(&tables);
    for (senior, junior) in [(13, 14), (12, 13), (14, 15), (13, 15)] {
        run(&mut tables, &[(join(12, senior, junior), 0)]);
        assert_eq!(all_open(&tables), before);
    }
}

/// "Holding a keeper means the keeper itself."
#[test]
fn a_senior_of_the_keeper() {
    for ties in [&[(13, 12)][..], &CHAIN] {
        let mut tables = tied(ties);
        opens(&mut tables, openw(13, 48), 13);
        let (senior, junior) = ties[0];
        run(
            &mut tables,
            &[
                (list(13, 14, 1), 12),
                (list(13, 12, 1), 12),
                (unlist(13, 14, 0), 12),
                (unlist(13, 12, 0), 12),
                (unmake(13, 15), 12),
                (unmake(13, 13), 12),
                (join(13, 13, 15), 12),
                (join(13, 13, 13), 12),
                (join(13, senior, junior), 12),
                (unjoin(13, senior, junior), 12),
                (unjoin(13, 14, 13), 12),
                // Not held, though its rights are had.
                (drop(13, 12), 16),
                (create(13, 51, OBJECT, 48, 9, 12), 12),
                (take(13, 12), 0),
                (list(13, 14, 1), 0),
                (unjoin(13, senior, junior), 0),
            ],
        );
    }
    let mut tables = four_roles();
    run(
        &mut tables,
        &[
            (unmake(12, 15), 0),
            (join(12, 13, 12), 0),
            (login(13, 0, 0, 0), 0),
            (take(13, 13), 0),
            (make(13, 15), 12),
        ],
    );
}

#[test]
fn lists_are_of_the_role_itself() {
    let mut tables = tied(&[(13, 14), (14, 15)]);
    // User 1 is listed for the middle one alone.
    run(
        &mut tables,
        &[
            (list(12, 14, 1), 0),
            (login(4, 1, 0, 0), 0),
            (take(4, 13), 12),
            (take(4, 15), 12),
            (take(4, 12), 12),
            (take(4, 14), 0),
            (drop(4, 13), 16),
            (drop(4, 15), 16),
            (drop(4, 14), 0),
        ],
    );
}

#[test]
fn the_role_told_is_the_held_one() {
    // The sheet is read and written by 12, which has the lowest number, and by 15.
    let mut tables = tied(&[(13, 12), (14, 15)]);
    run(
        &mut tables,
        &[
            (grant(12, 12, 50, 1), 0),
            (grant(12, 15, 50, 3), 0),
            (grant(12, 14, 48, 4), 0),
            (grant(12, 14, 49, 4), 0),
        ],
    );
    opens(&mut tables, openr(13, 50), 13);
    run(&mut tables, &[(openw(13, 50), 13), (close(13, 50), 0)]);
    // The lowest of those held, by whatever tie.
    run(&mut tables, &[(take(13, 14), 0)]);
    opens(&mut tables, openr(13, 50), 13);
    opens(&mut tables, openw(13, 50), 14);
    run(&mut tables, &[(close(13, 50), 0), (take(13, 15), 0)]);
    opens(&mut tables, openr(13, 50), 13);
    opens(&mut tables, openw(13, 50), 14);
    run(&mut tables, &[(close(13, 50), 0), (drop(13, 13), 0)]);
    opens(&mut tables, openr(13, 50), 14);
    run(&mut tables, &[(close(13, 50), 0), (unjoin(12, 14, 15), 0)]);
    opens(&mut tables, openr(13, 50), 15);
    run(&mut tables, &[(close(13, 50), 0), (join(12, 15, 12), 0)]);
    run(
        &mut tables,
        &[(revoke(12, 15, 50, 3), 0), (openw(13, 50), 13)],
    );
    opens(&mut tables, openr(13, 50), 15);
    run(&mut tables, &[(close(13, 50), 0), (take(13, 12), 0)]);
    opens(&mut tables, openr(13, 50), 12);
    // A tie and its end tell none.
    for request in [join(12, 14, 13), unjoin(12, 14, 13)] {
        assert_eq!(tables.step(&request), Answer::Plain(0));
    }
    assert_eq!(tables.step(&join(12, 13, 13)), Answer::Plain(22));
}

#[test]
fn unmake_of_what_is_tied() {
    let mut tables = tied(&[(13, 14), (12, 15), (15, 13)]);
    run(
        &mut tables,
        &[
            // In the middle, below one, and above one.
            (unmake(12, 13), 15),
            (unmake(12, 14), 15),
            (unmake(12, 15), 15),
            (unmake(12, 12), 6),
            // After 5, 7, 10 and 12.
            (unmake(0, 13), 5),
            (unmake(13, 13), 12),
            (login(11, 0, 0, 0), 0),
            (take(11, 12), 0),
            (unmake(11, 13), 10),
            (unjoin(12, 15, 13), 0),
            (unmake(12, 13), 15),
            (unmake(12, 14), 15),
            (unjoin(12, 13, 14), 0),
            (unmake(12, 13), 0),
            (unmake(12, 14), 0),
            (unmake(12, 13), 7),
            (unmake(12, 15), 15),
            (unjoin(12, 12, 15), 0),
            (unmake(12, 15), 0),
            (unmake(12, 12), 6),
        ],
    );
    assert!(tables.roles.iter().all(|role| role.juniors == 0));
    // Made again, a role has no ties.
    run(
        &mut tables,
        &[
            (join(12, 12, 13), 7),
            (make(12, 13), 0),
            (make(12, 14), 0),
            (unjoin(12, 13, 14), 16),
            (join(12, 14, 13), 0),
            (unmake(12, 14), 15),
            (unmake(12, 13), 15),
        ],
    );
}

#[test]
fn own_by_a_tie() {
    let mut tables = tied(&[(13, 14), (14, 15)]);
    run(
        &mut tables,
        &[
            (grant(12, 13, 48, 4), 0),
            (grant(12, 13, 49, 6), 0),
            (openw(13, 49), 0),
            (share(12, 49, 1), 0),
            (grant(13, 13, 50, 1), 13),
            (revoke(13, 12, 50, 1), 13),
            (share(13, 49, 0), 13),
            (rename(13, 50, 7), 13),
            (delete(13, 50), 13),
            (grant(12, 15, 50, 8), 0),
            (grant(13, 13, 50, 1), 0),
            (revoke(13, 13, 50, 1), 0),
            (rename(13, 50, 7), 0),
            (share(13, 49, 0), 13),
            (grant(12, 15, 49, 8), 0),
            (share(13, 49, 0), 0),
            (share(13, 49, 1), 0),
            // Below the named level it counts for nothing more.
            (login(8, 0, 0, 0), 0),
            (take(8, 13), 0),
            (share(8, 49, 0), 10),
            (grant(8, 13, 50, 1), 10),
            (unjoin(12, 14, 15), 0),
            (delete(13, 50), 13),
            (share(13, 49, 0), 13),
            (join(12, 14, 15), 0),
            (delete(13, 50), 0),
        ],
    );
}

#[test]
fn execute_by_a_tie() {
    // Execute on the root by 14 and on the container by 15, the rest by 13.
    let mut tables = tied(&[(13, 14), (14, 15)]);
    run(
        &mut tables,
        &[
            (grant(12, 13, 49, 2), 0),
            (grant(12, 13, 50, 3), 0),
            (openr(13, 50), 13),
            (grant(12, 14, 48, 4), 0),
            (openr(13, 50), 13),
            (openw(13, 49), 0),
            (create(13, 51, OBJECT, 49, 9, 13), 13),
            (rename(13, 50, 9), 13),
            (delete(13, 50), 13),
            (grant(12, 15, 49, 4), 0),
        ],
    );
    // Those that only reach are not told.
    opens(&mut tables, openr(13, 50), 13);
    opens(&mut tables, openw(13, 50), 13);
    run(
        &mut tables,
        &[
            (create(13, 51, OBJECT, 49, 9, 13), 0),
            (rename(13, 50, 8), 0),
            (unjoin(12, 14, 15), 0),
            // Open still, but out of reach.
            (openr(13, 50), 13),
            (rename(13, 50, 7), 13),
            (delete(13, 51), 13),
            (create(13, 52, OBJECT, 49, 7, 13), 13),
            (close(13, 50), 0),
            (openw(13, 50), 13),
            (join(12, 13, 15), 0),
            (openw(13, 50), 0),
            (delete(13, 51), 0),
        ],
    );
}

/// A tie of a higher level on entities below it, and ties at each level.
#[test]
fn ties_at_each_level() {
    for keeper in [0, 4, 8, 12] {
        let root = 4 * keeper;
        let [one, two] = [keeper + 1, keeper + 2];
        let mut tables = morning();
        run(
            &mut tables,
            &[(login(15, 0, 0, 0), 0), (take(15, keeper), 0)],
        );
        run(
            &mut tables,
            &[
                (make(15, one), 0),
                (make(15, two), 0),
                (list(15, one, 0), 0),
                (join(15, one, two), 0),
                (join(15, two, keeper), 0),
                (login(keeper, 0, 0, 0), 0),
                (take(keeper, one), 0),
            ],
        );
        opens(&mut tables, openw(keeper, root), one as u8);
        opens(&mut tables, openr(keeper, root), one as u8);
        run(
            &mut tables,
            &[(create(keeper, root + 1, OBJECT, root, 1, one), 0)],
        );
        // Of a level below, by a junior's right.
        if keeper > 0 {
            run(&mut tables, &[(take(15, 0), 0), (grant(15, two, 0, 3), 0)]);
            opens(&mut tables, openw(keeper, 0), one as u8);
            run(&mut tables, &[(unjoin(15, one, two), 0)]);
        } else {
            run(&mut tables, &[(unjoin(15, two, keeper), 0)]);
        }
        assert_eq!(open(&tables, keeper as usize), [0, 0]);
    }
    // Reading down (A.13).
    let mut tables = counter(2);
    run(
        &mut tables,
        &[
            (make(15, 13), 0),
            (make(15, 14), 0),
            (list(15, 13, 0), 0),
            (join(15, 13, 14), 0),
            (grant(15, 14, 0, 1), 0),
            (login(12, 0, 0, 0), 0),
            (take(12, 13), 0),
        ],
    );
    opens(&mut tables, openr(12, 0), 13);
    run(&mut tables, &[(unjoin(15, 13, 14), 0)]);
    assert_eq!(open(&tables, 12), [0, 0]);
}

/// The ties of a level's four roles as sixteen bits, four for each senior.
fn set_ties(tables: &mut Tables, keeper: usize, ties: u16) {
    for place in 0..4 {
        tables.roles[keeper + place].juniors = (ties >> (4 * place) & 0b1111) << keeper;
    }
}

/// Which place is below which, by all ways at once.
fn ways(ties: u16) -> [[bool; 4]; 4] {
    let mut ways = [[false; 4]; 4];
    for (senior, row) in ways.iter_mut().enumerate() {
        for (junior, way) in row.iter_mut().enumerate() {
            *way = ties >> (4 * senior + junior) & 1 != 0;
        }
    }
    for middle in 0..4 {
        for senior in 0..4 {
            for junior in 0..4 {
                ways[senior][junior] |= ways[senior][middle] && ways[middle][junior];
            }
        }
    }
    ways
}

/// All ties that four roles can have: sound where no role is below itself. There are
/// 543 ways to tie four roles so.
#[test]
fn every_way_to_tie_a_level() {
    let mut fresh = morning();
    run(&mut fresh, &[(login(15, 0, 0, 0), 0)]);
    for keeper in [0, 4, 8, 12] {
        run(&mut fresh, &[(take(15, keeper), 0)]);
        for role in keeper + 1..keeper + 4 {
            run(&mut fresh, &[(make(15, role), 0)]);
        }
    }
    for keeper in [0usize, 4, 8, 12] {
        let mut sound = 0;
        let mut tables = fresh.clone();
        for ties in 0..=u16::MAX {
            set_ties(&mut tables, keeper, ties);
            let ways = ways(ties);
            let in_order = (0..4).all(|place| !ways[place][place]);
            assert_eq!(tables.is_sound(), in_order, "{ties:#018b}");
            sound += usize::from(in_order);
            if !in_order || keeper != 8 {
                continue;
            }
            for (one, other) in (0..16).map(|pair| (pair / 4, pair % 4)) {
                let number = |place: usize| (keeper + place) as u32;
                let tied = ties >> (4 * one + other) & 1 != 0;
                let wanted = match (one == other || ways[other][one], tied) {
                    (true, _) => [22, 16],
                    (_, true) => [16, 0],
                    _ => [0, 16],
                };
                for (request, answer) in [join, unjoin].into_iter().zip(wanted) {
                    let mut after = tables.clone();
                    let request = request(15, number(one), number(other));
                    assert_eq!(after.act(&request), Answer::Plain(answer), "{request:?}");
                    let mut expected = tables.clone();
                    if answer == 0 {
                        set_ties(&mut expected, keeper, ties ^ 1 << (4 * one + other));
                    }
                    assert_eq!(after, expected);
                }
            }
        }
        assert_eq!(sound, 543);
    }
}

/// The rights of each role by each way to tie a level: its own and those of all below it.
#[test]
fn every_way_to_a_right() {
    let mut tables = four_roles();
    run(&mut tables, &[(login(13, 0, 0, 0), 0)]);
    for ties in 0..=u16::MAX {
        let ways = ways(ties);
        if (0..4).any(|place| ways[place][place]) {
            continue;
        }
        set_ties(&mut tables, 12, ties);
        for (held, having) in (0..16).map(|pair| (pair / 4, pair % 4)) {
            for place in 0..4 {
                tables.roles[12 + place].rights[48] = if place == having { READ } else { 0 };
            }
            // A seat whose opens do not matter here.
            tables.seats[12] = Seat::default();
            tables.seats[13].roles = 1 << (12 + held);
            tables.seats[13].reading = 0;
            assert!(tables.is_sound());
            let answer = if held == having || ways[held][having] {
                Answer::By(12 + held as u8)
            } else {
                Answer::Plain(13)
            };
            assert_eq!(
                tables.act(&openr(13, 48)),
                answer,
                "{ties:#018b} {held} {having}"
            );
        }
    }
}

#[test]
fn unsound_ties_give_1() {
    let changes: &[fn(&mut Tables)] = &[
        // To a role that is not live, of the level and of another.
        |t| t.roles[12].juniors |= 1 << 15,
        |t| t.roles[8].juniors = 1 << 9,
        |t| t.roles[0].juniors = 1 << 3,
        |t| t.roles[12].juniors |= 1 << 9,
        // Across levels, both live.
        |t| t.roles[12].juniors |= 1 << 8,
        |t| t.roles[13].juniors |= 1 << 4,
        |t| t.roles[4].juniors = 1 << 12,
        |t| t.roles[0].juniors = 1 << 14,
        // Of a role that is not live.
        |t| t.roles[15].juniors = 1 << 12,
        |t| t.roles[15].juniors = 1 << 15,
        |t| t.roles[1].juniors = 1,
        |t| t.roles[1].juniors = 1 << 2,
        // To itself.
        |t| t.roles[14].juniors = 1 << 14,
        |t| t.roles[12].juniors |= 1 << 12,
        |t| t.roles[0].juniors = 1,
        // Rings of two, three and four.
        |t| t.roles[13].juniors |= 1 << 12,
        |t| t.roles[14].juniors = 1 << 13,
        |t| t.roles[14].juniors = 1 << 12,
        |t| {
            t.roles[15].live = true;
            t.roles[14].juniors = 1 << 15;
            t.roles[15].juniors = 1 << 12;
        },
        // An open that rests on a tie which is gone, or on one the other way round.
        |t| t.roles[12].juniors = 0,
        |t| t.roles[13].juniors = 0,
        |t| {
            t.roles[13].juniors = 0;
            t.roles[14].juniors = 1 << 13;
        },
        |t| t.roles[14].rights[48] = WRITE | EXECUTE | OWN,
        |t| t.seats[13].roles = 1 << 8,
        |t| t.seats[13].writing = 1 << 48,
    ];
    // 12 above 13 above 14, by which seat 13 reads the root; 15 is not live.
    let mut tables = at_work();
    run(
        &mut tables,
        &[
            (make(12, 13), 0),
            (make(12, 14), 0),
            (join(12, 12, 13), 0),
            (join(12, 13, 14), 0),
            (grant(12, 14, 48, 1), 0),
            (login(13, 0, 0, 0), 0),
            (take(13, 12), 0),
            (take(13, 8), 0),
            (openr(13, 48), 0),
            (close(12, 48), 0),
            (revoke(12, 12, 48, 3), 0),
        ],
    );
    assert_eq!(open(&tables, 13), [1 << 48, 0]);
    for (place, change) in changes.iter().enumerate() {
        let mut changed = tables.clone();
        change(&mut changed);
        assert!(!changed.is_sound(), "change {place}");
        let before = changed.clone();
        for request in [
            logout(12),
            join(12, 12, 13),
            unjoin(12, 12, 13),
            join(16, 16, 16),
            of(19, 0),
        ] {
            assert_eq!(changed.step(&request), Answer::Plain(1), "change {place}");
        }
        assert_eq!(changed, before);
    }
    let allowed: &[fn(&mut Tables)] = &[
        |t| t.roles[12].juniors |= 1 << 14,
        |t| {
            t.roles[13].juniors = 0;
            t.roles[12].juniors |= 1 << 14;
        },
        // By the first itself.
        |t| {
            t.roles[12].rights[48] |= READ;
            t.roles[12].juniors = 0;
        },
        |t| t.seats[13].roles = 1 << 13,
        |t| t.seats[13].roles = 1 << 14,
        |t| {
            t.roles[15].live = true;
            t.roles[15].juniors = 0b111 << 12;
        },
        |t| {
            t.roles[1].live = true;
            t.roles[1].juniors = 1;
        },
    ];
    for (place, change) in allowed.iter().enumerate() {
        let mut changed = tables.clone();
        change(&mut changed);
        assert!(changed.is_sound(), "change {place}");
        assert_eq!(changed.step(&logout(12)), Answer::Plain(0));
    }
}
