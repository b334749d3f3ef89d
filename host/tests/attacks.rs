//! Attack and its results. Hex 12 of a 5 x 5 map is the target; 7, 8, 13, 17, 11, 6 lie around it.

mod common;
use common::*;
use host::rules::board::position::*;

/// E.S.C. infantry 0 (strength 4) on 7 attacks S.A.U. infantry 1 (strength 3) on 12; both supplied by ports.
fn duel(code: u8) -> Position {
    let mut position = combat(5, 5, ESC);
    stand(&mut position, ESC, INFANTRY, 7, 4);
    stand(&mut position, SAU, INFANTRY, 12, 3);
    position.map.hexes[7].flags = PORT;
    position.map.hexes[12].flags = PORT;
    all_results(&mut position, code);
    position
}

fn marks(position: &Position) -> Vec<u8> {
    position.units.iter().map(|unit| unit.marks).collect()
}

fn roles(position: &Position) -> Vec<u8> {
    position.units.iter().map(|unit| unit.role).collect()
}

fn hexes(position: &Position) -> Vec<u16> {
    position.units.iter().map(|unit| unit.hex).collect()
}

#[test]
fn d_gives_the_defenders_a_retreat() {
    for n in 1..=3 {
        let (answer, after) = rule(&duel(n), "attack 12 1 0");
        assert_eq!(answer, format!("fought 1 {n}"));
        assert_eq!(roles(&after), [MAY_ADVANCE, OWES]);
        assert_eq!(marks(&after), [TRIED | FOUGHT; 2]);
        assert_eq!((after.desk.stage, after.desk.owed_retreat, after.desk.need), (RETREATS, n, 0));
        assert_eq!(after.desk.routes, [[NONE; 4]; 6]);
    }
}

#[test]
fn a_gives_the_attackers_a_retreat() {
    for n in 1..=3 {
        let (answer, after) = rule(&duel(n + 3), "attack 12 1 0");
        assert_eq!(answer, format!("fought 1 {}", n + 3));
        assert_eq!(roles(&after), [OWES, MAY_ADVANCE]);
        assert_eq!((after.desk.stage, after.desk.owed_retreat), (RETREATS, n));
    }
}

#[test]
fn ae_destroys_the_attackers_and_writes_their_hexes() {
    let mut position = duel(7);
    stand(&mut position, ESC, INFANTRY, 13, 1);
    stand(&mut position, ESC, INFANTRY, 7, 1);
    stand(&mut position, ESC, INFANTRY, 13, 1);
    let (answer, after) = rule(&position, "attack 12 1 2 0 3");
    assert_eq!(answer, "fought 2 7");
    assert_eq!(hexes(&after), [NONE, 12, NONE, NONE, 13]);
    assert_eq!(marks(&after), [TRIED, TRIED | FOUGHT, TRIED, TRIED, 0]);
    assert_eq!(roles(&after), [0, MAY_ADVANCE, 0, 0, 0]);
    assert_eq!(after.desk.stage, ADVANCES);
    assert_eq!(after.desk.filled_routes(), [vec![13], vec![7]]);
}

#[test]
fn de_destroys_the_defenders_and_writes_the_target() {
    let (_, after) = rule(&duel(8), "attack 12 1 0");
    assert_eq!(hexes(&after), [7, NONE]);
    assert_eq!(roles(&after), [MAY_ADVANCE, 0]);
    assert_eq!((after.desk.stage, after.desk.need), (ADVANCES, 0));
    assert_eq!(after.desk.filled_routes(), [vec![12]]);
}

#[test]
fn dx_needs_the_printed_total_of_the_defenders() {
    let mut position = duel(9);
    position.map.hexes[12].flags = 0;
    position.chart.terrains[0].multiple = 4;
    stand(&mut position, SAU, SUPPLY_UNIT, 12, 6);
    let (_, after) = rule(&position, "attack 12 1 0");
    assert_eq!((after.desk.stage, after.desk.need), (LOSSES, 9));
    assert_eq!(roles(&after), [OWES, 0, 0]);
    assert_eq!(hexes(&after), [7, NONE, NONE]);
    assert_eq!(after.desk.filled_routes(), [vec![12]]);
}

#[test]
fn ax_needs_the_printed_total_of_the_attackers() {
    let mut position = duel(10);
    position.map.hexes[7].flags = 0;
    let (_, after) = rule(&position, "attack 12 1 0");
    assert_eq!((after.desk.stage, after.desk.need), (LOSSES, 4));
    assert_eq!(roles(&after), [0, OWES]);
    assert_eq!(hexes(&after), [NONE, 12]);
    assert_eq!(after.desk.filled_routes(), [vec![7]]);
}

#[test]
fn supply_units_among_the_victors_may_advance_by_role() {
    let mut position = duel(7);
    stand(&mut position, SAU, SUPPLY_UNIT, 12, 1);
    let (_, after) = rule(&position, "attack 12 1 0");
    assert_eq!(roles(&after), [0, MAY_ADVANCE, MAY_ADVANCE]);
}

#[test]
fn the_die_chooses_the_result() {
    let mut position = duel(1);
    position.results[0].codes = [1, 2, 3, 4, 5, 6];
    for die in 1..=6 {
        assert_eq!(answer(&position, &format!("attack 12 {die} 0")), format!("fought 1 {die}"));
    }
}

#[test]
fn strengths_out_of_supply_are_halved_unit_by_unit() {
    let mut position = duel(1);
    position.map.hexes[7].flags = 0;
    position.units[0].strength = 3;
    stand(&mut position, ESC, INFANTRY, 13, 3);
    position.units[1].strength = 2;
    // 2 + 2 against 2 is 2:1; halving the sum would give 3:2.
    assert_eq!(answer(&position, "attack 12 1 0 2"), "fought 2 1");
}

#[test]
fn defenders_out_of_supply_are_halved_too() {
    let mut position = duel(1);
    position.map.hexes[12].flags = 0;
    // 4 against 2 is 2:1.
    assert_eq!(answer(&position, "attack 12 1 0"), "fought 2 1");
}

#[test]
fn supply_units_defend_with_their_strength() {
    let mut position = duel(1);
    position.units[1].strength = 1;
    assert_eq!(answer(&position, "attack 12 1 0"), "fought 3 1");
    stand(&mut position, SAU, SUPPLY_UNIT, 12, 1);
    // 4 against 1 + 1 is 2:1.
    assert_eq!(answer(&position, "attack 12 1 0"), "fought 2 1");
}

#[test]
fn a_mixed_stack_may_be_half_in_supply() {
    let mut position = combat(5, 5, US);
    stand(&mut position, US, INFANTRY, 7, 4);
    stand(&mut position, CANADA, INFANTRY, 7, 4);
    stand(&mut position, SAU, INFANTRY, 12, 2);
    position.map.hexes[7].flags = SUPPLY;
    position.map.hexes[7].country = 1;
    position.map.hexes[12].flags = PORT;
    position.results = [1, 2, 3, 4].map(|a| Column { a, d: 1, codes: [1; 6] }).to_vec();
    // 4 + 2 against 2 is 3:1; both in supply it would be 4:1, both out 2:1.
    assert_eq!(answer(&position, "attack 12 1 0 1"), "fought 3 1");
}

#[test]
fn the_supplied_mark_plays_no_part_in_an_attack() {
    let mut position = duel(1);
    position.map.hexes[7].flags = 0;
    position.units[0].marks = SUPPLIED;
    position.units[1].strength = 1;
    // 4 halved is 2, against 1.
    assert_eq!(answer(&position, "attack 12 1 0"), "fought 2 1");
}

#[test]
fn below_every_column_the_first_is_taken() {
    let mut position = duel(1);
    position.results.remove(0);
    assert_eq!(answer(&position, "attack 12 1 0"), "fought 1 1");
}

#[test]
fn lengths_and_single_numbers_come_first() {
    let position = duel(1);
    assert_eq!(answer(&position, "attack 12 1"), "no 3 0");
    assert_eq!(answer(&position, "attack 25 1 99"), "no 3 0");
    assert_eq!(answer(&position, "attack 12 0 99"), "no 3 0");
    assert_eq!(answer(&position, "attack 12 7 99"), "no 3 0");
    assert_eq!(answer(&position, "attack 12 6 0 2"), "no 3 2");
    let nineteen = vec!["0"; 19].join(" ");
    assert_eq!(answer(&position, &format!("attack 12 1 {nineteen}")), "no 3 0");
    let eighteen = vec!["0"; 18].join(" ");
    assert_eq!(answer(&position, &format!("attack 12 1 {eighteen}")), "no 6 2");
}

#[test]
fn three_comes_before_two_and_two_before_twelve() {
    let mut position = duel(1);
    position.desk.phase = 0;
    assert_eq!(answer(&position, "attack 0 7 0"), "no 3 0");
    assert_eq!(answer(&position, "attack 0 6 0"), "no 2 0");
    position.desk.phase = 1;
    assert_eq!(answer(&position, "attack 0 6 0"), "no 12 0");
}

#[test]
fn a_target_holds_an_enemy_that_has_not_fought() {
    let mut position = duel(1);
    assert_eq!(answer(&position, "attack 7 1 0"), "no 12 0");
    stand(&mut position, SAU, INFANTRY, 12, 1);
    position.units[2].marks = FOUGHT;
    assert_eq!(answer(&position, "attack 12 1 1"), "no 12 0");
}

#[test]
fn attackers_are_mapped_and_phasing() {
    let mut position = duel(1);
    stand(&mut position, ESC, INFANTRY, NONE, 1);
    stand(&mut position, PAL, INFANTRY, 13, 1);
    assert_eq!(answer(&position, "attack 12 1 0 2"), "no 4 2");
    assert_eq!(answer(&position, "attack 12 1 3 0"), "no 4 1");
    assert_eq!(answer(&position, "attack 12 1 0 1"), "no 4 2");
}

#[test]
fn supply_units_and_units_that_fought_do_not_attack() {
    let mut position = duel(1);
    stand(&mut position, ESC, SUPPLY_UNIT, 7, 1);
    stand(&mut position, ESC, INFANTRY, 24, 1);
    position.units[3].marks = FOUGHT;
    assert_eq!(answer(&position, "attack 12 1 0 2"), "no 5 2");
    assert_eq!(answer(&position, "attack 12 1 3"), "no 5 1");
    position.units[3].marks = MOVED;
    assert_eq!(answer(&position, "attack 12 1 3"), "no 13 1");
}

#[test]
fn four_comes_before_five_for_each_attacker() {
    let mut position = duel(1);
    stand(&mut position, ESC, SUPPLY_UNIT, NONE, 1);
    stand(&mut position, PAL, INFANTRY, 13, 1);
    position.units[3].marks = FOUGHT;
    assert_eq!(answer(&position, "attack 12 1 2"), "no 4 1");
    assert_eq!(answer(&position, "attack 12 1 0 3"), "no 4 2");
}

#[test]
fn five_comes_before_six() {
    let mut position = duel(1);
    stand(&mut position, ESC, SUPPLY_UNIT, 7, 1);
    assert_eq!(answer(&position, "attack 12 1 2 2"), "no 5 1");
}

#[test]
fn the_target_is_asked_before_any_attacker() {
    let position = duel(1);
    assert_eq!(answer(&position, "attack 0 1 1 1"), "no 12 0");
}

#[test]
fn six_has_the_place_of_the_second_naming() {
    let mut position = duel(1);
    stand(&mut position, ESC, INFANTRY, 24, 1);
    assert_eq!(answer(&position, "attack 12 1 0 0"), "no 6 2");
    assert_eq!(answer(&position, "attack 12 1 0 2 0"), "no 13 2");
    assert_eq!(answer(&position, "attack 12 1 0 0 2"), "no 6 2");
}

#[test]
fn attackers_stand_beside_the_target_over_an_unblocked_side() {
    let mut position = duel(1);
    set_side(&mut position, 12, 0, BLOCKED);
    assert_eq!(answer(&position, "attack 12 1 0"), "no 13 1");
    set_side(&mut position, 12, 0, MAJOR_RIVER);
    assert_eq!(answer(&position, "attack 12 1 0"), "fought 1 1");
}

#[test]
fn eighteen_of_sixty_need_1080() {
    let mut position = combat(5, 5, ESC);
    for hex in [7, 8, 13, 17, 11, 6] {
        for _ in 0..3 {
            stand(&mut position, ESC, INFANTRY, hex, 60);
        }
    }
    stand(&mut position, US, MILITIA, 12, 1);
    all_results(&mut position, 10);
    let (answer, after) = rule(&position, "attack 12 6 17 16 15 14 13 12 11 10 9 8 7 6 5 4 3 2 1 0");
    assert_eq!(answer, "fought 3 10");
    assert_eq!((after.desk.stage, after.desk.need), (LOSSES, 1080));
    assert_eq!(after.desk.filled_routes(), [[6], [11], [17], [13], [8], [7]]);
}

#[test]
fn only_participants_are_marked() {
    let mut position = duel(1);
    stand(&mut position, ESC, INFANTRY, 7, 1);
    let (_, after) = rule(&position, "attack 12 1 0");
    assert_eq!(marks(&after)[2], 0);
    assert_eq!(roles(&after)[2], 0);
}
