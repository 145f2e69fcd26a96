//! Document 01, "Cases": P1 to P9 and the "Run" cases, and the refusals.

use second::{
    admission, comparison, listing, run, slot, string, Admitted, Refusal, RunAnswer, Winner, MINUS,
    PLUS, ZERO,
};

const PAPER: ([u32; 4], [u32; 4]) = ([1, 2, 5, 8], [3, 4, 7, 11]);

fn admitted(units: u32, l: u32, spare: Option<(u32, u32)>) -> Result<Admitted, Refusal> {
    Ok(Admitted { units, l, spare })
}

/// The places with a 1 in the log, one list a slot.
fn places(log: &[u8], n: usize) -> Vec<Vec<usize>> {
    log.chunks(n)
        .map(|bytes| (0..n).filter(|&place| bytes[place] == 1).collect())
        .collect()
}

/// The chosen places of a run from time 0 that is done to its end.
fn run_from_zero(es: &[u32], ps: &[u32], m: u32, slots: u32) -> Vec<Vec<usize>> {
    let mut ks = vec![0; es.len()];
    let mut log = vec![9; slots as usize * es.len()];
    let answer = run(slots, es, ps, &mut ks, &mut log, m, 0);
    assert_eq!(
        answer,
        RunAnswer {
            done: slots,
            refusal: None
        }
    );
    places(&log, es.len())
}

/// A slot that is refused, with a check that the lent lists are as before.
fn refused_slot(es: &[u32], ps: &[u32], ks: &[u32], m: u32, t: u32) -> Refusal {
    let mut counts = ks.to_vec();
    let mut bytes = vec![9; es.len()];
    let refusal = slot(es, ps, &mut counts, &mut bytes, m, t).unwrap_err();
    assert_eq!(counts, ks);
    assert_eq!(bytes, vec![9; es.len()]);
    refusal
}

#[test]
fn p1_six_slots_and_a_tie() {
    let (es, ps) = ([1, 1], [2, 3]);
    assert_eq!(admission(&es, &ps, 1), admitted(1, 6, Some((1, 6))));
    let chosen = run_from_zero(&es, &ps, 1, 6);
    assert_eq!(
        chosen,
        [vec![0], vec![1], vec![0], vec![1], vec![0], vec![]]
    );
    // "At time 3 task 1 and the spare tie."
    assert_eq!(string(1, 3, 3), [MINUS, ZERO]);
    assert_eq!(string(1, 6, 3), [MINUS, ZERO]);
    assert_eq!(comparison(1, 3, 1, 6, 3), Ok(Winner::Tie));
}

#[test]
fn p2_the_papers_set() {
    let (es, ps) = PAPER;
    assert_eq!(admission(&es, &ps, 3), admitted(3, 924, Some((335, 462))));
}

#[test]
fn p3_the_papers_first_slots() {
    let (es, ps) = PAPER;
    let chosen = run_from_zero(&es, &ps, 3, 3);
    assert_eq!(chosen, [vec![2, 3], vec![1, 3], vec![0, 1, 2]]);
}

#[test]
fn p4_no_spare() {
    assert_eq!(admission(&[1, 1], &[2, 2], 1), admitted(1, 2, None));
}

#[test]
fn p5_excess() {
    let (es, ps) = ([2, 2], [3, 3]);
    assert_eq!(admission(&es, &ps, 1), Err(Refusal::Load { excess: 1 }));
    assert_eq!(admission(&es, &ps, 2), admitted(2, 3, Some((2, 3))));
}

#[test]
fn p6_no_choice() {
    let (es, ps) = ([2, 2, 1, 1], [5, 5, 10, 10]);
    assert_eq!(refused_slot(&es, &ps, &[0, 0, 1, 1], 1, 2), Refusal::Choice);
}

#[test]
fn p7_counts() {
    let (es, ps) = ([1, 1], [2, 3]);
    assert_eq!(
        refused_slot(&es, &ps, &[0, 1], 1, 2),
        Refusal::Counts { place: 0 }
    );
    let mut ks = [1, 0];
    assert_eq!(slot(&es, &ps, &mut ks, &mut [9, 9], 1, 2), Ok(()));
}

#[test]
fn p8_strings() {
    assert_eq!(string(1, 2, 1), [MINUS, ZERO]);
    assert_eq!(string(1, 3, 1), [ZERO]);
    assert_eq!(comparison(1, 2, 1, 3, 1), Ok(Winner::Second));
    assert_eq!(comparison(1, 3, 1, 2, 1), Ok(Winner::First));
    const { assert!(MINUS < ZERO && ZERO < PLUS) }
}

#[test]
fn p9_one_task() {
    assert_eq!(admission(&[2], &[2], 1), Err(Refusal::Limits { place: 0 }));
    assert_eq!(admission(&[1], &[2], 1), admitted(1, 2, Some((1, 2))));
}

#[test]
fn run_case_long_periods() {
    let spare = 1_048_560 - 16 - 65_535;
    let answer = admission(&[1, 1], &[65_535, 16], 1).unwrap();
    assert_eq!((answer.units, answer.l), (1, 1_048_560));
    let (e, p) = answer.spare.unwrap();
    assert_eq!(u64::from(e) * 1_048_560, spare * u64::from(p));
    assert_eq!(second::gcd(e.into(), p.into()), 1);
    assert_eq!(admission(&[1, 1], &[65_535, 32], 1), Err(Refusal::Multiple));
}

#[test]
fn run_case_tasks_and_units() {
    let tasks = |n: usize, m| admission(&vec![1; n], &vec![64; n], m);
    assert_eq!(tasks(64, 1), admitted(1, 64, None));
    assert_eq!(tasks(65, 2), Err(Refusal::Tasks));
    assert_eq!(tasks(0, 1), Err(Refusal::Tasks));
    assert_eq!(tasks(64, 32), admitted(1, 64, None));
    assert_eq!(tasks(64, 33), Err(Refusal::Units));
    assert_eq!(tasks(64, 0), Err(Refusal::Units));
}

#[test]
fn run_case_most_units_in_use() {
    let (es, ps) = (vec![1; 64], vec![2; 64]);
    assert_eq!(admission(&es, &ps, 32), admitted(32, 2, None));
    assert_eq!(admission(&es, &ps, 31), Err(Refusal::Load { excess: 2 }));
    let chosen = run_from_zero(&es, &ps, 32, 2);
    let low: Vec<usize> = (0..32).collect();
    let high: Vec<usize> = (32..64).collect();
    assert_eq!(chosen, [low, high]);
}

#[test]
fn run_case_time() {
    let (es, ps) = ([1, 1], [2, 2]);
    let mut ks = [8_388_608, 8_388_607];
    let mut bytes = [9, 9];
    assert_eq!(slot(&es, &ps, &mut ks, &mut bytes, 1, 16_777_215), Ok(()));
    assert_eq!((ks, bytes), ([8_388_608, 8_388_608], [0, 1]));
    assert_eq!(refused_slot(&es, &ps, &ks, 1, 16_777_216), Refusal::Time);
    let mut list = [9, 9];
    assert_eq!(
        listing(&es, &ps, &ks, &mut list, 1, 16_777_216),
        Err(Refusal::Time)
    );
    assert_eq!(list, [9, 9]);
    assert_eq!(comparison(1, 2, 1, 3, 16_777_216), Err(Refusal::Time));
    assert!(comparison(1, 2, 1, 3, 16_777_215).is_ok());
}

#[test]
fn run_case_papers_slots_11_and_14() {
    let (es, ps) = PAPER;
    let chosen = run_from_zero(&es, &ps, 3, 15);
    assert_eq!(chosen[11], [1, 3]);
    assert_eq!(chosen[14], [2, 3]);
}

#[test]
fn a_run_stops_at_its_first_refusal() {
    let mut ks = [8_388_607, 8_388_607];
    let mut log = [9; 8];
    let answer = run(4, &[1, 1], &[2, 2], &mut ks, &mut log, 1, 16_777_214);
    assert_eq!(
        answer,
        RunAnswer {
            done: 2,
            refusal: Some(Refusal::Time)
        }
    );
    assert_eq!(ks, [8_388_608, 8_388_608]);
    assert_eq!(log, [1, 0, 0, 1, 9, 9, 9, 9]);
}

#[test]
fn a_run_checks_10_then_1_then_slot_by_slot() {
    let refusal = |slots, ps: &[u32], log: usize, m| {
        let mut ks = [0];
        let mut bytes = vec![9; log];
        let answer = run(slots, &[1], ps, &mut ks, &mut bytes, m, 0);
        assert_eq!((answer.done, ks), (0, [0]));
        assert_eq!(bytes, vec![9; log]);
        answer.refusal
    };
    assert_eq!(refusal(1_025, &[], 0, 0), Some(Refusal::Slots));
    assert_eq!(refusal(1_024, &[], 1_024, 0), Some(Refusal::Lengths));
    assert_eq!(refusal(1_024, &[2], 1_023, 0), Some(Refusal::Lengths));
    assert_eq!(refusal(1_024, &[2], 1_025, 0), Some(Refusal::Lengths));
    assert_eq!(refusal(1_024, &[2], 1_024, 0), Some(Refusal::Units));
    assert_eq!(refusal(u32::MAX, &[2], 0, 1), Some(Refusal::Slots));
}

#[test]
fn a_run_of_no_slots_checks_10_and_1_only() {
    let done = RunAnswer {
        done: 0,
        refusal: None,
    };
    assert_eq!(run(0, &[], &[], &mut [], &mut [], 0, u32::MAX), done);
    assert_eq!(run(0, &[5], &[1], &mut [7], &mut [], 99, u32::MAX), done);
    let answer = run(0, &[1], &[2], &mut [0], &mut [9], 1, 0);
    assert_eq!(answer.refusal, Some(Refusal::Lengths));
}

#[test]
fn a_run_of_no_tasks_is_refused_in_its_first_slot() {
    let answer = run(3, &[], &[], &mut [], &mut [], 1, 0);
    assert_eq!(
        answer,
        RunAnswer {
            done: 0,
            refusal: Some(Refusal::Tasks)
        }
    );
}

#[test]
fn a_run_equals_that_many_single_slots() {
    let sets: [(&[u32], &[u32], u32); 5] = [
        (&PAPER.0, &PAPER.1, 3),
        (&[1, 1], &[2, 3], 2),
        (&[2, 2, 3], &[3, 4, 5], 3),
        (&[1, 64, 6], &[65, 65, 13], 2),
        (&[1, 1, 1, 1], &[2, 2, 4, 8], 2),
    ];
    for (es, ps, m) in sets {
        let n = es.len();
        let (mut ks, mut log) = (vec![0; n], vec![9; 300 * n]);
        let answer = run(300, es, ps, &mut ks, &mut log, m, 0);
        assert_eq!(
            answer,
            RunAnswer {
                done: 300,
                refusal: None
            }
        );
        let mut single = vec![0; n];
        for t in 0..300 {
            let mut bytes = vec![9; n];
            assert_eq!(slot(es, ps, &mut single, &mut bytes, m, t), Ok(()));
            assert_eq!(bytes, log[t as usize * n..][..n]);
        }
        assert_eq!(single, ks);
    }
}

#[test]
fn longest_runs_end() {
    let chosen = run_from_zero(&[1, 1], &[65_535, 16], 1, 1_024);
    assert_eq!(chosen.iter().filter(|slot| slot.contains(&1)).count(), 64);
    let (es, ps) = (vec![1; 64], vec![65_535; 64]);
    assert_eq!(run_from_zero(&es, &ps, 1, 1_024).len(), 1_024);
}

#[test]
fn every_lent_list_counts_for_refusal_1() {
    let (a, b) = ([1, 1], [2, 3]);
    assert_eq!(admission(&a, &b[..1], 1), Err(Refusal::Lengths));
    assert_eq!(admission(&a[..1], &b, 1), Err(Refusal::Lengths));
    for (e, p, k, s) in [
        (1, 2, 2, 2),
        (2, 1, 2, 2),
        (2, 2, 1, 2),
        (2, 2, 2, 1),
        (0, 0, 0, 1),
    ] {
        let (mut ks, mut bytes) = ([0, 0], [9, 9]);
        let answer = slot(&a[..e], &b[..p], &mut ks[..k], &mut bytes[..s], 0, 0);
        assert_eq!(answer, Err(Refusal::Lengths));
        let answer = listing(&a[..e], &b[..p], &ks[..k], &mut bytes[..s], 0, 0);
        assert_eq!(answer, Err(Refusal::Lengths));
        assert_eq!((ks, bytes), ([0, 0], [9, 9]));
    }
}

#[test]
fn refusal_4_gives_the_lowest_place() {
    let outside = [
        (0, 2),
        (2, 2),
        (3, 2),
        (1, 1),
        (0, 0),
        (0, 1),
        (1, 65_536),
        (1, u32::MAX),
    ];
    for (e, p) in outside {
        let answer = admission(&[1, e, e], &[2, p, p], 1);
        assert_eq!(answer, Err(Refusal::Limits { place: 1 }));
        assert_eq!(
            comparison(e, p, e, p, u32::MAX),
            Err(Refusal::Limits { place: 0 })
        );
        assert_eq!(
            comparison(1, 2, e, p, u32::MAX),
            Err(Refusal::Limits { place: 1 })
        );
    }
    let answer = admission(&[1, u32::MAX], &[2, u32::MAX], 1);
    assert_eq!(answer, Err(Refusal::Limits { place: 1 }));
    assert_eq!(
        admission(&[65_534], &[65_535], 1),
        admitted(1, 65_535, Some((1, 65_535)))
    );
}

#[test]
fn refusal_5_stands_for_any_number_of_coprime_periods() {
    let ps: Vec<u32> = (0..64).map(|i| 65_535 - i).collect();
    assert_eq!(admission(&[1; 64], &ps, 1), Err(Refusal::Multiple));
    // 4 comes before 5.
    let mut bad = ps.clone();
    bad[63] = 1;
    assert_eq!(
        admission(&[1; 64], &bad, 1),
        Err(Refusal::Limits { place: 63 })
    );
    // 1,048,575 = 1,023 * 1,025 is within, 1,048,577 = 17 * 61,681 is above.
    // (1,048,576 itself is a power of two, so no periods give it.)
    assert_eq!(admission(&[1, 1], &[1_023, 1_025], 1).unwrap().l, 1_048_575);
    assert_eq!(admission(&[1, 1], &[17, 61_681], 1), Err(Refusal::Multiple));
    // Comparison uses 4 and 7 only.
    assert!(comparison(1, 65_535, 1, 65_534, 0).is_ok());
}

#[test]
fn refusal_8_for_the_spare_and_for_the_sum() {
    // 1/6 and 1/6 with the spare 2/3: at time 1 the spare has 2 - 3k.
    let (es, ps) = ([1, 1], [6, 6]);
    let spare = Refusal::Counts { place: 2 };
    assert_eq!(refused_slot(&es, &ps, &[1, 1], 1, 1), spare);
    assert_eq!(refused_slot(&es, &ps, &[0, 0], 1, 4), spare);
    // 1/2 and 1/2 without a spare: each count fits, their sum does not.
    let (es, ps) = ([1, 1], [2, 2]);
    let sum = Refusal::Counts { place: 2 };
    assert_eq!(refused_slot(&es, &ps, &[0, 0], 1, 1), sum);
    assert_eq!(refused_slot(&es, &ps, &[1, 1], 1, 1), sum);
    assert_eq!(
        refused_slot(&es, &ps, &[u32::MAX; 2], 1, 1),
        Refusal::Counts { place: 0 }
    );
    let mut bytes = [9, 9];
    assert_eq!(listing(&es, &ps, &[1, 1], &mut bytes, 1, 1), Err(sum));
    assert_eq!(bytes, [9, 9]);
}

#[test]
fn refusal_9_is_not_used_by_the_listing() {
    let (es, ps) = ([2, 2, 1, 1], [5, 5, 10, 10]);
    let mut bytes = [9; 4];
    assert_eq!(listing(&es, &ps, &[0, 0, 1, 1], &mut bytes, 1, 2), Ok(()));
    assert_eq!(bytes, [0x4C, 0x4C, 0x41, 0x41]);
}

#[test]
fn listing_of_all_standings() {
    let mut bytes = [9, 9, 9];
    let answer = listing(&[1, 1, 1], &[2, 4, 4], &[1, 1, 0], &mut bytes, 1, 2);
    assert_eq!((answer, bytes), (Ok(()), [0x50, 0x41, 0x4C]));
}

#[test]
fn numbers_and_carried_values() {
    let rows = [
        (Refusal::Lengths, 1, 0),
        (Refusal::Tasks, 2, 0),
        (Refusal::Units, 3, 0),
        (Refusal::Limits { place: 5 }, 4, 5),
        (Refusal::Multiple, 5, 0),
        (Refusal::Load { excess: 7 }, 6, 7),
        (Refusal::Time, 7, 0),
        (Refusal::Counts { place: 64 }, 8, 64),
        (Refusal::Choice, 9, 0),
        (Refusal::Slots, 10, 0),
        (Refusal::Malformed, 11, 0),
    ];
    for (refusal, number, carried) in rows {
        assert_eq!((refusal.number(), refusal.carried()), (number, carried));
    }
}
