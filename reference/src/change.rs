//! The six changes that lead from the held sheet to the next.

use crate::refusal::Refusal;
use crate::sheet::{MOST, Payment, Sheet};

/// A change, in the view of the node that holds the sheet.
#[derive(Clone, Copy, Debug, PartialEq, Eq)]
pub enum Change {
    /// An in is added, out of the neighbour's own.
    Offered,
    /// An out is added, out of the node's own.
    PassingOn,
    /// An out is taken off, to the neighbour's own.
    Paying,
    /// An in is taken off, to the node's own.
    Getting,
    /// An out is taken off, back to the node's own.
    Returned,
    /// An in is taken off, back to the neighbour's own.
    GivingUp,
}

/// The next sheet, or the refusal with the lowest number.
/// What is taken off is the first payment with the lock of `payment`, whose amount and end don't matter then.
pub fn apply(held: &Sheet, change: Change, payment: &Payment) -> Result<Sheet, Refusal> {
    let mut next = held.clone();
    match change {
        Change::Offered => add(payment, &mut next.ins, &mut next.theirs)?,
        Change::PassingOn => add(payment, &mut next.outs, &mut next.own)?,
        Change::Paying => take_off(&payment.lock, &mut next.outs, &mut next.theirs)?,
        Change::Getting => take_off(&payment.lock, &mut next.ins, &mut next.own)?,
        Change::Returned => take_off(&payment.lock, &mut next.outs, &mut next.own)?,
        Change::GivingUp => take_off(&payment.lock, &mut next.ins, &mut next.theirs)?,
    }
    next.number = next.number.checked_add(1).ok_or(Refusal::TooLarge)?;
    Ok(next)
}

/// Puts `payment` first among `payments`, its amount out of `purse`.
fn add(payment: &Payment, payments: &mut Vec<Payment>, purse: &mut u32) -> Result<(), Refusal> {
    if payments.iter().any(|other| other.lock == payment.lock) {
        return Err(Refusal::LockUsed);
    }
    if payments.len() >= MOST {
        return Err(Refusal::NotCovered);
    }
    *purse = purse.checked_sub(payment.amount).ok_or(Refusal::NotCovered)?;
    payments.insert(0, *payment);
    Ok(())
}

/// Takes the payment with `lock` off `payments`, its amount to `purse`.
fn take_off(lock: &[u8; 32], payments: &mut Vec<Payment>, purse: &mut u32) -> Result<(), Refusal> {
    let place =
        payments.iter().position(|payment| payment.lock == *lock).ok_or(Refusal::Mismatch)?;
    let payment = payments.remove(place);
    *purse = purse.checked_add(payment.amount).ok_or(Refusal::TooLarge)?;
    Ok(())
}

/// Which change a neighbour may propose makes `proposed` out of `held`, and with which payment.
/// Both are in the node's view, the account too: the caller sets it to the node's own number for it.
/// Of an offer that theirs doesn't cover, the proposed theirs is not looked at; `apply` refuses it.
pub fn recognise(held: &Sheet, proposed: &Sheet) -> Option<(Change, Payment)> {
    if let Some(payment) = recognise_offer(held, proposed) {
        return Some((Change::Offered, payment));
    }
    let returned = first_other(&held.outs, &proposed.outs).map(|out| (Change::Returned, out));
    let getting = first_other(&held.ins, &proposed.ins).map(|payment| (Change::Getting, payment));
    let mut taken_off = returned.into_iter().chain(getting);
    taken_off.find(|(change, payment)| apply(held, *change, payment).as_ref() == Ok(proposed))
}

/// The payment with which `proposed` is an offer, which may still be refused for its lock or its amount.
fn recognise_offer(held: &Sheet, proposed: &Sheet) -> Option<Payment> {
    let (payment, others) = proposed.ins.split_first()?;
    let offer = Sheet {
        number: held.number.checked_add(1)?,
        theirs: held.theirs.checked_sub(payment.amount).unwrap_or(proposed.theirs),
        ins: proposed.ins.clone(),
        ..held.clone()
    };
    (*others == held.ins && offer == *proposed).then_some(*payment)
}

/// The first of `held` that isn't what `proposed` has at its place.
fn first_other(held: &[Payment], proposed: &[Payment]) -> Option<Payment> {
    let place = (0..held.len()).find(|place| proposed.get(*place) != held.get(*place))?;
    Some(held[place])
}

#[cfg(test)]
mod tests {
    use super::*;
    use crate::random::Random;

    const ALL: [Change; 6] = [
        Change::Offered,
        Change::PassingOn,
        Change::Paying,
        Change::Getting,
        Change::Returned,
        Change::GivingUp,
    ];

    fn payment(lock: u8, amount: u32) -> Payment {
        Payment { lock: [lock; 32], amount, end: 300 + amount }
    }

    /// Ins with locks 1, 2, 3 and outs with locks 2, 3, 4.
    fn held() -> Sheet {
        Sheet {
            account: 1,
            number: 7,
            own: 100,
            theirs: 200,
            ins: vec![payment(1, 11), payment(2, 12), payment(3, 13)],
            outs: vec![payment(2, 22), payment(3, 23), payment(4, 24)],
        }
    }

    /// The held sheet with the next number, other money and other payments.
    fn next(own: u32, theirs: u32, ins: &[Payment], outs: &[Payment]) -> Sheet {
        Sheet { account: 1, number: 8, own, theirs, ins: ins.to_vec(), outs: outs.to_vec() }
    }

    #[test]
    fn offered_comes_first_out_of_theirs() {
        let ins = [payment(4, 200), payment(1, 11), payment(2, 12), payment(3, 13)];
        let result = apply(&held(), Change::Offered, &payment(4, 200));
        assert_eq!(result, Ok(next(100, 0, &ins, &held().outs)));
    }

    #[test]
    fn passing_on_comes_first_out_of_own() {
        let outs = [payment(1, 100), payment(2, 22), payment(3, 23), payment(4, 24)];
        let result = apply(&held(), Change::PassingOn, &payment(1, 100));
        assert_eq!(result, Ok(next(0, 200, &held().ins, &outs)));
    }

    #[test]
    fn an_out_goes_to_theirs_or_back_to_own() {
        let outs = [payment(2, 22), payment(4, 24)];
        let paid = apply(&held(), Change::Paying, &payment(3, 99));
        assert_eq!(paid, Ok(next(100, 223, &held().ins, &outs)));
        let returned = apply(&held(), Change::Returned, &payment(3, 99));
        assert_eq!(returned, Ok(next(123, 200, &held().ins, &outs)));
    }

    #[test]
    fn an_in_goes_to_own_or_back_to_theirs() {
        let ins = [payment(1, 11), payment(3, 13)];
        let got = apply(&held(), Change::Getting, &payment(2, 99));
        assert_eq!(got, Ok(next(112, 200, &ins, &held().outs)));
        let given_up = apply(&held(), Change::GivingUp, &payment(2, 99));
        assert_eq!(given_up, Ok(next(100, 212, &ins, &held().outs)));
    }

    #[test]
    fn the_others_keep_their_order() {
        for place in 0..3 {
            let Sheet { mut ins, mut outs, .. } = held();
            let got = apply(&held(), Change::Getting, &ins.remove(place)).unwrap();
            assert_eq!(got.ins, ins);
            let paid = apply(&held(), Change::Paying, &outs.remove(place)).unwrap();
            assert_eq!(paid.outs, outs);
        }
    }

    #[test]
    fn refused_where_it_is_not_there() {
        let without = |change, lock| apply(&held(), change, &payment(lock, 1));
        assert_eq!(without(Change::Paying, 1), Err(Refusal::Mismatch));
        assert_eq!(without(Change::Returned, 1), Err(Refusal::Mismatch));
        assert_eq!(without(Change::Getting, 4), Err(Refusal::Mismatch));
        assert_eq!(without(Change::GivingUp, 4), Err(Refusal::Mismatch));
    }

    #[test]
    fn refused_where_the_lock_stands() {
        let with = |change, lock| apply(&held(), change, &payment(lock, 1));
        assert_eq!(with(Change::Offered, 2), Err(Refusal::LockUsed));
        assert_eq!(with(Change::PassingOn, 4), Err(Refusal::LockUsed));
        assert!(with(Change::Offered, 4).is_ok(), "it stands on the other side only");
        assert!(with(Change::PassingOn, 1).is_ok(), "it stands on the other side only");
    }

    #[test]
    fn refused_where_it_is_not_covered() {
        assert_eq!(apply(&held(), Change::Offered, &payment(9, 201)), Err(Refusal::NotCovered));
        assert_eq!(apply(&held(), Change::PassingOn, &payment(9, 101)), Err(Refusal::NotCovered));
    }

    #[test]
    fn refused_where_32_stand() {
        let mut full = held();
        full.ins = (100..132).map(|lock| payment(lock, 0)).collect();
        full.outs = full.ins.clone();
        assert_eq!(apply(&full, Change::Offered, &payment(9, 0)), Err(Refusal::NotCovered));
        assert_eq!(apply(&full, Change::PassingOn, &payment(9, 0)), Err(Refusal::NotCovered));
        full.ins.pop();
        full.outs.pop();
        assert_eq!(apply(&full, Change::Offered, &payment(9, 0)).unwrap().ins.len(), 32);
        assert_eq!(apply(&full, Change::PassingOn, &payment(9, 0)).unwrap().outs.len(), 32);
    }

    #[test]
    fn refused_where_the_number_would_pass_the_limit() {
        let last = Sheet { number: u32::MAX, ..held() };
        for (change, lock) in ALL.into_iter().zip([9, 9, 2, 2, 2, 2]) {
            assert_eq!(
                apply(&last, change, &payment(lock, 1)),
                Err(Refusal::TooLarge),
                "{change:?}"
            );
        }
    }

    #[test]
    fn refused_where_a_sum_would_pass_the_limit() {
        let rich = Sheet { own: u32::MAX - 13, theirs: u32::MAX - 13, ..held() };
        let with = |change, lock| apply(&rich, change, &payment(lock, 1));
        assert_eq!(with(Change::Paying, 3), Err(Refusal::TooLarge));
        assert_eq!(with(Change::Returned, 3), Err(Refusal::TooLarge));
        assert_eq!(with(Change::Getting, 3).unwrap().own, u32::MAX);
        assert_eq!(with(Change::GivingUp, 3).unwrap().theirs, u32::MAX);
    }

    #[test]
    fn the_lowest_number_is_given() {
        let last = Sheet { number: u32::MAX, ..held() };
        assert_eq!(apply(&last, Change::Paying, &payment(1, 1)), Err(Refusal::Mismatch));
        assert_eq!(apply(&last, Change::Offered, &payment(1, 201)), Err(Refusal::LockUsed));
        assert_eq!(apply(&last, Change::Offered, &payment(9, 201)), Err(Refusal::NotCovered));
    }

    /// What is recognised in the exact result of `change`.
    fn recognised(held: &Sheet, change: Change, payment: &Payment) -> Option<(Change, Payment)> {
        recognise(held, &apply(held, change, payment).unwrap())
    }

    #[test]
    fn a_neighbours_changes_are_recognised() {
        let offered = payment(4, 200);
        let expected = Some((Change::Offered, offered));
        assert_eq!(recognised(&held(), Change::Offered, &offered), expected);
        for out in held().outs {
            let expected = Some((Change::Returned, out));
            assert_eq!(recognised(&held(), Change::Returned, &out), expected);
        }
        for payment in held().ins {
            let expected = Some((Change::Getting, payment));
            assert_eq!(recognised(&held(), Change::Getting, &payment), expected);
        }
    }

    #[test]
    fn not_with_another_account() {
        for (change, lock) in [(Change::Offered, 9), (Change::Returned, 3), (Change::Getting, 3)] {
            let proposed = apply(&held(), change, &payment(lock, 1)).unwrap();
            assert!(recognise(&held(), &proposed).is_some(), "{change:?}");
            let elsewhere = Sheet { account: 5, ..proposed };
            assert_eq!(recognise(&held(), &elsewhere), None, "{change:?}");
        }
    }

    #[test]
    fn an_offer_that_is_not_covered_is_one_with_any_theirs() {
        for (lock, refusal) in [(9, Refusal::NotCovered), (2, Refusal::LockUsed)] {
            let offered = payment(lock, 201);
            let ins = [&[offered][..], &held().ins].concat();
            for theirs in [0, 1, 199, 200, 201, u32::MAX] {
                let proposed = next(100, theirs, &ins, &held().outs);
                let (change, payment) = recognise(&held(), &proposed).unwrap();
                assert_eq!((change, payment), (Change::Offered, offered));
                assert_eq!(apply(&held(), change, &payment), Err(refusal));
                for other in [
                    Sheet { account: 0, ..proposed.clone() },
                    Sheet { number: 7, ..proposed.clone() },
                    Sheet { number: 9, ..proposed.clone() },
                    Sheet { own: 99, ..proposed.clone() },
                    Sheet { outs: Vec::new(), ..proposed.clone() },
                    Sheet { ins: vec![offered], ..proposed.clone() },
                ] {
                    assert_eq!(recognise(&held(), &other), None, "{other:?}");
                }
            }
        }
    }

    #[test]
    fn an_offer_whose_lock_stands_is_one_with_the_right_theirs() {
        let offered = payment(2, 50);
        let ins = [&[offered][..], &held().ins].concat();
        let proposed = next(100, 150, &ins, &held().outs);
        assert_eq!(recognise(&held(), &proposed), Some((Change::Offered, offered)));
        assert_eq!(apply(&held(), Change::Offered, &offered), Err(Refusal::LockUsed));
        for theirs in [0, 149, 151, 200] {
            assert_eq!(recognise(&held(), &Sheet { theirs, ..proposed.clone() }), None);
        }
    }

    #[test]
    fn at_the_limit_nothing_is_recognised() {
        let last = Sheet { number: u32::MAX, ..held() };
        for number in [0, u32::MAX] {
            for (change, lock) in
                [(Change::Offered, 9), (Change::Returned, 3), (Change::Getting, 3)]
            {
                let proposed = apply(&held(), change, &payment(lock, 1)).unwrap();
                assert_eq!(recognise(&last, &Sheet { number, ..proposed }), None, "{change:?}");
            }
            let ins = [&[payment(9, 201)][..], &held().ins].concat();
            let proposed = Sheet { number, ..next(100, 0, &ins, &held().outs) };
            assert_eq!(recognise(&last, &proposed), None);
        }
    }

    #[test]
    fn what_was_taken_off_is_the_first_with_its_lock() {
        let twice = [payment(2, 22), payment(2, 23), payment(2, 23)];
        let held = Sheet { ins: Vec::new(), outs: twice.to_vec(), ..held() };
        let first = recognised(&held, Change::Returned, &twice[0]);
        assert_eq!(first, Some((Change::Returned, twice[0])));
        let second = next(123, 200, &[], &[twice[0], twice[2]]);
        assert_eq!(recognise(&held, &second), None);
        let same = Sheet { outs: vec![twice[1]; 3], ..held };
        let taken = recognised(&same, Change::Returned, &twice[1]);
        assert_eq!(taken, Some((Change::Returned, twice[1])));
    }

    #[test]
    fn with_an_amount_of_0_paying_is_as_returned_and_giving_up_as_getting() {
        let nothing = payment(3, 0);
        let held = Sheet { ins: vec![nothing], outs: vec![nothing], ..held() };
        let paid = recognised(&held, Change::Paying, &nothing);
        assert_eq!(paid, Some((Change::Returned, nothing)));
        let given_up = recognised(&held, Change::GivingUp, &nothing);
        assert_eq!(given_up, Some((Change::Getting, nothing)));
        assert_eq!(recognised(&held, Change::PassingOn, &payment(4, 0)), None);
    }

    #[test]
    fn the_nodes_own_changes_are_not() {
        for (change, lock) in [(Change::PassingOn, 9), (Change::Paying, 3), (Change::GivingUp, 3)] {
            assert_eq!(recognised(&held(), change, &payment(lock, 1)), None, "{change:?}");
        }
    }

    #[test]
    fn nothing_near_a_change_is_recognised() {
        assert_eq!(recognise(&held(), &held()), None);
        let offered = apply(&held(), Change::Offered, &payment(9, 5)).unwrap();
        let mut swapped = offered.clone();
        swapped.ins.swap(0, 1);
        let mut other_amount = offered.clone();
        other_amount.ins[0].amount += 1;
        let mut other_end = offered.clone();
        other_end.ins[1].end += 1;
        let mut at_the_end = offered.clone();
        at_the_end.ins.rotate_left(1);
        let near = [
            Sheet { number: 9, ..offered.clone() },
            Sheet { own: 101, ..offered.clone() },
            Sheet { theirs: 194, ..offered.clone() },
            Sheet { outs: Vec::new(), ..offered.clone() },
            swapped,
            other_amount,
            other_end,
            at_the_end,
        ];
        for proposed in near {
            assert_eq!(recognise(&held(), &proposed), None, "{proposed:?}");
        }
    }

    #[test]
    fn money_stays_over_random_changes() {
        let total = |sheet: &Sheet| {
            let payments = sheet.ins.iter().chain(&sheet.outs).map(|payment| payment.amount);
            sheet.own + sheet.theirs + payments.sum::<u32>()
        };
        let mut random = Random::from_seed(1);
        let mut sheet = held();
        let mut taken = 0;
        for _ in 0..10_000 {
            let change = ALL[random.below(6)];
            let payment = payment(random.below(80) as u8, random.below(20) as u32);
            if let Ok(next) = apply(&sheet, change, &payment) {
                assert_eq!(total(&next), total(&held()));
                assert_eq!(next.number, sheet.number + 1);
                sheet = next;
                taken += 1;
            }
        }
        assert!(taken > 1000, "only {taken} changes were taken");
    }
}
