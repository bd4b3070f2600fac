//! Payments and sheets, and their bytes: high byte first, fields in the order of the structs.

pub type Lock = [u8; 32];
pub type Key = [u8; 32];

/// The most ins, and the most outs, of a sheet.
pub const MOST: usize = 32;

/// A conditional payment: whoever is to get it needs the lock's key by the end tick.
#[derive(Clone, Copy, Debug, PartialEq, Eq)]
pub struct Payment {
    pub lock: [u8; 32],
    pub amount: u32,
    pub end: u32,
}

/// What is whose in an account, in one side's view: `ins` are payments to it, `outs` from it.
#[derive(Clone, Debug, PartialEq, Eq)]
pub struct Sheet {
    pub account: u8,
    pub number: u32,
    pub own: u32,
    /// The neighbour's own.
    pub theirs: u32,
    pub ins: Vec<Payment>,
    pub outs: Vec<Payment>,
}

impl Payment {
    /// The payment's 40 bytes.
    pub fn write(&self) -> Vec<u8> {
        [&self.lock[..], &self.amount.to_be_bytes(), &self.end.to_be_bytes()].concat()
    }

    /// The payment that `bytes` are, with nothing after it.
    pub fn read_whole(bytes: &[u8]) -> Option<Payment> {
        let rest = &mut &*bytes;
        let payment = Payment::read(rest)?;
        rest.is_empty().then_some(payment)
    }

    pub(crate) fn read(rest: &mut &[u8]) -> Option<Payment> {
        Some(Payment { lock: take(rest)?, amount: number(rest)?, end: number(rest)? })
    }
}

impl Sheet {
    /// The sheet's bytes. It has at most 32 ins and 32 outs.
    pub fn write(&self) -> Vec<u8> {
        let mut bytes = vec![self.account];
        bytes.extend(self.number.to_be_bytes());
        bytes.extend(self.own.to_be_bytes());
        bytes.extend(self.theirs.to_be_bytes());
        for payments in [&self.ins, &self.outs] {
            assert!(payments.len() <= MOST);
            bytes.push(payments.len() as u8);
            for payment in payments {
                bytes.extend(payment.write());
            }
        }
        bytes
    }

    /// The sheet that `bytes` begin with, and how many bytes it took.
    pub fn read(bytes: &[u8]) -> Option<(Sheet, usize)> {
        let rest = &mut &*bytes;
        let [account] = take(rest)?;
        let sheet = Sheet {
            account,
            number: number(rest)?,
            own: number(rest)?,
            theirs: number(rest)?,
            ins: payments(rest)?,
            outs: payments(rest)?,
        };
        Some((sheet, bytes.len() - rest.len()))
    }

    /// The sheet that `bytes` are, with nothing after it.
    pub fn read_whole(bytes: &[u8]) -> Option<Sheet> {
        let (sheet, used) = Sheet::read(bytes)?;
        (used == bytes.len()).then_some(sheet)
    }

    /// The same sheet in the neighbour's view.
    pub fn turned(&self) -> Sheet {
        Sheet {
            account: self.account,
            number: self.number,
            own: self.theirs,
            theirs: self.own,
            ins: self.outs.clone(),
            outs: self.ins.clone(),
        }
    }
}

fn payments(rest: &mut &[u8]) -> Option<Vec<Payment>> {
    let [count] = take(rest)?;
    if usize::from(count) > MOST {
        return None;
    }
    (0..count).map(|_| Payment::read(rest)).collect()
}

pub(crate) fn number(rest: &mut &[u8]) -> Option<u32> {
    take(rest).map(u32::from_be_bytes)
}

/// The first N bytes, which `rest` then no longer has.
pub(crate) fn take<const N: usize>(rest: &mut &[u8]) -> Option<[u8; N]> {
    let (first, after) = rest.split_first_chunk()?;
    *rest = after;
    Some(*first)
}

#[cfg(test)]
mod tests {
    use super::*;

    fn payment(lock: u8, amount: u32, end: u32) -> Payment {
        Payment { lock: [lock; 32], amount, end }
    }

    fn example() -> Sheet {
        Sheet {
            account: 3,
            number: 0x01020304,
            own: 0x05060708,
            theirs: 0x090a0b0c,
            ins: vec![payment(0xaa, 5, 300), payment(0xbb, 0xfffefdfc, 0)],
            outs: vec![payment(0xcc, 1, 0x80000001)],
        }
    }

    #[test]
    fn bytes_of_the_example() {
        let expected = [
            &[3, 1, 2, 3, 4, 5, 6, 7, 8, 9, 10, 11, 12][..],
            &[2],
            &[0xaa; 32],
            &[0, 0, 0, 5, 0, 0, 1, 44],
            &[0xbb; 32],
            &[0xff, 0xfe, 0xfd, 0xfc, 0, 0, 0, 0],
            &[1],
            &[0xcc; 32],
            &[0, 0, 0, 1, 0x80, 0, 0, 1],
        ]
        .concat();
        assert_eq!(example().write(), expected);
    }

    #[test]
    fn reads_what_was_written_and_leaves_what_follows() {
        let mut bytes = example().write();
        let length = bytes.len();
        assert_eq!(Sheet::read(&bytes), Some((example(), length)));
        assert_eq!(Sheet::read_whole(&bytes), Some(example()));
        bytes.extend([1, 2, 3]);
        assert_eq!(Sheet::read(&bytes), Some((example(), length)));
        assert_eq!(Sheet::read_whole(&bytes), None);
    }

    #[test]
    fn a_payment_has_40_bytes() {
        let payment = payment(0xaa, 5, 300);
        let bytes = payment.write();
        assert_eq!(bytes, [&[0xaa; 32][..], &[0, 0, 0, 5, 0, 0, 1, 44]].concat());
        assert_eq!(Payment::read_whole(&bytes), Some(payment));
        assert_eq!(Payment::read_whole(&bytes[..39]), None);
        assert_eq!(Payment::read_whole(&[&bytes[..], &[0]].concat()), None);
    }

    #[test]
    fn refuses_every_first_part() {
        let bytes = example().write();
        for length in 0..bytes.len() {
            assert_eq!(Sheet::read(&bytes[..length]), None, "{length} bytes");
        }
    }

    #[test]
    fn takes_32_and_refuses_33() {
        let full = Sheet {
            ins: vec![payment(1, 2, 3); MOST],
            outs: vec![payment(4, 5, 6); MOST],
            ..example()
        };
        let bytes = full.write();
        assert_eq!(bytes.len(), 15 + 64 * 40);
        assert_eq!(Sheet::read(&bytes), Some((full, bytes.len())));
        for count_at in [13, 14 + 32 * 40] {
            let mut bytes = bytes.clone();
            bytes[count_at] = 33;
            bytes.extend([0; 40]);
            assert_eq!(Sheet::read(&bytes), None);
        }
    }

    #[test]
    fn turned_changes_places() {
        let turned = example().turned();
        assert_eq!((turned.account, turned.number), (3, 0x01020304));
        assert_eq!((turned.own, turned.theirs), (0x090a0b0c, 0x05060708));
        assert_eq!((&turned.ins, &turned.outs), (&example().outs, &example().ins));
        assert_eq!(turned.turned(), example());
    }
}
