//! Every end, every bound and one beyond, every byte changed: what the three functions refuse, and what they leave then.

use cases::{alterations, draw, eight_and_nine, longest, number, served_b, sheet_b, Kind, Random, Sheet, Slip, FORBIDDEN, KINDS, MANDATORY};
use tests::{Call, Desk, REFUSED};
use ways::{SLIP_BYTES, WORK_BYTES};

const ANY_SLIP: [u8; 3] = [1, 0, 0];

fn try_all(desk: &mut Desk, bytes: &[u8]) -> u32 {
    desk.reason(bytes, 2);
    desk.check(bytes, &ANY_SLIP);
    desk.call(Call::Pass(SLIP_BYTES), bytes, WORK_BYTES) / REFUSED
}

/// B and the longest sheet, both in both forms.
fn in_both_forms() -> [Sheet; 4] {
    [sheet_b(), served_b(), longest(), longest().with_services(&[])]
}

/// A good sheet of a kind, in the new form.
fn draw_served(kind: Kind, random: &mut Random) -> Sheet {
    loop {
        let sheet = draw(kind, random);
        if sheet.is_new_form() && reference::Sheet::read(&sheet.bytes()).is_ok() {
            return sheet;
        }
    }
}

#[test]
fn cut_off_at_every_byte() {
    let mut desk = Desk::new(1);
    let mut random = Random::new(1);
    assert_eq!(in_both_forms().map(|sheet| sheet.bytes().len()), [29, 34, 3_273, 3_144]);
    let served = KINDS.map(|kind| draw_served(kind, &mut random));
    let drawn = [Kind::Full, Kind::Parallel, Kind::Tiny].map(|kind| draw_served(kind, &mut random).with_services(&[]));
    for sheet in in_both_forms().into_iter().chain(served).chain(drawn) {
        let bytes = sheet.bytes();
        for end in 0..bytes.len() {
            assert_eq!(try_all(&mut desk, &bytes[..end]), 3);
        }
        assert_eq!(try_all(&mut desk, &bytes), 0);
        for more in [0, 1, 0x80, 0xff] {
            assert_eq!(try_all(&mut desk, &[&bytes[..], &[more]].concat()), 12);
        }
    }
}

#[test]
fn every_byte_changed() {
    let mut desk = Desk::new(2);
    let mut random = Random::new(2);
    for sheet in in_both_forms().into_iter().chain([draw(Kind::Full, &mut random), draw(Kind::Small, &mut random)]) {
        let bytes = sheet.bytes();
        for at in 0..bytes.len() {
            for byte in [0, 1, 2, 3, 0x40, 0x7f, 0x80, 0xff, bytes[at] ^ 0x80, bytes[at].wrapping_add(1)] {
                let mut changed = bytes.clone();
                changed[at] = byte;
                desk.call(Call::Pass(SLIP_BYTES), &changed, WORK_BYTES);
            }
        }
    }
}

#[test]
fn every_byte_of_b_with_every_value() {
    let mut desk = Desk::new(3);
    for bytes in [sheet_b().bytes(), served_b().with_limit(10).bytes()] {
        for at in 0..bytes.len() {
            for byte in 0..=255 {
                let mut changed = bytes.clone();
                changed[at] = byte;
                try_all(&mut desk, &changed);
            }
        }
    }
}

/// Each number of B as another one, at and beyond every bound, and badly written.
#[test]
fn every_number_of_b_replaced() {
    let mut desk = Desk::new(4);
    let values = [
        0, 1, 2, 3, 4, 5, 63, 64, 65, 127, 128, 511, 512, 513, 600, 601, 16_383, 16_384, 65_535, 65_536, 1_000_000, 1_000_001, 2_097_151, 2_097_152, 0xfff_ffff,
    ];
    let written: [&[u8]; 8] = [
        &[0x80],
        &[0x80, 0],
        &[0x80, 0x80],
        &[0x84, 0x80, 0],
        &[0x80, 0x80, 0x80, 0],
        &[0x80, 0x80, 0x80, 0x80],
        &[0x80, 0x80, 0x80, 0x80, 0],
        &[0xff, 0xff, 0xff, 0xff],
    ];
    for sheet in [sheet_b(), served_b()] {
        let good: Vec<Vec<u8>> = sheet.numbers().into_iter().map(number).collect();
        for at in 0..good.len() {
            let others = values.iter().map(|&value| number(value)).chain(written.iter().map(|bytes| bytes.to_vec()));
            for other in others {
                let mut numbers = good.clone();
                numbers[at] = other;
                try_all(&mut desk, &numbers.concat());
                numbers.truncate(at + 1);
                try_all(&mut desk, &numbers.concat());
            }
        }
    }
}

#[test]
fn every_limit_and_one_over() {
    let mut desk = Desk::new(5);
    let mut refusal = |sheet: Sheet| try_all(&mut desk, &sheet.bytes());
    let arcs = |count| vec![[0, 1, 1]; count];
    assert_eq!(refusal(Sheet::new(2, 0, 1, 0, &[])), 0);
    assert_eq!(refusal(Sheet { source: 0, ..Sheet::new(1, 0, 0, 0, &[]) }), 5);
    assert_eq!(refusal(Sheet::new(64, 63, 0, 0, &[])), 0);
    assert_eq!(refusal(Sheet::new(65, 0, 1, 0, &[])), 5);
    assert_eq!(refusal(Sheet::new(2, 0, 1, 0, &arcs(512))), 0);
    assert_eq!(refusal(Sheet::new(2, 0, 1, 0, &arcs(513))), 6);
    assert_eq!(refusal(Sheet::new(3, 3, 0, 0, &[])), 7);
    assert_eq!(refusal(Sheet::new(3, 0, 3, 0, &[])), 7);
    assert_eq!(refusal(Sheet::new(3, 2, 2, 0, &[])), 7);
    assert_eq!(refusal(Sheet::new(3, 2, 1, 1_000_000, &[])), 0);
    assert_eq!(refusal(Sheet::new(3, 2, 1, 1_000_001, &[])), 8);
    assert_eq!(refusal(Sheet::new(3, 2, 1, 5, &[[3, 0, 0]])), 9);
    assert_eq!(refusal(Sheet::new(3, 2, 1, 5, &[[0, 3, 0]])), 9);
    assert_eq!(refusal(Sheet::new(3, 2, 1, 5, &[[1, 1, 0]])), 9);
    assert_eq!(refusal(Sheet::new(3, 2, 1, 5, &[[2, 1, 65_535]])), 0);
    assert_eq!(refusal(Sheet::new(3, 2, 1, 5, &[[2, 1, 65_536]])), 10);
    assert_eq!(refusal(Sheet::new(3, 2, 1, 5, &[[2, 1, 0]]).with_mark(3, 2)), 0);
    assert_eq!(refusal(Sheet::new(3, 2, 1, 5, &[[2, 1, 0]]).with_mark(3, 3)), 11);
    assert_eq!(refusal(Sheet::new(3, 2, 1, 5, &[[2, 1, 0]]).with_mark(0, 3)), 11);
}

/// In the new form the old content draws what it draws in the old one. Behind it each service may be 600, and not all may be 0.
#[test]
fn every_limit_in_the_new_form() {
    let mut desk = Desk::new(11);
    let mut refusal = |sheet: &Sheet, services: &[u32]| try_all(&mut desk, &sheet.with_services(services).bytes());
    let two = |arcs: &[[u32; 3]]| Sheet::new(2, 0, 1, 0, arcs);
    assert_eq!(refusal(&two(&[]), &[0, 1]), 0);
    assert_eq!(refusal(&Sheet::new(0, 0, 0, 0, &[]), &[1]), 5);
    assert_eq!(refusal(&Sheet::new(1, 0, 0, 0, &[]), &[1]), 5);
    assert_eq!(refusal(&Sheet::new(64, 63, 0, 0, &[]), &[1; 64]), 0);
    assert_eq!(refusal(&Sheet::new(65, 0, 1, 0, &[]), &[1; 65]), 5);
    assert_eq!(refusal(&two(&[[0, 1, 1]; 512]), &[1; 2]), 0);
    assert_eq!(refusal(&two(&[[0, 1, 1]; 513]), &[1; 2]), 6);
    assert_eq!(refusal(&Sheet { target: 0, ..two(&[]) }, &[1; 2]), 7);
    assert_eq!(refusal(&two(&[]).with_limit(1_000_001), &[1; 2]), 8);
    assert_eq!(refusal(&two(&[[0, 2, 0]]), &[1; 2]), 9);
    assert_eq!(refusal(&two(&[[0, 1, 65_535]]), &[600; 2]), 0);
    assert_eq!(refusal(&two(&[[0, 1, 65_536]]), &[600; 2]), 10);
    assert_eq!(refusal(&two(&[[0, 1, 0]]).with_mark(2, 3), &[1; 2]), 11);
    for (nodes, arcs) in [(2, 0), (3, 1), (64, 512)] {
        let sheet = Sheet::new(nodes, 0, 1, 5, &vec![[1, 0, 3]; arcs]);
        let zeros = vec![0; nodes as usize];
        assert_eq!(refusal(&sheet, &zeros), 11);
        assert_eq!(refusal(&sheet, &zeros[1..]), 3);
        assert_eq!(refusal(&sheet, &[&zeros[..], &[0]].concat()), 11);
        for node in 0..nodes as usize {
            for (service, expected) in [(1, 0), (600, 0), (601, 11), (268_435_455, 11)] {
                let mut services = zeros.clone();
                services[node] = service;
                assert_eq!(refusal(&sheet, &services), expected, "{service} at {node}");
                services.push(0);
                assert_eq!(refusal(&sheet, &services), if expected == 0 { 12 } else { 11 });
            }
        }
    }
}

/// First numbers, with B behind them or what is left of it, or nothing.
#[test]
fn every_first_number() {
    let mut desk = Desk::new(12);
    let (b, services) = (sheet_b().bytes(), [0, 2, 0, 0]);
    for first in (0..=255).map(|byte| vec![byte]).chain([vec![0x81, 0], vec![0x84, 0], vec![0x81, 1], vec![0xc0, 0], vec![0x80, 0x80, 0x80, 0x80]]) {
        for rest in [&[][..], &b, &b[1..], &[&b[..], &services].concat(), &[&b[1..], &services].concat()] {
            let alone = try_all(&mut desk, &first);
            let whole = try_all(&mut desk, &[&first[..], rest].concat());
            assert!(whole == alone || alone == 3, "{first:?} draws {alone}, and {whole} with more behind it");
        }
    }
    for (first, refusal) in [(&[0][..], 5), (&[1], 3), (&[2], 3), (&[64], 3), (&[65], 5), (&[0x81, 0], 4), (&[1, 1], 5), (&[1, 0x84, 0], 4)] {
        assert_eq!(try_all(&mut desk, first), refusal, "{first:?}");
    }
}

#[test]
fn eight_and_nine_required() {
    let mut desk = Desk::new(6);
    for [eight, nine] in eight_and_nine() {
        assert_eq!(try_all(&mut desk, &eight.bytes()), 0);
        assert_eq!(try_all(&mut desk, &nine.bytes()), 13);
        let services = vec![1; nine.nodes as usize];
        assert_eq!(try_all(&mut desk, &eight.with_services(&services).bytes()), 0);
        assert_eq!(try_all(&mut desk, &nine.with_services(&services).bytes()), 13);
    }
}

/// Lengths of work and slip around what is needed, on a good sheet and on bad ones: 1 before 2 before the sheet.
#[test]
fn lent_lengths() {
    let mut desk = Desk::new(7);
    let (good, served) = (sheet_b().bytes(), served_b().with_limit(10).bytes());
    let sheets: [&[u8]; 6] = [&good, &good[..20], &[], &[0x80, 0], &served, &served[..33]];
    for sheet in sheets {
        for work in [0, 1, 4, 16_384, 65_532, 65_535, 65_536, 65_537, 65_538, 65_539, 65_540, 65_999, 70_000] {
            for slip in [0, 1, 10, 1_199, 1_200, 1_201, 2_000] {
                let number = desk.call(Call::Pass(slip), sheet, work);
                let expected = if work < 65_536 {
                    Some(1)
                } else if slip < 1_200 {
                    Some(2)
                } else {
                    None
                };
                assert!(expected.is_none_or(|refusal| number == refusal * REFUSED));
                desk.call(Call::Reason(slip, 2), sheet, work);
                desk.call(Call::Reason(slip, 99), sheet, work);
            }
            for slip in [&[][..], &[1, 0, 0], &[4, 1, 2, 0], &[1, 0], &[2, 1, 99, 0]] {
                desk.call(Call::Check(slip), sheet, work);
            }
        }
    }
}

/// All alterations of slips, on sheets that give each first number.
#[test]
fn slips_altered_in_every_way() {
    let mut desk = Desk::new(8);
    let mut random = Random::new(8);
    let b = sheet_b();
    let both = b.with_mark(1, MANDATORY).with_mark(2, MANDATORY);
    let mut sheets = vec![b.with_limit(7), b.with_mark(2, MANDATORY), both.with_limit(14).with_mark(8, FORBIDDEN), b.with_limit(12).with_mark(4, FORBIDDEN)];
    sheets.push(b.with_limit(14).with_marks([1, 6], MANDATORY));
    sheets.extend([served_b(), served_b().with_limit(12).with_mark(4, FORBIDDEN)]);
    sheets.extend((0..80).map(|i| draw([Kind::Small, Kind::Closed, Kind::Required, Kind::Driven][i % 4], &mut random)));
    let mut tried = [0; 5];
    for sheet in sheets {
        let bytes = sheet.bytes();
        let mut slips: Vec<Vec<u8>> = desk.pass(&bytes).into_iter().collect();
        slips.extend((0..sheet.marks.len() as u32).filter_map(|item| desk.reason(&bytes, item)).take(3));
        for slip in slips.iter().filter_map(|slip| Slip::written(slip)) {
            tried[slip.first as usize] += 1;
            for altered in alterations(&slip, &sheet, &mut random) {
                desk.check(&bytes, &altered);
            }
            let whole = slip.bytes();
            for end in 0..whole.len() {
                assert_eq!(desk.check(&bytes, &whole[..end]) / REFUSED, 17);
            }
        }
    }
    println!("slips by first number {:?}, checks {}", &tried[1..], desk.calls[2]);
    assert!(tried[1..].iter().all(|&count| count > 0));
}

/// Slips far longer than any that is written: 17 is judged to the very end before 18.
#[test]
fn long_slips() {
    let mut desk = Desk::new(9);
    let sheet = sheet_b().bytes();
    for count in [9, 10, 127, 128, 576, 577, 16_384, 20_000] {
        for reasons in [(0..count).collect(), vec![0; count as usize]] {
            let slip = Slip { first: 1, goals: vec![], reasons }.bytes();
            let expected = if count == 9 && slip[4] == 1 { 0 } else { 18 };
            assert_eq!(desk.check(&sheet, &slip) / REFUSED, expected);
            assert_eq!(desk.check(&sheet, &slip[..slip.len() - 1]) / REFUSED, 17);
            assert_eq!(desk.check(&sheet, &[&slip[..], &[0]].concat()) / REFUSED, 17);
        }
    }
}

#[test]
fn long_sheets() {
    let mut desk = Desk::new(10);
    for mut bytes in [sheet_b().bytes(), served_b().bytes()] {
        for length in [3_144, 3_145, 3_273, 3_274, 8_193, 65_535, 65_536, 70_000] {
            bytes.resize(length, 0);
            assert_eq!(try_all(&mut desk, &bytes), 12);
            assert_eq!(try_all(&mut desk, &vec![0x80; length]), 4);
        }
    }
}
