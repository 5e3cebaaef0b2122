//! Once a number is read or 4 is drawn, no later byte alters that: a sheet with one bad number, cut off at every byte, and with other bytes behind the one
//! that decides.

use cases::{draw, number, Random, Sheet, KINDS};
use tests::{hex, Call, Desk, REFUSED};
use ways::{SLIP_BYTES, WORK_BYTES};

const SHEETS: usize = 400;

/// Bytes behind the deciding one that are changed one by one, at most.
const CHANGED: usize = 40;

fn refusal(desk: &mut Desk, bytes: &[u8]) -> u32 {
    desk.call(Call::Pass(SLIP_BYTES), bytes, WORK_BYTES) / REFUSED
}

fn any_bytes(count: usize, random: &mut Random) -> Vec<u8> {
    (0..count).map(|_| random.bits() as u8).collect()
}

/// A number that draws 4 at its last byte: a needless group of zero, or a fourth byte with its high bit set.
fn overlong(random: &mut Random) -> Vec<u8> {
    let groups = random.between(1, 4);
    let mut bytes: Vec<u8> = any_bytes(groups, random).into_iter().map(|byte| byte | 128).collect();
    if groups < 4 {
        bytes.push(0);
    }
    bytes
}

/// The bytes of a sheet with another number at a place, and how many of them it takes to the end of that number.
fn with_number(sheet: &Sheet, at: usize, written: Vec<u8>) -> (Vec<u8>, usize) {
    let mut numbers: Vec<Vec<u8>> = sheet.numbers().into_iter().map(number).collect();
    numbers[at] = written;
    (numbers.concat(), numbers[..=at].concat().len())
}

/// The refusal is drawn at the last of the first `end` bytes, 3 before it, and nothing behind them alters it.
fn is_decided(desk: &mut Desk, random: &mut Random, bytes: &[u8], end: usize, expected: u32) {
    let first = (0..=bytes.len()).find(|&cut| refusal(desk, &bytes[..cut]) != 3);
    assert_eq!(first, Some(end), "where {expected} comes first\n{}", hex(bytes));
    let mut holds = |behind: &[u8]| {
        let other = [&bytes[..end], behind].concat();
        assert_eq!(refusal(desk, &other), expected, "{end} bytes decide\n{}", hex(&other));
    };
    let rest = &bytes[end..];
    holds(&[]);
    holds(rest);
    for at in (0..rest.len()).step_by(rest.len() / CHANGED + 1) {
        for byte in [0, 1, 0x7f, 0x80, 0xff, rest[at] ^ 0x80, random.bits() as u8] {
            let mut changed = rest.to_vec();
            changed[at] = byte;
            holds(&changed);
        }
    }
    for count in [1, 2, 3, 9, rest.len()] {
        let any = any_bytes(count, random);
        holds(&any);
        holds(&[rest, &any].concat());
        holds(&vec![0; count]);
        holds(&vec![0x80; count]);
    }
}

/// A number of a sheet that is refused: its place, its bytes and the refusal.
type Bad = (usize, Vec<u8>, u32);

/// Seeded sheets with one bad number each, all decided at its last byte. Gives how long the numbers were, with their refusals.
fn all_decided(seed: u64, bad: fn(&Sheet, &mut Random) -> Bad) -> Vec<(usize, u32)> {
    let mut desk = Desk::new(seed);
    let mut random = Random::new(seed);
    let mut tried = vec![];
    for i in 0..SHEETS {
        let sheet = draw(KINDS[i % KINDS.len()], &mut random);
        let (at, written, expected) = bad(&sheet, &mut random);
        tried.push((written.len(), expected));
        let (bytes, end) = with_number(&sheet, at, written);
        is_decided(&mut desk, &mut random, &bytes, end, expected);
    }
    println!("sheets {SHEETS}, passes {}", desk.calls[0]);
    tried
}

fn badly_written(sheet: &Sheet, random: &mut Random) -> Bad {
    let count = sheet.numbers().len();
    let places = random.pick(&[count, count.min(8)]);
    (random.below(places), overlong(random), 4)
}

#[test]
fn nothing_behind_a_badly_written_number_alters_4() {
    let tried = all_decided(31, badly_written);
    assert!((2..=4).all(|length| tried.contains(&(length, 4))));
}

/// In the new form the header stands behind the number 1, and 1 is no node count.
fn wrong_header(sheet: &Sheet, random: &mut Random) -> Bad {
    let no_node = sheet.nodes + random.pick(&[0, 1, 64, 200, 20_000]);
    let no_count = random.pick(&[0, 65, 128, 16_384, 268_435_455]);
    let header = usize::from(sheet.is_new_form());
    let (at, value, expected) = match random.below(7) {
        0 => (0, no_count, 5),
        1 => (header, if sheet.is_new_form() { random.pick(&[1, no_count]) } else { no_count }, 5),
        2 => (header + 1, random.pick(&[513, 16_384, 2_097_152, 268_435_455]), 6),
        3 => (header + 2, no_node, 7),
        4 => (header + 3, no_node, 7),
        5 => (header + 3, sheet.source, 7),
        _ => (header + 4, random.pick(&[1_000_001, 2_097_152, 268_435_455]), 8),
    };
    (at, number(value), expected)
}

#[test]
fn nothing_behind_a_headers_number_alters_its_refusal() {
    let tried = all_decided(32, wrong_header);
    assert!((5..=8).all(|refusal| tried.iter().any(|&(_, drawn)| drawn == refusal)));
}

/// Sheets with services, which stand at the end.
const SERVED: usize = 90;

#[test]
fn nothing_behind_a_service_alters_11() {
    let (mut desk, mut random) = (Desk::new(33), Random::new(33));
    for i in 0..SERVED {
        let drawn = draw(KINDS[i % KINDS.len()], &mut random);
        let services: Vec<u32> = (0..drawn.nodes).map(|_| random.below(601) as u32).collect();
        let sheet = drawn.with_services(&services);
        let at = sheet.numbers().len() - 1 - random.below(services.len());
        let (bytes, end) = with_number(&sheet, at, number(random.pick(&[601, 602, 16_384, 268_435_455])));
        is_decided(&mut desk, &mut random, &bytes, end, 11);
    }
}

/// The last service is refused where it is 0 as all before it are.
#[test]
fn nothing_behind_the_last_service_alters_11() {
    let (mut desk, mut random) = (Desk::new(34), Random::new(34));
    for i in 0..SERVED {
        let drawn = draw(KINDS[i % KINDS.len()], &mut random);
        let bytes = drawn.with_services(&vec![0; drawn.nodes as usize]).bytes();
        is_decided(&mut desk, &mut random, &bytes, bytes.len(), 11);
    }
}
