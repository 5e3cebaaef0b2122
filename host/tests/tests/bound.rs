//! How long a shortest walk is at most (requests 2.5 and 2.7): rings on which it takes as many arcs as it can take anywhere.

use cases::{ring, Sheet};
use tests::Desk;

/// The arcs of a shortest walk that meets all required items of the ring.
fn most_arcs(nodes: u32, mandatory: usize) -> u32 {
    nodes * (1 + mandatory as u32) - 1
}

/// The least length through all required items, without a cap.
fn least(sheet: &Sheet) -> u64 {
    let read = reference::Sheet::read(&sheet.bytes()).expect("a good sheet");
    reference::least(&read, &read.required_items).expect("a walk")
}

/// The round stands within the longest shortest walk, and is refused within a minute less: with two mandatory arcs or more since no walk drives them all.
#[test]
fn rings_of_every_size() {
    let mut desk = Desk::new(1);
    let mut verdict = |sheet: &Sheet, limit: u32| desk.pass(&sheet.with_limit(limit).bytes()).expect("a good sheet")[0];
    for nodes in 2..=64 {
        for mandatory in 0..=8 {
            for minutes in [1, 1_739] {
                let sheet = ring(nodes, mandatory, minutes);
                let length = minutes * most_arcs(nodes, mandatory);
                assert_eq!(least(&sheet), length.into(), "{sheet:?}");
                assert_eq!(verdict(&sheet, length), 0, "{sheet:?}");
                assert_eq!(verdict(&sheet, length - 1), [1, 2, 3][mandatory.min(2)], "{sheet:?}");
            }
        }
    }
}

/// The example of the request, and the same on four nodes: 575 arcs and 11.
#[test]
fn the_longest_walk() {
    let mut desk = Desk::new(2);
    let mut slip = |sheet: &Sheet, limit: u32| desk.pass(&sheet.with_limit(limit).bytes()).expect("a good sheet");
    let sheet = ring(64, 8, 1);
    assert_eq!(most_arcs(64, 8), 575);
    assert_eq!(slip(&sheet, 575), [vec![0, 1, 1], vec![0; 125], vec![1; 8]].concat());
    let named = [0x7f, 0x80, 1, 0x81, 1, 0x82, 1, 0x83, 1, 0x84, 1, 0x85, 1, 0x86, 1];
    assert_eq!(slip(&sheet, 574), [&[3, 8][..], &named, &[0]].concat());
    let small = ring(4, 2, 1);
    assert_eq!(most_arcs(4, 2), 11);
    assert_eq!(slip(&small, 11), [0, 1, 1, 0, 0, 0, 0, 0, 1, 1]);
    assert_eq!(slip(&small, 10), [3, 2, 7, 8, 0]);
    let slow = ring(64, 8, 65_535);
    assert_eq!(slip(&slow, 1_000_000), [1, 0, 0]);
    assert_eq!(least(&slow), 37_682_625);
    let slowest = slow.with_services(&[600; 64]);
    assert_eq!(slip(&slowest, 1_000_000), [1, 0, 0]);
    assert_eq!(least(&slowest), 38_027_625);
}

/// Each mandatory arc leads from the target back to the source: that is a touch of the source, and one more of the target and of each node on the way there.
#[test]
fn service_on_rings() {
    let mut desk = Desk::new(3);
    let mut verdict = |sheet: &Sheet, limit: u32| desk.pass(&sheet.with_limit(limit).bytes()).expect("a good sheet")[0];
    for nodes in [2, 3, 4, 17, 64] {
        for mandatory in 0..=8 {
            for node in [0, 1, nodes - 1] {
                let touches = mandatory as u32 + u32::from(node != 1);
                for (minutes, service) in [(0, 1), (0, 600), (1, 600), (3, 7)] {
                    let mut services = vec![0; nodes as usize];
                    services[node as usize] = service;
                    let sheet = ring(nodes, mandatory, minutes).with_services(&services);
                    let length = minutes * most_arcs(nodes, mandatory) + service * touches;
                    assert_eq!(least(&sheet), length.into(), "{sheet:?}");
                    assert_eq!(verdict(&sheet, length), 0, "{sheet:?}");
                    if length > 0 {
                        assert_eq!(verdict(&sheet, length - 1), [1, 2, 3][mandatory.min(2)], "{sheet:?}");
                    }
                }
            }
        }
    }
}
