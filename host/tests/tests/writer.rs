//! The writer beside the reference: good drafts and faulty ones, every bound and one over, room exact and one byte less.

use cases::{draw, driven, eight_and_nine, formats, longest, served, served_b, sheet_b, spoiled, starred, with_required, Draft, Kind, Random, KINDS};
use tests::{Guarded, WritingDesk, REFUSED};

/// Writes a draft of a good sheet with just enough room, with one byte less, and with more.
fn try_rooms(desk: &mut WritingDesk, draft: &Draft, bytes: &[u8]) {
    assert_eq!(desk.write(draft, bytes.len()).as_deref(), Ok(bytes));
    assert_eq!(desk.write(draft, bytes.len() - 1), Err(19));
    assert_eq!(desk.write(draft, bytes.len() + 100).as_deref(), Ok(bytes));
    assert_eq!(desk.write(draft, 0), Err(19));
}

/// The draft of a sheet that the reader takes.
fn draft_in(bytes: &[u8]) -> Draft {
    let read = reference::Sheet::read(bytes).expect("a good sheet");
    let arcs = read.arcs.iter().flat_map(|arc| [arc.tail, arc.head, arc.minutes]).collect();
    let header = [read.nodes as u32, read.arcs.len() as u32, read.source as u32, read.target as u32, read.limit as u32];
    Draft { header, arcs, marks: read.marks, services: read.services }
}

/// Every sheet that the reader takes, written again, is the same bytes, in both forms.
#[test]
fn sheets_written_again() {
    const SHEETS: usize = 1_000;
    let (mut desk, mut random, mut written) = (WritingDesk::new(1), Random::new(1), [0; 2]);
    for kind in KINDS {
        for _ in 0..SHEETS {
            let sheet = draw(kind, &mut random);
            let bytes = sheet.bytes();
            match reference::Sheet::read(&bytes) {
                Ok(_) => {
                    assert_eq!(draft_in(&bytes), Draft::of(&sheet));
                    try_rooms(&mut desk, &Draft::of(&sheet), &bytes);
                    written[usize::from(sheet.is_new_form())] += 1;
                }
                Err(refusal) => assert_eq!(desk.write(&Draft::of(&sheet), bytes.len()), Err(refusal)),
            }
        }
    }
    println!("{written:?} sheets of the old form and the new one written again");
    assert!(written.iter().all(|&sheets| sheets > 4_000));
    for line in starred().into_iter().chain(driven()).chain(served()) {
        try_rooms(&mut desk, &Draft::of(&line.sheet), &line.sheet.bytes());
    }
    for bytes in formats().into_iter().filter(|(_, slip, refusal)| *slip == 1_200 && *refusal == 0).map(|(bytes, ..)| bytes) {
        try_rooms(&mut desk, &draft_in(&bytes), &bytes);
    }
}

/// Drafts with a fault or a few, into a slice with room, with just enough or with less.
#[test]
fn spoiled_drafts() {
    const DRAFTS: usize = 4_000;
    let (mut desk, mut random) = (WritingDesk::new(2), Random::new(2));
    for kind in KINDS {
        for _ in 0..DRAFTS {
            let sheet = draw(kind, &mut random);
            let length = sheet.bytes().len();
            let room = random.pick(&[length, length.saturating_sub(1), length + 8, ways::SHEET_BYTES, 0]);
            desk.write(&spoiled(&Draft::of(&sheet), &mut random), room).ok();
        }
    }
    println!("{} drafts, by refusal {:?}", KINDS.len() * DRAFTS, desk.drawn);
    for refusal in [0, 3, 5, 6, 7, 8, 9, 10, 11, 13, 19] {
        assert!(desk.drawn[refusal] > 50, "{refusal} is rare: {:?}", desk.drawn);
    }
    assert_eq!(desk.drawn.iter().sum::<usize>(), [0, 3, 5, 6, 7, 8, 9, 10, 11, 13, 19].map(|refusal: usize| desk.drawn[refusal]).iter().sum());
}

/// Each of the five numbers in front, each number of an arc, each service and each mark of B, in both forms, at every bound and one over, and as no sheet can hold it.
#[test]
fn every_number_of_b() {
    let mut desk = WritingDesk::new(3);
    let odd = [0, 1, 2, 3, 4, 5, 63, 64, 65, 127, 128, 511, 512, 513, 600, 601, 65_535, 65_536, 1_000_000, 1_000_001, (1 << 28) - 1, 1 << 28, u32::MAX];
    for b in [sheet_b(), served_b()].map(|b| Draft::of(&b)) {
        for value in odd {
            for at in 0..5 {
                let mut draft = b.clone();
                draft.header[at] = value;
                desk.write(&draft, 50).ok();
            }
            for at in 0..b.arcs.len() {
                let mut draft = b.clone();
                draft.arcs[at] = value;
                desk.write(&draft, 50).ok();
            }
            for at in 0..b.services.len() {
                let mut draft = b.clone();
                draft.services[at] = value;
                assert_eq!(desk.write(&draft, 50).err(), (value > 600).then_some(11));
            }
        }
        for at in 0..b.marks.len() {
            for mark in 0..=255 {
                let mut draft = b.clone();
                draft.marks[at] = mark;
                assert_eq!(desk.write(&draft, 50).is_ok(), mark <= 2);
            }
        }
    }
}

/// The lines of request 2.7, and node counts that a reader of the old form would take for the number of the new one.
#[test]
fn both_forms_of_b() {
    let mut desk = WritingDesk::new(10);
    let (old, new) = (Draft::of(&sheet_b()), Draft::of(&served_b()));
    let bytes = sheet_b().bytes();
    assert_eq!(desk.write(&new, 34), Ok([&[1], &bytes[..], &[0, 2, 0, 0]].concat()));
    assert_eq!(desk.write(&new, 33), Err(19));
    assert_eq!(desk.write(&old, 29), Ok(bytes));
    for services in [vec![], vec![0; 3], vec![2; 3], vec![0; 5], vec![2; 5]] {
        assert_eq!(desk.write(&Draft { services, ..old.clone() }, 34), Err(3));
    }
    for services in [vec![0], vec![7], vec![]] {
        let one = Draft { header: [1, 2, 0, 1, 8], arcs: vec![0; 6], marks: vec![0; 3], services };
        assert_eq!(desk.write(&one, 34), Err(5));
    }
}

/// Every length of each list around the right one.
#[test]
fn every_length_of_the_lists() {
    let mut desk = WritingDesk::new(4);
    let b = Draft::of(&sheet_b());
    for arcs in 0..24 {
        for marks in 0..14 {
            for services in 0..9 {
                let numbers = (0..arcs).map(|at| *b.arcs.get(at).unwrap_or(&0)).collect();
                let draft = Draft { arcs: numbers, marks: vec![0; marks], services: vec![1; services], ..b.clone() };
                let right = arcs == 15 && marks == 9 && services == 4;
                assert_eq!(desk.write(&draft, 40).map(|bytes| bytes.len()), if right { Ok(34) } else { Err(3) });
            }
        }
    }
}

fn refusal(desk: &mut WritingDesk, draft: &Draft, room: usize) -> u32 {
    desk.write(draft, room).err().unwrap_or(0)
}

/// The order in which faults are judged.
#[test]
fn the_first_fault_decides() {
    let mut desk = WritingDesk::new(5);
    let b = Draft::of(&sheet_b());
    let with = |header: [u32; 5]| Draft { header, ..b.clone() };
    let mut refused = |draft: &Draft, room: usize, expected: u32| assert_eq!(refusal(&mut desk, draft, room), expected, "{draft:?}");
    refused(&with([u32::MAX; 5]), 0, 5);
    refused(&with([4, 513, 9, 9, u32::MAX]), 0, 6);
    refused(&with([4, 5, 4, 9, u32::MAX]), 0, 7);
    refused(&with([4, 5, 0, 0, u32::MAX]), 0, 7);
    refused(&Draft { arcs: vec![], ..with([4, 5, 0, 3, 1_000_001]) }, 29, 8);
    let bad_tail = Draft { arcs: [&[4], &b.arcs[1..]].concat(), ..b.clone() };
    refused(&bad_tail, 29, 9);
    refused(&Draft { marks: vec![0; 8], ..bad_tail.clone() }, 29, 3);
    refused(&Draft { services: vec![601; 3], ..bad_tail }, 29, 3);
    let mut minutes_first = b.clone();
    (minutes_first.arcs[2], minutes_first.arcs[3]) = (65_536, 9);
    refused(&minutes_first, 29, 10);
    let mut tail_first = b.clone();
    (tail_first.arcs[0], tail_first.arcs[2]) = (9, 65_536);
    refused(&tail_first, 29, 9);
    let mut arc_before_mark = b.clone();
    (arc_before_mark.arcs[14], arc_before_mark.marks[0]) = (65_536, 3);
    refused(&arc_before_mark, 0, 10);
    let mut arc_before_service = b.clone();
    (arc_before_service.arcs[14], arc_before_service.services[0]) = (65_536, 601);
    refused(&arc_before_service, 0, 10);
    let mut mark_before_count = Draft::of(&with_required(9));
    mark_before_count.marks[10] = 3;
    refused(&mark_before_count, 0, 11);
    let mut service_before_count = Draft::of(&with_required(9));
    service_before_count.services[10] = 601;
    refused(&service_before_count, 0, 11);
    refused(&Draft::of(&with_required(9)), 0, 13);
    refused(&Draft::of(&with_required(8)), 0, 19);
}

#[test]
fn eight_and_nine_required() {
    let mut desk = WritingDesk::new(6);
    for [eight, nine] in eight_and_nine() {
        assert_eq!(refusal(&mut desk, &Draft::of(&eight), 200), 0);
        assert_eq!(refusal(&mut desk, &Draft::of(&nine), 200), 13);
        let services = vec![1; nine.nodes as usize];
        assert_eq!(refusal(&mut desk, &Draft::of(&eight.with_services(&services)), 200), 0);
        assert_eq!(refusal(&mut desk, &Draft::of(&nine.with_services(&services)), 200), 13);
    }
}

/// What is lent between guard pages: a step over an end stops the process, and so does a write into a list.
#[test]
fn between_guard_pages() {
    let mut random = Random::new(7);
    for case in 0..400 {
        let sheet = draw(KINDS[case % KINDS.len()], &mut random);
        let (good, length) = (Draft::of(&sheet), sheet.bytes().len());
        for (draft, room) in [(good.clone(), length), (good.clone(), length - 1), (spoiled(&good, &mut random), length), (good, 4_096)] {
            let arcs = guarded_numbers(&draft.arcs, case & 1 == 0);
            let marks = Guarded::new(&draft.marks, case & 2 == 0).read_only();
            let services = guarded_numbers(&draft.services, case & 8 == 0);
            let mut lent = Guarded::new(&vec![0xa5; room], case & 4 == 0);
            let number = ways::numbers::write(draft.header, numbers_in(&arcs), marks.bytes(), numbers_in(&services), lent.bytes_mut());
            let mut expected = vec![0xa5; room];
            assert_eq!(number, reference::write_sheet(draft.header, &draft.arcs, &draft.marks, &draft.services, &mut expected), "{draft:?}");
            assert!(lent.bytes() == expected, "{draft:?}");
        }
    }
}

fn guarded_numbers(numbers: &[u32], at_end: bool) -> Guarded {
    Guarded::new(&numbers.iter().flat_map(|number| number.to_ne_bytes()).collect::<Vec<u8>>(), at_end).read_only()
}

fn numbers_in(guarded: &Guarded) -> &[u32] {
    // pages begin and end at a multiple of four
    unsafe { std::slice::from_raw_parts(guarded.bytes().as_ptr().cast::<u32>(), guarded.bytes().len() / 4) }
}

/// The longest sheet of each form, and the wrapper for Rust.
#[test]
fn the_longest_sheets() {
    let (marks, mut lent) = (vec![0; 576], vec![0; ways::SHEET_BYTES]);
    for (sheet, length) in [(longest(), ways::SHEET_BYTES), (longest().with_services(&[]), 3_144)] {
        try_rooms(&mut WritingDesk::new(8), &Draft::of(&sheet), &sheet.bytes());
        let services = sheet.service_list();
        let draft = ways::Draft { places: 64, start: 0, finish: 15, limit: 1_000_000, legs: &sheet.arcs, marks: &marks, services: &services };
        assert_eq!(ways::write(&draft, &mut lent), Ok(length));
        assert_eq!(lent[..length], sheet.bytes());
        assert_eq!(ways::write(&draft, &mut lent[..length - 1]), Err(ways::Refused(19)));
        assert_eq!(ways::write(&ways::Draft { services: &services[1..], ..draft }, &mut lent), Err(ways::Refused(3)));
        assert_eq!(ways::numbers::write(sheet.header(), &[], &marks, &services, &mut lent), 3 * REFUSED);
    }
}

/// What is written is taken by the pass of the library itself.
#[test]
fn the_pass_takes_what_is_written() {
    let (mut desk, mut random) = (WritingDesk::new(9), Random::new(9));
    let (mut work, mut slip) = (vec![0; ways::WORK_BYTES], vec![0; ways::SLIP_BYTES]);
    for _ in 0..2_000 {
        let draft = spoiled(&Draft::of(&draw(Kind::Small, &mut random)), &mut random);
        if let Ok(bytes) = desk.write(&draft, 1_000) {
            assert!(ways::pass(&bytes, &mut work, &mut slip).is_ok());
        }
    }
    assert!(desk.drawn[0] > 100);
}
