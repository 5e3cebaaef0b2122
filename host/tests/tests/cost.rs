//! The tool `cost` run as a process. COST_PROGRAM names it; with CI set it has to be there, without it the tests say that they did nothing.

use cases::{behind_closures, costs, damaged, draw, longest, number, numbers_in, served_b, sheet_b, Random, Sheet, Slip, FORBIDDEN, KINDS, MANDATORY};
use tests::{hex, items_to_ask, with_close_limit, Desk, Program};

/// Sheets of each kind.
const SHEETS: usize = 120;

/// The most minutes that an arc has.
const LONGEST: u32 = 65_535;

fn program() -> Option<Program> {
    Program::named("cost", reference::cost, "cost")
}

/// The tool, with the library to list closures, and what came up.
struct Trial {
    program: Program,
    desk: Desk,
    inputs: usize,
    /// how often each number was drawn as the refusal
    drawn: [usize; 17],
    /// items that no walk meets, and such that a walk meets too late
    unmet: usize,
    late: usize,
    /// items with closures listed, and with two or more
    listed: usize,
    with_choice: usize,
    /// items struck on sheets with service minutes
    served: usize,
}

impl Trial {
    fn new(program: Program) -> Trial {
        Trial { program, desk: Desk::new(1), inputs: 0, drawn: [0; 17], unmet: 0, late: 0, listed: 0, with_choice: 0, served: 0 }
    }

    /// What is printed, which is what the reference says and what is promised.
    fn try_input(&mut self, input: &[u8]) -> String {
        let text = self.program.try_input(input);
        self.inputs += 1;
        match text.strip_prefix("refused ") {
            Some(refusal) => self.drawn[refusal.trim_end().parse::<usize>().expect("a number")] += 1,
            None => self.try_promises(input, &text),
        }
        text
    }

    /// The first line is `none` or negative, and the later ones are numbers within the limit, as many as reason lists closures.
    fn try_promises(&mut self, input: &[u8], text: &str) {
        let item = numbers_in(input)[0];
        let sheet = &input[number(item).len()..];
        let limit = reference::Sheet::read(sheet).expect("a good sheet").limit;
        let slip = self.desk.reason(sheet, item).expect("a struck item");
        let listed = Slip::written(&slip).expect("a slip of reason").reasons.len();
        let lines: Vec<&str> = text.lines().collect();
        let is_late = lines[0].parse::<i64>().is_ok_and(|slack| slack < 0);
        assert!(is_late || lines[0] == "none", "{}\n{text}", hex(input));
        assert_eq!(lines.len(), 1 + listed, "{}\n{text}", hex(input));
        assert!(lines[1..].iter().all(|line| line.parse::<u64>().is_ok_and(|length| length <= limit)), "{}\n{text}", hex(input));
        self.unmet += usize::from(!is_late);
        self.late += usize::from(is_late);
        self.listed += usize::from(listed > 0);
        self.with_choice += usize::from(listed > 1);
        self.served += usize::from(sheet[0] == 1);
    }
}

#[test]
fn what_requests_2_4_and_2_7_print() {
    let Some(program) = program() else { return };
    let mut trial = Trial::new(program);
    for (input, text) in costs() {
        assert_eq!(trial.try_input(&input), text, "{}", hex(&input));
    }
}

/// Struck items, others, and some that are not there; and any item with a damaged sheet behind it. Refused rounds, which have no struck items, are mostly left out.
#[test]
fn sheets_of_every_kind() {
    let Some(program) = program() else { return };
    let mut trial = Trial::new(program);
    let mut random = Random::new(1);
    for kind in KINDS {
        for _ in 0..SHEETS {
            let drawn = draw(kind, &mut random);
            let sheet = with_close_limit(drawn, &mut random);
            let slip = trial.desk.pass(&sheet.bytes()).filter(|slip| slip[0] == 0 || random.chance(1, 6));
            for item in slip.map_or(vec![], |slip| items_to_ask(&sheet, &slip, &mut random)) {
                trial.try_input(&sheet.asked_for(item));
            }
            if random.chance(2, 3) {
                let any = number(random.below(sheet.marks.len()) as u32);
                trial.try_input(&[any, damaged(&sheet, &mut random)].concat());
            }
        }
    }
    let Trial { inputs, drawn, unmet, late, listed, with_choice, served, .. } = trial;
    println!(
        "inputs {inputs}, by refusal {drawn:?}; items unmet {unmet}, late {late}, with closures {listed}, with two or more {with_choice}, served {served}"
    );
    assert!(inputs > 1_000);
    assert!(unmet > 100 && late > 100 && listed > 100 && with_choice > 50 && served > 100, "struck items of a kind are rare");
    assert!((3..=13).chain([15, 16]).all(|refusal| drawn[refusal] > 0), "a refusal is missing");
}

/// 4 of the item number comes before every fault of the sheet, and 3 where it ends early.
#[test]
fn item_numbers_that_are_badly_written() {
    let Some(program) = program() else { return };
    let mut trial = Trial::new(program);
    let b = sheet_b().bytes();
    let badly_written: [&[u8]; 7] = [
        &[0x80, 0],
        &[0x82, 0],
        &[0x82, 0x80, 0],
        &[0x82, 0x80, 0x80, 0],
        &[0x82, 0x80, 0x80, 0x80, 0],
        &[0x80, 0x80, 0x80, 0x80, 1],
        &[0xff, 0xff, 0xff, 0xff],
    ];
    for item in badly_written {
        for sheet in [&b[..], &b[..9], &[], &[1], &[b.clone(), vec![0]].concat()] {
            assert_eq!(trial.try_input(&[item, sheet].concat()), "refused 4\n");
        }
    }
    for length in 0..4 {
        assert_eq!(trial.try_input(&vec![0x80; length]), "refused 3\n");
    }
}

/// 15 comes after every fault of the sheet, and before 16.
#[test]
fn items_beyond_the_last() {
    let Some(program) = program() else { return };
    let mut trial = Trial::new(program);
    let b = sheet_b();
    let full = Sheet::new(64, 0, 63, 8, &[[0, 63, 1]; 512]);
    let nine_required = full.with_marks(1..10, MANDATORY);
    for item in [576, 577, 65_536, 268_435_455] {
        assert_eq!(trial.try_input(&full.asked_for(item)), "refused 15\n");
        assert_eq!(trial.try_input(&b.with_limit(7).asked_for(item)), "refused 15\n");
        assert_eq!(trial.try_input(&nine_required.asked_for(item)), "refused 13\n");
        assert_eq!(trial.try_input(&[b.asked_for(item), vec![0]].concat()), "refused 12\n");
        assert_eq!(trial.try_input(&number(item)), "refused 3\n");
    }
    assert_eq!(trial.try_input(&full.asked_for(575)), "refused 16\n");
    assert_eq!(trial.try_input(&b.with_limit(7).asked_for(2)), "refused 16\n");
}

#[test]
fn cut_off_at_every_byte() {
    let Some(program) = program() else { return };
    let mut trial = Trial::new(program);
    let old = sheet_b().with_limit(14).with_marks([5, 8], FORBIDDEN).asked_for(1);
    let new = served_b().with_limit(16).with_marks([5, 8], FORBIDDEN).asked_for(1);
    for (input, text) in [(old, "none\n8\n14\n"), (new, "none\n10\n16\n")] {
        for end in 0..input.len() {
            assert_eq!(trial.try_input(&input[..end]), "refused 3\n");
        }
        assert_eq!(trial.try_input(&input), text);
    }
}

#[test]
fn many_closures() {
    let Some(program) = program() else { return };
    let mut trial = Trial::new(program);
    let (sheet, item) = behind_closures();
    assert!(trial.try_input(&sheet.asked_for(item)).lines().count() > 300);
}

/// Source, target and 62 more nodes in a row, and arcs back: the way to the last node goes over all of them, and the way home begins there.
#[test]
fn far_over_the_limit() {
    let Some(program) = program() else { return };
    let mut trial = Trial::new(program);
    let row = |arcs: &[[u32; 2]], limit| {
        let steps = (0..63).map(|node| [node, node + 1]);
        let arcs: Vec<[u32; 3]> = steps.chain(arcs.iter().copied()).map(|[tail, head]| [tail, head, LONGEST]).collect();
        Sheet::new(64, 0, 1, limit, &arcs)
    };
    let back = row(&[[63, 0]], LONGEST);
    assert_eq!(trial.try_input(&back.asked_for(63)), format!("-{}\n", 64 * LONGEST));
    // over an arc that is shut the last node is three arcs from the target
    let shut = row(&[[63, 0], [0, 63]], 3 * LONGEST).with_mark(64 + 64, FORBIDDEN);
    assert_eq!(trial.try_input(&shut.asked_for(63)), format!("-{}\n{}\n", 62 * LONGEST, 3 * LONGEST));
    // the most that there is: 63 arcs to the item, its own, and 63 from there over every other node
    let steps_back: Vec<[u32; 2]> = (3..=61).map(|node| [node, node - 1]).chain([[2, 0], [63, 61], [63, 62]]).collect();
    let farthest = row(&steps_back, LONGEST);
    let item = farthest.marks.len() as u32 - 1;
    assert_eq!(trial.try_input(&farthest.asked_for(item)), format!("-{}\n", 8_322_945 - LONGEST));
    // each of the 127 arcs comes to a node where 600 minutes are spent
    let served = farthest.with_services(&[600; 64]).with_limit(LONGEST + 600);
    assert_eq!(trial.try_input(&served.asked_for(item)), format!("-{}\n", 126 * (LONGEST + 600)));
}

/// Around the longest input that can be good, and around and far beyond the 8,192 bytes that are read, the item number among them.
#[test]
fn long_inputs() {
    let Some(program) = program() else { return };
    let mut trial = Trial::new(program);
    for length in [3_145, 3_146, 3_275, 3_276, 4_096, 8_191, 8_192, 8_193, 8_194, 20_000, 1_000_000] {
        for sheet in [sheet_b(), served_b()] {
            let mut input = sheet.asked_for(2);
            input.resize(length, 0);
            assert_eq!(trial.try_input(&input), "refused 12\n");
        }
    }
    for (sheet, length, minutes) in [(longest(), 3_275, LONGEST + 600), (longest().with_services(&[]), 3_146, LONGEST)] {
        let input = sheet.asked_for(575);
        assert_eq!(input.len(), length);
        assert_eq!(trial.try_input(&input), format!("-{}\n", 79 * minutes - 1_000_000));
        assert_eq!(trial.try_input(&input[..length - 1]), "refused 3\n");
    }
    trial.program.try_long_input();
}

/// A pipe may hand over its bytes bit by bit.
#[test]
fn input_in_pieces() {
    let Some(program) = program() else { return };
    let input = sheet_b().with_limit(12).with_mark(4, FORBIDDEN).asked_for(1);
    for cut in [1, 2, 6, 21, 29] {
        let (front, back) = input.split_at(cut);
        assert_eq!(program.printed(&[front, back]), "none\n8\n");
    }
    assert_eq!(program.printed(&[&input[..1], &input[1..9], &input[9..], &[0]]), "refused 12\n");
}

#[test]
fn input_that_cannot_be_read() {
    let Some(program) = program() else { return };
    program.try_unreadable_input();
}

#[test]
fn output_that_cannot_be_written() {
    let Some(program) = program() else { return };
    program.try_unwritable_output();
}

#[test]
fn silent_on_standard_error() {
    let Some(program) = program() else { return };
    program.try_silence();
}

#[test]
fn the_samples() {
    let Some(program) = program() else { return };
    program.try_samples();
}
