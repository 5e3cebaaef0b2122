//! The rows for service minutes: the pass on sheets of the new form, each beside that on the sheet of the old form on which every walk takes as long (request 2.7, the
//! issue's 'Speed').

use crate::sheets::{all_closed, blamed, demanding, full, least_length, pass, pass_slip, Beside, NODES};
use cases::{Random, Sheet};

/// What the new form may take at most in terms of the old one.
const MOST: f64 = 1.15;

/// The full map with service minutes. They are few enough that an arc's minutes have one byte in both forms, so that the new form alone has more to read.
fn served() -> Sheet {
    let mut random = Random::new(7);
    let services: Vec<u32> = (0..NODES).map(|_| random.between(0, 27) as u32).collect();
    full(1).with_services(&services)
}

fn beside(name: &str, sheet: &Sheet, verdict: u8) -> Beside {
    let old = sheet.in_old_form();
    assert_eq!(pass_slip(&old), pass_slip(sheet), "the lengths agree");
    assert_eq!(old.bytes().len() + 1 + NODES, sheet.bytes().len());
    let call = pass(&format!("{name}, with service minutes"), sheet, verdict);
    Beside { call, other: pass("the same lengths in the old form", &old, verdict), most: MOST }
}

pub fn served_rows() -> Vec<Beside> {
    let plain = served();
    let eight = demanding(&plain);
    vec![
        beside("64 nodes, 512 arcs, none required", &plain.with_limit(least_length(&plain) * 2), 0),
        beside("64 nodes, 512 arcs, eight required", &eight.with_limit(least_length(&eight)), 0),
        beside("64 nodes, 512 arcs, eight required", &blamed(&plain), 3),
        beside("64 nodes, 512 arcs", &all_closed(&plain).with_limit(least_length(&plain)), 1),
    ]
}
