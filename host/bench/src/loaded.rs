//! An archive of the library made a shared object by `cc` and loaded, so that two can be timed in one run though their names are the same. Both are loaded
//! alike: where a linker puts the code changes the time of some sheets by a third.

use cases::{served_b, Draft};
use std::ffi::{c_char, c_int, c_void, CString};
use std::path::Path;
use std::process::Command;
use ways::{Store, SLIP_BYTES, WORK_BYTES};

extern "C" {
    fn dlopen(file: *const c_char, mode: c_int) -> *mut c_void;
    fn dlsym(object: *mut c_void, name: *const c_char) -> *mut c_void;
}

/// dlopen's mode that finds every name at once and keeps them to this object.
const NOW: c_int = 2;

type Call = unsafe extern "C" fn(*const u8, usize, *mut u8, usize, *mut u8, usize) -> u32;
type CallItem = unsafe extern "C" fn(*const u8, usize, *mut u8, usize, *mut u8, usize, u32) -> u32;
type CallDraft = unsafe extern "C" fn(u32, u32, u32, u32, u32, *const u32, usize, *const u8, usize, *const u32, usize, *mut u8, usize) -> u32;
type CallSlip = unsafe extern "C" fn(*const u8, usize, *mut u8, usize, *const u8, usize) -> u32;
type CallPut = unsafe extern "C" fn(*mut Store, *const u8, usize, *mut u8, usize, *const u8, usize) -> u32;
type CallAsk = unsafe extern "C" fn(*const Store, *const u8, usize, *mut u8, usize) -> u32;

/// The functions of the library. One made before the writer or the shelf has none; one made before service minutes has a writer and a shelf that are lent other
/// things, and they are left alone.
#[derive(Clone, Copy)]
pub struct Loaded {
    pass: Call,
    reason: CallItem,
    check: CallSlip,
    write: Option<CallDraft>,
    put: Option<CallPut>,
    ask: Option<CallAsk>,
}

impl Loaded {
    /// Objects of one name would be taken for one.
    pub fn load(name: &str, archive: &Path) -> Loaded {
        let object = std::env::temp_dir().join(format!("ways-{name}-{}.so", std::process::id()));
        let made = Command::new("cc")
            .args(["-shared", "-Wl,-Bsymbolic", "-o"])
            .arg(&object)
            .args(["-Wl,--whole-archive"])
            .arg(archive)
            .args(["-Wl,--no-whole-archive"])
            .status();
        assert!(made.expect("cc").success(), "no shared object of {}", archive.display());
        let name = CString::new(object.to_str().expect("a path in UTF-8")).expect("no zero byte");
        let loaded = unsafe { dlopen(name.as_ptr(), NOW) };
        assert!(!loaded.is_null(), "{} cannot be loaded", object.display());
        std::fs::remove_file(&object).expect("the shared object can be removed");
        let look = |name: &str| {
            let name = CString::new(name).expect("no zero byte");
            let found = unsafe { dlsym(loaded, name.as_ptr()) };
            (!found.is_null()).then_some(found)
        };
        let find = |name: &str| look(name).unwrap_or_else(|| panic!("{name} is not in {}", archive.display()));
        let pass = unsafe { std::mem::transmute::<*mut c_void, Call>(find("ways_pass")) };
        let knows_services = takes_services(pass);
        let look = |name: &str| look(name).filter(|_| knows_services);
        unsafe {
            Loaded {
                pass,
                reason: std::mem::transmute::<*mut c_void, CallItem>(find("ways_reason")),
                check: std::mem::transmute::<*mut c_void, CallSlip>(find("ways_check")),
                write: look("ways_write").map(|found| std::mem::transmute::<*mut c_void, CallDraft>(found)),
                put: look("ways_store_put").map(|found| std::mem::transmute::<*mut c_void, CallPut>(found)),
                ask: look("ways_store_ask").map(|found| std::mem::transmute::<*mut c_void, CallAsk>(found)),
            }
        }
    }

    pub fn pass(&self, sheet: &[u8], work: &mut [u8], slip: &mut [u8]) -> u32 {
        unsafe { (self.pass)(sheet.as_ptr(), sheet.len(), work.as_mut_ptr(), work.len(), slip.as_mut_ptr(), slip.len()) }
    }

    pub fn reason(&self, sheet: &[u8], work: &mut [u8], slip: &mut [u8], item: u32) -> u32 {
        unsafe { (self.reason)(sheet.as_ptr(), sheet.len(), work.as_mut_ptr(), work.len(), slip.as_mut_ptr(), slip.len(), item) }
    }

    pub fn check(&self, sheet: &[u8], work: &mut [u8], slip: &[u8]) -> u32 {
        unsafe { (self.check)(sheet.as_ptr(), sheet.len(), work.as_mut_ptr(), work.len(), slip.as_ptr(), slip.len()) }
    }

    pub fn can_write(&self) -> bool {
        self.write.is_some()
    }

    pub fn write(&self, Draft { header, arcs, marks, services }: &Draft, sheet: &mut [u8]) -> u32 {
        let [n, m, start, finish, limit] = *header;
        let write = self.write.expect("a library that writes");
        let (arcs, arcs_count, marks, marks_len) = (arcs.as_ptr(), arcs.len(), marks.as_ptr(), marks.len());
        let (services, services_count) = (services.as_ptr(), services.len());
        unsafe { write(n, m, start, finish, limit, arcs, arcs_count, marks, marks_len, services, services_count, sheet.as_mut_ptr(), sheet.len()) }
    }

    pub fn can_keep(&self) -> bool {
        self.put.is_some() && self.ask.is_some()
    }

    pub fn put(&self, store: &mut Store, sheet: &[u8], work: &mut [u8], slip: &[u8]) -> u32 {
        let put = self.put.expect("a library with a shelf");
        unsafe { put(store, sheet.as_ptr(), sheet.len(), work.as_mut_ptr(), work.len(), slip.as_ptr(), slip.len()) }
    }

    pub fn ask(&self, store: &Store, sheet: &[u8], slip: &mut [u8]) -> u32 {
        let ask = self.ask.expect("a library with a shelf");
        unsafe { ask(store, sheet.as_ptr(), sheet.len(), slip.as_mut_ptr(), slip.len()) }
    }
}

/// A library from before service minutes refuses a sheet that has them.
fn takes_services(pass: Call) -> bool {
    let (sheet, mut work, mut slip) = (served_b().bytes(), vec![0; WORK_BYTES], vec![0; SLIP_BYTES]);
    let number = unsafe { pass(sheet.as_ptr(), sheet.len(), work.as_mut_ptr(), work.len(), slip.as_mut_ptr(), slip.len()) };
    number < 65_536
}
