//! The calls of benchmarks/growth: search, margin and list over crystals and targets. Under callgrind each call is one dump of
//! counters, whose name is the call's.

use std::arch::asm;
use std::ffi::CString;
use std::hint::black_box;

use dizbaral::raw;

const MHZ: u32 = 1_000_000;
const CRYSTALS: [u32; 6] = [5, 8, 12, 20, 30, 50];

/// Of callgrind, as its header has them.
const ZERO_STATS: usize = 0x4354_0001;
const DUMP_STATS_AT: usize = 0x4354_0003;

/// Asks valgrind for something: the rotations come to nothing, and no compiler writes them.
fn request(what: usize, argument: *const i8) {
    let words = [what, argument as usize, 0, 0, 0, 0];
    unsafe {
        asm!("rol rdi, 3", "rol rdi, 13", "rol rdi, 61", "rol rdi, 51", "xchg rbx, rbx",
            in("rax") &words, inout("rdx") 0usize => _);
    }
}

fn counted(name: &str, crystal: u32, target: u32, call: impl FnOnce(u32, u32) -> u64) {
    let name = CString::new(format!("{name} {crystal} {target}")).unwrap();
    let (crystal, target) = (black_box(crystal), black_box(target));
    request(ZERO_STATS, std::ptr::null());
    black_box(call(crystal, target));
    request(DUMP_STATS_AT, name.as_ptr());
}

pub fn run() {
    let (mut limits, mut list) = ([0; 2], [0; 1024]);
    for crystal in CRYSTALS.map(|mhz| mhz * MHZ) {
        for target in (15..=300).step_by(5).map(|mhz| mhz * MHZ) {
            counted("search", crystal, target, |c, t| unsafe { raw::dizbaral_search(c, t) });
            counted("margin", crystal, target, |c, t| unsafe {
                raw::dizbaral_target_margin(c, t, &mut limits)
            });
            counted("list", crystal, target, |c, t| unsafe {
                raw::dizbaral_list(c, t, list.as_mut_ptr(), 1024)
            });
        }
    }
}
