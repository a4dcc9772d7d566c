//! The Rust maps of the benchmark: std's HashMap, hashbrown with Fx hashing, and phf. Each runs its query loops here, compiled natively; the
//! functions of one map are those of `structure` in ../structure.h.

use std::collections::HashMap;
use std::slice::from_raw_parts;

trait Map {
    fn of(codes: &[u32], schedules: &[u32]) -> Self;
    /// The schedule of a code, 0 where it is absent.
    fn get(&self, code: u32) -> u32;
    fn list(&self) -> Vec<(u32, u32)>;
}

impl Map for HashMap<u32, u32> {
    fn of(codes: &[u32], schedules: &[u32]) -> Self {
        let mut map = HashMap::with_capacity(codes.len());
        map.extend(codes.iter().copied().zip(schedules.iter().copied()));
        map
    }
    #[inline(always)]
    fn get(&self, code: u32) -> u32 {
        HashMap::get(self, &code).map_or(0, |s| *s)
    }
    fn list(&self) -> Vec<(u32, u32)> {
        self.iter().map(|(a, s)| (*a, *s)).collect()
    }
}

type FxMap = hashbrown::HashMap<u32, u32, fxhash::FxBuildHasher>;

impl Map for FxMap {
    fn of(codes: &[u32], schedules: &[u32]) -> Self {
        let mut map = FxMap::with_capacity_and_hasher(codes.len(), Default::default());
        map.extend(codes.iter().copied().zip(schedules.iter().copied()));
        map
    }
    #[inline(always)]
    fn get(&self, code: u32) -> u32 {
        hashbrown::HashMap::get(self, &code).map_or(0, |s| *s)
    }
    fn list(&self) -> Vec<(u32, u32)> {
        self.iter().map(|(a, s)| (*a, *s)).collect()
    }
}

/// phf's map, filled as its macro would fill it, but when the list is there.
pub struct Perfect(phf::Map<u32, u32>);

impl Map for Perfect {
    fn of(codes: &[u32], schedules: &[u32]) -> Self {
        let state = phf_generator::generate_hash(codes);
        let entries: Vec<(u32, u32)> = state.map.iter().map(|i| (codes[*i], schedules[*i])).collect();
        Perfect(phf::Map {
            key: state.key,
            disps: Box::leak(state.disps.into_boxed_slice()),
            entries: Box::leak(entries.into_boxed_slice()),
        })
    }
    #[inline(always)]
    fn get(&self, code: u32) -> u32 {
        self.0.get(&code).map_or(0, |s| *s)
    }
    fn list(&self) -> Vec<(u32, u32)> {
        self.0.entries.to_vec()
    }
}

impl Drop for Perfect {
    fn drop(&mut self) {
        // both were leaked by `of`, and nothing else refers to them
        unsafe {
            drop(Box::from_raw(self.0.disps as *const [(u32, u32)] as *mut [(u32, u32)]));
            drop(Box::from_raw(self.0.entries as *const [(u32, u32)] as *mut [(u32, u32)]));
        }
    }
}

unsafe fn build<M: Map>(codes: *const u32, schedules: *const u32, n: usize) -> *mut M {
    Box::into_raw(Box::new(M::of(from_raw_parts(codes, n), from_raw_parts(schedules, n))))
}

unsafe fn answers<M: Map>(map: *const M, codes: *const u32, count: usize, out: *mut u32) {
    for (i, code) in from_raw_parts(codes, count).iter().enumerate() {
        *out.add(i) = (*map).get(*code);
    }
}

unsafe fn sum<M: Map>(map: *const M, codes: *const u32, count: usize) -> u64 {
    from_raw_parts(codes, count).iter().map(|code| u64::from((*map).get(*code))).sum()
}

unsafe fn chain<M: Map>(map: *const M, codes: *const u32, count: usize, zero: u32) -> u32 {
    from_raw_parts(codes, count).iter().fold(0, |last, code| (*map).get(*code + (last & zero)))
}

/// Whether a hold is too long. Read through a pointer that the compiler does not know, so that it is asked of each panel anew.
unsafe fn holds_refused(holds: *const u32) -> bool {
    let of_panel = from_raw_parts(std::ptr::read_volatile(&holds), 999);
    of_panel.iter().fold(false, |wrong, hold| wrong | (*hold > 10080))
}

/// The schedule with the highest rank decides; 0 where the code is absent or the schedule not in use.
#[inline(always)]
fn rank_of(holds: &[u32], schedule: u32) -> u32 {
    let hold = if schedule == 0 { 0 } else { holds[schedule as usize - 1] };
    if hold == 0 {
        0
    } else {
        hold << 10 | (1023 - schedule)
    }
}

unsafe fn panels<M: Map>(map: *const M, holds: *const u32, codes: *const u32, each: usize, count: usize) -> u64 {
    let mut total = 0;
    for panel in from_raw_parts(codes, each * count).chunks_exact(each) {
        if holds_refused(holds) {
            continue;
        }
        let mut highest = 0;
        for code in panel {
            let rank = rank_of(from_raw_parts(holds, 999), (*map).get(*code));
            if rank == 0 {
                highest = 0;
                break;
            }
            highest = highest.max(rank);
        }
        total += if highest == 0 { 0 } else { u64::from(1023 - (highest & 1023)) };
    }
    total
}

unsafe fn pairs<M: Map>(map: *const M, codes: *mut u32, schedules: *mut u32) -> usize {
    let mut list = (*map).list();
    list.sort_unstable();
    for (i, (code, schedule)) in list.iter().enumerate() {
        *codes.add(i) = *code;
        *schedules.add(i) = *schedule;
    }
    list.len()
}

macro_rules! exported {
    ($map:ty, $build:ident, $drop:ident, $answers:ident, $sum:ident, $chain:ident, $panels:ident, $pairs:ident) => {
        #[no_mangle]
        pub unsafe extern "C" fn $build(codes: *const u32, schedules: *const u32, n: usize, _lent: *mut u32) -> *mut $map {
            build(codes, schedules, n)
        }
        #[no_mangle]
        pub unsafe extern "C" fn $drop(map: *mut $map) {
            drop(Box::from_raw(map))
        }
        #[no_mangle]
        pub unsafe extern "C" fn $answers(map: *const $map, codes: *const u32, count: usize, out: *mut u32) {
            answers(map, codes, count, out)
        }
        #[no_mangle]
        pub unsafe extern "C" fn $sum(map: *const $map, codes: *const u32, count: usize) -> u64 {
            sum(map, codes, count)
        }
        #[no_mangle]
        pub unsafe extern "C" fn $chain(map: *const $map, codes: *const u32, count: usize, zero: u32) -> u32 {
            chain(map, codes, count, zero)
        }
        #[no_mangle]
        pub unsafe extern "C" fn $panels(map: *const $map, holds: *const u32, codes: *const u32, each: usize, count: usize) -> u64 {
            panels(map, holds, codes, each, count)
        }
        #[no_mangle]
        pub unsafe extern "C" fn $pairs(map: *const $map, codes: *mut u32, schedules: *mut u32) -> usize {
            pairs(map, codes, schedules)
        }
    };
}

exported!(HashMap<u32, u32>, std_build, std_drop, std_answers, std_sum, std_chain, std_panels, std_pairs);
exported!(FxMap, fx_build, fx_drop, fx_answers, fx_sum, fx_chain, fx_panels, fx_pairs);
exported!(Perfect, phf_build, phf_drop, phf_answers, phf_sum, phf_chain, phf_panels, phf_pairs);
