//! The calls as they are exported, each slice as its pointer and its length. A reference is not null (an empty slice's pointer
//! dangles, aligned and not null), and the borrow checker keeps `&mut` apart: that is all that the boundary must be granted.
//! The static library becomes part of this crate, so that whoever uses it links nothing else; the build script, or `-L`, says where it is.

#[link(name = "boundary", kind = "static")]
extern "C" {
    fn lingbarrow_power_on(state: *mut u8, state_length: usize, serial: *const u8, serial_length: usize, registration: *const u8, registration_length: usize) -> u8;
    fn lingbarrow_in_range(state: *const u8, state_length: usize) -> u8;
    fn lingbarrow_frame(
        state: *mut u8,
        state_length: usize,
        memory: *mut u8,
        memory_length: usize,
        frame: *const u8,
        frame_length: usize,
        random_delay: u32,
        plan: *mut u16,
        plan_length: usize,
        replies: *mut u8,
        replies_length: usize,
        deliveries: *mut u8,
        deliveries_length: usize,
        counts: *mut usize,
        counts_length: usize,
    ) -> u8;
    fn lingbarrow_lost(state: *mut u8, state_length: usize) -> u8;
    fn lingbarrow_add_port(state: *mut u8, state_length: usize, port: u16) -> u8;
    fn lingbarrow_remove_port(state: *mut u8, state_length: usize, port: u16) -> u8;
    fn lingbarrow_give_key(state: *mut u8, state_length: usize, key: *const u8, key_length: usize) -> u8;
    fn lingbarrow_stretch(state: *const u8, state_length: usize, frame: *const u8, frame_length: usize, k: usize, place: *mut usize, place_length: usize) -> u8;
    fn lingbarrow_stretches(
        state: *const u8,
        state_length: usize,
        frame: *const u8,
        frame_length: usize,
        places: *mut usize,
        places_length: usize,
        counts: *mut usize,
        counts_length: usize,
    ) -> u8;
    fn lingbarrow_why_dark(
        state: *const u8,
        state_length: usize,
        frame: *const u8,
        frame_length: usize,
        names: *mut u8,
        names_length: usize,
        counts: *mut usize,
        counts_length: usize,
    ) -> u8;
    fn lingbarrow_write_hlend(bwmap: u32, ploam: u32, target: *mut u8, target_length: usize) -> u8;
    fn lingbarrow_write_allocation(alloc: u32, dbru: u32, ploamu: u32, start: u32, grant: u32, fwi: u32, profile: u32, target: *mut u8, target_length: usize) -> u8;
    fn lingbarrow_write_xgem_frame(key: u32, port: u32, options: u32, last: u32, sdu: *const u8, sdu_length: usize, target: *mut u8, target_length: usize) -> u8;
}

pub fn power_on(state: &mut [u8], serial: &[u8], registration: &[u8]) -> u8 {
    unsafe { lingbarrow_power_on(state.as_mut_ptr(), state.len(), serial.as_ptr(), serial.len(), registration.as_ptr(), registration.len()) }
}

pub fn in_range(state: &[u8]) -> u8 {
    unsafe { lingbarrow_in_range(state.as_ptr(), state.len()) }
}

#[allow(clippy::too_many_arguments)]
pub fn frame(
    state: &mut [u8],
    memory: &mut [u8],
    frame: &[u8],
    random_delay: u32,
    plan: &mut [u16],
    replies: &mut [u8],
    deliveries: &mut [u8],
    counts: &mut [usize],
) -> u8 {
    unsafe {
        lingbarrow_frame(
            state.as_mut_ptr(),
            state.len(),
            memory.as_mut_ptr(),
            memory.len(),
            frame.as_ptr(),
            frame.len(),
            random_delay,
            plan.as_mut_ptr(),
            plan.len(),
            replies.as_mut_ptr(),
            replies.len(),
            deliveries.as_mut_ptr(),
            deliveries.len(),
            counts.as_mut_ptr(),
            counts.len(),
        )
    }
}

pub fn lost(state: &mut [u8]) -> u8 {
    unsafe { lingbarrow_lost(state.as_mut_ptr(), state.len()) }
}

pub fn add_port(state: &mut [u8], port: u16) -> u8 {
    unsafe { lingbarrow_add_port(state.as_mut_ptr(), state.len(), port) }
}

pub fn remove_port(state: &mut [u8], port: u16) -> u8 {
    unsafe { lingbarrow_remove_port(state.as_mut_ptr(), state.len(), port) }
}

pub fn give_key(state: &mut [u8], key: &[u8]) -> u8 {
    unsafe { lingbarrow_give_key(state.as_mut_ptr(), state.len(), key.as_ptr(), key.len()) }
}

pub fn stretch(state: &[u8], frame: &[u8], k: usize, place: &mut [usize]) -> u8 {
    unsafe { lingbarrow_stretch(state.as_ptr(), state.len(), frame.as_ptr(), frame.len(), k, place.as_mut_ptr(), place.len()) }
}

pub fn stretches(state: &[u8], frame: &[u8], places: &mut [usize], counts: &mut [usize]) -> u8 {
    unsafe {
        lingbarrow_stretches(state.as_ptr(), state.len(), frame.as_ptr(), frame.len(), places.as_mut_ptr(), places.len(), counts.as_mut_ptr(), counts.len())
    }
}

pub fn why_dark(state: &[u8], frame: &[u8], names: &mut [u8], counts: &mut [usize]) -> u8 {
    unsafe { lingbarrow_why_dark(state.as_ptr(), state.len(), frame.as_ptr(), frame.len(), names.as_mut_ptr(), names.len(), counts.as_mut_ptr(), counts.len()) }
}

pub fn write_hlend(bwmap: u32, ploam: u32, target: &mut [u8]) -> u8 {
    unsafe { lingbarrow_write_hlend(bwmap, ploam, target.as_mut_ptr(), target.len()) }
}

#[allow(clippy::too_many_arguments)]
pub fn write_allocation(alloc: u16, dbru: bool, ploamu: bool, start: u32, grant: u32, fwi: bool, profile: u32, target: &mut [u8]) -> u8 {
    unsafe { lingbarrow_write_allocation(alloc.into(), dbru.into(), ploamu.into(), start, grant, fwi.into(), profile, target.as_mut_ptr(), target.len()) }
}

pub fn write_xgem_frame(key: u32, port: u16, options: u32, last: bool, sdu: &[u8], target: &mut [u8]) -> u8 {
    unsafe { lingbarrow_write_xgem_frame(key, port.into(), options, last.into(), sdu.as_ptr(), sdu.len(), target.as_mut_ptr(), target.len()) }
}
