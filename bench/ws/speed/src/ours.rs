//! The library's client, over the library's script host.
use crate::life::{Areas, Asks, Life};

// As lives.rt.in has them: a slice crosses as a pointer and then a length.
extern "C" {
    fn lives_exchanges(
        script: *const u8,
        script_len: usize,
        content: *const u8,
        content_len: usize,
        out: *mut u8,
        out_len: usize,
        work: *mut u8,
        work_len: usize,
        status: *mut u8,
        status_len: usize,
        joins: bool,
        times: usize,
    ) -> usize;
    fn lives_applies(
        script: *const u8,
        script_len: usize,
        content: *const u8,
        content_len: usize,
        out: *mut u8,
        out_len: usize,
        work: *mut u8,
        work_len: usize,
        status: *mut u8,
        status_len: usize,
        times: usize,
    ) -> usize;
    fn lives_listings(
        script: *const u8,
        script_len: usize,
        paths: usize,
        text: *mut u8,
        text_len: usize,
        work: *mut u8,
        work_len: usize,
        status: *mut u8,
        status_len: usize,
        times: usize,
    ) -> usize;
    fn lives_handshakes(
        script: *const u8,
        script_len: usize,
        work: *mut u8,
        work_len: usize,
        times: usize,
    ) -> usize;
}

/// Plays a life; how often what was asked went well.
#[no_mangle]
#[inline(never)]
pub fn life_of_ours(life: &Life, areas: &mut Areas) -> usize {
    let Areas {
        work, status, out, text, ..
    } = areas;
    let script = &life.script;
    // SAFETY: the functions ask nothing of their caller, and each pointer and length are those of one slice.
    unsafe {
        match life.asks {
            Asks::Exchanges { joins, .. } => lives_exchanges(
                script.as_ptr(),
                script.len(),
                life.content.as_ptr(),
                life.content.len(),
                out.as_mut_ptr(),
                out.len(),
                work.as_mut_ptr(),
                work.len(),
                status.as_mut_ptr(),
                status.len(),
                joins,
                life.times,
            ),
            Asks::Applies { .. } => lives_applies(
                script.as_ptr(),
                script.len(),
                life.content.as_ptr(),
                life.content.len(),
                out.as_mut_ptr(),
                out.len(),
                work.as_mut_ptr(),
                work.len(),
                status.as_mut_ptr(),
                status.len(),
                life.times,
            ),
            Asks::Listings { paths } => lives_listings(
                script.as_ptr(),
                script.len(),
                paths,
                text.as_mut_ptr(),
                text.len(),
                work.as_mut_ptr(),
                work.len(),
                status.as_mut_ptr(),
                status.len(),
                life.times,
            ),
            Asks::Handshakes => lives_handshakes(
                script.as_ptr(),
                script.len(),
                work.as_mut_ptr(),
                work.len(),
                life.times,
            ),
        }
    }
}
