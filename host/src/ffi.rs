//! The C functions for safe Rust, here and in the oracle.
//! dev/declare writes them from crates/host_c/src/lib.rt: change that and run it.

#![allow(clippy::too_many_arguments)]

mod c {
    extern "C" {
        pub fn sillurwy_carrier_bin(mode: u8, k: usize, bin: *mut usize) -> u8;
        pub fn sillurwy_role_map(
            mode: u8,
            phase: u8,
            kinds: *const u8,
            kinds_len: usize,
            out: *mut u8,
            out_len: usize,
        ) -> u8;
        pub fn sillurwy_carrier_role(
            mode: u8,
            phase: u8,
            kinds: *const u8,
            kinds_len: usize,
            k: usize,
            role: *mut u8,
        ) -> u8;
        pub fn sillurwy_sign_map(mode: u8, out: *mut u8, out_len: usize) -> u8;
        pub fn sillurwy_data_list(
            mode: u8,
            phase: u8,
            kinds: *const u8,
            kinds_len: usize,
            out: *mut u32,
            out_len: usize,
        ) -> u8;
        pub fn sillurwy_continual_list(
            mode: u8,
            kinds: *const u8,
            kinds_len: usize,
            out: *mut u32,
            out_len: usize,
            count: *mut usize,
        ) -> u8;
        pub fn sillurwy_samples_needed(
            modes: *const u8,
            modes_len: usize,
            guards: *const u8,
            guards_len: usize,
            symbols: usize,
            samples: *mut usize,
        ) -> u8;
        pub fn sillurwy_detect_mode(
            samples: *const f32,
            samples_len: usize,
            modes: *const u8,
            modes_len: usize,
            guards: *const u8,
            guards_len: usize,
            scratch: *mut f64,
            scratch_len: usize,
            found: *mut u8,
            mode: *mut u8,
            guard: *mut u8,
            offset: *mut usize,
            metric: *mut f64,
            re: *mut f64,
            im: *mut f64,
        ) -> u8;
        pub fn sillurwy_tmcc_soft(
            mode: u8,
            kinds: *const u8,
            kinds_len: usize,
            spectra: *const f32,
            spectra_len: usize,
            filter: u8,
            value: *mut f32,
        ) -> u8;
        pub fn sillurwy_bin_ratio(pairs: *const f32, pairs_len: usize, ratio: *mut f32) -> u8;
        pub fn sillurwy_integer_cfo(
            mode: u8,
            spectra: *const f32,
            spectra_len: usize,
            bound: usize,
            ratios: *mut f32,
            ratios_len: usize,
            shift: *mut i64,
            score: *mut f32,
        ) -> u8;
        pub fn sillurwy_detect_kinds(
            mode: u8,
            spectra: *const f32,
            spectra_len: usize,
            ratios: *mut f32,
            ratios_len: usize,
            kinds: *mut [u8; 13],
            scores: *mut [f32; 13],
        ) -> u8;
        pub fn sillurwy_detect_sp_phase(
            mode: u8,
            kinds: *const u8,
            kinds_len: usize,
            spectra: *const f32,
            spectra_len: usize,
            found: *mut u8,
            phase: *mut u8,
            share: *mut f32,
            counts: *mut [u32; 4],
            lead: *mut u32,
        ) -> u8;
        pub fn sillurwy_frame_start(
            soft: *const f32,
            soft_len: usize,
            found: *mut u8,
            start: *mut usize,
            word: *mut u8,
        ) -> u8;
        pub fn sillurwy_estimate_grid(
            mode: u8,
            phase: u8,
            kinds: *const u8,
            kinds_len: usize,
            spectra: *const f32,
            spectra_len: usize,
            index: usize,
            w: usize,
            grid: *mut f32,
            grid_len: usize,
        ) -> u8;
        pub fn sillurwy_root(x: f64) -> f64;
        pub fn sillurwy_narrow(x: f64) -> f32;
        pub fn sillurwy_norm32(re: f32, im: f32) -> f32;
        pub fn sillurwy_norm64(re: f64, im: f64) -> f64;
        pub fn sillurwy_angle(re: f64, im: f64) -> i32;
        pub fn sillurwy_cfo_frac(re: f64, im: f64) -> f64;
    }
}

/// The FFT bin of carrier k.
#[inline]
pub fn carrier_bin(mode: u8, k: usize, bin: &mut usize) -> u8 {
    // SAFETY: numbers, which live through the call; nobody else borrows what is written. The
    // function keeps no pointer and asks for nothing more.
    unsafe { c::sillurwy_carrier_bin(mode, k, bin) }
}

/// The role byte of each carrier of the band.
#[inline]
pub fn role_map(mode: u8, phase: u8, kinds: &[u8], out: &mut [u8]) -> u8 {
    // SAFETY: whole slices with their lengths, which live through the call; nobody else borrows
    // what is written. The function keeps no pointer and asks for nothing more.
    unsafe {
        c::sillurwy_role_map(
            mode,
            phase,
            kinds.as_ptr(),
            kinds.len(),
            out.as_mut_ptr(),
            out.len(),
        )
    }
}

/// The role byte of one carrier of the band.
#[inline]
pub fn carrier_role(mode: u8, phase: u8, kinds: &[u8], k: usize, role: &mut u8) -> u8 {
    // SAFETY: whole slices with their lengths, numbers, which live through the call; nobody else
    // borrows what is written. The function keeps no pointer and asks for nothing more.
    unsafe { c::sillurwy_carrier_role(mode, phase, kinds.as_ptr(), kinds.len(), k, role) }
}

/// The pilot sign of each carrier of the band.
#[inline]
pub fn sign_map(mode: u8, out: &mut [u8]) -> u8 {
    // SAFETY: whole slices with their lengths, which live through the call; nobody else borrows
    // what is written. The function keeps no pointer and asks for nothing more.
    unsafe { c::sillurwy_sign_map(mode, out.as_mut_ptr(), out.len()) }
}

/// The data carriers of the band, in segment-number order.
#[inline]
pub fn data_list(mode: u8, phase: u8, kinds: &[u8], out: &mut [u32]) -> u8 {
    // SAFETY: whole slices with their lengths, which live through the call; nobody else borrows
    // what is written. The function keeps no pointer and asks for nothing more.
    unsafe {
        c::sillurwy_data_list(
            mode,
            phase,
            kinds.as_ptr(),
            kinds.len(),
            out.as_mut_ptr(),
            out.len(),
        )
    }
}

/// The continual carriers of the band, and how many there are.
#[inline]
pub fn continual_list(mode: u8, kinds: &[u8], out: &mut [u32], count: &mut usize) -> u8 {
    // SAFETY: whole slices with their lengths, numbers, which live through the call; nobody else
    // borrows what is written. The function keeps no pointer and asks for nothing more.
    unsafe {
        c::sillurwy_continual_list(
            mode,
            kinds.as_ptr(),
            kinds.len(),
            out.as_mut_ptr(),
            out.len(),
            count,
        )
    }
}

/// Samples that the guard search needs for at least `symbols` symbols.
#[inline]
pub fn samples_needed(modes: &[u8], guards: &[u8], symbols: usize, samples: &mut usize) -> u8 {
    // SAFETY: whole slices with their lengths, numbers, which live through the call; nobody else
    // borrows what is written. The function keeps no pointer and asks for nothing more.
    unsafe {
        c::sillurwy_samples_needed(
            modes.as_ptr(),
            modes.len(),
            guards.as_ptr(),
            guards.len(),
            symbols,
            samples,
        )
    }
}

/// The guard search: whether something is found, then the guess. Where nothing is found, what was lent
/// for the guess stays as it was.
#[inline]
pub fn detect_mode(
    samples: &[f32],
    modes: &[u8],
    guards: &[u8],
    scratch: &mut [f64],
    found: &mut u8,
    mode: &mut u8,
    guard: &mut u8,
    offset: &mut usize,
    metric: &mut f64,
    re: &mut f64,
    im: &mut f64,
) -> u8 {
    // SAFETY: whole slices with their lengths, numbers, which live through the call; nobody else
    // borrows what is written. The function keeps no pointer and asks for nothing more.
    unsafe {
        c::sillurwy_detect_mode(
            samples.as_ptr(),
            samples.len(),
            modes.as_ptr(),
            modes.len(),
            guards.as_ptr(),
            guards.len(),
            scratch.as_mut_ptr(),
            scratch.len(),
            found,
            mode,
            guard,
            offset,
            metric,
            re,
            im,
        )
    }
}

/// The soft value of the TMCC carriers between two spectra.
#[inline]
pub fn tmcc_soft(mode: u8, kinds: &[u8], spectra: &[f32], filter: u8, value: &mut f32) -> u8 {
    // SAFETY: whole slices with their lengths, numbers, which live through the call; nobody else
    // borrows what is written. The function keeps no pointer and asks for nothing more.
    unsafe {
        c::sillurwy_tmcc_soft(
            mode,
            kinds.as_ptr(),
            kinds.len(),
            spectra.as_ptr(),
            spectra.len(),
            filter,
            value,
        )
    }
}

/// The ratio of one bin, from its pairs in symbol order.
#[inline]
pub fn bin_ratio(pairs: &[f32], ratio: &mut f32) -> u8 {
    // SAFETY: whole slices with their lengths, numbers, which live through the call; nobody else
    // borrows what is written. The function keeps no pointer and asks for nothing more.
    unsafe { c::sillurwy_bin_ratio(pairs.as_ptr(), pairs.len(), ratio) }
}

/// The shift of spectra, and its score; their ratios stay in `ratios`.
#[inline]
pub fn integer_cfo(
    mode: u8,
    spectra: &[f32],
    bound: usize,
    ratios: &mut [f32],
    shift: &mut i64,
    score: &mut f32,
) -> u8 {
    // SAFETY: whole slices with their lengths, numbers, which live through the call; nobody else
    // borrows what is written. The function keeps no pointer and asks for nothing more.
    unsafe {
        c::sillurwy_integer_cfo(
            mode,
            spectra.as_ptr(),
            spectra.len(),
            bound,
            ratios.as_mut_ptr(),
            ratios.len(),
            shift,
            score,
        )
    }
}

/// The kinds of the thirteen segments and their scores, by segment number; the ratios stay in `ratios`.
#[inline]
pub fn detect_kinds(
    mode: u8,
    spectra: &[f32],
    ratios: &mut [f32],
    kinds: &mut [u8; 13],
    scores: &mut [f32; 13],
) -> u8 {
    // SAFETY: whole slices with their lengths, whole arrays, which live through the call; nobody
    // else borrows what is written. The function keeps no pointer and asks for nothing more.
    unsafe {
        c::sillurwy_detect_kinds(
            mode,
            spectra.as_ptr(),
            spectra.len(),
            ratios.as_mut_ptr(),
            ratios.len(),
            kinds,
            scores,
        )
    }
}

/// The pilot phase: whether there are scattered pilots, then the phase and its share; the four counts and
/// the lead. Without scattered pilots, what was lent for phase and share stays as it was.
#[inline]
pub fn detect_sp_phase(
    mode: u8,
    kinds: &[u8],
    spectra: &[f32],
    found: &mut u8,
    phase: &mut u8,
    share: &mut f32,
    counts: &mut [u32; 4],
    lead: &mut u32,
) -> u8 {
    // SAFETY: whole slices with their lengths, whole arrays, numbers, which live through the call;
    // nobody else borrows what is written. The function keeps no pointer and asks for nothing more.
    unsafe {
        c::sillurwy_detect_sp_phase(
            mode,
            kinds.as_ptr(),
            kinds.len(),
            spectra.as_ptr(),
            spectra.len(),
            found,
            phase,
            share,
            counts,
            lead,
        )
    }
}

/// A start at which soft TMCC values spell a synchronising word: whether there is one, then the start and
/// the word's code. Where there is none, what was lent for start and word stays as it was. Nothing is
/// refused.
#[inline]
pub fn frame_start(soft: &[f32], found: &mut u8, start: &mut usize, word: &mut u8) -> u8 {
    // SAFETY: whole slices with their lengths, numbers, which live through the call; nobody else
    // borrows what is written. The function keeps no pointer and asks for nothing more.
    unsafe { c::sillurwy_frame_start(soft.as_ptr(), soft.len(), found, start, word) }
}

/// The channel at the points of the grid.
#[inline]
pub fn estimate_grid(
    mode: u8,
    phase: u8,
    kinds: &[u8],
    spectra: &[f32],
    index: usize,
    w: usize,
    grid: &mut [f32],
) -> u8 {
    // SAFETY: whole slices with their lengths, which live through the call; nobody else borrows
    // what is written. The function keeps no pointer and asks for nothing more.
    unsafe {
        c::sillurwy_estimate_grid(
            mode,
            phase,
            kinds.as_ptr(),
            kinds.len(),
            spectra.as_ptr(),
            spectra.len(),
            index,
            w,
            grid.as_mut_ptr(),
            grid.len(),
        )
    }
}

/// The f64 nearest to the root of x.
#[inline]
pub fn root(x: f64) -> f64 {
    // SAFETY: it takes and gives numbers alone.
    unsafe { c::sillurwy_root(x) }
}

/// The f32 nearest to x.
#[inline]
pub fn narrow(x: f64) -> f32 {
    // SAFETY: it takes and gives numbers alone.
    unsafe { c::sillurwy_narrow(x) }
}

/// The norm of an f32 pair.
#[inline]
pub fn norm32(re: f32, im: f32) -> f32 {
    // SAFETY: it takes and gives numbers alone.
    unsafe { c::sillurwy_norm32(re, im) }
}

/// The norm of an f64 pair.
#[inline]
pub fn norm64(re: f64, im: f64) -> f64 {
    // SAFETY: it takes and gives numbers alone.
    unsafe { c::sillurwy_norm64(re, im) }
}

/// The angle of the pair (re, im), in 1/65536 of a turn.
#[inline]
pub fn angle(re: f64, im: f64) -> i32 {
    // SAFETY: it takes and gives numbers alone.
    unsafe { c::sillurwy_angle(re, im) }
}

/// The fractional carrier offset that the summed correlation (re, im) of a guess tells, in carrier
/// spacings.
#[inline]
pub fn cfo_frac(re: f64, im: f64) -> f64 {
    // SAFETY: it takes and gives numbers alone.
    unsafe { c::sillurwy_cfo_frac(re, im) }
}
