//! The proved calls, and the only unsafe code of the crate: each is wrapped in a function
//! that takes slices, so that pointers and lengths fit and nothing written is shared.
//!
//! `include/lumbryth.h` has the same declarations, with what each call does.

/// A stretch as the library writes it: `way` is 2 * (4096 * adapter + handle), and one more if the bytes were received; the others are
/// numbers as in `crate::Stretch`.
#[derive(Debug, Clone, Copy, Default)]
#[repr(C)]
pub struct Stretch {
    pub way: u32,
    pub cid: u32,
    pub dlci: u32,
    pub sessions: u32,
    pub links: u32,
    pub held: u32,
}

extern "C" {
    fn lumbryth_unpack(
        wire: *const u8,
        wire_len: usize,
        out: *mut u8,
        out_len: usize,
        values: *mut u64,
        values_len: usize,
    ) -> u32;
    fn lumbryth_pack(
        kind: u8,
        seq: u8,
        payload: *const u8,
        payload_len: usize,
        out: *mut u8,
        out_len: usize,
        values: *mut u64,
        values_len: usize,
    ) -> u32;
    fn lumbryth_fixture_name(
        ms: u64,
        counter: u32,
        way: u8,
        wire: *const u8,
        wire_len: usize,
        out: *mut u8,
        out_len: usize,
        values: *mut u64,
        values_len: usize,
    ) -> u32;
    fn lumbryth_is_command_name(name: *const u8, name_len: usize) -> u32;
    fn lumbryth_plan(
        spans: *const u8,
        spans_len: usize,
        excluded: *const u8,
        excluded_len: usize,
        out: *mut u8,
        out_len: usize,
        values: *mut u64,
        values_len: usize,
    ) -> u32;
    fn lumbryth_capture_order(
        names: *const u8,
        names_len: usize,
        out: *mut u8,
        out_len: usize,
        values: *mut u64,
        values_len: usize,
    ) -> u32;
    fn lumbryth_import_with(
        file: *const u8,
        file_len: usize,
        work: *mut u8,
        work_len: usize,
        out: *mut u8,
        out_len: usize,
        options: *const u64,
        options_len: usize,
        values: *mut u64,
        values_len: usize,
    ) -> u32;
    fn lumbryth_sizes_with(
        file: *const u8,
        file_len: usize,
        work: *mut u8,
        work_len: usize,
        options: *const u64,
        options_len: usize,
        values: *mut u64,
        values_len: usize,
    ) -> u32;
    fn lumbryth_one_link_with(
        file: *const u8,
        file_len: usize,
        work: *mut u8,
        work_len: usize,
        out: *mut u8,
        out_len: usize,
        index: u16,
        handle: u16,
        dlci: u8,
        options: *const u64,
        options_len: usize,
        values: *mut u64,
        values_len: usize,
    ) -> u32;
    fn lumbryth_import_stretches(
        file: *const u8,
        file_len: usize,
        work: *mut u8,
        work_len: usize,
        stretches: *mut Stretch,
        stretches_len: usize,
        out: *mut u8,
        out_len: usize,
        channel: u32,
        tolerant: u32,
        values: *mut u64,
        values_len: usize,
    ) -> u32;
    fn lumbryth_import_stretches_with(
        file: *const u8,
        file_len: usize,
        work: *mut u8,
        work_len: usize,
        stretches: *mut Stretch,
        stretches_len: usize,
        out: *mut u8,
        out_len: usize,
        options: *const u64,
        options_len: usize,
        values: *mut u64,
        values_len: usize,
    ) -> u32;
    fn lumbryth_records(
        file: *const u8,
        file_len: usize,
        starts: *mut u64,
        starts_len: usize,
        values: *mut u64,
        values_len: usize,
    ) -> u32;
    fn lumbryth_records_with(
        file: *const u8,
        file_len: usize,
        starts: *mut u64,
        starts_len: usize,
        options: *const u64,
        options_len: usize,
        values: *mut u64,
        values_len: usize,
    ) -> u32;
    fn lumbryth_gaps(
        file: *const u8,
        file_len: usize,
        work: *mut u8,
        work_len: usize,
        tolerant: u32,
        values: *mut u64,
        values_len: usize,
    ) -> u32;
    fn lumbryth_gaps_with(
        file: *const u8,
        file_len: usize,
        work: *mut u8,
        work_len: usize,
        options: *const u64,
        options_len: usize,
        values: *mut u64,
        values_len: usize,
    ) -> u32;
}

pub fn unpack(wire: &[u8], out: &mut [u8], values: &mut [u64]) -> u32 {
    // Safety: the pointers and lengths are those of slices that live through the call, and the
    // slices written are borrowed for it alone. The call keeps none of them.
    unsafe {
        lumbryth_unpack(wire.as_ptr(), wire.len(), out.as_mut_ptr(), out.len(), values.as_mut_ptr(), values.len())
    }
}

pub fn pack(kind: u8, seq: u8, payload: &[u8], out: &mut [u8], values: &mut [u64]) -> u32 {
    // Safety: as for `unpack`; numbers may be any.
    unsafe {
        lumbryth_pack(
            kind,
            seq,
            payload.as_ptr(),
            payload.len(),
            out.as_mut_ptr(),
            out.len(),
            values.as_mut_ptr(),
            values.len(),
        )
    }
}

pub fn fixture_name(ms: u64, counter: u32, way: u8, wire: &[u8], out: &mut [u8], values: &mut [u64]) -> u32 {
    // Safety: as for `unpack`; numbers may be any.
    unsafe {
        lumbryth_fixture_name(
            ms,
            counter,
            way,
            wire.as_ptr(),
            wire.len(),
            out.as_mut_ptr(),
            out.len(),
            values.as_mut_ptr(),
            values.len(),
        )
    }
}

pub fn is_command_name(name: &[u8]) -> u32 {
    // Safety: the pointer and length are those of a slice that lives through the call, which
    // writes nothing.
    unsafe { lumbryth_is_command_name(name.as_ptr(), name.len()) }
}

pub fn plan(spans: &[u8], excluded: &[u8], out: &mut [u8], values: &mut [u64]) -> u32 {
    // Safety: as for `unpack`; the two lists that are read may overlap.
    unsafe {
        lumbryth_plan(
            spans.as_ptr(),
            spans.len(),
            excluded.as_ptr(),
            excluded.len(),
            out.as_mut_ptr(),
            out.len(),
            values.as_mut_ptr(),
            values.len(),
        )
    }
}

pub fn capture_order(names: &[u8], out: &mut [u8], values: &mut [u64]) -> u32 {
    // Safety: as for `unpack`.
    unsafe {
        lumbryth_capture_order(
            names.as_ptr(),
            names.len(),
            out.as_mut_ptr(),
            out.len(),
            values.as_mut_ptr(),
            values.len(),
        )
    }
}

pub fn import_with(file: &[u8], work: &mut [u8], out: &mut [u8], options: &[u64], values: &mut [u64]) -> u32 {
    // Safety: as for `unpack`; `work` too is borrowed for the call alone.
    unsafe {
        lumbryth_import_with(
            file.as_ptr(),
            file.len(),
            work.as_mut_ptr(),
            work.len(),
            out.as_mut_ptr(),
            out.len(),
            options.as_ptr(),
            options.len(),
            values.as_mut_ptr(),
            values.len(),
        )
    }
}

pub fn sizes_with(file: &[u8], work: &mut [u8], options: &[u64], values: &mut [u64]) -> u32 {
    // Safety: as for `import_with`, without an output.
    unsafe {
        lumbryth_sizes_with(
            file.as_ptr(),
            file.len(),
            work.as_mut_ptr(),
            work.len(),
            options.as_ptr(),
            options.len(),
            values.as_mut_ptr(),
            values.len(),
        )
    }
}

/// The link is an adapter's index and a handle.
pub fn one_link_with(
    file: &[u8],
    work: &mut [u8],
    out: &mut [u8],
    link: (u16, u16),
    dlci: u8,
    options: &[u64],
    values: &mut [u64],
) -> u32 {
    // Safety: as for `import_with`; numbers may be any.
    unsafe {
        lumbryth_one_link_with(
            file.as_ptr(),
            file.len(),
            work.as_mut_ptr(),
            work.len(),
            out.as_mut_ptr(),
            out.len(),
            link.0,
            link.1,
            dlci,
            options.as_ptr(),
            options.len(),
            values.as_mut_ptr(),
            values.len(),
        )
    }
}

pub fn import_stretches(
    file: &[u8],
    work: &mut [u8],
    stretches: &mut [Stretch],
    out: &mut [u8],
    channel: u32,
    tolerant: u32,
    values: &mut [u64],
) -> u32 {
    // Safety: as for `unpack`; `work` and `stretches` too are borrowed for the call alone, so
    // they overlap nothing else that is lent. `Stretch` is laid out as in C, and any numbers
    // make one.
    unsafe {
        lumbryth_import_stretches(
            file.as_ptr(),
            file.len(),
            work.as_mut_ptr(),
            work.len(),
            stretches.as_mut_ptr(),
            stretches.len(),
            out.as_mut_ptr(),
            out.len(),
            channel,
            tolerant,
            values.as_mut_ptr(),
            values.len(),
        )
    }
}

pub fn import_stretches_with(
    file: &[u8],
    work: &mut [u8],
    stretches: &mut [Stretch],
    out: &mut [u8],
    options: &[u64],
    values: &mut [u64],
) -> u32 {
    // Safety: as for `import_stretches`.
    unsafe {
        lumbryth_import_stretches_with(
            file.as_ptr(),
            file.len(),
            work.as_mut_ptr(),
            work.len(),
            stretches.as_mut_ptr(),
            stretches.len(),
            out.as_mut_ptr(),
            out.len(),
            options.as_ptr(),
            options.len(),
            values.as_mut_ptr(),
            values.len(),
        )
    }
}

pub fn records(file: &[u8], starts: &mut [u64], values: &mut [u64]) -> u32 {
    // Safety: as for `unpack`; `starts` too is borrowed for the call alone.
    unsafe {
        lumbryth_records(
            file.as_ptr(),
            file.len(),
            starts.as_mut_ptr(),
            starts.len(),
            values.as_mut_ptr(),
            values.len(),
        )
    }
}

pub fn records_with(file: &[u8], starts: &mut [u64], options: &[u64], values: &mut [u64]) -> u32 {
    // Safety: as for `records`.
    unsafe {
        lumbryth_records_with(
            file.as_ptr(),
            file.len(),
            starts.as_mut_ptr(),
            starts.len(),
            options.as_ptr(),
            options.len(),
            values.as_mut_ptr(),
            values.len(),
        )
    }
}

pub fn gaps(file: &[u8], work: &mut [u8], tolerant: u32, values: &mut [u64]) -> u32 {
    // Safety: as for `unpack`; `work` too is borrowed for the call alone.
    unsafe {
        lumbryth_gaps(
            file.as_ptr(),
            file.len(),
            work.as_mut_ptr(),
            work.len(),
            tolerant,
            values.as_mut_ptr(),
            values.len(),
        )
    }
}

pub fn gaps_with(file: &[u8], work: &mut [u8], options: &[u64], values: &mut [u64]) -> u32 {
    // Safety: as for `gaps`.
    unsafe {
        lumbryth_gaps_with(
            file.as_ptr(),
            file.len(),
            work.as_mut_ptr(),
            work.len(),
            options.as_ptr(),
            options.len(),
            values.as_mut_ptr(),
            values.len(),
        )
    }
}
