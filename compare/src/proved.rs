//! The proved library, `liblumbryth.a`, declared by hand: nothing checks these
//! declarations against the Rattle source but this comparison.
//!
//! A slice passes as pointer and length. Each group of calls stands behind the
//! feature of its name, so that a library without it still links.

#![allow(clippy::too_many_arguments)]

use crate::answer::{Stream, Stretch, Subject};

pub struct Proved;

/// The groups that this build links.
pub fn has(group: &str) -> bool {
    let groups = [
        ("codec", cfg!(feature = "codec")),
        ("names", cfg!(feature = "names")),
        ("plan", cfg!(feature = "plan")),
        ("order", cfg!(feature = "order")),
        ("import", cfg!(feature = "import")),
        ("tolerant", cfg!(feature = "tolerant")),
        ("stretches", cfg!(feature = "stretches")),
        ("gaps", cfg!(feature = "gaps")),
        ("pcap", cfg!(feature = "pcap")),
        // The switch is one of the options.
        ("fcs", cfg!(feature = "pcap")),
        ("sizes", cfg!(feature = "sizes")),
        ("links", cfg!(feature = "links")),
        // What imports.
        ("bytes", cfg!(all(feature = "import", feature = "pcap"))),
        // What the cases call.
        ("vectors", cfg!(all(feature = "import", feature = "tolerant"))),
    ];
    groups.contains(&(group, true))
}

/// Declares one call behind its feature: with the feature the library's, and
/// without it a function that says so.
macro_rules! call {
    ($feature:literal, $name:ident($($arg:ident: $type:ty),*)) => {
        #[cfg(feature = $feature)]
        extern "C" {
            fn $name($($arg: $type),*) -> u32;
        }
        #[cfg(not(feature = $feature))]
        unsafe fn $name($(_: $type),*) -> u32 {
            panic!(concat!("built without the feature `", $feature, "`"));
        }
    };
}

call!("codec", lumbryth_unpack(
    wire: *const u8, wire_len: usize, out: *mut u8, out_len: usize, values: *mut u64, values_len: usize));
call!("codec", lumbryth_pack(
    kind: u8, seq: u8, payload: *const u8, payload_len: usize, out: *mut u8, out_len: usize,
    values: *mut u64, values_len: usize));
call!("names", lumbryth_fixture_name(
    ms: u64, counter: u32, direction: u8, wire: *const u8, wire_len: usize, out: *mut u8, out_len: usize,
    values: *mut u64, values_len: usize));
call!("names", lumbryth_is_command_name(name: *const u8, name_len: usize));
call!("plan", lumbryth_plan(
    spans: *const u8, spans_len: usize, excluded: *const u8, excluded_len: usize, out: *mut u8, out_len: usize,
    values: *mut u64, values_len: usize));
call!("order", lumbryth_capture_order(
    names: *const u8, names_len: usize, out: *mut u8, out_len: usize, values: *mut u64, values_len: usize));
call!("import", lumbryth_import_strict(
    file: *const u8, file_len: usize, work: *mut u8, work_len: usize, out: *mut u8, out_len: usize, channel: u32,
    values: *mut u64, values_len: usize));
call!("tolerant", lumbryth_import(
    file: *const u8, file_len: usize, work: *mut u8, work_len: usize, out: *mut u8, out_len: usize, channel: u32,
    tolerant: u32, values: *mut u64, values_len: usize));
call!("tolerant", lumbryth_import_with(
    file: *const u8, file_len: usize, work: *mut u8, work_len: usize, out: *mut u8, out_len: usize,
    options: *const u64, options_len: usize, values: *mut u64, values_len: usize));
call!("stretches", lumbryth_import_stretches(
    file: *const u8, file_len: usize, work: *mut u8, work_len: usize, stretches: *mut Stretch, stretches_len: usize,
    out: *mut u8, out_len: usize, channel: u32, tolerant: u32, values: *mut u64, values_len: usize));
call!("gaps", lumbryth_gaps(
    file: *const u8, file_len: usize, work: *mut u8, work_len: usize, tolerant: u32, values: *mut u64,
    values_len: usize));
call!("pcap", lumbryth_import_stretches_with(
    file: *const u8, file_len: usize, work: *mut u8, work_len: usize, stretches: *mut Stretch, stretches_len: usize,
    out: *mut u8, out_len: usize, options: *const u64, options_len: usize, values: *mut u64, values_len: usize));
call!("pcap", lumbryth_records(
    file: *const u8, file_len: usize, starts: *mut u64, starts_len: usize, values: *mut u64, values_len: usize));
call!("pcap", lumbryth_records_with(
    file: *const u8, file_len: usize, starts: *mut u64, starts_len: usize, options: *const u64, options_len: usize,
    values: *mut u64, values_len: usize));
call!("pcap", lumbryth_gaps_with(
    file: *const u8, file_len: usize, work: *mut u8, work_len: usize, options: *const u64, options_len: usize,
    values: *mut u64, values_len: usize));
call!("sizes", lumbryth_sizes_with(
    file: *const u8, file_len: usize, work: *mut u8, work_len: usize, options: *const u64, options_len: usize,
    values: *mut u64, values_len: usize));
call!("links", lumbryth_one_link_with(
    file: *const u8, file_len: usize, work: *mut u8, work_len: usize, out: *mut u8, out_len: usize, index: u16,
    handle: u16, dlci: u8, options: *const u64, options_len: usize, values: *mut u64, values_len: usize));

// Safety, of each call: the pointers and lengths are those of slices that live
// through it, and the slices written do not overlap any other.
impl Subject for Proved {
    fn unpack(&self, wire: &[u8], out: &mut [u8], values: &mut [u64]) -> u32 {
        unsafe {
            lumbryth_unpack(wire.as_ptr(), wire.len(), out.as_mut_ptr(), out.len(), values.as_mut_ptr(), values.len())
        }
    }

    fn pack(&self, kind: u8, seq: u8, payload: &[u8], out: &mut [u8], values: &mut [u64]) -> u32 {
        unsafe {
            lumbryth_pack(
                kind,
                seq,
                payload.as_ptr(),
                payload.len(),
                out.as_mut_ptr(),
                out.len(),
                values.as_mut_ptr(),
                values.len(),
            )
        }
    }

    fn fixture_name(
        &self,
        ms: u64,
        counter: u32,
        direction: u8,
        wire: &[u8],
        out: &mut [u8],
        values: &mut [u64],
    ) -> u32 {
        unsafe {
            lumbryth_fixture_name(
                ms,
                counter,
                direction,
                wire.as_ptr(),
                wire.len(),
                out.as_mut_ptr(),
                out.len(),
                values.as_mut_ptr(),
                values.len(),
            )
        }
    }

    fn is_command_name(&self, name: &[u8]) -> u32 {
        unsafe { lumbryth_is_command_name(name.as_ptr(), name.len()) }
    }

    fn plan(&self, spans: &[u8], excluded: &[u8], out: &mut [u8], values: &mut [u64]) -> u32 {
        unsafe {
            lumbryth_plan(
                spans.as_ptr(),
                spans.len(),
                excluded.as_ptr(),
                excluded.len(),
                out.as_mut_ptr(),
                out.len(),
                values.as_mut_ptr(),
                values.len(),
            )
        }
    }

    fn capture_order(&self, names: &[u8], out: &mut [u8], values: &mut [u64]) -> u32 {
        unsafe {
            lumbryth_capture_order(
                names.as_ptr(),
                names.len(),
                out.as_mut_ptr(),
                out.len(),
                values.as_mut_ptr(),
                values.len(),
            )
        }
    }

    fn import_strict(&self, file: &[u8], work: &mut [u8], out: &mut [u8], channel: u32, values: &mut [u64]) -> u32 {
        unsafe {
            lumbryth_import_strict(
                file.as_ptr(),
                file.len(),
                work.as_mut_ptr(),
                work.len(),
                out.as_mut_ptr(),
                out.len(),
                channel,
                values.as_mut_ptr(),
                values.len(),
            )
        }
    }

    fn import(
        &self,
        file: &[u8],
        work: &mut [u8],
        out: &mut [u8],
        channel: u32,
        tolerant: u32,
        values: &mut [u64],
    ) -> u32 {
        unsafe {
            lumbryth_import(
                file.as_ptr(),
                file.len(),
                work.as_mut_ptr(),
                work.len(),
                out.as_mut_ptr(),
                out.len(),
                channel,
                tolerant,
                values.as_mut_ptr(),
                values.len(),
            )
        }
    }

    fn import_stretches(
        &self,
        file: &[u8],
        work: &mut [u8],
        stretches: &mut [Stretch],
        out: &mut [u8],
        channel: u32,
        tolerant: u32,
        values: &mut [u64],
    ) -> u32 {
        unsafe {
            lumbryth_import_stretches(
                file.as_ptr(),
                file.len(),
                work.as_mut_ptr(),
                work.len(),
                stretches.as_mut_ptr(),
                stretches.len(),
                out.as_mut_ptr(),
                out.len(),
                channel,
                tolerant,
                values.as_mut_ptr(),
                values.len(),
            )
        }
    }

    fn import_with(&self, file: &[u8], work: &mut [u8], out: &mut [u8], options: &[u64], values: &mut [u64]) -> u32 {
        unsafe {
            lumbryth_import_with(
                file.as_ptr(),
                file.len(),
                work.as_mut_ptr(),
                work.len(),
                out.as_mut_ptr(),
                out.len(),
                options.as_ptr(),
                options.len(),
                values.as_mut_ptr(),
                values.len(),
            )
        }
    }

    fn gaps(&self, file: &[u8], work: &mut [u8], tolerant: u32, values: &mut [u64]) -> u32 {
        unsafe {
            lumbryth_gaps(
                file.as_ptr(),
                file.len(),
                work.as_mut_ptr(),
                work.len(),
                tolerant,
                values.as_mut_ptr(),
                values.len(),
            )
        }
    }

    fn import_stretches_with(
        &self,
        file: &[u8],
        work: &mut [u8],
        stretches: &mut [Stretch],
        out: &mut [u8],
        options: &[u64],
        values: &mut [u64],
    ) -> u32 {
        unsafe {
            lumbryth_import_stretches_with(
                file.as_ptr(),
                file.len(),
                work.as_mut_ptr(),
                work.len(),
                stretches.as_mut_ptr(),
                stretches.len(),
                out.as_mut_ptr(),
                out.len(),
                options.as_ptr(),
                options.len(),
                values.as_mut_ptr(),
                values.len(),
            )
        }
    }

    fn records(&self, file: &[u8], starts: &mut [u64], values: &mut [u64]) -> u32 {
        unsafe {
            lumbryth_records(
                file.as_ptr(),
                file.len(),
                starts.as_mut_ptr(),
                starts.len(),
                values.as_mut_ptr(),
                values.len(),
            )
        }
    }

    fn records_with(&self, file: &[u8], starts: &mut [u64], options: &[u64], values: &mut [u64]) -> u32 {
        unsafe {
            lumbryth_records_with(
                file.as_ptr(),
                file.len(),
                starts.as_mut_ptr(),
                starts.len(),
                options.as_ptr(),
                options.len(),
                values.as_mut_ptr(),
                values.len(),
            )
        }
    }

    fn gaps_with(&self, file: &[u8], work: &mut [u8], options: &[u64], values: &mut [u64]) -> u32 {
        unsafe {
            lumbryth_gaps_with(
                file.as_ptr(),
                file.len(),
                work.as_mut_ptr(),
                work.len(),
                options.as_ptr(),
                options.len(),
                values.as_mut_ptr(),
                values.len(),
            )
        }
    }

    fn sizes_with(&self, file: &[u8], work: &mut [u8], options: &[u64], values: &mut [u64]) -> u32 {
        unsafe {
            lumbryth_sizes_with(
                file.as_ptr(),
                file.len(),
                work.as_mut_ptr(),
                work.len(),
                options.as_ptr(),
                options.len(),
                values.as_mut_ptr(),
                values.len(),
            )
        }
    }

    fn one_link_with(
        &self,
        file: &[u8],
        work: &mut [u8],
        out: &mut [u8],
        stream: Stream,
        options: &[u64],
        values: &mut [u64],
    ) -> u32 {
        unsafe {
            lumbryth_one_link_with(
                file.as_ptr(),
                file.len(),
                work.as_mut_ptr(),
                work.len(),
                out.as_mut_ptr(),
                out.len(),
                stream.index,
                stream.handle,
                stream.dlci,
                options.as_ptr(),
                options.len(),
                values.as_mut_ptr(),
                values.len(),
            )
        }
    }

    fn has_stretches(&self) -> bool {
        has("stretches")
    }

    fn takes_container(&self) -> bool {
        has("pcap")
    }

    fn has_sizes(&self) -> bool {
        has("sizes")
    }

    fn has_links(&self) -> bool {
        has("links")
    }
}
