//! The library's three calls, and its C interface where it is linked.

#[repr(C)]
#[derive(Debug, Clone, Copy, PartialEq, Eq)]
pub struct Checked {
    pub number: u64,
    pub place: u64,
    pub pieces: u64,
    pub largest: u64,
}

#[repr(C)]
#[derive(Debug, Clone, Copy, PartialEq, Eq)]
pub struct Printed {
    pub number: u64,
    pub place: u64,
    pub length: u64,
    pub pieces: u64,
}

pub trait Library {
    fn check(&self, format: &[u8], kinds: &[u8]) -> Checked;
    fn measure(&self, format: &[u8], row: &[u8]) -> Printed;
    fn print(&self, format: &[u8], row: &[u8], output: &mut [u8], ends: &mut [u8]) -> Printed;
}

/// libpanel.a, if the build found it.
pub fn linked() -> Option<&'static dyn Library> {
    #[cfg(panel)]
    return Some(&panel::Panel);
    #[cfg(not(panel))]
    None
}

#[cfg(panel)]
mod panel {
    use super::{Checked, Library, Printed};

    unsafe extern "C" {
        fn panel_check(fmt: *const u8, fmt_len: usize, kinds: *const u8, kinds_len: usize) -> Checked;
        fn panel_measure(fmt: *const u8, fmt_len: usize, row: *const u8, row_len: usize) -> Printed;
        fn panel_print(
            fmt: *const u8,
            fmt_len: usize,
            row: *const u8,
            row_len: usize,
            out: *mut u8,
            out_len: usize,
            ends: *mut u8,
            ends_len: usize,
        ) -> Printed;
    }

    pub struct Panel;

    // Each pointer and length come from one slice that lives through the call.
    impl Library for Panel {
        fn check(&self, format: &[u8], kinds: &[u8]) -> Checked {
            unsafe { panel_check(format.as_ptr(), format.len(), kinds.as_ptr(), kinds.len()) }
        }

        fn measure(&self, format: &[u8], row: &[u8]) -> Printed {
            unsafe { panel_measure(format.as_ptr(), format.len(), row.as_ptr(), row.len()) }
        }

        fn print(&self, format: &[u8], row: &[u8], output: &mut [u8], ends: &mut [u8]) -> Printed {
            unsafe {
                panel_print(
                    format.as_ptr(),
                    format.len(),
                    row.as_ptr(),
                    row.len(),
                    output.as_mut_ptr(),
                    output.len(),
                    ends.as_mut_ptr(),
                    ends.len(),
                )
            }
        }
    }
}
