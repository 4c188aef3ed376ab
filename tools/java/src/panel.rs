//! The library's printing.

#[repr(C)]
#[derive(Debug, Clone, Copy)]
struct Printed {
    number: u64,
    place: u64,
    length: u64,
    pieces: u64,
}

unsafe extern "C" {
    fn panel_print(
        fmt: *const u8,
        fmt_len: usize,
        row: *const u8,
        row_len: usize,
        out: *mut u8,
        out_len: usize,
        ends: *mut u8,
        ends_len: usize,
    ) -> Printed;
}

#[derive(Debug, Clone, PartialEq)]
pub enum Here {
    /// The text and the end of each piece.
    Text(Vec<u8>, Vec<usize>),
    /// Number and place.
    Refused(u64, u64),
}

const OUTPUT: usize = 1 << 17;
const ENDS: usize = 4 * 512;

pub struct Panel {
    output: Vec<u8>,
    ends: Vec<u8>,
}

impl Panel {
    pub fn new() -> Self {
        Panel { output: vec![0; OUTPUT], ends: vec![0; ENDS] }
    }

    pub fn print(&mut self, format: &[u8], row: &[u8]) -> Here {
        // Each pointer and length come from one slice that lives through the call.
        let printed = unsafe {
            panel_print(
                format.as_ptr(),
                format.len(),
                row.as_ptr(),
                row.len(),
                self.output.as_mut_ptr(),
                self.output.len(),
                self.ends.as_mut_ptr(),
                self.ends.len(),
            )
        };
        if printed.number != 0 {
            return Here::Refused(printed.number, printed.place);
        }
        let ends = self.ends.chunks_exact(4).take(printed.pieces as usize);
        let ends = ends.map(|end| u32::from_le_bytes([end[0], end[1], end[2], end[3]]) as usize).collect();
        Here::Text(self.output[..printed.length as usize].to_vec(), ends)
    }
}
