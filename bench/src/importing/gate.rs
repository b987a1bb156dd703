//! The gate's two calls for files, as a host makes them.

#[link(name = "gate", kind = "static")]
extern "C" {
    #[allow(clippy::too_many_arguments)]
    fn gate_import(
        file: *const u8,
        file_len: usize,
        table: *const u8,
        table_len: usize,
        label: *const u8,
        label_len: usize,
        out: *mut u8,
        out_len: usize,
        figures: *mut u64,
    ) -> u64;
    fn gate_measure_import(
        file: *const u8,
        file_len: usize,
        table: *const u8,
        table_len: usize,
        label: *const u8,
        label_len: usize,
        figures: *mut u64,
    ) -> u64;
}

/// 0 if the lines are written, else the number of the refusal; and the five figures.
pub fn import(file: &[u8], table: &[u8], label: &[u8], out: &mut [u8]) -> (u64, [u64; 5]) {
    let mut figures = [0; 5];
    // Sound: the slices and the array are lent for the call alone, with their lengths.
    let number = unsafe {
        gate_import(
            file.as_ptr(),
            file.len(),
            table.as_ptr(),
            table.len(),
            label.as_ptr(),
            label.len(),
            out.as_mut_ptr(),
            out.len(),
            figures.as_mut_ptr(),
        )
    };
    (number, figures)
}

/// The same for the length alone.
pub fn measure(file: &[u8], table: &[u8], label: &[u8]) -> (u64, [u64; 5]) {
    let mut figures = [0; 5];
    // Sound: as above.
    let number = unsafe {
        gate_measure_import(file.as_ptr(), file.len(), table.as_ptr(), table.len(), label.as_ptr(), label.len(), figures.as_mut_ptr())
    };
    (number, figures)
}
