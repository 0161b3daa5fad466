
// ---- added after the original's text: what its private parts say ----

pub(crate) use reader::parity;

/// One number of the cursor over `data` from `at` on, and how many bytes it took.
pub(crate) fn varint_at(data: &[u8], at: usize) -> Result<(i32, usize), Error> {
    let mut cursor = StreamCursor::new(data, at as u64, data.len() as u64)?;
    let number = cursor.varint()?;
    Ok((number, cursor.pos))
}
