//! The text of a bitmap for `Debug`: its flags in order. Nothing is compared that depends on it.

pub fn fmt(bytes: &[u8], offset: usize, length: usize, f: &mut std::fmt::Formatter<'_>) -> std::fmt::Result {
    for i in offset..offset + length {
        write!(f, "{}", bytes[i / 8] >> (i % 8) & 1)?;
    }
    Ok(())
}
