//! A practice sheet in plain Rust, as one would write it; a refusal is its number.

pub fn practice(code: u32, count: u32, seed: u32, output: &mut [u8]) -> Result<u32, u32> {
    if count > 200 {
        return Err(12);
    }
    let (bits, n) = match code {
        1 | 2 => (21, 7),
        3..=5 => (60, 15usize),
        _ => return Err(1),
    };
    let (rows, symbols) = (bits / 3, n.div_ceil(6));
    if output.len() != 4 * (count as usize * (1 + rows + symbols) + 1) {
        return Err(4);
    }
    let mut state = seed;
    let mut reliability = || {
        state = state.wrapping_add(0x9E37_79B9);
        ((state ^ state >> 16) % 255) as i32 - 127
    };
    let mut words = output.chunks_exact_mut(4);
    let mut put = |word: u32| words.next().expect("a place").copy_from_slice(&word.to_le_bytes());
    for number in 1..=count {
        put(1 << 28 | code << 24 | number);
        for _ in 0..rows {
            put((0..3).fold(2 << 28, |word, i| word | (reliability() as u32 & 255) << (8 * i)));
        }
        for _ in 0..symbols {
            put(3 << 28);
        }
    }
    put(15 << 28 | count);
    Ok(state)
}
