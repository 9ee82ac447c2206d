//! The quantiser and the receiver in plain Rust, as one would write them; a refusal is `None`.

fn quantised(x: f32) -> i16 {
    (x * 32.0).round().clamp(-127.0, 127.0) as i16
}

pub fn quantise(bits: usize, samples: &[f32], row: &mut [i16]) -> Option<()> {
    if samples.len() != bits || row.len() != bits || samples.iter().any(|x| x.is_nan()) {
        return None;
    }
    row.iter_mut().zip(samples).for_each(|(r, x)| *r = quantised(*x));
    Some(())
}

pub fn receive(bits: usize, kinds: &[u8], samples: &[f32], row: &mut [i16]) -> Option<()> {
    if row.len() != bits || kinds.iter().any(|k| *k > 3) {
        return None;
    }
    let has: usize = kinds.iter().map(|k| 1 + usize::from(k % 2)).sum();
    let takes: usize = kinds.iter().map(|k| usize::from(k.saturating_sub(1))).sum();
    if has != bits || takes != samples.len() || samples.iter().any(|x| x.is_nan()) {
        return None;
    }
    let (mut left, mut b) = (samples, 0);
    for kind in kinds {
        match kind {
            0 => row[b] = 0,
            1 => row[b..b + 2].fill(0),
            2 => row[b] = quantised(left[0]),
            _ => (row[b], row[b + 1]) = (quantised(left[0]), quantised(left[1])),
        }
        left = &left[usize::from(kind.saturating_sub(1))..];
        b += 1 + usize::from(kind % 2);
    }
    Some(())
}
