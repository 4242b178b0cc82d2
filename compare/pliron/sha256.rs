// SHA-256, so that the build needs no crate for it.

/// The first 32 bits of the fractional parts of `root` of the first primes, which are the constants of SHA-256.
fn constants<const N: usize>(root: fn(f64) -> f64, power: u32) -> [u32; N] {
    let mut all = [0; N];
    let mut found = 0;
    let mut n: u128 = 2;
    while found < N {
        if (2..n).take_while(|d| d * d <= n).all(|d| n % d != 0) {
            // The greatest r with r^power <= n * 2^(32 * power); its low 32 bits are wanted.
            let mut r = (root(n as f64) * 4294967296.0) as u128;
            let over = |r: u128| (0..power).fold(1u128, |p, _| p * r) > n << (32 * power);
            while over(r) {
                r -= 1;
            }
            while !over(r + 1) {
                r += 1;
            }
            all[found] = r as u32;
            found += 1;
        }
        n += 1;
    }
    all
}

pub fn hex(bytes: &[u8]) -> String {
    let k: [u32; 64] = constants(f64::cbrt, 3);
    let mut state: [u32; 8] = constants(f64::sqrt, 2);
    let mut padded = bytes.to_vec();
    padded.push(0x80);
    while padded.len() % 64 != 56 {
        padded.push(0);
    }
    padded.extend((bytes.len() as u64 * 8).to_be_bytes());
    for chunk in padded.chunks(64) {
        let mut w = [0u32; 64];
        for i in 0..64 {
            w[i] = if i < 16 {
                u32::from_be_bytes(chunk[4 * i..4 * i + 4].try_into().unwrap())
            } else {
                let (a, b) = (w[i - 15], w[i - 2]);
                let s0 = a.rotate_right(7) ^ a.rotate_right(18) ^ (a >> 3);
                let s1 = b.rotate_right(17) ^ b.rotate_right(19) ^ (b >> 10);
                w[i - 16].wrapping_add(s0).wrapping_add(w[i - 7]).wrapping_add(s1)
            };
        }
        let [mut a, mut b, mut c, mut d, mut e, mut f, mut g, mut h] = state;
        for i in 0..64 {
            let s1 = e.rotate_right(6) ^ e.rotate_right(11) ^ e.rotate_right(25);
            let choice = (e & f) ^ (!e & g);
            let t1 = h.wrapping_add(s1).wrapping_add(choice).wrapping_add(k[i]).wrapping_add(w[i]);
            let s0 = a.rotate_right(2) ^ a.rotate_right(13) ^ a.rotate_right(22);
            let t2 = s0.wrapping_add((a & b) ^ (a & c) ^ (b & c));
            (h, g, f, e, d, c, b, a) = (g, f, e, d.wrapping_add(t1), c, b, a, t1.wrapping_add(t2));
        }
        for (s, x) in state.iter_mut().zip([a, b, c, d, e, f, g, h]) {
            *s = s.wrapping_add(x);
        }
    }
    state.iter().map(|x| format!("{x:08x}")).collect()
}
