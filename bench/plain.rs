// The same transforms as crates/bench, in plain u64 arithmetic: the yardstick for its times.
use std::time::Instant;

const Q: u64 = 469762049;
const SIZE: usize = 257;
const ROUNDS: u32 = 100;
const PRODUCTS: u128 = 16641;

fn filled(n: usize) -> Vec<u64> {
    let mut row = Vec::new();
    let mut code = 1u32;
    for _ in 0..n {
        code = code.wrapping_mul(1103515245).wrapping_add(12345);
        row.push(u64::from(code) % Q);
    }
    row
}

fn middle(f: &[u64], k: usize) -> u64 {
    let above = f.len() - 1 - k;
    let low = if k < above { 0 } else { k - above };
    let mut odd = 0;
    let mut even = 0;
    for i in low..k {
        let next = (even + f[i] * f[k + (k - i)] % Q) % Q;
        even = odd;
        odd = next;
    }
    let half = (odd + Q - even) % Q;
    (f[k] * f[k] % Q + (2 * Q - 2 * half)) % Q
}

fn graeffe(f: &[u64], out: &mut [u64]) {
    for k in 0..f.len() {
        let term = middle(f, k);
        out[k] = if (f.len() - 1 - k) % 2 == 0 { term } else { (Q - term) % Q };
    }
}

fn main() {
    let mut f = filled(SIZE);
    let mut out = filled(SIZE);
    let start = Instant::now();
    for _ in 0..ROUNDS {
        graeffe(&f, &mut out);
        graeffe(&out, &mut f);
    }
    let spent = start.elapsed().as_nanos() / 2 / u128::from(ROUNDS);
    println!("sum of the codes: {}", f.iter().sum::<u64>());
    let tenths = spent * 10 / PRODUCTS;
    eprintln!("{} microseconds a transform, {}.{} nanoseconds a multiplication", spent / 1000, tenths / 10, tenths % 10);
}
