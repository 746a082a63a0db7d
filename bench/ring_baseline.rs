// The baseline of `bench/rings`: the same operations as `crates/ring_timing`, written straightforwardly in Rust with 128-bit
// coefficients. A product skips the zero coefficients of one factor, and is reduced from the highest power down.
use std::env;

const PRODUCT_LIMIT: u128 = 1 << 108;
const GREATEST: u128 = (1 << 120) - 1;

/// The coefficients of the cyclotomic polynomial below its leading 1.
fn reduction(k: usize) -> &'static [i128] {
    const TWELVE: [i128; 4] = [1, 0, -1, 0];
    const SIXTY_FOUR: [i128; 32] = {
        let mut low = [0; 32];
        low[0] = 1;
        low
    };
    if k == 12 { &TWELVE } else { &SIXTY_FOUR }
}

#[derive(Clone, Copy)]
struct Value<const K: usize>([i128; 42]);

impl<const K: usize> Value<K> {
    fn size(&self) -> u128 {
        self.0.iter().map(|a| a.unsigned_abs()).max().unwrap_or(0)
    }

    fn fitted(self) -> Option<Self> {
        (self.size() <= GREATEST).then_some(self)
    }

    fn reduced(buffer: &mut [i128]) -> Self {
        let low = reduction(K);
        let phi = low.len();
        for at in (phi..buffer.len()).rev() {
            let last = buffer[at];
            if last != 0 {
                for (j, c) in low.iter().enumerate() {
                    buffer[at - phi + j] -= c * last;
                }
            }
        }
        let mut value = [0; 42];
        value[..phi].copy_from_slice(&buffer[..phi]);
        Value(value)
    }

    fn try_add(&self, b: &Self) -> Option<Self> {
        let mut sum = self.0;
        for (a, b) in sum.iter_mut().zip(&b.0) {
            *a += b;
        }
        Value(sum).fitted()
    }

    fn try_mul(&self, b: &Self) -> Option<Self> {
        let sizes = self.size().checked_mul(b.size())?;
        if sizes >= PRODUCT_LIMIT {
            return None;
        }
        let phi = reduction(K).len();
        let mut buffer = [0i128; 83];
        for (i, a) in self.0[..phi].iter().enumerate() {
            if *a != 0 {
                for (j, b) in b.0[..phi].iter().enumerate() {
                    buffer[i + j] += a * b;
                }
            }
        }
        Some(Self::reduced(&mut buffer[..2 * phi - 1]))
    }

    fn try_times(&self, e: usize) -> Option<Self> {
        let phi = reduction(K).len();
        let mut buffer = [0i128; 120];
        for (i, a) in self.0[..phi].iter().enumerate() {
            buffer[(i + e) % K] += a;
        }
        Self::reduced(&mut buffer[..K]).fitted()
    }
}

fn operand<const K: usize>(step: usize) -> Value<K> {
    let mut one = Value([0; 42]);
    one.0[0] = 1;
    (1..12).fold(one, |sum, j| one.try_times(j * step % K).and_then(|root| sum.try_add(&root)).unwrap_or(sum))
}

fn results<const K: usize>(operation: &str, count: u32) -> i128 {
    let a = operand::<K>(3);
    let b = operand::<K>(5);
    let mut check = 0;
    for i in 0..count {
        let (a, b) = (std::hint::black_box(&a), std::hint::black_box(&b));
        let result = match operation {
            "mul" => a.try_mul(b),
            "add" => a.try_add(b),
            _ => a.try_times(i as usize % K),
        };
        check ^= result.map_or(0, |value| value.0[1]);
    }
    check
}

fn main() {
    let words: Vec<String> = env::args().collect();
    let count = words[3].parse().unwrap_or(0);
    let check = match words[2].as_str() {
        "12" => results::<12>(&words[1], count),
        _ => results::<64>(&words[1], count),
    };
    println!("{check}");
}
