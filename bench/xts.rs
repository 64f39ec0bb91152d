//! Rattle's XTS against the yardstick: both encrypt the same 16 MiB, and must agree. docs/SPEED.md
//! says what is measured.

mod capi;
mod yardstick;

use std::hint::black_box;
use std::time::Instant;
use yardstick::Xts;

const BLOCK: usize = 4096;
const BLOCKS: usize = 4096;
const REPETITIONS: usize = 7;

/// The two sides take turns at stretches of so many bytes, and each stretch is timed by itself.
const STRETCH: usize = 16 * BLOCK;
const STRETCHES: usize = BLOCK * BLOCKS / STRETCH;

fn main() {
    let key: [u8; 64] = std::array::from_fn(|i| (7 * i + 1) as u8);
    known_answers();
    other_answers();
    refusals(&key);
    compare(&key);
}

/// Both sides by turns; the times of both.
fn compare(key: &[u8; 64]) {
    let prepared = Xts::new(key);
    let rust = |number: u64, block: &mut [u8]| black_box(&prepared).encrypt(number, block);
    let rattle = |number: u64, block: &mut [u8]| {
        assert_eq!(capi::xts_encrypt(black_box(key), number, block), 0)
    };
    let plain = noise(BLOCK * BLOCKS);
    let (mut by_rust, mut by_rattle) = (plain.clone(), plain.clone());
    let (mut rust_times, mut rattle_times) = (Times::new(), Times::new());
    let mut expansion = Expansion::new();
    let mut opening = f64::INFINITY;
    for repetition in 0..REPETITIONS {
        by_rust.copy_from_slice(&plain);
        by_rattle.copy_from_slice(&plain);
        for stretch in 0..STRETCHES {
            if repetition % 2 == 0 {
                rust_times.add(stretch, &mut by_rust, rust);
                rattle_times.add(stretch, &mut by_rattle, rattle);
            } else {
                rattle_times.add(stretch, &mut by_rattle, rattle);
                rust_times.add(stretch, &mut by_rust, rust);
            }
        }
        assert!(by_rust == by_rattle, "the two disagree");
        expansion.measure(&key[..32]);
        opening = opening.min(opens(key, &by_rattle, &plain));
    }

    report(&rust_times, &rattle_times, expansion.seconds(), opening);
}

fn report(rust_times: &Times, rattle_times: &Times, expansion: f64, opening: f64) {
    let (rust, rattle) = (rust_times.best(), rattle_times.best());
    let without_expansion = rattle - (2 * BLOCKS) as f64 * expansion;
    println!("16 MiB in {BLOCKS} blocks, in milliseconds: best of {REPETITIONS} (mean)");
    println!("rust, keys expanded once: {rust_times}");
    println!("rattle, keys expanded at each call: {rattle_times}");
    println!(
        "rattle, a block in microseconds: sealed {:.1}, opened {:.1}; one key expansion {:.2}",
        1e6 * rattle / BLOCKS as f64,
        1e6 * opening,
        1e6 * expansion
    );
    println!(
        "with prepared keys (estimated): ratio {:.2}",
        without_expansion / rust
    );
    println!("ratio {:.2}", rattle / rust);
}

/// One side's times, in seconds: the best of each stretch, and the sum of all.
struct Times {
    best: [f64; STRETCHES],
    sum: f64,
}

impl Times {
    fn new() -> Times {
        Times {
            best: [f64::INFINITY; STRETCHES],
            sum: 0.0,
        }
    }

    fn add(&mut self, stretch: usize, bytes: &mut [u8], encrypt: impl Fn(u64, &mut [u8])) {
        let first = stretch * STRETCH / BLOCK;
        let blocks = bytes[stretch * STRETCH..][..STRETCH].chunks_exact_mut(BLOCK);
        let time = seconds(|| {
            for (i, block) in blocks.enumerate() {
                encrypt((first + i) as u64, block);
            }
        });
        self.best[stretch] = self.best[stretch].min(time);
        self.sum += time;
    }

    fn best(&self) -> f64 {
        self.best.iter().sum()
    }
}

impl std::fmt::Display for Times {
    fn fmt(&self, f: &mut std::fmt::Formatter) -> std::fmt::Result {
        let mean = self.sum / REPETITIONS as f64;
        write!(f, "{:.1} ({:.1})", 1e3 * self.best(), 1e3 * mean)
    }
}

fn seconds(run: impl FnOnce()) -> f64 {
    let start = Instant::now();
    run();
    start.elapsed().as_secs_f64()
}

/// What a call spends on its key, found from outside: `cts_encrypt` of one block is a key expansion
/// and one block, and of 256 blocks a key expansion and 256.
struct Expansion {
    one: f64,
    many: f64,
}

impl Expansion {
    fn new() -> Expansion {
        Expansion {
            one: f64::INFINITY,
            many: f64::INFINITY,
        }
    }

    fn measure(&mut self, key: &[u8]) {
        for _ in 0..20 {
            self.one = self.one.min(time_of_cts(key, 1, 1024));
            self.many = self.many.min(time_of_cts(key, 256, 8));
        }
    }

    fn seconds(&self) -> f64 {
        self.one - (self.many - self.one) / 255.0
    }
}

/// The time of one `cts_encrypt` of so many 16-byte blocks, the mean of some calls.
fn time_of_cts(key: &[u8], blocks: usize, calls: usize) -> f64 {
    let mut text = vec![0; 16 * blocks];
    let time = seconds(|| {
        for _ in 0..calls {
            assert_eq!(capi::cts_encrypt(black_box(key), &mut text), 0);
        }
    });
    time / calls as f64
}

/// Bytes with no pattern, the same at each run: xorshift64*.
fn noise(len: usize) -> Vec<u8> {
    let mut x = 0x9e37_79b9_7f4a_7c15_u64;
    let mut next = || {
        x ^= x >> 12;
        x ^= x << 25;
        x ^= x >> 27;
        (x.wrapping_mul(0x2545_f491_4f6c_dd1d) >> 56) as u8
    };
    (0..len).map(|_| next()).collect()
}

/// IEEE 1619, vector 10: the first 32 bytes of the ciphertext, which a longer data unit has too.
fn known_answers() {
    let key = bytes(
        "2718281828459045235360287471352662497757247093699959574966967627\
         3141592653589793238462643383279502884197169399375105820974944592",
    );
    let sealed = bytes("1c3b3a102f770386e4836c99e370cf9bea00803f5e482357a4ae12d414a3e63b");
    let plain: Vec<u8> = (0..BLOCK).map(|i| i as u8).collect();
    let (mut by_rust, mut by_rattle) = (plain.clone(), plain);
    Xts::new(key.as_slice().try_into().unwrap()).encrypt(0xff, &mut by_rust);
    assert_eq!(capi::xts_encrypt(&key, 0xff, &mut by_rattle), 0);
    assert_eq!(by_rust[..32], sealed);
    assert_eq!(by_rattle[..32], sealed);
}

/// The other functions of the archive: NIST SP 800-38A, F.1.1, and RFC 3962's text of 31 bytes, there
/// and back.
fn other_answers() {
    let mut text = bytes("6bc1bee22e409f96e93d7e117393172aae2d8a571e03ac9c9eb76fac45af8e51");
    let enciphered = bytes("3ad77bb40d7a3660a89ecaf32466ef97f5d3d58503b9699de785895a96fdbaaf");
    let key = bytes("2b7e151628aed2a6abf7158809cf4f3c");
    assert_eq!(capi::ecb_encrypt(&key, &mut text), 0);
    assert_eq!(text, enciphered);
    assert_eq!(capi::ecb_encrypt(&key[1..], &mut text), 22);
    assert_eq!(text, enciphered);

    let plain = b"I would like the General Gau's ";
    let stolen = bytes("fc00783e0efdb2c1d445d4c8eff7ed2297687268d6ecccc0c07b25e25ecfe5");
    let mut text = plain.to_vec();
    assert_eq!(capi::cts_encrypt(b"chicken teriyaki", &mut text), 0);
    assert_eq!(text, stolen);
    assert_eq!(capi::cts_decrypt(b"chicken", &mut text), 22);
    assert_eq!(text, stolen);
    assert_eq!(capi::cts_decrypt(b"chicken teriyaki", &mut text), 0);
    assert_eq!(text, plain);
}

fn bytes(hex: &str) -> Vec<u8> {
    (0..hex.len())
        .step_by(2)
        .map(|i| u8::from_str_radix(&hex[i..i + 2], 16).unwrap())
        .collect()
}

/// A wrong length is refused, and leaves the buffer.
fn refusals(key: &[u8; 64]) {
    for (key_len, block_len) in [
        (0, BLOCK),
        (32, BLOCK),
        (63, BLOCK),
        (64, 0),
        (64, 16),
        (64, BLOCK - 1),
        (64, BLOCK + 1),
    ] {
        let mut block = vec![0x5a; block_len];
        assert_eq!(capi::xts_encrypt(&key[..key_len], 0, &mut block), 22);
        assert_eq!(capi::xts_decrypt(&key[..key_len], 0, &mut block), 22);
        assert!(block.iter().all(|&b| b == 0x5a));
    }
}

/// Opens some blocks again, the first and the last among them, and tells the time of the quickest.
fn opens(key: &[u8; 64], sealed: &[u8], plain: &[u8]) -> f64 {
    let mut best = f64::INFINITY;
    for number in (0..BLOCKS).step_by(273) {
        let at = number * BLOCK..(number + 1) * BLOCK;
        let mut block = sealed[at.clone()].to_vec();
        let time = seconds(|| assert_eq!(capi::xts_decrypt(key, number as u64, &mut block), 0));
        best = best.min(time);
        assert!(block == plain[at], "block {number} opens to something else");
    }
    best
}
