//! Compares the speed of a linked library of two finite fields with plain Rust.
//!
//! Build and run it by bench/fields.py. The prime field is the integers modulo
//! 65521; the field of octets is that of RFC 6330 section 5.7. Each operation
//! reads a word as its remainder by the field's size; the inverse of 0 is 0.

use std::hint::black_box;
use std::time::Instant;

extern "C" {
    fn prime_times(
        a: *const u16, a_len: usize, b: *const u16, b_len: usize, out: *mut u16, out_len: usize,
    );
    fn octets_times(
        a: *const u16, a_len: usize, b: *const u16, b_len: usize, out: *mut u16, out_len: usize,
    );
    fn prime_inverse(a: *const u16, a_len: usize, out: *mut u16, out_len: usize);
    fn octets_inverse(a: *const u16, a_len: usize, out: *mut u16, out_len: usize);
}

type LibraryTimes = unsafe extern "C" fn(*const u16, usize, *const u16, usize, *mut u16, usize);
type LibraryInverse = unsafe extern "C" fn(*const u16, usize, *mut u16, usize);

const Q: u32 = 65521;
const WORDS: usize = 65536;
const ROUNDS: usize = 60;
const ROUND_SECONDS: f64 = 0.005;

/// The powers of 2 twice over, so that a sum of two logarithms needs no
/// remainder, in 512 places, so that it needs no test of the index either; and
/// the logarithms (that of 0 is never used).
const fn tables() -> ([u8; 512], [u8; 256]) {
    let mut exp = [0; 512];
    let mut log = [0; 256];
    let mut power = 1;
    let mut i = 0;
    while i < 255 {
        exp[i] = power as u8;
        exp[i + 255] = power as u8;
        log[power] = i as u8;
        power <<= 1;
        if power > 255 {
            power ^= 285;
        }
        i += 1;
    }
    (exp, log)
}

static EXP: [u8; 512] = tables().0;
static LOG: [u8; 256] = tables().1;

/// How many bytes of text stand before the functions below.
const fn padding() -> usize {
    let digits = match option_env!("PADDING") {
        Some(text) => text.as_bytes(),
        None => &[],
    };
    let mut bytes = 0;
    let mut i = 0;
    while i < digits.len() {
        bytes = bytes * 10 + (digits[i] - b'0') as usize;
        i += 1;
    }
    bytes
}

#[inline(never)]
fn stand_before() {
    unsafe { std::arch::asm!(".skip {bytes}, 0x90", bytes = const padding()) }
}

// The operations, with the library's own signatures.

fn times_modulo(a: u16, b: u16) -> u16 {
    (a as u32 * b as u32 % Q) as u16
}

fn times_octets(a: u16, b: u16) -> u16 {
    let (a, b) = (a as usize % 256, b as usize % 256);
    if a == 0 || b == 0 {
        return 0;
    }
    EXP[LOG[a] as usize + LOG[b] as usize] as u16
}

/// The usual extended Euclid, with signed numbers.
fn inverse_by_euclid(a: u16) -> Option<u16> {
    let (mut r0, mut r1, mut t0, mut t1) = (Q as i32, a as i32 % Q as i32, 0, 1);
    if r1 == 0 {
        return None;
    }
    while r1 != 0 {
        let times = r0 / r1;
        (r0, r1) = (r1, r0 - times * r1);
        (t0, t1) = (t1, t0 - times * t1);
    }
    Some((if t0 < 0 { t0 + Q as i32 } else { t0 }) as u16)
}

/// The same loop as the library's, two steps at a time.
fn inverse_by_two_sides(a: u16) -> Option<u16> {
    let (mut r0, mut r1, mut t0, mut t1) = (Q, a as u32 % Q, 0, 1);
    if r1 == 0 {
        return None;
    }
    while r1 > 1 {
        t0 += r0 / r1 * t1;
        r0 %= r1;
        if r0 == 1 {
            return Some((Q - t0) as u16);
        }
        t1 += r1 / r0 * t0;
        r1 %= r0;
    }
    Some(t1 as u16)
}

fn inverse_octets(a: u16) -> Option<u16> {
    let a = a as usize % 256;
    if a == 0 {
        return None;
    }
    Some(EXP[255 - LOG[a] as usize] as u16)
}

// The same over slices.

#[inline(always)]
fn times_all(times: impl Fn(u16, u16) -> u16, a: &[u16], b: &[u16], out: &mut [u16]) {
    for ((out, &a), &b) in out.iter_mut().zip(a).zip(b) {
        *out = times(a, b);
    }
}

#[inline(always)]
fn inverse_all(inverse: impl Fn(u16) -> Option<u16>, a: &[u16], out: &mut [u16]) {
    for (out, &a) in out.iter_mut().zip(a) {
        *out = inverse(a).unwrap_or(0);
    }
}

#[inline(never)]
fn rust_prime_times(a: &[u16], b: &[u16], out: &mut [u16]) {
    times_all(times_modulo, a, b, out)
}

#[inline(never)]
fn rust_octets_times(a: &[u16], b: &[u16], out: &mut [u16]) {
    times_all(times_octets, a, b, out)
}

#[inline(never)]
fn rust_prime_inverse_euclid(a: &[u16], out: &mut [u16]) {
    inverse_all(inverse_by_euclid, a, out)
}

#[inline(never)]
fn rust_prime_inverse_two_sides(a: &[u16], out: &mut [u16]) {
    inverse_all(inverse_by_two_sides, a, out)
}

#[inline(never)]
fn rust_octets_inverse(a: &[u16], out: &mut [u16]) {
    inverse_all(inverse_octets, a, out)
}

/// All words, in an order that the seed decides.
fn shuffled(seed: u64) -> Vec<u16> {
    let mut words: Vec<u16> = (0..=65535).collect();
    let mut state = seed;
    for i in (1..words.len()).rev() {
        state ^= state << 13;
        state ^= state >> 7;
        state ^= state << 17;
        words.swap(i, (state % (i as u64 + 1)) as usize);
    }
    words
}

/// The same words made odd, so that no octet is 0.
fn odd(words: &[u16]) -> Vec<u16> {
    words.iter().map(|word| word | 1).collect()
}

/// One pass over all words: it fills the slice given.
type Pass<'a> = &'a dyn Fn(&mut [u16]);

/// Nanoseconds per word of a round of so many passes.
fn round(pass: Pass, out: &mut [u16], passes: usize) -> f64 {
    let start = Instant::now();
    for _ in 0..passes {
        pass(black_box(&mut *out));
    }
    start.elapsed().as_secs_f64() * 1e9 / (passes * WORDS) as f64
}

/// How many passes a round takes; this also warms the caches.
fn passes_of_round(pass: Pass, out: &mut [u16]) -> usize {
    let time = (0..5).map(|_| round(pass, out, 1)).fold(f64::INFINITY, f64::min);
    (ROUND_SECONDS * 1e9 / (time * WORDS as f64)).ceil() as usize
}

fn median(mut times: Vec<f64>) -> f64 {
    times.sort_by(f64::total_cmp);
    let middle = times.len() / 2;
    if times.len() % 2 == 1 {
        times[middle]
    } else {
        (times[middle - 1] + times[middle]) / 2.0
    }
}

/// Panics where the outputs of both differ; they start out different.
fn check(name: &str, library: Pass, rust: Pass) {
    let (mut library_out, mut rust_out) = (vec![0xffff; WORDS], vec![0xfffe; WORDS]);
    library(&mut library_out);
    rust(&mut rust_out);
    if let Some(i) = (0..WORDS).find(|&i| library_out[i] != rust_out[i]) {
        panic!("{name}: at {i} the library gives {}, plain Rust {}", library_out[i], rust_out[i]);
    }
}

/// Times both in turn, writing to the same place, and prints a line.
fn compare(name: &str, library: Pass, rust: Pass) {
    let mut out = vec![0; WORDS];
    let library_passes = passes_of_round(library, &mut out);
    let rust_passes = passes_of_round(rust, &mut out);
    let (mut library_times, mut rust_times) = (Vec::new(), Vec::new());
    for _ in 0..ROUNDS {
        library_times.push(round(library, &mut out, library_passes));
        rust_times.push(round(rust, &mut out, rust_passes));
    }
    let (library, rust) = (median(library_times), median(rust_times));
    println!(
        "{name}: library {library:.4} ns, plain Rust {rust:.4} ns, ratio {:.2}",
        library / rust
    );
}

fn times_of(function: LibraryTimes, a: &[u16], b: &[u16], out: &mut [u16]) {
    unsafe { function(a.as_ptr(), a.len(), b.as_ptr(), b.len(), out.as_mut_ptr(), out.len()) }
}

fn inverse_of(function: LibraryInverse, a: &[u16], out: &mut [u16]) {
    unsafe { function(a.as_ptr(), a.len(), out.as_mut_ptr(), out.len()) }
}

fn main() {
    stand_before();
    let (a, b) = (shuffled(0x9e37_79b9_7f4a_7c15), shuffled(0x2545_f491_4f6c_dd1d));
    let (a, b) = (a.as_slice(), b.as_slice());
    let (odd_a, odd_b) = (odd(a), odd(b));
    let comparisons: [(&str, Pass, Pass); 6] = [
        (
            "prime times",
            &|out| times_of(prime_times, black_box(a), black_box(b), out),
            &|out| rust_prime_times(black_box(a), black_box(b), out),
        ),
        (
            "octets times",
            &|out| times_of(octets_times, black_box(a), black_box(b), out),
            &|out| rust_octets_times(black_box(a), black_box(b), out),
        ),
        (
            "octets times, no factor 0",
            &|out| times_of(octets_times, black_box(&odd_a), black_box(&odd_b), out),
            &|out| rust_octets_times(black_box(&odd_a), black_box(&odd_b), out),
        ),
        (
            "prime inverse, beside the usual extended Euclid",
            &|out| inverse_of(prime_inverse, black_box(a), out),
            &|out| rust_prime_inverse_euclid(black_box(a), out),
        ),
        (
            "prime inverse, beside the same loop",
            &|out| inverse_of(prime_inverse, black_box(a), out),
            &|out| rust_prime_inverse_two_sides(black_box(a), out),
        ),
        (
            "octets inverse",
            &|out| inverse_of(octets_inverse, black_box(a), out),
            &|out| rust_octets_inverse(black_box(a), out),
        ),
    ];
    for (name, library, rust) in comparisons {
        check(name, library, rust);
    }
    for (name, library, rust) in comparisons {
        compare(name, library, rust);
    }
}
