//! How long the largest view takes to read, and to read and walk with every content byte used, beside a copy of it: in kind 1, and
//! in kind 9 with its marks.
//!
//! Build and run from the repository's root:
//!     (cd crates/bench_records_c && rt lib)
//!     mkdir -p target/staticlib && cp crates/bench_records_c/out/libbench_records_c.a target/staticlib/librecords_bench.a
//!     rustc -O -L target/staticlib -o target/bench_records bench/records.rs && target/bench_records
use std::hint::black_box;
use std::time::Instant;

#[link(name = "records_bench", kind = "static")]
extern "C" {
    fn records_bench_scan(record: *const u8, length: usize) -> usize;
    fn records_bench_walk(record: *const u8, length: usize) -> u64;
}

/// Fields of some bits, most significant first.
struct Bits {
    bytes: Vec<u8>,
    used: usize,
}

impl Bits {
    fn put(&mut self, width: usize, value: u64) {
        for i in (0..width).rev() {
            if self.used % 8 == 0 {
                self.bytes.push(0);
            }
            let last = self.bytes.len() - 1;
            self.bytes[last] |= ((value >> i & 1) as u8) << (7 - self.used % 8);
            self.used += 1;
        }
    }
}

/// 256 entries of 32 bytes, every other one a configuration entry where marks are shown, and the sum of all content bytes.
fn largest(kind: u64) -> (Vec<u8>, u64) {
    let mut b = Bits { bytes: Vec::new(), used: 0 };
    let mut sum = 0;
    b.put(4, kind);
    b.put(6, 63);
    b.put(10, 256);
    for i in 0..256u64 {
        b.put(10, i + 1);
        b.put(32, 4_294_967_295 - i);
        if kind == 9 {
            b.put(1, i % 2);
        }
        b.put(6, 32);
        for j in 0..32 {
            let byte = (i * 31 + j * 7 + 1) % 256;
            b.put(8, byte);
            sum += byte;
        }
    }
    (b.bytes, sum)
}

/// The fastest of many rounds, in nanoseconds for one call.
fn time(mut f: impl FnMut()) -> f64 {
    let mut best = f64::MAX;
    for _ in 0..200 {
        let start = Instant::now();
        for _ in 0..20 {
            f();
        }
        best = best.min(start.elapsed().as_nanos() as f64 / 20.0);
    }
    best
}

/// A copy, byte by byte: volatile, so that it stays a load and a store for each byte.
#[inline(never)]
fn copied(from: &[u8], to: &mut [u8]) {
    for (t, f) in to.iter_mut().zip(from) {
        unsafe { std::ptr::write_volatile(t, std::ptr::read_volatile(f)) };
    }
}

fn main() {
    for kind in [1, 9] {
        times(kind);
    }
}

fn times(kind: u64) {
    let (record, sum) = largest(kind);
    let (at, n) = (record.as_ptr(), record.len());
    assert_eq!(unsafe { records_bench_scan(at, n) }, 256);
    assert_eq!(unsafe { records_bench_walk(at, n) }, sum);
    let mut space = vec![0u8; n];
    let copy = time(|| copied(black_box(&record), black_box(&mut space)));
    let block = time(|| black_box(&mut space).copy_from_slice(black_box(&record)));
    let scan = time(|| {
        black_box(unsafe { records_bench_scan(black_box(at), n) });
    });
    let walk = time(|| {
        black_box(unsafe { records_bench_walk(black_box(at), n) });
    });
    println!("the largest view of kind {kind}: {n} bytes");
    println!("copy, byte by byte      {:8.2} us", copy / 1000.0);
    println!("copy, as a block        {:8.2} us", block / 1000.0);
    println!("read                    {:8.2} us  ({:.1} copies byte by byte, {:.0} as a block)", scan / 1000.0, scan / copy, scan / block);
    println!("read, walk, use content {:8.2} us  ({:.1} copies byte by byte, {:.0} as a block)", walk / 1000.0, walk / copy, walk / block);
}
