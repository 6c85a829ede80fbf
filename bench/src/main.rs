// MD5 and CRC-32 of this repository against the crates md-5 and crc32fast, libcrypto and zlib: the same bytes, in one run, each in
// turn, the best of several rounds. Prints times as ratios: below 1, ours is the faster.
use md5::{Digest, Md5};
use std::hint::black_box;
use std::time::Instant;

extern "C" {
    fn dulavimorf_md5(p: *const u8, n: usize, out: *mut u8);
    fn dulavimorf_md5_new(state: *mut u32, tail: *mut u8, fed: *mut u64);
    fn dulavimorf_md5_update(state: *mut u32, tail: *mut u8, fed: *mut u64, p: *const u8, n: usize);
    fn dulavimorf_md5_finish(state: *const u32, tail: *const u8, fed: u64, out: *mut u8);
    fn dulavimorf_crc32(p: *const u8, n: usize) -> u32;
    fn dulavimorf_crc32_new() -> u32;
    fn dulavimorf_crc32_update(register: u32, p: *const u8, n: usize) -> u32;
    fn dulavimorf_crc32_finish(register: u32) -> u32;
    fn MD5(p: *const u8, n: usize, out: *mut u8) -> *mut u8;
    fn crc32_z(crc: std::ffi::c_ulong, p: *const u8, n: usize) -> std::ffi::c_ulong;
}

type Sum = [u8; 16];

fn ours_md5(d: &[u8]) -> Sum {
    let mut out = [0; 16];
    unsafe { dulavimorf_md5(d.as_ptr(), d.len(), out.as_mut_ptr()) };
    out
}

fn ours_md5_parts(d: &[u8], k: usize) -> Sum {
    let (mut state, mut tail, mut fed, mut out) = ([0u32; 4], [0u8; 64], 0u64, [0u8; 16]);
    unsafe {
        dulavimorf_md5_new(state.as_mut_ptr(), tail.as_mut_ptr(), &mut fed);
        for c in d.chunks(k) {
            dulavimorf_md5_update(state.as_mut_ptr(), tail.as_mut_ptr(), &mut fed, c.as_ptr(), c.len());
        }
        dulavimorf_md5_finish(state.as_ptr(), tail.as_ptr(), fed, out.as_mut_ptr());
    }
    out
}

fn crate_md5(d: &[u8]) -> Sum {
    Md5::digest(d).into()
}

fn libcrypto_md5(d: &[u8]) -> Sum {
    let mut out = [0; 16];
    unsafe { MD5(d.as_ptr(), d.len(), out.as_mut_ptr()) };
    out
}

fn wide(x: u32) -> Sum {
    let mut out = [0; 16];
    out[..4].copy_from_slice(&x.to_le_bytes());
    out
}

fn ours_crc(d: &[u8]) -> Sum {
    wide(unsafe { dulavimorf_crc32(d.as_ptr(), d.len()) })
}

fn ours_crc_parts(d: &[u8], k: usize) -> Sum {
    unsafe {
        let r = d.chunks(k).fold(dulavimorf_crc32_new(), |r, c| dulavimorf_crc32_update(r, c.as_ptr(), c.len()));
        wide(dulavimorf_crc32_finish(r))
    }
}

fn crate_crc(d: &[u8]) -> Sum {
    wide(crc32fast::hash(d))
}

fn zlib_crc(d: &[u8]) -> Sum {
    wide(unsafe { crc32_z(0, d.as_ptr(), d.len()) } as u32)
}

// The loop that the fast form has to beat: one byte a step, its table in static memory.
static TABLE: [u32; 256] = {
    let mut t = [0; 256];
    let mut i = 0;
    while i < 256 {
        let (mut x, mut bit) = (i as u32, 0);
        while bit < 8 {
            x = (x >> 1) ^ (x & 1) * 0xedb8_8320;
            bit += 1;
        }
        t[i] = x;
        i += 1;
    }
    t
};

fn bytewise_crc(d: &[u8]) -> Sum {
    wide(!d.iter().fold(!0, |r: u32, b| (r >> 8) ^ TABLE[((r ^ *b as u32) & 255) as usize]))
}

// The best time of each, over the data in messages of k bytes.
fn best(fs: &[fn(&[u8]) -> Sum], data: &[u8], k: usize, rounds: usize) -> Vec<f64> {
    let mut best = vec![f64::MAX; fs.len()];
    for _ in 0..rounds {
        for (f, b) in fs.iter().zip(&mut best) {
            let start = Instant::now();
            for c in data.chunks(k) {
                black_box(f(black_box(c)));
            }
            *b = b.min(start.elapsed().as_secs_f64());
        }
    }
    best
}

fn report(what: &str, names: &[&str], fs: &[fn(&[u8]) -> Sum], data: &[u8], k: usize) {
    let t = best(fs, data, k, 9);
    let rate = |s: f64| data.len() as f64 / 1048576.0 / s;
    print!("{what:24} ours {:6.0} MiB/s", rate(t[0]));
    for (name, s) in names.iter().zip(&t[1..]) {
        print!(" | {name} {:6.0}: {:.2}", rate(*s), t[0] / s);
    }
    println!();
}

fn main() {
    let n = 64 << 20;
    let data: Vec<u8> = (0..n as u64).map(|i| (i.wrapping_mul(0x9e37_79b9_7f4a_7c15) >> 56) as u8).collect();
    for l in 0..1500 {
        let d = &data[..l];
        let (m, c) = (crate_md5(d), crate_crc(d));
        assert!([ours_md5(d), ours_md5_parts(d, 1 + l % 97), libcrypto_md5(d)].iter().all(|x| *x == m), "MD5 of {l} bytes");
        assert!([ours_crc(d), ours_crc_parts(d, 1 + l % 97), zlib_crc(d), bytewise_crc(d)].iter().all(|x| *x == c), "CRC-32 of {l} bytes");
    }
    let md5s: [fn(&[u8]) -> Sum; 3] = [ours_md5, crate_md5, libcrypto_md5];
    let crcs: [fn(&[u8]) -> Sum; 4] = [ours_crc, crate_crc, zlib_crc, bytewise_crc];
    println!("Our time over the other's; {} bytes, best of 9.", data.len());
    for k in [n, 4096, 256, 16] {
        let d = if k < 4096 { &data[..n / 8] } else { &data[..] };
        report(&format!("MD5    of {k:9} bytes"), &["md-5", "libcrypto"], &md5s, d, k);
        report(&format!("CRC-32 of {k:9} bytes"), &["crc32fast", "zlib", "bytewise"], &crcs, d, k);
    }
}
