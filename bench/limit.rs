// A converter without proofs and tuned by hand. It does what `rtcm2rinex convert`
// does for one link, and so marks how fast that can be. Its tables of other systems
// than GPS are its own, and nothing but a comparison of files stands behind them.
// bench/peers builds it and runs it with --splits.
//   rustc --edition 2021 -C opt-level=3 limit.rs -o limit
//
//   limit read FILE [PIECE]        read the file only (PIECE bytes per read, 1 MiB)
//   limit crc FILE                 checksum of every byte, frames of 1,024 bytes
//   limit frames FILE              find the frames, count them
//   limit decode FILE              frames, and every field of 1004 and 1074 read
//   limit convert --station N --near T --made T --marker NAME --codes LIST
//                 [--window N] [--msm KINDS] [--channels LIST]
//                 [--leap-seconds N] [--splits] FILE
//                                the RINEX file on standard output, the report and
//                                the nine counts on standard error; with --splits
//                                also what comes of epochs in several messages of
//                                one number, and of phases that roll over
//
// What it does as `convert` does: leftmost frames, fields, faults M1 to M5,
// clocks and dates, channels of GLONASS, cells and their exact rounding, window,
// late, repeat, conflict, slips, header, records, report. What it leaves out:
// several links, words that are wrong, memory that is refused. A mean speed is
// printed on standard error with --speed.

use std::fs::File;
use std::io::{Read, Write};
use std::time::Instant;

const MAX: usize = 1 << 20;
const WEEK: u64 = 604_800_000;

// ---------------------------------------------------------------- checksum

// slicing by 16; the checksum is kept left aligned in 32 bits
struct Crc([[u32; 256]; 16]);

const fn tables() -> [[u32; 256]; 16] {
    let mut t = [[0u32; 256]; 16];
    let mut i = 0;
    while i < 256 {
        let mut c = (i as u32) << 24;
        let mut k = 0;
        while k < 8 {
            c = if c & 0x8000_0000 != 0 { (c << 1) ^ (0x864CFB << 8) } else { c << 1 };
            k += 1;
        }
        t[0][i] = c;
        i += 1;
    }
    let mut k = 1;
    while k < 16 {
        let mut i = 0;
        while i < 256 {
            let p = t[k - 1][i];
            t[k][i] = (p << 8) ^ t[0][(p >> 24) as usize];
            i += 1;
        }
        k += 1;
    }
    t
}

static CRC: Crc = Crc(tables());

impl Crc {
    #[inline]
    fn of(&self, b: &[u8]) -> u32 {
        let t = &self.0;
        let mut c = 0u32;
        let mut it = b.chunks_exact(16);
        for w in &mut it {
            let a = c ^ u32::from_be_bytes([w[0], w[1], w[2], w[3]]);
            // what doesn't wait for the last step comes first
            let x = (t[11][w[4] as usize] ^ t[10][w[5] as usize])
                ^ (t[9][w[6] as usize] ^ t[8][w[7] as usize])
                ^ (t[7][w[8] as usize] ^ t[6][w[9] as usize])
                ^ (t[5][w[10] as usize] ^ t[4][w[11] as usize])
                ^ (t[3][w[12] as usize] ^ t[2][w[13] as usize])
                ^ (t[1][w[14] as usize] ^ t[0][w[15] as usize]);
            c = (t[15][(a >> 24) as usize] ^ t[14][(a >> 16 & 255) as usize])
                ^ (t[13][(a >> 8 & 255) as usize] ^ t[12][(a & 255) as usize])
                ^ x;
        }
        for &x in it.remainder() {
            c = (c << 8) ^ t[0][((c >> 24) as u8 ^ x) as usize];
        }
        c >> 8
    }
}

// -------------------------------------------------------------------- scan

// Gives the payloads of the frames of `b` from `from` on; answers the place
// where it waits (or the end). With `last` nothing follows.
fn scan(b: &[u8], mut p: usize, last: bool, mut f: impl FnMut(&[u8])) -> usize {
    while p < b.len() {
        if b[p] != 0xD3 {
            match b[p..].iter().position(|&x| x == 0xD3) {
                Some(k) => p += k,
                None => return b.len(),
            }
        }
        if b.len() - p >= 3 {
            let n = ((b[p + 1] & 3) as usize) << 8 | b[p + 2] as usize;
            if b.len() - p >= n + 6 {
                let e = p + 3 + n;
                let want = (b[e] as u32) << 16 | (b[e + 1] as u32) << 8 | b[e + 2] as u32;
                if CRC.of(&b[p..e]) == want {
                    f(&b[p + 3..e]);
                    p = e + 3;
                } else {
                    p += 1;
                }
                continue;
            }
        }
        if !last {
            return p;
        }
        p += 1;
    }
    p
}

fn stream(name: &str, mut f: impl FnMut(&[u8])) -> u64 {
    let mut r: Box<dyn Read> = if name == "stdin" {
        Box::new(std::io::stdin().lock())
    } else {
        Box::new(File::open(name).expect("open"))
    };
    let mut buf = vec![0u8; MAX + 2048];
    let (mut held, mut total) = (0, 0u64);
    loop {
        let n = r.read(&mut buf[held..]).expect("read");
        total += n as u64;
        let end = held + n;
        let p = scan(&buf[..end], 0, n == 0, &mut f);
        if n == 0 {
            return total;
        }
        buf.copy_within(p..end, 0);
        held = end - p;
    }
}

// -------------------------------------------------------------------- bits

const PAD: usize = 8;

// a payload with PAD bytes after it
type Body = [u8; 1024 + PAD];

// at most 57 bits; the mask only tells the compiler that the place is inside
#[inline(always)]
fn get(b: &Body, bit: usize, w: u32) -> u64 {
    let k = (bit >> 3) & 1023;
    let x = u64::from_be_bytes(b[k..k + 8].try_into().unwrap());
    (x << (bit & 7)) >> (64 - w)
}

#[inline(always)]
fn geti(b: &Body, bit: usize, w: u32) -> i64 {
    let k = (bit >> 3) & 1023;
    let x = u64::from_be_bytes(b[k..k + 8].try_into().unwrap());
    ((x << (bit & 7)) as i64) >> (64 - w)
}

// ----------------------------------------------------------------- systems

struct System {
    letter: u8,
    before: u64, // the number before that of its MSM1
    sats: usize, // so many bits of a satellite mask name one
    first: usize, // the number in the name of the first
    names: &'static [&'static [u8; 2]],
    signal: [u8; 33], // signal identifier to code + 1
    known: u64, // a signal mask of all identifiers of the table
    freq: [u64; 16], // of GLONASS those of channel 0
}

const fn carrier(letter: u8, band: u8) -> u64 {
    match (letter, band) {
        (b'R', b'1') => 1_602_000_000,
        (b'R', _) => 1_246_000_000,
        (b'C', b'2') => 1_561_098_000,
        (b'C', b'6') => 1_268_520_000,
        (_, b'1') => 1_575_420_000,
        (_, b'2') => 1_227_600_000,
        (_, b'5') => 1_176_450_000,
        (_, b'6') => 1_278_750_000,
        (_, b'7') => 1_207_140_000,
        _ => 1_191_795_000,
    }
}

// what a channel adds
const STEP: [i64; 4] = [562_500, 562_500, 437_500, 437_500];

// the identifiers stand in the order of the names; 0 is none
const fn system(letter: u8, before: u64, sats: usize, first: usize, names: &'static [&'static [u8; 2]], ids: &[usize]) -> System {
    let (mut signal, mut known, mut freq) = ([0; 33], 0, [1; 16]);
    let mut k = 0;
    while k < names.len() {
        if ids[k] != 0 {
            signal[ids[k]] = k as u8 + 1;
            known |= 1 << (32 - ids[k]);
        }
        freq[k] = carrier(letter, names[k][0]);
        k += 1;
    }
    System { letter, before, sats, first, names, signal, known, freq }
}

static SYSTEMS: [System; 7] = [
    system(
        b'G', 1070, 32, 1,
        &[b"1C", b"1P", b"1W", b"2C", b"2P", b"2W", b"2S", b"2L", b"2X", b"5I", b"5Q", b"5X", b"1S", b"1L", b"1X", b"2D"],
        &[2, 3, 4, 8, 9, 10, 15, 16, 17, 22, 23, 24, 30, 31, 32, 0],
    ),
    system(b'R', 1080, 27, 1, &[b"1C", b"1P", b"2C", b"2P"], &[2, 3, 8, 9]),
    system(
        b'E', 1090, 36, 1,
        &[b"1C", b"1B", b"1X", b"6C", b"6B", b"6X", b"7I", b"7Q", b"7X", b"8I", b"8Q", b"8X", b"5I", b"5Q", b"5X"],
        &[2, 4, 5, 8, 10, 11, 14, 15, 16, 18, 19, 20, 22, 23, 24],
    ),
    system(
        b'C', 1120, 63, 1,
        &[b"2I", b"2Q", b"2X", b"6I", b"6Q", b"6X", b"7I", b"7Q", b"7X", b"5D", b"5P", b"5X", b"7D", b"1D", b"1P", b"1X"],
        &[2, 3, 4, 8, 9, 10, 14, 15, 16, 22, 23, 24, 25, 30, 31, 32],
    ),
    system(
        b'J', 1110, 10, 1,
        &[b"1C", b"6S", b"6L", b"6X", b"2S", b"2L", b"2X", b"5I", b"5Q", b"5X", b"1S", b"1L", b"1X"],
        &[2, 9, 10, 11, 15, 16, 17, 22, 23, 24, 30, 31, 32],
    ),
    system(b'S', 1100, 39, 20, &[b"1C", b"5I", b"5Q", b"5X"], &[2, 22, 23, 24]),
    system(b'I', 1130, 14, 1, &[b"5A"], &[22]),
];
const GPS: usize = 0;
const GLONASS: usize = 1;
const BEIDOU: usize = 3;

// the number of a channel + 7 that stands for none
const NO_CHANNEL: u8 = 15;
type Channels = [u8; 64];

// the bits of a satellite, and of a cell
const fn widths(kind: u64) -> (usize, usize) {
    (if kind & 1 == 0 { 18 } else { 36 }, (if kind < 6 { 48 } else { 65 }) + if kind & 1 == 0 { 0 } else { 15 })
}

// from which GPS time on GPS is so many seconds ahead of UTC
const LEAP: [u64; 18] = {
    let d = [
        (1981, 7), (1982, 7), (1983, 7), (1985, 7), (1988, 1), (1990, 1), (1991, 1), (1992, 7), (1993, 7), (1994, 7), (1996, 1),
        (1997, 7), (1999, 1), (2006, 1), (2009, 1), (2012, 7), (2015, 7), (2017, 1),
    ];
    let mut t = [0; 18];
    let mut k = 0;
    while k < 18 {
        t[k] = ((days(d[k].0, d[k].1, 1) - GPS0) * 86_400_000 + (k as i64 + 1) * 1000) as u64;
        k += 1;
    }
    t
};

// ------------------------------------------------------------------- cells

const CODE2: [u8; 4] = [8, 4, 15, 5]; // DF016

const NONE: i64 = i64::MIN;

#[derive(Clone, Copy, PartialEq)]
struct Cell {
    range: i64,
    phase: i64,
    lock: u32,
    offset: i32, // DF012 or DF018
    quarters: u8, // strength in 0.25 dB-Hz, 0 none
    half: bool,
    msm: bool,
}

const NO_CELL: Cell = Cell { range: 0, phase: 0, lock: 0, offset: 0, quarters: 0, half: false, msm: false };

const LOCK: [u32; 128] = {
    let mut t = [0u32; 128];
    let mut i = 0;
    while i < 128 {
        let n = i as u32;
        t[i] = 1000
            * match i {
                0..=23 => n,
                24..=47 => 2 * n - 24,
                48..=71 => 4 * n - 120,
                72..=95 => 8 * n - 408,
                96..=119 => 16 * n - 1176,
                120..=126 => 32 * n - 3096,
                _ => 937,
            };
        i += 1;
    }
    t
};

// the same of MSM6 and MSM7: 64 a ms apart, then 32 of them two, 32 four, and so on; the last ones tell nothing
static FINE_LOCK: [u32; 1024] = {
    let mut t = [0u32; 1024];
    let mut i = 1;
    while i < 705 {
        let n = (i - 1) / 32;
        t[i] = t[i - 1] + (1 << if n == 0 { 0 } else { n - 1 });
        i += 1;
    }
    t
};

#[inline(always)]
fn half_away(r: i64) -> i64 {
    // r/2, ties away from zero
    if r >= 0 { (r + 1) >> 1 } else { -((1 - r) >> 1) }
}

// x * (2 + F/149896229), nearest (the divisor is odd: no ties)
#[inline(always)]
fn cycles<const F: u64>(x: i64) -> i64 {
    const D: u64 = 149_896_229;
    let a = x.unsigned_abs();
    let m = (2 * a + (a as u128 * F as u128 + (D / 2) as u128).min(u64::MAX as u128) as u64 / D) as i64;
    if x < 0 { -m } else { m }
}

// n*k / 2^S, nearest, ties away from zero
#[inline(always)]
fn shift<const S: u32>(n: i64, k: u64) -> i64 {
    let a = n.unsigned_abs();
    let m = ((a as u128 * k as u128 + (1 << (S - 1))) >> S) as i64;
    if n < 0 { -m } else { m }
}

// Cells of a system in an epoch: by satellite and code, with the mark of those that stand.
struct Table {
    cells: Box<[[Cell; 16]; 64]>,
    has: [u16; 64],
    sats: u64, // bit s: satellite s has a cell
}

impl Table {
    fn new() -> Table {
        Table { cells: Box::new([[NO_CELL; 16]; 64]), has: [0; 64], sats: 0 }
    }
    fn clear(&mut self) {
        self.has = [0; 64];
        self.sats = 0;
    }
}

fn cells_msm(system: usize, kind: u64, given: &Channels, b: &Body, t: &mut Table) {
    let s = &SYSTEMS[system];
    match (system == GLONASS, kind) {
        (false, 4) => cells_of::<false, false, false>(s, given, b, t),
        (false, 5) => cells_of::<false, false, true>(s, given, b, t),
        (false, 6) => cells_of::<false, true, false>(s, given, b, t),
        (false, _) => cells_of::<false, true, true>(s, given, b, t),
        (true, 4) => cells_of::<true, false, false>(s, given, b, t),
        (true, 5) => cells_of::<true, false, true>(s, given, b, t),
        (true, 6) => cells_of::<true, true, false>(s, given, b, t),
        (true, _) => cells_of::<true, true, true>(s, given, b, t),
    }
}

// R: of GLONASS; FINE: an MSM6 or MSM7; WIDE: with rates and extended information
fn cells_of<const R: bool, const FINE: bool, const WIDE: bool>(s: &System, given: &Channels, b: &Body, t: &mut Table) {
    let sats = get(b, 73, 32) << 32 | get(b, 105, 32);
    let sigs = get(b, 137, 32) as u32;
    let (ns, ng) = (sats.count_ones() as usize, sigs.count_ones() as usize);
    let nm = ns * ng;
    let mask = if nm == 0 {
        0
    } else if nm <= 32 {
        get(b, 169, nm as u32) << (64 - nm)
    } else {
        (get(b, 169, 32) << 32) | get(b, 201, (nm - 32) as u32) << (64 - nm)
    };
    let nc = mask.count_ones() as usize;
    let s0 = 169 + nm;
    let f0 = s0 + (if WIDE { 12 } else { 8 }) * ns;
    // where the columns of the cells begin, and how wide they are
    let (w1, w2, w3, w5) = if FINE { (20, 24, 10, 10) } else { (15, 22, 4, 6) };
    let c1 = s0 + (if WIDE { 36 } else { 18 }) * ns;
    let c2 = c1 + w1 as usize * nc;
    let c3 = c2 + w2 as usize * nc;
    let c4 = c3 + w3 as usize * nc;
    let c5 = c4 + nc;
    let (mut sm, mut k, mut cell) = (sats, 0, 0);
    let mut m = mask;
    while sm != 0 {
        let sat = sm.leading_zeros() as usize + 1;
        sm &= !(1u64 << (64 - sat));
        let whole = get(b, s0 + 8 * k, 8) as i64;
        let rough = (whole << 29) + ((get(b, f0 + 10 * k, 10) as i64) << 19);
        let mut channel = 7;
        if R {
            channel = given[sat & 63];
            let told = if WIDE { get(b, s0 + 8 * ns + 4 * k, 4) as u8 } else { NO_CHANNEL };
            if told != NO_CHANNEL && told != channel {
                channel = NO_CHANNEL;
            }
        }
        k += 1;
        let mut gm = sigs;
        while gm != 0 {
            let id = gm.leading_zeros() as usize + 1;
            gm &= !(1u32 << (32 - id));
            let set = m >> 63 != 0;
            m <<= 1;
            if !set {
                continue;
            }
            let j = cell;
            cell += 1;
            let code = s.signal[id] as usize;
            if code == 0 || sat > s.sats {
                continue;
            }
            let (sat, code) = (sat & 63, code - 1 & 15);
            let fine = geti(b, c1 + w1 as usize * j, w1);
            let phase = geti(b, c2 + w2 as usize * j, w2);
            let lock = get(b, c3 + w3 as usize * j, w3);
            let half = get(b, c4 + j, 1);
            let cnr = get(b, c5 + w5 as usize * j, w5);
            if t.has[sat] >> code & 1 != 0 {
                continue;
            }
            t.has[sat] |= 1 << code;
            t.sats |= 1 << sat;
            let mut freq = s.freq[code];
            if R {
                freq = (freq as i64 + (channel as i64 - 7) * STEP[code & 3]) as u64;
            }
            let least = |w: u32| -1i64 << (w - 1);
            t.cells[sat][code] = Cell {
                range: if whole == 255 || fine == least(w1) {
                    NONE
                } else {
                    shift::<29>(rough + if FINE { fine } else { 32 * fine }, 299_792_458)
                },
                phase: if whole == 255 || phase == least(w2) || R && channel == NO_CHANNEL {
                    NONE
                } else if FINE {
                    shift::<31>(4 * rough + phase, freq)
                } else {
                    shift::<29>(rough + phase, freq)
                },
                offset: 0,
                quarters: if !FINE {
                    (4 * cnr) as u8
                } else if cnr == 0 {
                    0
                } else {
                    ((cnr + 2) / 4).clamp(1, 255) as u8
                },
                lock: if FINE { FINE_LOCK[lock as usize & 1023] } else if lock == 0 { 0 } else { 16 << lock },
                half: half != 0,
                msm: true,
            };
        }
    }
}

fn cells_1004(b: &Body, t: &mut Table) {
    let n = get(b, 55, 5) as usize;
    let mut seen = 0u64;
    for k in 0..n {
        let p = 64 + 125 * k;
        let sat = get(b, p, 6) as usize;
        if !(1..=32).contains(&sat) || seen >> sat & 1 != 0 {
            continue;
        }
        seen |= 1 << sat;
        let code1 = get(b, p + 6, 1) as usize;
        let code2 = CODE2[get(b, p + 74, 2) as usize] as usize;
        let whole = get(b, p + 58, 8) as i64;
        let r = 40 * get(b, p + 7, 24) as i64 + 599_584_916 * whole;
        let o1 = geti(b, p + 31, 20);
        let d2 = geti(b, p + 76, 14);
        let o2 = geti(b, p + 90, 20);
        t.sats |= 1 << sat;
        // 1074 stands before 1004
        if t.has[sat] >> code1 & 1 == 0 {
            t.has[sat] |= 1 << code1;
            t.cells[sat][code1] = Cell {
                range: if o1 == -524_288 { NONE } else { half_away(r) },
                phase: if o1 == -524_288 { NONE } else { cycles::<94_062_542>(r + o1) },
                offset: o1 as i32,
                quarters: get(b, p + 66, 8) as u8,
                lock: LOCK[get(b, p + 51, 7) as usize],
                half: false,
                msm: false,
            };
        }
        if t.has[sat] >> code2 & 1 == 0 {
            t.has[sat] |= 1 << code2;
            t.cells[sat][code2] = Cell {
                range: if d2 == -8192 { NONE } else { half_away(r + 40 * d2) },
                phase: if o2 == -524_288 { NONE } else { cycles::<7_107_542>(r + o2) },
                offset: o2 as i32,
                quarters: get(b, p + 117, 8) as u8,
                lock: LOCK[get(b, p + 110, 7) as usize],
                half: false,
                msm: false,
            };
        }
    }
}

// -------------------------------------------------------------------- text

static PAIRS: [u8; 200] = {
    let mut t = [0u8; 200];
    let mut i = 0;
    while i < 100 {
        t[2 * i] = b'0' + (i / 10) as u8;
        t[2 * i + 1] = b'0' + (i % 10) as u8;
        i += 1;
    }
    t
};

// eight decimal digits, the most significant in the low byte
#[inline(always)]
fn eight(v: u32) -> u64 {
    let hi = (v / 10_000) as u64;
    let lo = (v % 10_000) as u64;
    let m = hi | lo << 32;
    let h = ((m * 10_486) >> 20) & 0x0000_007F_0000_007F; // /100
    let m = h | (m - h * 100) << 16;
    let t = ((m * 103) >> 10) & 0x000F_000F_000F_000F; // /10
    t | (m - t * 10) << 8
}

// The 16 columns of an observation: F14.3 of v (thousandths, within the
// limits and not 0) and the two digits.
#[inline(always)]
fn field(o: &mut [u8; 16], v: i64, lli: u8, sd: u8) {
    if (100_000_000..10_000_000_000_000).contains(&v) {
        // 6 to 10 digits before the point: the usual case for C and L
        let a = v as u64;
        let top = (a / 100_000) as u32; // 4 to 8 digits
        let d = eight(top);
        let l = eight((a % 100_000) as u32) >> 24; // 5 digits, 2 before the point
        // leading zeros of the first eight digits become blanks
        let zeros = d.trailing_zeros() & 56;
        let text = (d | 0x3030_3030_3030_3030) ^ (0x1010_1010_1010_1010 & !(u64::MAX << zeros));
        let low = (l & 0xFFFF) | (l & 0xFF_FFFF_0000) << 8;
        let low = (low | 0x0000_3030_3000_3030 | 0x2E_0000) | (lli as u64) << 48 | (sd as u64) << 56;
        o[0..8].copy_from_slice(&text.to_le_bytes());
        o[8..16].copy_from_slice(&low.to_le_bytes());
        return;
    }
    slow(o, v);
    o[14] = lli;
    o[15] = sd;
}

#[cold]
fn slow(o: &mut [u8; 16], v: i64) {
    let a = v.unsigned_abs();
    let (mut w, f) = (a / 1000, a % 1000);
    o[..10].fill(b' ');
    o[10] = b'.';
    o[11] = b'0' + (f / 100) as u8;
    o[12] = b'0' + (f / 10 % 10) as u8;
    o[13] = b'0' + (f % 10) as u8;
    let mut k = 10;
    loop {
        k -= 1;
        o[k] = b'0' + (w % 10) as u8;
        w /= 10;
        if w == 0 {
            break;
        }
    }
    if v < 0 {
        o[k - 1] = b'-';
    }
}

// the 16 columns of a strength and its digit, by quarters of a dB-Hz
static STRENGTH: [[u8; 16]; 256] = {
    let mut t = [[b' '; 16]; 256];
    let mut q = 1;
    while q < 256 {
        let (w, f) = (q / 4, q % 4 * 250);
        if w >= 10 {
            t[q][8] = b'0' + (w / 10) as u8;
        }
        t[q][9] = b'0' + (w % 10) as u8;
        t[q][10] = b'.';
        t[q][11] = b'0' + (f / 100) as u8;
        t[q][12] = b'0' + (f / 10 % 10) as u8;
        t[q][13] = b'0';
        q += 1;
    }
    t
};
static DIGIT: [u8; 256] = {
    let mut t = [b' '; 256];
    let mut q = 1;
    while q < 256 {
        let d = q / 24;
        t[q] = b'0' + (if d < 1 { 1 } else if d > 9 { 9 } else { d }) as u8;
        q += 1;
    }
    t
};

const fn days(y: i64, m: i64, d: i64) -> i64 {
    // days from 1970-01-01
    let y = if m <= 2 { y - 1 } else { y };
    let era = y.div_euclid(400);
    let yoe = y - era * 400;
    let doy = (153 * (m + if m > 2 { -3 } else { 9 }) + 2) / 5 + d - 1;
    era * 146_097 + yoe * 365 + yoe / 4 - yoe / 100 + doy - 719_468
}

fn civil(day: i64) -> (i64, i64, i64) {
    let z = day + 719_468;
    let era = z.div_euclid(146_097);
    let doe = z - era * 146_097;
    let yoe = (doe - doe / 1460 + doe / 36_524 - doe / 146_096) / 365;
    let doy = doe - (365 * yoe + yoe / 4 - yoe / 100);
    let mp = (5 * doy + 2) / 153;
    let m = if mp < 10 { mp + 3 } else { mp - 9 };
    (yoe + era * 400 + (m <= 2) as i64, m, doy - (153 * mp + 2) / 5 + 1)
}

const GPS0: i64 = 3657; // 1980-01-06

fn parse_time(s: &str) -> u64 {
    let n = |a: usize, b: usize| s[a..b].parse::<i64>().expect("time");
    assert!(s.len() == 19);
    let d = days(n(0, 4), n(5, 7), n(8, 10)) - GPS0;
    (d * 86_400_000 + n(11, 13) * 3_600_000 + n(14, 16) * 60_000 + n(17, 19) * 1000) as u64
}

// ----------------------------------------------------------------- convert

// the places of the bodies of an epoch: the MSM of each system, and the 1004
const LEGACY: usize = 7;
const PLACES: usize = 8;

struct Slot {
    epoch: u64,
    lens: [usize; PLACES], // payload length + 1, 0 none
    bodies: [Option<Box<Body>>; PLACES],
    more: Vec<(usize, Body)>, // further messages of the epoch, with their places
}

#[derive(Clone, Copy, Default)]
struct Track {
    time: u64, // 0: none
    lock: u32,
    offset: i32,
    msm: bool,
    rolls: i64,
}

#[derive(Default)]
struct Counts {
    frames: u64,
    other: u64,
    refused: u64,
    foreign: u64,
    taken: u64,
    repeat: u64,
    conflict: u64,
    late: u64,
    epochs: u64,
}

struct Job<W: Write> {
    station: u64,
    near: u64,
    made: u64,
    marker: String,
    codes: [Vec<usize>; 7],
    listed: [u16; 7],
    kinds: [u64; 7],
    taken: [u8; 67], // of 1071 to 1137 the system + 1, 0 for those that are not taken
    given: Channels,
    leap: Option<i64>,
    other: u64, // bits of slots, as told in the report
    lacked: u64,
    heard: u8, // bits of systems
    splits: bool,
    window: usize,
    held: std::collections::VecDeque<Box<Slot>>, // rising
    free: Vec<Box<Slot>>,
    arp: [Option<Vec<u8>>; 2],
    tracks: [Option<Box<[[Track; 16]; 64]>>; 7], // of the listed systems
    table: Table,
    room: usize, // for a header and the longest record
    day: i64,
    date: [u8; 12],
    head: bool,
    out: W,
    buf: Vec<u8>,
    at: usize,
    log: Vec<u8>,
    n: Counts,
}

fn stamp(e: u64) -> String {
    let (y, m, d) = civil((e / 86_400_000) as i64 + GPS0);
    let t = e % 86_400_000;
    format!(
        "{y:04}-{m:02}-{d:02} {:02}:{:02}:{:02}.{:03}",
        t / 3_600_000,
        t / 60_000 % 60,
        t / 1000 % 60,
        t % 1000
    )
}

impl<W: Write> Job<W> {
    fn refuse(&mut self, m: u32, number: Option<u64>) {
        self.n.refused += 1;
        match number {
            Some(k) => writeln!(self.log, "link 1 refused M{m} {k}").unwrap(),
            None => writeln!(self.log, "link 1 refused M{m} -").unwrap(),
        }
    }

    fn payload(&mut self, p: &[u8]) {
        self.n.frames += 1;
        if p.len() < 2 {
            return self.refuse(1, None);
        }
        let number = (p[0] as u64) << 4 | p[1] as u64 >> 4;
        let bits = p.len() * 8;
        // the first 40 bytes, with zeros behind the end
        let mut head = [0u8; 48];
        let k = p.len().min(40);
        head[..k].copy_from_slice(&p[..k]);
        let get = |b: &[u8; 48], bit: usize, w: u32| -> u64 {
            let k = bit >> 3;
            (u64::from_be_bytes(b[k..k + 8].try_into().unwrap()) << (bit & 7)) >> (64 - w)
        };
        let is_legacy = number == 1004 && self.listed[GPS] != 0;
        let system = match number {
            1004 => GPS,
            1071..=1137 => (self.taken[number as usize - 1071] as usize).wrapping_sub(1),
            _ => usize::MAX,
        };
        let (mut sats, mut nm) = (0, 0);
        let clock = get(&head, 24, 30);
        let valid = if system == GLONASS { clock >> 27 != 7 && clock & 0x7FF_FFFF < 86_401_000 } else { clock < WEEK };
        let need = match number {
            1004 if is_legacy => {
                if bits < 64 {
                    return self.refuse(3, Some(number));
                }
                64 + 125 * get(&head, 55, 5) as usize
            }
            1005 => 152,
            1006 => 168,
            1071..=1137 if system < 7 => {
                if bits < 169 {
                    return self.refuse(3, Some(number));
                }
                sats = get(&head, 73, 32) << 32 | get(&head, 105, 32);
                let ns = sats.count_ones() as usize;
                nm = ns * get(&head, 137, 32).count_ones() as usize;
                if valid && nm > 64 {
                    return self.refuse(5, Some(number));
                }
                let mut nc = 0;
                if nm <= 64 {
                    if bits < 169 + nm && valid {
                        return self.refuse(3, Some(number));
                    }
                    let mask = get(&head, 169, 32) << 32 | get(&head, 201, 32);
                    nc = if nm == 0 { 0 } else { (mask >> (64 - nm)).count_ones() as usize };
                }
                let (of_sat, of_cell) = widths(self.kinds[system]);
                169 + nm + of_sat * ns + of_cell * nc
            }
            _ => {
                self.n.other += 1;
                return;
            }
        };
        let obs = number != 1005 && number != 1006;
        if obs && !valid {
            return self.refuse(4, Some(number));
        }
        if bits < need {
            return self.refuse(3, Some(number));
        }
        if get(&head, 12, 12) != self.station {
            self.n.foreign += 1;
            return;
        }
        // the body: the bits of the fields, without what follows them
        let len = (need + 7) / 8;
        let tail = if need % 8 == 0 { 0xFF } else { !(0xFFu8 >> (need % 8)) };
        let same = |a: &[u8]| a.len() == len && a[..len - 1] == p[..len - 1] && a[len - 1] == p[len - 1] & tail;
        let full = self.held.len() == self.window;
        if !obs {
            let k = (number == 1006) as usize;
            if let Some(a) = &self.arp[k] {
                if same(a) {
                    self.n.repeat += 1;
                } else if full {
                    self.n.late += 1;
                    writeln!(self.log, "link 1 late {number} -").unwrap();
                } else {
                    self.n.conflict += 1;
                    writeln!(self.log, "link 1 conflict {number} -").unwrap();
                }
            } else if full {
                self.n.late += 1;
                writeln!(self.log, "link 1 late {number} -").unwrap();
            } else {
                self.n.taken += 1;
                let mut v = p[..len].to_vec();
                v[len - 1] &= tail;
                self.arp[k] = Some(v);
            }
            return;
        }
        if system == GLONASS {
            self.note_channels(p, sats, 169 + nm);
        }
        let epoch = self.moment(system, clock);
        let mut i = self.held.len();
        while i > 0 && self.held[i - 1].epoch >= epoch {
            i -= 1;
        }
        if full && i == 0 && self.held[0].epoch != epoch {
            self.n.late += 1;
            writeln!(self.log, "link 1 late {number} {}", stamp(epoch)).unwrap();
            return;
        }
        let mut opened = false;
        if i == self.held.len() || self.held[i].epoch != epoch {
            if full {
                let s = self.held.pop_front().unwrap();
                self.record(&s);
                self.free.push(s);
                i -= 1;
            }
            let mut s = self.free.pop().unwrap_or_else(|| {
                Box::new(Slot { epoch: 0, lens: [0; PLACES], bodies: Default::default(), more: vec![] })
            });
            (s.epoch, s.lens) = (epoch, [0; PLACES]);
            s.more.clear();
            opened = true;
            self.held.insert(i, s);
        }
        let place = if is_legacy { LEGACY } else { system };
        let had = self.held[i].lens[place];
        if self.splits && had == 0 && !opened && !self.has_cell(place, p) {
            self.n.repeat += 1;
            return;
        }
        let room = self.held[i].bodies[place].get_or_insert_with(|| Box::new([0; 1024 + PAD]));
        if had != 0 {
            if same(&room[..had - 1]) {
                self.n.repeat += 1;
            } else if self.splits {
                self.further(number, place, i, p);
            } else {
                self.n.conflict += 1;
                writeln!(self.log, "link 1 conflict {number} {}", stamp(epoch)).unwrap();
            }
            return;
        }
        room[..len].copy_from_slice(&p[..len]);
        room[len - 1] &= tail;
        self.held[i].lens[place] = len + 1;
        self.n.taken += 1;
        self.heard |= 1 << system;
    }

    // the GPS time of a clock, near the reference
    fn moment(&self, system: usize, clock: u64) -> u64 {
        let low = self.near - WEEK / 2;
        let dated = |tow: u64| low + (tow + WEEK - low % WEEK) % WEEK;
        if system == BEIDOU {
            return dated((clock + 14_000) % WEEK);
        }
        if system != GLONASS {
            return dated(clock);
        }
        let utc = (86_400_000 * (clock >> 27) + (clock & 0x7FF_FFFF)) as i64 - 10_800_000;
        let at = |leap: i64| dated((utc + 1000 * leap).rem_euclid(WEEK as i64) as u64);
        if let Some(leap) = self.leap {
            return at(leap);
        }
        (0..18).rev().map(|k| (k, at(k as i64 + 1))).find(|&(k, time)| time >= LEAP[k]).map_or_else(|| at(0), |it| it.1)
    }

    // the slots of a message without a channel, and those of which it tells another one; its satellites begin at a bit
    fn note_channels(&mut self, p: &[u8], sats: u64, begin: usize) {
        let is_wide = self.kinds[GLONASS] & 1 != 0;
        let mut bit = begin + 8 * sats.count_ones() as usize;
        let mut sm = sats;
        while sm != 0 {
            let slot = sm.leading_zeros() as usize + 1;
            sm &= !(1u64 << (64 - slot));
            let due = self.given[slot & 63];
            let mut told = NO_CHANNEL;
            if is_wide {
                // a satellite has 24 bits more behind these, so the next byte is there
                let two = (p[bit >> 3] as u16) << 8 | p[(bit >> 3) + 1] as u16;
                told = (two >> (12 - (bit & 7)) & 15) as u8;
                bit += 4;
            }
            if slot <= SYSTEMS[GLONASS].sats {
                self.lacked |= ((due == NO_CHANNEL) as u64) << slot;
                self.other |= ((due != NO_CHANNEL && told != NO_CHANNEL && told != due) as u64) << slot;
            }
        }
    }

    // does a message have a cell?
    fn has_cell(&mut self, place: usize, p: &[u8]) -> bool {
        let mut b = [0; 1024 + PAD];
        b[..p.len()].copy_from_slice(p);
        if place == LEGACY {
            return (0..get(&b, 55, 5) as usize).any(|k| (1..=32).contains(&get(&b, 64 + 125 * k, 6)));
        }
        let (sats, sigs) = (get(&b, 73, 32) << 32 | get(&b, 105, 32), get(&b, 137, 32));
        if sats != 0 && sats << SYSTEMS[place].sats == 0 && sigs & !SYSTEMS[place].known == 0 {
            // all are in the tables: is a bit of the cell mask set?
            let n = (sats.count_ones() * sigs.count_ones()) as usize;
            return (0..n).any(|k| get(&b, 169 + k, 1) != 0);
        }
        self.table.clear();
        cells_at(place, &self.kinds, &self.given, &b, &mut self.table);
        self.table.sats != 0
    }

    // a message of an epoch that holds another one of its number
    fn further(&mut self, number: u64, place: usize, i: usize, p: &[u8]) {
        let mut b = [0; 1024 + PAD];
        b[..p.len()].copy_from_slice(p);
        let s = &mut self.held[i];
        let (mut a, mut n) = (Table::new(), Table::new());
        cells_at(place, &self.kinds, &self.given, s.bodies[place].as_ref().unwrap(), &mut a);
        for (k, m) in &s.more {
            if *k == place {
                cells_at(place, &self.kinds, &self.given, m, &mut a);
            }
        }
        cells_at(place, &self.kinds, &self.given, &b, &mut n);
        // the cells in the order of the message
        let mut order: Vec<(usize, usize)> = vec![];
        let own = &SYSTEMS[place % LEGACY];
        if place == LEGACY {
            for k in 0..get(&b, 55, 5) as usize {
                let q = 64 + 125 * k;
                let sat = get(&b, q, 6) as usize;
                if (1..=32).contains(&sat) && !order.iter().any(|c| c.0 == sat) {
                    order.push((sat, get(&b, q + 6, 1) as usize));
                    order.push((sat, CODE2[get(&b, q + 74, 2) as usize] as usize));
                }
            }
        } else {
            for sat in 1..=own.sats {
                for id in 1..=32 {
                    let c = own.signal[id] as usize;
                    if c != 0 && n.has[sat] >> (c - 1) & 1 != 0 {
                        order.push((sat, c - 1));
                    }
                }
            }
        }
        let (mut new, mut conflict) = (false, false);
        for (sat, c) in order {
            if a.has[sat] >> c & 1 == 0 {
                new = true;
            } else if a.cells[sat][c] != n.cells[sat][c] {
                conflict = true;
                let name = std::str::from_utf8(own.names[c]).unwrap();
                let (letter, sat) = (own.letter as char, own.first + sat - 1);
                writeln!(self.log, "link 1 conflict {number} {} {letter}{sat:02} {name}", stamp(s.epoch)).unwrap();
            }
        }
        if new {
            s.more.push((place, b));
            self.n.taken += 1;
            self.heard |= 1 << (place % LEGACY);
        } else if conflict {
            self.n.conflict += 1;
        } else {
            self.n.repeat += 1;
        }
    }

    fn record(&mut self, s: &Slot) {
        if self.buf.len() - self.at < self.room {
            self.out.write_all(&self.buf[..self.at]).expect("write");
            self.at = 0;
        }
        let start = self.at;
        let (mut at, mut lines) = (36, 0u32);
        for system in 0..7 {
            if s.lens[system] != 0 || system == GPS && s.lens[LEGACY] != 0 {
                self.rows(system, s, &mut at, &mut lines);
            }
        }
        if lines == 0 {
            return;
        }
        self.finish_record(s.epoch, start, at, lines);
    }

    // the lines of a system, behind those before
    fn rows(&mut self, system: usize, s: &Slot, at: &mut usize, lines: &mut u32) {
        let own = &SYSTEMS[system];
        let t = &mut self.table;
        t.clear();
        for place in [system, LEGACY] {
            if s.lens[place] != 0 && place % LEGACY == system {
                cells_at(place, &self.kinds, &self.given, s.bodies[place].as_ref().unwrap(), t);
                for (_, m) in s.more.iter().filter(|m| m.0 == place) {
                    cells_at(place, &self.kinds, &self.given, m, t);
                }
            }
        }
        let tracks = self.tracks[system].as_mut().unwrap();
        let o = &mut self.buf[self.at..];
        let (codes, listed) = (&self.codes[system], self.listed[system]);
        let width = 48 * codes.len();
        let mut sats = t.sats;
        while sats != 0 {
            let sat = sats.trailing_zeros() as usize & 63;
            sats &= sats - 1;
            let has = t.has[sat];
            let row = &t.cells[sat];
            let track = &mut tracks[sat];
            let line = &mut o[*at..*at + 3 + width + 1];
            let name = own.first + sat - 1;
            line[0] = own.letter;
            line[1] = PAIRS[2 * name];
            line[2] = PAIRS[2 * name + 1];
            let mut end = 0;
            let mut p = 0;
            for (f, &c) in line[3..].chunks_exact_mut(48).zip(codes) {
                let f: &mut [u8; 48] = f.try_into().unwrap();
                p += 48;
                if has >> c & 1 == 0 {
                    *f = [b' '; 48];
                    continue;
                }
                let cell = &row[c & 15];
                let q = cell.quarters as usize;
                let sd = DIGIT[q];
                let ok = |v: i64| v != 0 && (-999_999_999_999..=9_999_999_999_999).contains(&v);
                let mut last = 0;
                let [fc, fl, fs]: [&mut [u8; 16]; 3] = {
                    let (a, r) = f.split_at_mut(16);
                    let (b, c) = r.split_at_mut(16);
                    [a.try_into().unwrap(), b.try_into().unwrap(), c.try_into().unwrap()]
                };
                if ok(cell.range) {
                    field(fc, cell.range, b' ', sd);
                    last = if q == 0 { 14 } else { 16 };
                } else {
                    *fc = [b' '; 16];
                }
                if cell.phase != NONE {
                    let digit = step(&mut track[c & 15], s.epoch, cell, own.freq[c & 15]);
                    let lli = if digit == 0 { b' ' } else { b'0' + digit };
                    let phase = cell.phase + if self.splits { 1_500_000 * track[c & 15].rolls } else { 0 };
                    if ok(phase) {
                        field(fl, phase, lli, sd);
                        last = if q != 0 { 32 } else if digit != 0 { 31 } else { 30 };
                    } else {
                        *fl = [b' '; 16];
                    }
                } else {
                    *fl = [b' '; 16];
                }
                *fs = STRENGTH[q];
                if q != 0 {
                    last = 46;
                }
                if last != 0 {
                    end = p - 48 + last;
                }
            }
            // codes that stand but aren't listed keep their tracks too
            let mut rest = has & !listed;
            while rest != 0 {
                let c = rest.trailing_zeros() as usize & 15;
                rest &= rest - 1;
                if row[c].phase != NONE {
                    step(&mut track[c], s.epoch, &row[c], own.freq[c]);
                }
            }
            if end != 0 {
                line[3 + end] = b'\n';
                *at += 4 + end;
                *lines += 1;
            }
        }
    }

    // the line of the epoch, and before the first record the header
    fn finish_record(&mut self, epoch: u64, start: usize, mut at: usize, lines: u32) {
        let o = &mut self.buf[start..];
        let day = (epoch / 86_400_000) as i64;
        if day != self.day {
            self.day = day;
            let (y, m, d) = civil(day + GPS0);
            self.date.copy_from_slice(format!("> {y:04} {m:02} {d:02}").as_bytes());
        }
        let ms = (epoch % 86_400_000) as u32;
        let (h, mi, sec, f) = (ms / 3_600_000, ms / 60_000 % 60, ms / 1000 % 60, ms % 1000);
        o[..12].copy_from_slice(&self.date);
        o[12..36].copy_from_slice(b" 00 00  0.0000000  0  0\n");
        let two = |o: &mut [u8], v: u32| o.copy_from_slice(&PAIRS[2 * v as usize..2 * v as usize + 2]);
        two(&mut o[13..15], h);
        two(&mut o[16..18], mi);
        if sec >= 10 {
            two(&mut o[19..21], sec);
        } else {
            o[20] = b'0' + sec as u8;
        }
        o[22] = b'0' + (f / 100) as u8;
        two(&mut o[23..25], f % 100);
        if lines >= 100 {
            o[32] = b'0' + (lines / 100) as u8;
        }
        if lines >= 10 {
            two(&mut o[33..35], lines % 100);
        } else {
            o[34] = b'0' + lines as u8;
        }
        if !self.head {
            // the header goes out before the first record
            self.head = true;
            let rec = self.buf[start..start + at].to_vec();
            let h = self.header(epoch);
            self.buf[start..start + h.len()].copy_from_slice(&h);
            self.buf[start + h.len()..start + h.len() + rec.len()].copy_from_slice(&rec);
            at += h.len();
        }
        self.at = start + at;
        self.n.epochs += 1;
    }

    fn header(&self, first: u64) -> Vec<u8> {
        let mut o = String::new();
        let mut line = |a: String, label: &str| o.push_str(&format!("{:<80}\n", format!("{a:<60}{label}")));
        let systems: Vec<usize> = (0..7).filter(|&k| self.listed[k] != 0).collect();
        let letter = |k: usize| (SYSTEMS[k].letter as char).to_string();
        let column = if let [only] = systems[..] { letter(only) } else { "M".into() };
        line(format!("{:>9}{:11}{:<20}{column:<20}", "3.05", "", "OBSERVATION DATA"), "RINEX VERSION / TYPE");
        let made = stamp(self.made);
        let made: String = made[..19].chars().filter(|c| c.is_ascii_digit() || *c == ' ').collect();
        line(format!("{:<20}{:20}{made} UTC", "rtcm2rinex", ""), "PGM / RUN BY / DATE");
        line(self.marker.clone(), "MARKER NAME");
        line("GEODETIC".into(), "MARKER TYPE");
        line(String::new(), "OBSERVER / AGENCY");
        line(String::new(), "REC # / TYPE / VERS");
        line(String::new(), "ANT # / TYPE");
        let mut xyz = [0i64; 3];
        let mut height = 0;
        for (k, a) in self.arp.iter().enumerate() {
            if let Some(a) = a {
                let mut b = [0; 1024 + PAD];
                b[..a.len()].copy_from_slice(a);
                let b = &b;
                xyz = [geti(b, 34, 38), geti(b, 74, 38), geti(b, 114, 38)];
                height = if k == 1 { get(b, 152, 16) as i64 } else { 0 };
            }
        }
        let f4 = |v: i64| {
            let a = v.unsigned_abs();
            format!("{:>14}", format!("{}{}.{:04}", if v < 0 { "-" } else { "" }, a / 10_000, a % 10_000))
        };
        line(format!("{}{}{}", f4(xyz[0]), f4(xyz[1]), f4(xyz[2])), "APPROX POSITION XYZ");
        line(format!("{}{}{}", f4(height), f4(0), f4(0)), "ANTENNA: DELTA H/E/N");
        for &s in &systems {
            let types: Vec<String> = self.codes[s]
                .iter()
                .flat_map(|&c| {
                    let n = std::str::from_utf8(SYSTEMS[s].names[c]).unwrap();
                    ["C", "L", "S"].map(|k| format!(" {k}{n}"))
                })
                .collect();
            for (k, part) in types.chunks(13).enumerate() {
                let lead = if k == 0 { format!("{}  {:3}", letter(s), types.len()) } else { " ".repeat(6) };
                line(lead + &part.concat(), "SYS / # / OBS TYPES");
            }
        }
        line("DBHZ".into(), "SIGNAL STRENGTH UNIT");
        let (y, m, d) = civil((first / 86_400_000) as i64 + GPS0);
        let t = first % 86_400_000;
        line(
            format!(
                "{y:6}{m:6}{d:6}{:6}{:6}{:>13}     GPS",
                t / 3_600_000,
                t / 60_000 % 60,
                format!("{}.{:03}0000", t / 1000 % 60, t % 1000)
            ),
            "TIME OF FIRST OBS",
        );
        for &s in &systems {
            line(letter(s), "SYS / PHASE SHIFT");
        }
        if self.listed[GLONASS] != 0 {
            let slots: Vec<String> = (1..=27)
                .filter(|&k| self.given[k] != NO_CHANNEL)
                .map(|k| format!("R{k:02} {:2} ", self.given[k] as i64 - 7))
                .collect();
            line(format!("{:3} {}", slots.len(), slots[..slots.len().min(8)].concat()), "GLONASS SLOT / FRQ #");
            for part in slots.chunks(8).skip(1) {
                line(" ".repeat(4) + &part.concat(), "GLONASS SLOT / FRQ #");
            }
            line(String::new(), "GLONASS COD/PHS/BIS");
            let table = LEAP.iter().filter(|&&since| since <= first).count() as i64;
            line(format!("{:6}", self.leap.unwrap_or(table)), "LEAP SECONDS");
        }
        line(String::new(), "END OF HEADER");
        o.into_bytes()
    }

    fn finish(&mut self) {
        while let Some(s) = self.held.pop_front() {
            self.record(&s);
        }
        self.out.write_all(&self.buf[..self.at]).expect("write");
        self.at = 0;
        if !self.head {
            let h = self.header(self.near);
            self.out.write_all(&h).expect("write");
        }
        self.out.flush().expect("write");
        if self.listed[GLONASS] != 0 {
            for (word, slots) in [("other-channel", self.other), ("no-channel", self.lacked)] {
                let names: String = (1..=27u32).filter(|&k| slots >> k & 1 != 0).map(|k| format!(" R{k:02}")).collect();
                writeln!(self.log, "{word}{}", if names.is_empty() { " -" } else { names.as_str() }).unwrap();
            }
        }
        let silent = (0..7).filter(|&k| self.listed[k] != 0 && self.heard >> k & 1 == 0);
        let silent: String = silent.map(|k| format!(" {}", SYSTEMS[k].letter as char)).collect();
        if !silent.is_empty() && self.listed[1..].iter().any(|&it| it != 0) {
            writeln!(self.log, "no-message{silent}").unwrap();
        }
        let n = &self.n;
        write!(
            self.log,
            "frames {}\nother {}\nrefused {}\nforeign {}\ntaken {}\nrepeat {}\nconflict {}\nlate {}\nepochs {}\n",
            n.frames, n.other, n.refused, n.foreign, n.taken, n.repeat, n.conflict, n.late, n.epochs
        )
        .unwrap();
        std::io::stderr().write_all(&self.log).expect("write");
    }
}

// the cells of a body at this place
#[inline(always)]
fn cells_at(place: usize, kinds: &[u64; 7], given: &Channels, b: &Body, t: &mut Table) {
    if place == LEGACY { cells_1004(b, t) } else { cells_msm(place, kinds[place], given, b, t) }
}

#[inline(always)]
fn step(t: &mut Track, time: u64, c: &Cell, f: u64) -> u8 {
    let slip = t.time != 0 && ((c.lock as u64) < time - t.time || (t.msm == c.msm && c.lock < t.lock));
    let mut rolls = 0;
    if !c.msm && !t.msm && t.time != 0 && !slip {
        let k = if f == SYSTEMS[GPS].freq[0] { 393_855_000 } else { 306_900_000 };
        let d = (c.offset - t.offset) as i64 * k;
        const HALF: i64 = 750_000 * 149_896_229;
        rolls = t.rolls - (d > HALF) as i64 + (d < -HALF) as i64;
    }
    *t = Track { time, lock: c.lock, offset: c.offset, msm: c.msm, rolls };
    slip as u8 + 2 * c.half as u8
}

// -------------------------------------------------------------------- main

fn index_of(letter: &str) -> usize {
    SYSTEMS.iter().position(|s| s.letter == letter.as_bytes()[0]).expect("a letter of a system")
}

fn main() {
    let mut words: Vec<String> = std::env::args().skip(1).collect();
    let speed = words.iter().position(|w| w == "--speed").map(|k| words.remove(k)).is_some();
    let start = Instant::now();
    let mut total = 0u64;
    let file = |k: usize| words.get(k).cloned().unwrap_or_else(|| panic!("a FILE is missing"));
    match words.first().map(|s| s.as_str()) {
        Some("read") => {
            let n: usize = words.get(2).map_or(MAX, |w| w.parse().expect("PIECE"));
            let mut f = File::open(file(1)).expect("open");
            let mut b = vec![0u8; n];
            loop {
                let k = f.read(&mut b).expect("read");
                if k == 0 {
                    break;
                }
                total += k as u64;
            }
        }
        Some("crc") => {
            let mut f = File::open(file(1)).expect("open");
            let mut b = vec![0u8; MAX];
            let mut x = 0;
            loop {
                let k = f.read(&mut b).expect("read");
                if k == 0 {
                    break;
                }
                total += k as u64;
                for c in b[..k].chunks(1024) {
                    x ^= CRC.of(c);
                }
            }
            println!("{x:06X}");
        }
        Some("frames") => {
            let mut n = 0u64;
            total = stream(&file(1), |_| n += 1);
            println!("frames {n}");
        }
        Some("decode") => {
            let mut t = Table::new();
            let mut b = [0u8; 1024 + PAD];
            let mut sum = 0i64;
            total = stream(&file(1), |p| {
                b[..p.len()].copy_from_slice(p);
                t.clear();
                match (p[0] as u32) << 4 | p[1] as u32 >> 4 {
                    1004 => cells_1004(&b, &mut t),
                    1074 => cells_msm(GPS, 4, &[NO_CHANNEL; 64], &b, &mut t),
                    _ => (),
                }
                for s in 1..33 {
                    let mut h = t.has[s];
                    while h != 0 {
                        let c = &t.cells[s][h.trailing_zeros() as usize];
                        h &= h - 1;
                        sum = sum.wrapping_add(c.range ^ c.phase ^ c.quarters as i64 ^ c.lock as i64);
                    }
                }
            });
            println!("{sum:x}");
        }
        Some("convert") => {
            let mut j = Job {
                station: 0,
                near: 0,
                made: 0,
                marker: String::new(),
                codes: Default::default(),
                listed: [0; 7],
                kinds: [4; 7],
                taken: [0; 67],
                given: [NO_CHANNEL; 64],
                leap: None,
                other: 0,
                lacked: 0,
                heard: 0,
                splits: false,
                window: 64,
                held: Default::default(),
                free: vec![],
                arp: [None, None],
                tracks: Default::default(),
                table: Table::new(),
                room: 4000,
                day: -1,
                date: [0; 12],
                head: false,
                out: std::io::stdout().lock(),
                buf: vec![0; 1 << 18],
                at: 0,
                log: vec![],
                n: Counts::default(),
            };
            let mut link = String::new();
            let mut it = words[1..].iter();
            while let Some(w) = it.next() {
                let mut v = || it.next().unwrap_or_else(|| panic!("{w} needs a value")).clone();
                match w.as_str() {
                    "--station" => j.station = v().parse().expect("station"),
                    "--near" => j.near = parse_time(&v()),
                    "--made" => j.made = parse_time(&v()),
                    "--marker" => j.marker = v(),
                    "--window" => j.window = v().parse().expect("window"),
                    "--codes" => {
                        for name in v().split(',') {
                            let (k, code) = if name.len() == 3 { (index_of(&name[..1]), &name[1..]) } else { (GPS, name) };
                            let c = SYSTEMS[k].names.iter().position(|n| &n[..] == code.as_bytes()).expect("code");
                            j.codes[k].push(c);
                            j.listed[k] |= 1 << c;
                        }
                    }
                    "--msm" => {
                        for (at, word) in v().split(',').enumerate() {
                            if at == 0 {
                                j.kinds = [word.parse().expect("kind"); 7];
                            } else {
                                j.kinds[index_of(&word[..1])] = word[1..].parse().expect("kind");
                            }
                        }
                    }
                    "--channels" => {
                        for word in v().split(',').filter(|&it| it != "none") {
                            let (slot, channel) = word.split_once(':').expect("channel");
                            j.given[slot.parse::<usize>().expect("slot")] = (channel.parse::<i64>().expect("channel") + 7) as u8;
                        }
                    }
                    "--leap-seconds" => j.leap = Some(v().parse().expect("leap seconds")),
                    "--splits" => j.splits = true,
                    _ => link = w.clone(),
                }
            }
            for k in (0..7).filter(|&k| j.listed[k] != 0) {
                j.taken[(SYSTEMS[k].before + j.kinds[k] - 1071) as usize] = k as u8 + 1;
                j.tracks[k] = Some(Box::new([[Track::default(); 16]; 64]));
                j.room += SYSTEMS[k].sats * (4 + 48 * j.codes[k].len());
            }
            total = stream(&link, |p| j.payload(p));
            j.finish();
        }
        _ => panic!("read, crc, frames, decode or convert"),
    }
    if speed {
        let s = start.elapsed().as_secs_f64();
        eprintln!("{:.1} MB/s ({total} bytes, {s:.3} s)", total as f64 / 1e6 / s);
    }
}
