// Instruction counts of the leaves beside plain Rust that gives the same answers. Run by ../leaves.sh under callgrind, which counts
// inside the functions named on the command line; run plainly it checks that both sides agree.
use std::hint::black_box;

extern "C" {
    fn leaf_read_lengths(msg: *const u8, len: usize, rounds: u64) -> u64;
    fn leaf_read_numbers(msg: *const u8, len: usize, rounds: u64) -> u64;
    fn leaf_read_tags(msg: *const u8, len: usize, rounds: u64) -> u64;
    fn leaf_put_lengths(out: *mut u8, len: usize, words: *const u64, count: usize) -> u64;
    fn leaf_put_numbers(out: *mut u8, len: usize, words: *const u64, count: usize) -> u64;
    fn leaf_put_tags(out: *mut u8, len: usize, words: *const u64, count: usize) -> u64;
}

type Read<T> = Result<(T, usize), (u64, usize)>;

// A length determinant and the octets that it counts: where they begin, and how many (8.6, 31.2).
fn run(msg: &[u8], at: usize) -> Result<(usize, usize), (u64, usize)> {
    let x = *msg.get(at).ok_or((5, at))? as usize;
    let (start, n) = if x < 128 {
        (at + 1, x as u64)
    } else {
        let k = x - 128;
        if k == 0 {
            return Err((6, at));
        }
        let os = msg.get(at + 1..at + 1 + k).ok_or((5, at))?;
        if k > 1 && os[0] == 0 {
            return Err((6, at));
        }
        if k > 8 {
            return Err((5, at));
        }
        let n = os.iter().fold(0u64, |n, &o| n << 8 | o as u64);
        if n < 128 {
            return Err((6, at));
        }
        (at + 1 + k, n)
    };
    if ((msg.len() - start) as u64) < n {
        return Err((5, at));
    }
    Ok((start, n as usize))
}

fn unsigned(msg: &[u8], at: usize) -> Read<u64> {
    let (start, k) = run(msg, at)?;
    let os = &msg[start..start + k];
    if k == 0 || (k > 1 && os[0] == 0) {
        return Err((6, at));
    }
    if k > 8 {
        return Err((8, at));
    }
    Ok((os.iter().fold(0u64, |n, &o| n << 8 | o as u64), start + k))
}

fn tag(msg: &[u8], at: usize) -> Read<(u64, u64)> {
    let x = *msg.get(at).ok_or((5, at))? as u64;
    if x % 64 < 63 {
        return Ok(((x / 64, x % 64), at + 1));
    }
    let mut n = 0u64;
    let mut i = at + 1;
    loop {
        let o = *msg.get(i).ok_or((5, at))? as u64;
        n = (n << 7 | o % 128).min(2097152);
        i += 1;
        if o < 128 {
            break;
        }
    }
    if n < 63 || msg[at + 1] == 128 {
        return Err((6, at));
    }
    Ok(((x / 64, n), i))
}

fn put(out: &mut [u8], at: usize, o: u8) {
    if let Some(x) = out.get_mut(at) {
        *x = o;
    }
}

fn fewest(n: u64) -> usize {
    (8 - (n | 1).leading_zeros() as usize / 8).max(1)
}

fn put_number(out: &mut [u8], to: usize, k: usize, n: u64) {
    for i in 0..k {
        put(out, to + i, (n >> (8 * (k - 1 - i))) as u8);
    }
}

macro_rules! reader {
    ($name:ident, $one:expr, $value:expr) => {
        #[no_mangle]
        #[inline(never)]
        pub fn $name(msg: &[u8], rounds: u64) -> u64 {
            let (mut at, mut sum) = (0, 0u64);
            for _ in 0..rounds {
                match $one(msg, at) {
                    Err((number, _)) => return number,
                    Ok(x) => {
                        let (value, next): (u64, usize) = $value(x);
                        sum = sum.wrapping_add(value);
                        at = next;
                    }
                }
            }
            sum
        }
    };
}
reader!(plain_read_lengths, run, |(start, n): (usize, usize)| (n as u64, start + n));
reader!(plain_read_numbers, unsigned, |x: (u64, usize)| x);
reader!(plain_read_tags, tag, |((_, n), next): ((u64, u64), usize)| (n, next));

fn put_length(out: &mut [u8], to: usize, n: u64) -> usize {
    if n < 128 {
        put(out, to, n as u8);
        return to + 1;
    }
    let k = fewest(n);
    put(out, to, 128 + k as u8);
    put_number(out, to + 1, k, n);
    to + 1 + k
}

fn put_unsigned(out: &mut [u8], to: usize, n: u64) -> usize {
    let k = fewest(n);
    put(out, to, k as u8);
    put_number(out, to + 1, k, n);
    to + 1 + k
}

fn put_tag(out: &mut [u8], to: usize, n: u64) -> usize {
    if n < 63 {
        put(out, to, 128 + n as u8);
        return to + 1;
    }
    put(out, to, 191);
    let groups = if n < 128 { 1 } else if n < 16384 { 2 } else { 3 };
    for i in 0..groups {
        let more = if i + 1 < groups { 128 } else { 0 };
        put(out, to + 1 + i, more + (n >> (7 * (groups - 1 - i)) & 127) as u8);
    }
    to + 1 + groups
}

macro_rules! writer {
    ($name:ident, $one:expr) => {
        #[no_mangle]
        #[inline(never)]
        pub fn $name(out: &mut [u8], words: &[u64]) -> u64 {
            let mut to = 0;
            for &w in words {
                if to > 1000000 {
                    return 0;
                }
                to = $one(out, to, w);
            }
            to as u64
        }
    };
}
writer!(plain_put_lengths, put_length);
writer!(plain_put_numbers, put_unsigned);
writer!(plain_put_tags, |out: &mut [u8], to, w| put_tag(out, to, w % 2097152));

fn main() {
    // 10,000 of each, short and long forms mixed by a fixed rule
    let rounds = 10000u64;
    let words: Vec<u64> = (0..rounds).map(|i| (i * 2654435761) % [100, 300, 70000, 1 << 40][(i % 4) as usize]).collect();
    let lengths: Vec<u64> = words.iter().map(|w| w % 400).collect();
    let (mut a, mut b) = (vec![0u8; 200000], vec![0u8; 200000]);
    let mut runs = vec![0u8; 4_000_000];
    let mut at = 0;
    for &n in &lengths {
        at = put_length(&mut runs, at, n) + n as usize;
    }
    let both = |ours: u64, plain: u64, what: &str| assert_eq!(ours, plain, "{what}");
    unsafe {
        both(leaf_read_lengths(black_box(runs.as_ptr()), runs.len(), rounds), plain_read_lengths(black_box(&runs), rounds), "read lengths");
        both(leaf_put_lengths(a.as_mut_ptr(), a.len(), words.as_ptr(), words.len()), plain_put_lengths(&mut b, black_box(&words)), "put lengths");
        assert_eq!(a, b);
        both(leaf_put_numbers(a.as_mut_ptr(), a.len(), words.as_ptr(), words.len()), plain_put_numbers(&mut b, black_box(&words)), "put numbers");
        assert_eq!(a, b);
        both(leaf_read_numbers(a.as_ptr(), a.len(), rounds), plain_read_numbers(black_box(&b), rounds), "read numbers");
        both(leaf_put_tags(a.as_mut_ptr(), a.len(), words.as_ptr(), words.len()), plain_put_tags(&mut b, black_box(&words)), "put tags");
        assert_eq!(a, b);
        both(leaf_read_tags(a.as_ptr(), a.len(), rounds), plain_read_tags(black_box(&b), rounds), "read tags");
    }
    println!("both sides agree on {rounds} of each");
}
