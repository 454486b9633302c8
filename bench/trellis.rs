// The plain trellis in plain Rust: `trellis path WINDOWS` decodes drawn windows as lr_bench does, and prints the same
// line.
const BITS: usize = 8160;
const STEPS: usize = BITS + 6;
const FAR: u32 = 508 * STEPS as u32 + 1;
const DRAWN: u64 = 64;

fn drawn(start: u64) -> Vec<i8> {
    let mut state = start;
    (0..2 * STEPS)
        .map(|_| {
            state = state.wrapping_mul(6364136223846793005).wrapping_add(1442695040888963407);
            let value = (state >> 56) as i16 - 128;
            if value == -128 { -127 } else { value as i8 }
        })
        .collect()
}

// The pair of symbols of seven bits, the newest as the least significant one.
const fn pair(seven: u32) -> usize {
    let first = (seven & 0b100_1111).count_ones() % 2;
    let second = 1 - (seven & 0b110_1101).count_ones() % 2;
    (2 * first + second) as usize
}

const PAIRS: [usize; 32] = {
    let mut pairs = [0; 32];
    let mut j = 0;
    while j < 32 {
        pairs[j] = pair(2 * j as u32);
        j += 1;
    }
    pairs
};

fn step(costs: &[u32; 4], old: &[u32; 64], new: &mut [u32; 64]) -> u64 {
    let mut word = 0;
    for j in 0..32 {
        let near = costs[PAIRS[j]];
        let far = costs[3 - PAIRS[j]];
        let (first, second) = (old[j] + near, old[j + 32] + far);
        new[2 * j] = first.min(second);
        word |= u64::from(second < first) << j;
        let (first, second) = (old[j] + far, old[j + 32] + near);
        new[2 * j + 1] = first.min(second);
        word |= u64::from(second < first) << (j + 32);
    }
    word
}

fn forward(window: &[i8], words: &mut [u64]) {
    let mut old = [FAR; 64];
    old[29] = 0;
    for i in 0..STEPS {
        let v = i32::from(window[2 * i]);
        let w = i32::from(window[2 * i + 1]);
        let (zero, one) = ((127 + v) as u32, (127 - v) as u32);
        let (then_zero, then_one) = ((127 + w) as u32, (127 - w) as u32);
        let costs = [zero + then_zero, zero + then_one, one + then_zero, one + then_one];
        let mut new = [0; 64];
        words[i] = step(&costs, &old, &mut new);
        old = new;
    }
}

fn before(word: u64, state: usize) -> usize {
    state / 2 + 32 * ((word >> (state / 2 + 32 * (state % 2))) % 2) as usize
}

fn nearest(window: &[i8], words: &mut [u64], bytes: &mut [u8; 1020]) {
    forward(window, words);
    let mut state = 6;
    for i in (BITS..STEPS).rev() {
        state = before(words[i], state);
    }
    for k in (0..1020).rev() {
        let mut byte = 0;
        for j in (0..8).rev() {
            byte |= ((state % 2) as u8) << (7 - j);
            state = before(words[8 * k + j], state);
        }
        bytes[k] = byte;
    }
}

fn main() {
    let windows: u64 = std::env::args().nth(2).and_then(|n| n.parse().ok()).unwrap_or(0);
    let mut words = vec![0; STEPS];
    let mut bytes = [0; 1020];
    let mut sum = 0u64;
    let windows_drawn: Vec<Vec<i8>> = (0..DRAWN).map(|k| drawn(k + 1)).collect();
    for k in 0..windows {
        nearest(&windows_drawn[(k % DRAWN) as usize], &mut words, &mut bytes);
        sum = bytes.iter().fold(sum, |sum, byte| sum.wrapping_mul(31).wrapping_add(u64::from(*byte)));
    }
    println!("path {windows} {sum:016x}");
}
