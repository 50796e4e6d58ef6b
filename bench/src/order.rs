//! Pseudo-random orders, the same in every run.

/// A splitmix64 generator.
struct Random(u64);

impl Random {
    fn next(&mut self) -> u64 {
        self.0 = self.0.wrapping_add(0x9E37_79B9_7F4A_7C15);
        let mut z = self.0;
        z = (z ^ (z >> 30)).wrapping_mul(0xBF58_476D_1CE4_E5B9);
        z = (z ^ (z >> 27)).wrapping_mul(0x94D0_49BB_1331_11EB);
        z ^ (z >> 31)
    }

    fn below(&mut self, end: u64) -> u64 {
        self.next() % end
    }

    fn shuffle(&mut self, numbers: &mut [u64]) {
        for i in (1..numbers.len()).rev() {
            numbers.swap(i, self.below(i as u64 + 1) as usize);
        }
    }
}

/// `count` numbers below `end`.
pub fn drawn(count: usize, end: u64) -> Vec<u64> {
    let mut random = Random(end);
    (0..count).map(|_| random.below(end)).collect()
}

/// The numbers again and again, each time in another order, `count` in all.
pub fn shuffled(numbers: Vec<u64>, count: usize) -> Vec<u64> {
    let mut random = Random(count as u64);
    let mut numbers = numbers;
    let mut order = Vec::with_capacity(count);
    while order.len() < count {
        random.shuffle(&mut numbers);
        let some = numbers.len().min(count - order.len());
        order.extend_from_slice(&numbers[..some]);
    }
    order
}

/// `count` numbers, one from each of `count` equal parts of the numbers below `end`.
pub fn spread(count: u64, end: u64) -> Vec<u64> {
    let mut random = Random(end);
    let place = |i| (i * end + random.below(end)) / count;
    (0..count).map(place).collect()
}
