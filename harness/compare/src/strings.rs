//! All strings over some bytes, by number: the empty one is 0, shorter ones have lower numbers.
pub fn numbered(bytes: &[u8], number: u64) -> Vec<u8> {
    let size = bytes.len() as u64;
    let mut left = number;
    let mut string = Vec::new();
    while left > 0 {
        left -= 1;
        string.push(bytes[(left % size) as usize]);
        left /= size;
    }
    string
}

/// How many there are of up to so many bytes.
pub fn up_to(bytes: &[u8], longest: u32) -> u64 {
    (0..=longest).map(|n| (bytes.len() as u64).pow(n)).sum()
}
