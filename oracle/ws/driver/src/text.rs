//! Byte strings as the format writes them.
pub(crate) fn bytes(s: &str) -> Vec<u8> {
    if s == "-" {
        return vec![];
    }
    let mut out = vec![];
    for seg in s.split('+') {
        let (n, h) = match seg.split_once('*') {
            Some((n, h)) => (n.parse().expect("count"), h),
            None => (1usize, seg),
        };
        let one: Vec<u8> = (0..h.len() / 2)
            .map(|i| u8::from_str_radix(&h[2 * i..2 * i + 2], 16).expect("hex"))
            .collect();
        for _ in 0..n {
            out.extend_from_slice(&one)
        }
    }
    out
}
pub(crate) fn hex(b: &[u8]) -> String {
    if b.is_empty() {
        return "-".into();
    }
    // Long runs of one byte are told by count.
    let (mut out, mut i, mut fresh) = (String::new(), 0, true);
    while i < b.len() {
        let mut j = i;
        while j < b.len() && b[j] == b[i] {
            j += 1
        }
        if j - i >= 32 {
            if !out.is_empty() {
                out.push('+')
            }
            out.push_str(&format!("{}*{:02x}", j - i, b[i]));
            fresh = false;
        } else {
            if !fresh {
                out.push('+');
                fresh = true
            }
            for _ in i..j {
                out.push_str(&format!("{:02x}", b[i]))
            }
        }
        i = j;
    }
    out
}
pub(crate) fn text(s: &str) -> String {
    String::from_utf8(bytes(s)).expect("text")
}
