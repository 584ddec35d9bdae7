//! The supply as it is written: decimal digits and nothing else.

pub fn supply_of(word: &str) -> Option<u32> {
    let is_number = !word.is_empty() && word.bytes().all(|byte| byte.is_ascii_digit());
    if is_number {
        word.parse().ok()
    } else {
        None
    }
}
