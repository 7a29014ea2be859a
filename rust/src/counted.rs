//! Numbers in sentences. The library, the tool and compare/ all have this file.

/// A count with what is counted, in the singular or the plural.
pub fn counted(count: u64, one: &str, many: &str) -> String {
    if count == 1 { format!("1 {one}") } else { format!("{count} {many}") }
}
