//! Records as text, with spaces between the parts for reading.

/// One record for each line that is not blank.
pub fn records(text: &str) -> Vec<u8> {
    let lines = text.lines().filter(|line| !line.trim().is_empty());
    lines.flat_map(record).collect()
}

fn record(line: &str) -> Vec<u8> {
    let mut bytes = line.replace(' ', "").into_bytes();
    bytes.push(b'\n');
    assert_eq!(bytes.len(), 40, "{line}");
    bytes
}
