//! Records of the two files, for tests of small files: every number is below 256.

/// Length, kind and body.
pub fn record(kind: u8, body: &[u8]) -> Vec<u8> {
    let mut bytes = vec![4 + body.len() as u8, 0, kind, 0];
    bytes.extend(body);
    bytes
}

#[allow(dead_code)] // a test may have no pairs of its own
pub fn pair(left: u8, right: u8) -> Vec<u8> {
    record(16, &[left, 0, right, 0])
}
