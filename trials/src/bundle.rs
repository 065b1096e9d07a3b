//! Bundles: many records in one file, so that one process takes many cases.
//! A record is its length, four bytes lowest first, and that many bytes.

pub fn pack(records: &[Vec<u8>]) -> Vec<u8> {
    let mut bytes = Vec::new();
    for record in records {
        let length = u32::try_from(record.len()).expect("a record's length has 32 bits");
        bytes.extend(length.to_le_bytes());
        bytes.extend(record);
    }
    bytes
}

/// `None` where the bundle ends within a record.
pub fn unpack(bytes: &[u8]) -> Option<Vec<&[u8]>> {
    let mut records = Vec::new();
    let mut rest = bytes;
    while !rest.is_empty() {
        let (length, after) = rest.split_first_chunk::<4>()?;
        let (record, after) = after.split_at_checked(u32::from_le_bytes(*length) as usize)?;
        records.push(record);
        rest = after;
    }
    Some(records)
}
