//! An area's records as the hub reads them, written from document 01 and document 02's Note 3 alone: what needs no rubble reads by it. `padding` reads the same by rubble.

pub struct Record<'a> {
    pub kind: u8,
    pub data: &'a [u8],
}

/// The records of an area, or the number of what is wrong with the first that is bad.
pub fn read(area: &[u8]) -> Result<Vec<Record<'_>>, u8> {
    let mut records = Vec::new();
    let mut rest = area;
    while let [length, behind @ ..] = rest {
        let length = *length as usize;
        if length == 0 {
            return if behind.iter().all(|octet| *octet == 0) { Ok(records) } else { Err(2) };
        }
        if length > behind.len() {
            return Err(1);
        }
        let (record, further) = behind.split_at(length);
        match record[0] {
            0x01 if length != 2 => return Err(2),
            0x02 | 0x03 if length % 2 == 0 => return Err(1),
            kind => records.push(Record { kind, data: &record[1..] }),
        }
        rest = further;
    }
    Ok(records)
}
