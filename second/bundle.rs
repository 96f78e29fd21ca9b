//! A bundle: many cases in one file, each behind its length in four bytes.

pub fn pack<'a>(cases: impl IntoIterator<Item = &'a Vec<u8>>) -> Vec<u8> {
    let mut bundle = Vec::new();
    for case in cases {
        bundle.extend((case.len() as u32).to_be_bytes());
        bundle.extend(case);
    }
    bundle
}

pub fn unpack(bundle: &[u8]) -> Result<Vec<&[u8]>, String> {
    let mut cases = Vec::new();
    let mut rest = bundle;
    while !rest.is_empty() {
        let (length, behind) = rest.split_at_checked(4).ok_or("bundle: a length is cut short")?;
        let length = u32::from_be_bytes([length[0], length[1], length[2], length[3]]) as usize;
        let (case, behind) =
            behind.split_at_checked(length).ok_or("bundle: a case is cut short")?;
        cases.push(case);
        rest = behind;
    }
    Ok(cases)
}
