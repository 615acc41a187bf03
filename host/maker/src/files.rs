//! Pictures and sound as files that other programs read.

/// The most bytes of a part of a PNG file's data that is stored as it is.
const STORED: usize = 65_535;

/// A PNG file of a picture with a palette of components of 8 bits. Its data is not compressed.
pub fn png(width: usize, height: usize, pixels: &[u8], palette: &[[u8; 3]]) -> Vec<u8> {
    let size = [width, height].map(|length| (length as u32).to_be_bytes()).concat();
    let header = [&size[..], &[8, 3, 0, 0, 0]].concat(); // 8 bits, indexed
    let rows: Vec<u8> = pixels.chunks(width).flat_map(|row| [&[0], row].concat()).collect();
    [
        b"\x89PNG\r\n\x1A\n".to_vec(),
        chunk(b"IHDR", &header),
        chunk(b"PLTE", palette.as_flattened()),
        chunk(b"IDAT", &stored(&rows)),
        chunk(b"IEND", &[]),
    ]
    .concat()
}

/// A WAV file of mono samples of 16 bits.
pub fn wav(rate: usize, samples: &[u8]) -> Vec<u8> {
    let double = |number: usize| (number as u32).to_le_bytes();
    let words = |words: [u16; 2]| words.map(u16::to_le_bytes).concat();
    [
        &b"RIFF"[..],
        &double(36 + samples.len()),
        b"WAVEfmt ",
        &double(16),
        &words([1, 1]), // samples as they are, one channel
        &double(rate),
        &double(2 * rate),
        &words([2, 16]),
        b"data",
        &double(samples.len()),
        samples,
    ]
    .concat()
}

fn chunk(name: &[u8; 4], content: &[u8]) -> Vec<u8> {
    let length = (content.len() as u32).to_be_bytes();
    let named = [&name[..], content].concat();
    [&length[..], &named, &crc(&named).to_be_bytes()].concat()
}

/// Bytes in the form of zlib, stored.
fn stored(bytes: &[u8]) -> Vec<u8> {
    let mut data = vec![0x78, 0x01];
    let last = bytes.len().div_ceil(STORED).saturating_sub(1);
    for (number, part) in bytes.chunks(STORED).enumerate() {
        let length = part.len() as u16;
        data.push(u8::from(number == last));
        data.extend([length, !length].map(u16::to_le_bytes).concat());
        data.extend(part);
    }
    data.extend(adler(bytes).to_be_bytes());
    data
}

/// The check sum of a chunk (CRC-32).
fn crc(bytes: &[u8]) -> u32 {
    let step = |sum: u32| if sum & 1 == 1 { 0xEDB8_8320 ^ sum >> 1 } else { sum >> 1 };
    let byte = |sum: u32, &byte: &u8| (0..8).fold(sum ^ u32::from(byte), |sum, _| step(sum));
    !bytes.iter().fold(u32::MAX, byte)
}

/// The check sum of zlib (Adler-32).
fn adler(bytes: &[u8]) -> u32 {
    let (low, high) = bytes.iter().fold((1, 0), |(low, high): (u32, u32), &byte| {
        let low = (low + u32::from(byte)) % 65_521;
        (low, (high + low) % 65_521)
    });
    high << 16 | low
}

#[cfg(test)]
mod tests {
    use super::*;

    /// The sums of "123456789" and of "Wikipedia", as they are published.
    #[test]
    fn sums() {
        assert_eq!(crc(b"123456789"), 0xCBF4_3926);
        assert_eq!(adler(b"Wikipedia"), 0x11E6_0398);
    }

    #[test]
    fn parts() {
        assert_eq!(stored(&[7]), [0x78, 1, 1, 1, 0, 0xFE, 0xFF, 7, 0, 8, 0, 8]);
        let two = stored(&[0; STORED + 1]);
        assert_eq!(two[2..7], [0, 0xFF, 0xFF, 0, 0]);
        assert_eq!(two[7 + STORED..][..6], [1, 1, 0, 0xFE, 0xFF, 0]);
    }
}
