//! Kinds of settings and the 32 bytes that each setting is kept as.

use std::{array, fmt};

/// The 32 bytes of a setting.
pub type Encoding = [u8; 32];

/// The eight big-endian words of an encoding.
#[inline]
pub fn words_of(bytes: &Encoding) -> [u32; 8] {
    let (words, _) = bytes.as_chunks::<4>();
    array::from_fn(|i| u32::from_be_bytes(words[i]))
}

/// The encoding with these eight big-endian words.
#[inline]
pub fn bytes_of(words: [u32; 8]) -> Encoding {
    let mut bytes = [0; 32];
    for (place, word) in bytes.as_chunks_mut::<4>().0.iter_mut().zip(words) {
        *place = word.to_be_bytes();
    }
    bytes
}

/// A kind of setting: each setting has exactly one encoding, and bytes that are none stand for the initial setting.
pub trait Setting: Sized {
    /// The setting that holds before any was written.
    fn initial() -> Self;

    /// The setting's bytes.
    fn encode(&self) -> Encoding;

    /// Whether the bytes are the encoding of a setting.
    fn is_encoding(bytes: &Encoding) -> bool;

    /// The setting with these bytes, or the initial one where they are no encoding.
    fn decode(bytes: &Encoding) -> Self;

    /// The encoding of what the bytes are decoded to.
    #[inline]
    fn canonical(bytes: &Encoding) -> Encoding {
        if Self::is_encoding(bytes) { *bytes } else { Self::initial().encode() }
    }
}

const BANDS: u32 = 64;
const MOST_DISTORTION: u32 = 1_000_000_000;
const MOST_CENTRE: u32 = 100_000_000;

/// The fields of a lens correction, within bounds or not.
#[derive(Clone, Copy, Debug, Default, PartialEq, Eq)]
pub struct LensFields {
    /// Spectral band.
    pub band: u32,
    /// Radial, billionths.
    pub k1: i32,
    /// Radial, billionths.
    pub k2: i32,
    /// Radial, billionths.
    pub k3: i32,
    /// Tangential, billionths.
    pub p1: i32,
    /// Tangential, billionths.
    pub p2: i32,
    /// Thousandths of a pixel, to the right.
    pub centre_x: i32,
    /// Thousandths of a pixel, downwards.
    pub centre_y: i32,
}

impl LensFields {
    #[inline]
    fn read(bytes: &Encoding) -> Self {
        let [band, k1, k2, k3, p1, p2, centre_x, centre_y] = words_of(bytes);
        Self {
            band,
            k1: k1.cast_signed(),
            k2: k2.cast_signed(),
            k3: k3.cast_signed(),
            p1: p1.cast_signed(),
            p2: p2.cast_signed(),
            centre_x: centre_x.cast_signed(),
            centre_y: centre_y.cast_signed(),
        }
    }

    #[inline]
    fn is_within_bounds(&self) -> bool {
        let distortions = [self.k1, self.k2, self.k3, self.p1, self.p2];
        let centre = [self.centre_x, self.centre_y];
        self.band < BANDS
            && distortions.iter().all(|d| d.unsigned_abs() <= MOST_DISTORTION)
            && centre.iter().all(|c| c.unsigned_abs() <= MOST_CENTRE)
    }
}

/// A lens correction, whose fields are within their bounds.
#[derive(Clone, Copy, Debug, PartialEq, Eq)]
pub struct LensCorrection {
    fields: LensFields,
}

impl LensCorrection {
    /// The correction with these fields, or `None` where one lies outside its bounds.
    pub fn new(fields: LensFields) -> Option<Self> {
        fields.is_within_bounds().then_some(Self { fields })
    }

    /// Spectral band, 0 to 63.
    pub fn band(&self) -> u32 {
        self.fields.band
    }

    /// First radial coefficient.
    pub fn k1(&self) -> i32 {
        self.fields.k1
    }

    /// Second radial coefficient.
    pub fn k2(&self) -> i32 {
        self.fields.k2
    }

    /// Third radial coefficient.
    pub fn k3(&self) -> i32 {
        self.fields.k3
    }

    /// First tangential coefficient.
    pub fn p1(&self) -> i32 {
        self.fields.p1
    }

    /// Second tangential coefficient.
    pub fn p2(&self) -> i32 {
        self.fields.p2
    }

    /// The centre's offset to the right.
    pub fn centre_x(&self) -> i32 {
        self.fields.centre_x
    }

    /// The centre's offset downwards.
    pub fn centre_y(&self) -> i32 {
        self.fields.centre_y
    }
}

impl Setting for LensCorrection {
    #[inline]
    fn initial() -> Self {
        Self { fields: LensFields::default() }
    }

    #[inline]
    fn encode(&self) -> Encoding {
        let LensFields { band, k1, k2, k3, p1, p2, centre_x, centre_y } = self.fields;
        let signed = [k1, k2, k3, p1, p2, centre_x, centre_y].map(i32::cast_unsigned);
        bytes_of(array::from_fn(|i| if i == 0 { band } else { signed[i - 1] }))
    }

    #[inline]
    fn is_encoding(bytes: &Encoding) -> bool {
        LensFields::read(bytes).is_within_bounds()
    }

    #[inline]
    fn decode(bytes: &Encoding) -> Self {
        Self::new(LensFields::read(bytes)).unwrap_or_else(Self::initial)
    }
}

/// A text of 1 to 32 visible ASCII characters.
#[derive(Clone, Copy, Debug, PartialEq, Eq)]
pub struct ShelfMark {
    bytes: Encoding,
}

impl ShelfMark {
    /// The mark with this text, or `None` where no mark has it.
    pub fn from_text(text: &str) -> Option<Self> {
        let text = text.as_bytes();
        if text.last() == Some(&0) {
            return None;
        }
        let mut bytes = [0; 32];
        bytes.get_mut(..text.len())?.copy_from_slice(text);
        Self::is_encoding(&bytes).then_some(Self { bytes })
    }

    /// The characters of the mark.
    pub fn text(&self) -> &str {
        let len = self.bytes.iter().position(|&byte| byte == 0).unwrap_or(self.bytes.len());
        str::from_utf8(&self.bytes[..len]).unwrap_or_default()
    }
}

impl Setting for ShelfMark {
    #[inline]
    fn initial() -> Self {
        let mut bytes = [0; 32];
        bytes[0] = b'-';
        Self { bytes }
    }

    #[inline]
    fn encode(&self) -> Encoding {
        self.bytes
    }

    #[inline]
    fn is_encoding(bytes: &Encoding) -> bool {
        // What is not visible is zero, and so is what follows it. No early end: all places are looked at side by side.
        let mut following = [0; 32];
        following[..31].copy_from_slice(&bytes[1..]);
        let wrong = bytes
            .iter()
            .zip(following)
            .fold(0, |wrong, (byte, next)| if byte.is_ascii_graphic() { wrong } else { wrong | byte | next });
        bytes[0] != 0 && wrong == 0
    }

    #[inline]
    fn decode(bytes: &Encoding) -> Self {
        if Self::is_encoding(bytes) { Self { bytes: *bytes } } else { Self::initial() }
    }
}

impl fmt::Display for ShelfMark {
    fn fmt(&self, f: &mut fmt::Formatter<'_>) -> fmt::Result {
        f.pad(self.text())
    }
}

#[cfg(test)]
mod tests {
    use super::*;

    fn padded(text: &[u8]) -> Encoding {
        let mut bytes = [0; 32];
        bytes[..text.len()].copy_from_slice(text);
        bytes
    }

    #[test]
    fn lens_example() {
        let fields = LensFields {
            band: 5,
            k1: -1,
            k2: 2,
            k3: -256,
            p1: 65_536,
            p2: -1_000_000_000,
            centre_x: 1_500,
            centre_y: -250,
        };
        let bytes: Encoding = [
            0x00, 0x00, 0x00, 0x05, 0xFF, 0xFF, 0xFF, 0xFF, 0x00, 0x00, 0x00, 0x02, 0xFF, 0xFF, 0xFF, 0x00, 0x00, 0x01,
            0x00, 0x00, 0xC4, 0x65, 0x36, 0x00, 0x00, 0x00, 0x05, 0xDC, 0xFF, 0xFF, 0xFF, 0x06,
        ];
        let lens = LensCorrection::new(fields).unwrap();
        assert_eq!(lens.encode(), bytes);
        assert!(LensCorrection::is_encoding(&bytes));
        assert_eq!(LensCorrection::decode(&bytes), lens);
        assert_eq!((lens.band(), lens.k1(), lens.k2(), lens.k3()), (5, -1, 2, -256));
        assert_eq!((lens.p1(), lens.p2(), lens.centre_x(), lens.centre_y()), (65_536, -1_000_000_000, 1_500, -250));

        let mut low = bytes;
        low[20..24].copy_from_slice(&[0xC4, 0x65, 0x35, 0xFF]);
        assert!(!LensCorrection::is_encoding(&low));
        assert_eq!(LensCorrection::decode(&low), LensCorrection::initial());
        assert_eq!(LensCorrection::canonical(&low), [0; 32]);
    }

    #[test]
    fn lens_bounds() {
        assert_eq!(LensCorrection::initial().encode(), [0; 32]);
        let most = [63, 1_000_000_000, 1_000_000_000, 1_000_000_000, 1_000_000_000, 1_000_000_000];
        for place in 0..8 {
            let most = if place < 6 { most[place] } else { 100_000_000_u32 };
            let mut cases = vec![(most, true), (most + 1, false), (1 << 31, false)];
            if place > 0 {
                cases.extend([(most.wrapping_neg(), true), ((most + 1).wrapping_neg(), false)]);
            }
            for (word, good) in cases {
                let mut words = [0; 8];
                words[place] = word;
                let bytes = bytes_of(words);
                assert_eq!(words_of(&bytes), words);
                assert_eq!(LensCorrection::is_encoding(&bytes), good, "word {word} at {place}");
                let expected = if good { bytes } else { [0; 32] };
                assert_eq!(LensCorrection::decode(&bytes).encode(), expected);
            }
        }
        assert_eq!(LensCorrection::new(LensFields { band: 64, ..LensFields::default() }), None);
    }

    #[test]
    fn mark_example() {
        let mark = ShelfMark::from_text("QC-417/b").unwrap();
        assert_eq!(mark.encode(), padded(&[0x51, 0x43, 0x2D, 0x34, 0x31, 0x37, 0x2F, 0x62]));
        assert_eq!(ShelfMark::decode(&mark.encode()), mark);
        assert_eq!(mark.text(), "QC-417/b");
        assert_eq!(mark.to_string(), "QC-417/b");
        assert_eq!(ShelfMark::initial().encode(), padded(&[0x2D]));
    }

    #[test]
    fn mark_bounds() {
        for byte in 0..=255 {
            let visible = (0x21..=0x7E).contains(&byte);
            assert_eq!(ShelfMark::is_encoding(&padded(&[byte])), visible);
            assert_eq!(ShelfMark::is_encoding(&padded(&[b'a', byte])), visible || byte == 0);
            assert_eq!(ShelfMark::is_encoding(&padded(&[b'a', byte, b'b'])), visible);
            let mut full = [b'~'; 32];
            full[31] = byte;
            assert_eq!(ShelfMark::is_encoding(&full), visible || byte == 0);
        }
        assert!(!ShelfMark::is_encoding(&[0; 32]));
        let mut late = padded(b"ab");
        late[31] = b'c';
        assert!(!ShelfMark::is_encoding(&late));
        assert_eq!(ShelfMark::decode(&late), ShelfMark::initial());
        assert_eq!(ShelfMark::canonical(&late), padded(b"-"));
    }

    #[test]
    fn mark_texts() {
        let longest = "x".repeat(32);
        assert_eq!(ShelfMark::from_text(&longest).unwrap().text(), longest);
        for text in ["", "x\0", "x\0y", "a b", "é", "\x7F", &"x".repeat(33)] {
            assert_eq!(ShelfMark::from_text(text), None, "{text:?}");
        }
    }
}
