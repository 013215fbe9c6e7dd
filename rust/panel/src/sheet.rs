//! Names and texts of a file, by the outline that the library gives.
use damsonyet::Outline;
use std::ops::Range;

/// A file that the checks 1 to 7 and 15 pass, and its outline.
pub struct Sheet<'a> {
    pub file: &'a [u8],
    pub outline: Outline,
}

/// Whether a byte may go to a terminal or a page as it is.
pub fn is_printable(byte: u8) -> bool {
    (0x20..0x7F).contains(&byte)
}

/// Bytes as they are shown: a tab as a blank, what is not printable as `?`; a character a byte, so that columns stay.
pub fn shown(bytes: &[u8]) -> String {
    bytes
        .iter()
        .map(|&byte| {
            if byte == b'\t' {
                ' '
            } else if is_printable(byte) {
                char::from(byte)
            } else {
                '?'
            }
        })
        .collect()
}

/// The same with each run of blanks and line ends as one blank, and none at either end.
pub fn collapsed(bytes: &[u8]) -> String {
    let blank = |byte: &u8| matches!(byte, b'\t' | b'\n' | b'\r' | b' ');
    bytes.split(blank).filter(|part| !part.is_empty()).map(shown).collect::<Vec<_>>().join(" ")
}

/// A thread, region or guard as traces and tables write it.
pub fn pair(number: u8) -> String {
    format!("{number:02X}")
}

impl<'a> Sheet<'a> {
    pub fn new(file: &'a [u8], outline: Outline) -> Sheet<'a> {
        Sheet { file, outline }
    }

    /// The bytes of a span; none of one that the file does not have.
    pub fn bytes(&self, span: &Range<usize>) -> &'a [u8] {
        self.file.get(span.clone()).unwrap_or_default()
    }

    /// The monitor's name.
    pub fn title(&self) -> String {
        shown(self.bytes(&self.outline.title))
    }

    pub fn keep_text(&self) -> String {
        collapsed(self.bytes(&self.outline.keep))
    }

    /// The condition of a try.
    pub fn try_text(&self, k: usize) -> String {
        self.outline.tries.get(k).map_or_else(String::new, |tried| collapsed(self.bytes(tried)))
    }

    pub fn start_values(&self) -> Vec<i16> {
        self.outline.variables.iter().map(|variable| variable.start).collect()
    }

    pub fn variable_name(&self, k: usize) -> String {
        self.outline.variables.get(k).map_or_else(String::new, |variable| shown(self.bytes(&variable.name)))
    }

    pub fn method_name(&self, j: usize) -> String {
        self.outline.methods.get(j).map_or_else(String::new, |method| shown(self.bytes(&method.name)))
    }

    /// The method's name; where it has several regions, with the region's place among them, from 1.
    pub fn region_name(&self, r: usize) -> String {
        let Some(j) = self.outline.method_of(r) else { return format!("region {r:02X}") };
        let regions = &self.outline.methods[j].regions;
        match regions.len() {
            1 => self.method_name(j),
            _ => format!("{}.{}", self.method_name(j), r - regions.start + 1),
        }
    }

    /// The number of a region's guard.
    pub fn guard_of(&self, r: usize) -> Option<usize> {
        self.outline.guard_of(r)
    }

    /// A guard as its first region has it.
    pub fn guard_text(&self, g: usize) -> String {
        self.outline.first_with(g).map_or_else(String::new, |r| collapsed(self.bytes(&self.outline.regions[r].guard)))
    }

    pub fn body_text(&self, r: usize) -> String {
        self.outline.regions.get(r).map_or_else(String::new, |region| collapsed(self.bytes(&region.body)))
    }

    /// The variables with values: `seq = 1, closed = 0`. Slots behind the variables are left out.
    pub fn state_text(&self, values: &[i16]) -> String {
        let variables = 0..self.outline.variables.len();
        variables.zip(values).map(|(k, value)| format!("{} = {value}", self.variable_name(k))).collect::<Vec<_>>().join(", ")
    }
}
