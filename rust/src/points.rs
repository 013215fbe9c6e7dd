//! Every point of both machines' runs.
use crate::{ffi, Place, Refusal};

/// The notices of one machine at a point, as sets of threads.
#[derive(Clone, Copy, Debug, PartialEq, Eq)]
pub struct Notices {
    /// Who is notified.
    pub notified: u16,
    /// Who of these was not at the point before: those whom the frame has told.
    pub told: u16,
}

/// A point: behind the first frames of a trace. What both machines have in common there stands once.
#[derive(Clone, Debug, PartialEq, Eq)]
pub struct Point {
    /// A value a variable; slots without one hold 0.
    pub values: [i16; 6],
    pub places: [Place; 16],
    /// Of each thread that waits, how many of all who wait began before it, 0 of the others: [`Point::turn`] tells these apart,
    /// [`Point::queue`] and [`Point::line`] list who waits in order.
    pub turns: [u8; 16],
    /// The guards that hold, as bits.
    pub guards: u16,
    pub plain: Notices,
    /// None where the table's machine has stopped.
    pub table: Option<Notices>,
}

/// What both machines answer to a trace, and every point up to where the plain one stops: point 0 is the start, point k is
/// behind frame k - 1.
#[derive(Clone, Debug, PartialEq, Eq)]
pub struct Points {
    pub plain: Result<(), Refusal>,
    pub table: Result<(), Refusal>,
    pub points: Vec<Point>,
}

fn point(bytes: &[u8]) -> Point {
    let set = |at: usize| u16::from_le_bytes([bytes[at], bytes[at + 1]]);
    Point {
        values: std::array::from_fn(|k| i16::from(bytes[k]) - 128),
        places: std::array::from_fn(|t| Place::from_byte(bytes[6 + t])),
        turns: std::array::from_fn(|t| bytes[33 + t]),
        guards: set(22),
        plain: Notices { notified: set(24), told: set(26) },
        table: (bytes[28] == 1).then(|| Notices { notified: set(29), told: set(31) }),
    }
}

/// Every point of a trace from a state's number. Refused with the file's refusals, 11 and 12; 13 and 14 stand in the result.
///
/// ```
/// let file = b"monitor Box { var full = 0 in 0..1; keep true;
///     method put { waituntil (full == 0) { full := 1; } }
///     method get { waituntil (full == 1) { full := 0; } } }";
/// // Two wait to get, one puts: the plain machine tells both, a signal of the table's only the first, which is the earliest.
/// let points = damsonyet::points(file, b"010100\n000100\n020001\n", 0).unwrap();
/// let last = &points.points[3];
/// assert_eq!(damsonyet::members(last.plain.told), [0, 1]);
/// assert_eq!(damsonyet::members(last.table.unwrap().told), [1]);
/// ```
pub fn points(file: &[u8], trace: &[u8], start: usize) -> Result<Points, Refusal> {
    let mut out = vec![0; ffi::POINT_BYTES * (trace.len() / 7 + 1)];
    let pointing =
        unsafe { ffi::damsonyet_points(file.as_ptr(), file.len(), trace.as_ptr(), trace.len(), start, out.as_mut_ptr(), out.len()) };
    if pointing.count == 0 {
        Refusal::of(pointing.plain)?;
    }
    Ok(Points {
        plain: Refusal::of(pointing.plain),
        table: Refusal::of(pointing.table),
        points: out[..ffi::POINT_BYTES * pointing.count].chunks_exact(ffi::POINT_BYTES).map(point).collect(),
    })
}
