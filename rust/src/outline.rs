//! What a file has, and where it stands among its bytes.
use crate::{ffi, value, Refusal};
use std::ops::Range;

/// A variable: where its name stands, its start value and its bounds.
#[derive(Clone, Debug, PartialEq, Eq)]
pub struct Variable {
    pub name: Range<usize>,
    pub start: i16,
    pub low: i16,
    pub high: i16,
}

/// A method: where its name stands, and the numbers of its regions.
#[derive(Clone, Debug, PartialEq, Eq)]
pub struct Method {
    pub name: Range<usize>,
    pub regions: Range<usize>,
}

/// A region: its guard and its body, what stands between the brackets and between the braces; and the guard's number.
#[derive(Clone, Debug, PartialEq, Eq)]
pub struct Region {
    pub guard: Range<usize>,
    pub body: Range<usize>,
    pub guard_number: u8,
}

/// What a file has.
#[derive(Clone, Debug, PartialEq, Eq)]
pub struct Outline {
    /// The monitor's name.
    pub title: Range<usize>,
    /// What stands between `keep` and its semicolon.
    pub keep: Range<usize>,
    /// What stands between each `try` and its semicolon, in file order.
    pub tries: Vec<Range<usize>>,
    pub variables: Vec<Variable>,
    pub methods: Vec<Method>,
    pub regions: Vec<Region>,
    /// How many guards there are; regions whose guards are one share its number.
    pub guards: usize,
    pub states: usize,
    /// The number of the state at the start values.
    pub start: usize,
}

impl Outline {
    /// The number of the method to which a region belongs.
    pub fn method_of(&self, region: usize) -> Option<usize> {
        self.methods.iter().position(|method| method.regions.contains(&region))
    }

    /// The number of a region's guard.
    pub fn guard_of(&self, region: usize) -> Option<usize> {
        self.regions.get(region).map(|region| usize::from(region.guard_number))
    }

    /// The first region with a guard.
    pub fn first_with(&self, guard: usize) -> Option<usize> {
        self.regions.iter().position(|region| usize::from(region.guard_number) == guard)
    }
}

/// The outline of a file that the checks 1 to 7 and 15 pass, and the verdict on it: accepted, or refused with 8 or 9. Else its refusal.
///
/// ```
/// let file = b"monitor Box { var full = 0 in 0..1; keep true;
///     method put { waituntil (full == 0) { full := 1; } }
///     method get { waituntil (full == 1) { full := 0; } } }";
/// let (outline, verdict) = damsonyet::outline(file).unwrap();
/// assert_eq!(verdict, Ok(()));
/// assert_eq!(&file[outline.methods[1].name.clone()], b"get");
/// assert_eq!(&file[outline.regions[1].guard.clone()], b"full == 1");
/// assert_eq!(outline.states, 2);
/// ```
pub fn outline(file: &[u8]) -> Result<(Outline, Result<(), Refusal>), Refusal> {
    let o = unsafe { ffi::damsonyet_outline_of(file.as_ptr(), file.len()) };
    let verdict = Refusal::of(o.answer);
    if !matches!(o.answer.number, 0 | 8 | 9) {
        verdict?;
    }
    let span = |span: ffi::Span| span.from..span.to;
    let first = |k: usize| if k < o.methods { o.method[k].first } else { o.regions };
    let outline = Outline {
        title: span(o.title),
        keep: span(o.keep),
        tries: o.tried[..o.tries].iter().map(|&tried| span(tried)).collect(),
        variables: o.variable[..o.vars]
            .iter()
            .map(|v| Variable { name: span(v.name), start: value(v.start), low: value(v.low), high: value(v.high) })
            .collect(),
        methods: (0..o.methods).map(|k| Method { name: span(o.method[k].name), regions: first(k)..first(k + 1) }).collect(),
        regions: o.region[..o.regions]
            .iter()
            .map(|r| Region { guard: span(r.guard), body: span(r.body), guard_number: r.number as u8 })
            .collect(),
        guards: o.guards,
        states: o.states,
        start: o.start,
    };
    Ok((outline, verdict))
}
