//! How a finding reads.
use crate::{raw, Finding};

/// How a finding is rendered.
#[derive(Clone, Copy, Debug, PartialEq, Eq, Hash)]
pub enum Style {
    /// With a picture and help.
    Full,
    /// The headline, and the note at the second place, alone.
    Brief,
    /// One object of JSON.
    Json,
}

impl Style {
    fn number(self) -> u32 {
        match self {
            Self::Full => raw::STYLE_FULL,
            Self::Brief => raw::STYLE_BRIEF,
            Self::Json => raw::STYLE_JSON,
        }
    }
}

/// Renders a finding of a text, which goes by a name: its bytes are written from the front of `out` on, as many as fit. Answers how many there
/// are, so that a caller who lent too little lends that much and calls again.
///
/// ```
/// use mihadrena::{find, raw, render, Record, Style};
///
/// let plan = "(volume 412,5)\n";
/// let mut records = vec![Record::default(); plan.len()];
/// let mut memory = [raw::Finding::default()];
/// let findings = find(plan, &mut records, &mut memory)?;
/// let finding = findings.iter().next().expect("one is told");
/// let mut out = [0; 200];
/// let count = render(&finding, plan, "a.scm", Style::Full, false, &mut out);
/// let wanted = "a.scm:1:9: warning: a comma in a number makes it a name [W01]
///     1 | (volume 412,5)
///       |         ^^^^^
///       = help: write it with a dot: 412.5
/// ";
/// assert_eq!(&out[..count], wanted.as_bytes());
/// # Ok::<(), mihadrena::FewRecords>(())
/// ```
pub fn render(
    finding: &Finding,
    source: impl AsRef<[u8]>,
    name: impl AsRef<[u8]>,
    style: Style,
    colour: bool,
    out: &mut [u8],
) -> usize {
    let (source, name) = (source.as_ref(), name.as_ref());
    // SAFETY: each pointer and length is those of a slice, `out` is borrowed as a mutable one, and a finding is FINDING_WORDS words.
    unsafe {
        raw::mihadrena_render(
            core::ptr::from_ref(finding.words()).cast(),
            raw::FINDING_WORDS,
            source.as_ptr(),
            source.len(),
            name.as_ptr(),
            name.len(),
            style.number(),
            colour,
            out.as_mut_ptr(),
            out.len(),
        )
    }
}

/// Renders the last lines of a file of which so many findings were told, in the same way; in JSON there are none.
///
/// ```
/// use mihadrena::{summary, Style};
///
/// let mut out = [0; 80];
/// let count = summary("a.scm", 3, 1, 2, Style::Full, &mut out);
/// assert_eq!(&out[..count], b"a.scm: 1 more\na.scm: 1 error, 2 warnings\n");
/// ```
pub fn summary(
    name: impl AsRef<[u8]>,
    findings: usize,
    errors: usize,
    told: usize,
    style: Style,
    out: &mut [u8],
) -> usize {
    let name = name.as_ref();
    // SAFETY: each pointer and length is those of a slice, and `out` is borrowed as a mutable one.
    unsafe {
        raw::mihadrena_summary(
            name.as_ptr(),
            name.len(),
            findings,
            errors,
            told,
            style.number(),
            out.as_mut_ptr(),
            out.len(),
        )
    }
}
