//! What a foreman can act on in a plan.
use crate::raw::{self, Record};
use core::fmt;
use core::ops::Range;

/// How bad a finding is.
#[derive(Clone, Copy, Debug, PartialEq, Eq, Hash)]
pub enum Severity {
    /// It reads well and is hardly meant: `14.7m`
    Warning,
    /// The reader or the nested lists refuse it: `(`
    Error,
}

/// A finding: a code, a place in bytes of the source, and for some a second place. docs/FINDINGS.md has every code.
#[derive(Clone, Copy, PartialEq, Eq, Hash)]
pub struct Finding(raw::Finding);

impl Finding {
    /// How bad it is.
    #[must_use]
    pub fn severity(&self) -> Severity {
        if self.0.severity == raw::ERROR {
            Severity::Error
        } else {
            Severity::Warning
        }
    }

    /// The number behind `E` or `W`.
    #[must_use]
    pub fn code(&self) -> u32 {
        self.0.code
    }

    /// What the message needs beside: a character, the bad byte, a length, a count; else 0.
    #[must_use]
    pub fn detail(&self) -> u32 {
        self.0.detail
    }

    /// The place.
    #[must_use]
    pub fn place(&self) -> Range<usize> {
        self.0.start as usize..self.0.end as usize
    }

    /// The second place: an opening bracket, a quote that is left over, the list that starts no further right.
    #[must_use]
    pub fn also(&self) -> Option<Range<usize>> {
        (self.0.also_start < self.0.also_end).then(|| self.0.also_start as usize..self.0.also_end as usize)
    }

    /// Its seven words.
    #[must_use]
    pub fn words(&self) -> &raw::Finding {
        &self.0
    }
}

/// Its code, as `E40`.
impl fmt::Display for Finding {
    fn fmt(&self, f: &mut fmt::Formatter<'_>) -> fmt::Result {
        let letter = match self.severity() {
            Severity::Warning => 'W',
            Severity::Error => 'E',
        };
        write!(f, "{letter}{:02}", self.0.code)
    }
}

impl fmt::Debug for Finding {
    fn fmt(&self, f: &mut fmt::Formatter<'_>) -> fmt::Result {
        write!(f, "{self} at {:?}", self.place())?;
        self.also().map_or(Ok(()), |also| write!(f, " and {also:?}"))
    }
}

/// What there is to find in a plan.
#[derive(Clone, Copy, Debug, PartialEq, Eq)]
pub struct Findings<'a> {
    /// The first ones, as many as there was room for.
    pub told: &'a [raw::Finding],
    /// How many there are.
    pub count: usize,
    /// How many of them are errors: 0 exactly if the reader and the nested lists have nothing to refuse of the plan.
    pub errors: usize,
}

impl<'a> Findings<'a> {
    /// Those that there was room for.
    pub fn iter(&self) -> impl Iterator<Item = Finding> + 'a {
        self.told.iter().map(|words| Finding(*words))
    }
}

/// The records are too few: how many are needed.
#[derive(Clone, Copy, Debug, PartialEq, Eq, Hash)]
pub struct FewRecords(pub usize);

impl fmt::Display for FewRecords {
    fn fmt(&self, f: &mut fmt::Formatter<'_>) -> fmt::Result {
        write!(f, "{} records are needed", self.0)
    }
}

impl core::error::Error for FewRecords {}

/// What there is to find in a plan, in report mode: the findings in the order of the plan. The records are working memory. A text that is
/// too long or not UTF-8 has one finding that says so.
///
/// ```
/// use mihadrena::{find, raw, Record, Severity};
///
/// let plan = "(stand 101 (volume 412,5) (corner 6892014.7;gps\n";
/// let mut records = vec![Record::default(); plan.len()];
/// let mut memory = vec![raw::Finding::default(); 8];
/// let findings = find(plan, &mut records, &mut memory)?;
/// let told: Vec<_> = findings.iter().map(|f| (f.to_string(), &plan[f.place()])).collect();
/// let wanted = [("W01", "412,5"), ("E40", "("), ("W07", "6892014.7")];
/// assert_eq!(told, wanted.map(|(code, text)| (code.to_string(), text)));
/// assert_eq!((findings.count, findings.errors), (3, 1));
/// assert_eq!(findings.iter().next().map(|f| f.severity()), Some(Severity::Warning));
/// # Ok::<(), mihadrena::FewRecords>(())
/// ```
///
/// # Errors
/// How many records are needed, if they are too few.
pub fn find<'a>(
    source: impl AsRef<[u8]>,
    records: &mut [Record],
    findings: &'a mut [raw::Finding],
) -> Result<Findings<'a>, FewRecords> {
    let source = source.as_ref();
    let mut values = [0; raw::FIND_VALUES];
    // SAFETY: each pointer and length is those of a slice, the mutable ones are borrowed as such, a record is RECORD_WORDS words and a
    // finding FINDING_WORDS.
    let answer = unsafe {
        raw::mihadrena_find(
            source.as_ptr(),
            source.len(),
            records.as_mut_ptr().cast(),
            records.len() * raw::RECORD_WORDS,
            findings.as_mut_ptr().cast(),
            findings.len() * raw::FINDING_WORDS,
            values.as_mut_ptr(),
            values.len(),
        )
    };
    let [count, errors] = values.map(|value| value as usize);
    if answer != raw::SERVED {
        return Err(FewRecords(count));
    }
    let told = count.min(findings.len());
    Ok(Findings { told: &findings[..told], count, errors })
}
