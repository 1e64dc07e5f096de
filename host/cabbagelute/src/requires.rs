//! `Requires` and `Requires.private` as packages with versions.

use crate::PkgConfig;
use crate::raw;
use std::cmp::Ordering;
use std::error::Error;
use std::fmt;

/// The two fields that name packages.
#[derive(Clone, Copy, Debug, PartialEq, Eq)]
pub enum RequiresField {
    /// `Requires`
    Requires,
    /// `Requires.private`
    RequiresPrivate,
}

impl RequiresField {
    const ALL: [RequiresField; 2] = [RequiresField::Requires, RequiresField::RequiresPrivate];

    /// The field's number among the ten.
    pub fn number(self) -> u8 {
        match self {
            RequiresField::Requires => 5,
            RequiresField::RequiresPrivate => 6,
        }
    }

    fn of_number(number: u64) -> Option<Self> {
        Self::ALL.into_iter().find(|field| u64::from(field.number()) == number)
    }
}

impl fmt::Display for RequiresField {
    fn fmt(&self, f: &mut fmt::Formatter<'_>) -> fmt::Result {
        f.write_str(match self {
            RequiresField::Requires => "Requires",
            RequiresField::RequiresPrivate => "Requires.private",
        })
    }
}

/// How a version must compare with the one asked for.
#[derive(Clone, Copy, Debug, PartialEq, Eq)]
pub enum Operator {
    /// `=`
    Equal,
    /// `<`
    Less,
    /// `>`
    Greater,
    /// `<=`
    LessOrEqual,
    /// `>=`
    GreaterOrEqual,
    /// `!=`
    NotEqual,
}

impl Operator {
    /// All of them, in the order of their numbers.
    pub const ALL: [Operator; 6] = [
        Operator::Equal,
        Operator::Less,
        Operator::Greater,
        Operator::LessOrEqual,
        Operator::GreaterOrEqual,
        Operator::NotEqual,
    ];

    /// 1 to 6.
    pub fn number(self) -> u8 {
        match self {
            Operator::Equal => 1,
            Operator::Less => 2,
            Operator::Greater => 3,
            Operator::LessOrEqual => 4,
            Operator::GreaterOrEqual => 5,
            Operator::NotEqual => 6,
        }
    }

    fn of_number(number: u8) -> Option<Self> {
        Self::ALL.into_iter().find(|operator| operator.number() == number)
    }
}

impl fmt::Display for Operator {
    fn fmt(&self, f: &mut fmt::Formatter<'_>) -> fmt::Result {
        f.write_str(match self {
            Operator::Equal => "=",
            Operator::Less => "<",
            Operator::Greater => ">",
            Operator::LessOrEqual => "<=",
            Operator::GreaterOrEqual => ">=",
            Operator::NotEqual => "!=",
        })
    }
}

/// An item of `Requires` or `Requires.private`: shown as `name`, or as `name >= 1.2`.
#[derive(Clone, Debug, PartialEq, Eq)]
pub struct Package {
    /// The field that it stands in.
    pub field: RequiresField,
    /// The package's name. It is not empty.
    pub name: String,
    /// The version asked for, which is not empty, and how the package's own must compare with it.
    pub version: Option<(Operator, String)>,
}

impl Package {
    /// Whether a package of this version meets what the item asks for.
    pub fn is_met_by(&self, version: &str) -> bool {
        match &self.version {
            Some((operator, asked)) => version_meets(version, *operator, asked),
            None => true,
        }
    }
}

impl fmt::Display for Package {
    fn fmt(&self, f: &mut fmt::Formatter<'_>) -> fmt::Result {
        f.write_str(&self.name)?;
        match &self.version {
            Some((operator, version)) => write!(f, " {operator} {version}"),
            None => Ok(()),
        }
    }
}

/// Why a field can't be read as packages.
#[derive(Clone, Copy, Debug, PartialEq, Eq)]
pub enum RequiresError {
    /// The item with this index from 0 has no name, an operator without a version, or a `!` without `=`.
    Malformed(RequiresField, u64),
    /// A field is longer than 67,108,864 bytes. None that [`PkgConfig::parse`] gives is.
    TooLarge,
    /// The linked reader gave this number, which this crate has no meaning for. Only an archive of another version does.
    UnknownAnswer(u32),
}

impl fmt::Display for RequiresError {
    fn fmt(&self, f: &mut fmt::Formatter<'_>) -> fmt::Result {
        match self {
            RequiresError::Malformed(field, index) => write!(f, "malformed item {index} of {field}"),
            RequiresError::TooLarge => f.write_str("a field is too large"),
            RequiresError::UnknownAnswer(number) => {
                write!(f, "the linked reader answered {number}: libexport.a is of another version")
            }
        }
    }
}

impl Error for RequiresError {}

impl PkgConfig {
    /// The packages that `Requires` and then `Requires.private` name, in their order there.
    ///
    /// ```
    /// use cabbagelute::PkgConfig;
    ///
    /// let config = PkgConfig::parse("Requires: segue >= 1.10, timer\nRequires.private: join!=2\n")?;
    /// let packages = config.requires().unwrap();
    /// let shown: Vec<String> = packages.iter().map(ToString::to_string).collect();
    /// assert_eq!(shown, ["segue >= 1.10", "timer", "join != 2"]);
    /// assert!(packages[0].is_met_by("1.10.1") && !packages[0].is_met_by("1.9"));
    /// # Ok::<(), cabbagelute::ParseError>(())
    /// ```
    pub fn requires(&self) -> Result<Vec<Package>, RequiresError> {
        let mut records = Vec::new();
        for (field, value) in RequiresField::ALL.into_iter().zip([&self.requires, &self.requires_private]) {
            if let Some(value) = value {
                let length = u32::try_from(value.len()).map_err(|_| RequiresError::TooLarge)?;
                records.extend_from_slice(&length.to_le_bytes());
                records.extend_from_slice(&u16::from(field.number()).to_le_bytes());
                records.extend_from_slice(value.as_bytes());
            }
        }
        // An item of one byte with a comma after it takes 21 bytes: few fields ask for more than this.
        let mut output = vec![0; 4 * records.len() + 256];
        let mut detail = [0; raw::PACKAGES_DETAIL_BYTES];
        let mut number = raw::packages(&records, &mut output, &mut detail);
        if number == 17 {
            let [_, need] = raw::numbers(&detail);
            output = vec![0; usize::try_from(need).unwrap_or(0)];
            number = raw::packages(&records, &mut output, &mut detail);
        }
        let [_, value, index] = raw::numbers(&detail);
        let known = match number {
            0 => {
                usize::try_from(value).ok().and_then(|written| output.get(..written)).and_then(items).map(Ok)
            }
            18 => Some(Err(RequiresError::TooLarge)),
            20 => RequiresField::of_number(value).map(|field| Err(RequiresError::Malformed(field, index))),
            _ => None,
        };
        known.unwrap_or(Err(RequiresError::UnknownAnswer(number)))
    }
}

/// Compares two versions by their runs of digits and of letters. It is a total order, and equal are those whose runs are, leading zeros aside.
///
/// ```
/// use cabbagelute::compare_versions;
/// use std::cmp::Ordering;
///
/// assert_eq!(compare_versions("1.10", "1.9"), Ordering::Greater);
/// assert_eq!(compare_versions("1.0", "1"), Ordering::Greater);
/// assert_eq!(compare_versions("1.02", "1-2"), Ordering::Equal);
/// ```
pub fn compare_versions(a: &str, b: &str) -> Ordering {
    match raw::compare_versions(a.as_bytes(), b.as_bytes()) {
        1 => Ordering::Less,
        2 => Ordering::Greater,
        _ => Ordering::Equal,
    }
}

/// Whether a version meets an operator and the version asked for.
pub fn version_meets(version: &str, operator: Operator, asked: &str) -> bool {
    raw::version_meets(version.as_bytes(), u32::from(operator.number()), asked.as_bytes()) == 1
}

/// The items that the records hold. There are none where the bytes are not such records.
fn items(bytes: &[u8]) -> Option<Vec<Package>> {
    let mut records = raw::records(bytes);
    let mut items = Vec::new();
    while let Some(head) = records.next() {
        let (name, version) = (records.next()?, records.next()?);
        let (12, 13, 14, [field, operator]) = (head.kind, name.kind, version.kind, head.payload) else {
            return None;
        };
        let text = |payload: &[u8]| String::from_utf8(payload.to_vec()).ok();
        let version = match operator {
            0 => None,
            _ => Some((Operator::of_number(*operator)?, text(version.payload)?)),
        };
        items.push(Package {
            field: RequiresField::of_number(u64::from(*field))?,
            name: text(name.payload)?,
            version,
        });
    }
    records.rest().is_empty().then_some(items)
}
