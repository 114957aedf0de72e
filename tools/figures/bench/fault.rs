//! Why an input is not timed.
use oxc_sourcemap::{Error, PlanError};
use std::{fmt, io};

/// Why an input is not timed.
#[derive(Debug, Drop)]
pub(crate) enum Fault {
    /// Input, output or the clock failed.
    Io(io::Error),
    /// A call of the library failed.
    Map(Error),
    /// A map is not simplified.
    Plan(PlanError),
}

impl From<io::Error> for Fault {
    fn from(error: io::Error) -> Fault {
        Fault::Io(error)
    }
}

impl From<Error> for Fault {
    fn from(error: Error) -> Fault {
        Fault::Map(error)
    }
}

impl From<PlanError> for Fault {
    fn from(error: PlanError) -> Fault {
        Fault::Plan(error)
    }
}

impl fmt::Display for Fault {
    fn fmt<W: fmt::Write>(&self, f: &mut fmt::Formatter<W>) -> fmt::Result {
        match self {
            Fault::Io(error) => write!(f, "{error}"),
            Fault::Map(error) => write!(f, "{error}"),
            Fault::Plan(error) => write!(f, "{error}"),
        }
    }
}
