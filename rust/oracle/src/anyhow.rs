//! A stand-in for the crate `anyhow`: what the reference uses of it.

pub struct Error(pub String);
pub type Result<T> = std::result::Result<T, Error>;

impl From<std::io::Error> for Error {
    fn from(e: std::io::Error) -> Self {
        Error(e.to_string())
    }
}

macro_rules! make { ($($t:tt)*) => { crate::anyhow::Error(format!($($t)*)) } }
macro_rules! leave { ($($t:tt)*) => { return Err(crate::anyhow::Error(format!($($t)*))) } }
pub(crate) use leave as bail;
pub(crate) use make as anyhow;
