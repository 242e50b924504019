//! What the programs use of the kit's std that Rust's has not, or has in another form: the handle that a program is given, and reading and
//! printing with it. No crate of the library uses it.

use std::fmt::Display;
use std::io::{self, Write};

pub struct HostRuntime;

pub trait Print {
    /// Writes a value as text.
    fn print(&self, value: impl Display) -> io::Result<()>;

    /// Writes all bytes.
    fn write_all(&self, bytes: &[u8]) -> io::Result<()>;
}

pub trait Input {
    /// Standard input. A read gives what is there, and waits only where nothing is.
    fn reader(&self) -> io::Stdin;
}

/// What is written is not kept back: somebody may be waiting for it.
impl Print for HostRuntime {
    fn print(&self, value: impl Display) -> io::Result<()> {
        let mut out = io::stdout();
        write!(out, "{value}")?;
        out.flush()
    }

    fn write_all(&self, bytes: &[u8]) -> io::Result<()> {
        let mut out = io::stdout();
        out.write_all(bytes)?;
        out.flush()
    }
}

impl Input for HostRuntime {
    fn reader(&self) -> io::Stdin {
        io::stdin()
    }
}

macro_rules! print {
    ($rt:ident; $($text:tt)*) => {
        $rt.print(format_args!($($text)*))
    };
}

/// Rust has it from 1.67 on.
pub trait Logarithm {
    fn checked_ilog10(self) -> Option<u32>;
}

impl Logarithm for u64 {
    fn checked_ilog10(self) -> Option<u32> {
        (0..20).rev().find(|&k| 10u64.pow(k) <= self)
    }
}
