//! Stand-in (behaviour-deciding): document 01, "Names", decides what is well formed and what is complete.

pub mod reference {
    use bstr::{BStr, ByteSlice};

    pub mod name {
        use bstr::BString;

        #[derive(Debug, Clone, PartialEq, Eq)]
        pub enum Error {
            InvalidByte { byte: BString },
            Malformed,
            NotComplete,
        }
        impl std::fmt::Display for Error {
            fn fmt(&self, f: &mut std::fmt::Formatter<'_>) -> std::fmt::Result {
                match self {
                    Error::InvalidByte { byte } => write!(f, "Reference name contains invalid byte: {byte:?}"),
                    Error::Malformed => f.write_str("Reference name is not well formed"),
                    Error::NotComplete => f.write_str("Reference name is not complete"),
                }
            }
        }
        impl std::error::Error for Error {}
        impl From<std::convert::Infallible> for Error {
            fn from(v: std::convert::Infallible) -> Self {
                match v {}
            }
        }
    }

    /// Well formed, clause by clause as document 01 has it.
    pub fn well_formed(name: &[u8]) -> bool {
        // not empty
        if name.is_empty() {
            return false;
        }
        // not `@` alone
        if name == b"@" {
            return false;
        }
        // no leading, trailing or doubled slash: no component is empty;
        // no component begins with a dot or ends `.lock`
        for component in name.split(|b| *b == b'/') {
            if component.is_empty() || component.starts_with(b".") || component.ends_with(b".lock") {
                return false;
            }
        }
        // no `..`, no `@{`
        if name.windows(2).any(|w| w == b".." || w == b"@{") {
            return false;
        }
        // no final dot
        if name.ends_with(b".") {
            return false;
        }
        // no byte below 32, no 127, space, `~ ^ : ? * [` or backslash
        !name
            .iter()
            .any(|b| *b < 32 || *b == 127 || matches!(b, b' ' | b'~' | b'^' | b':' | b'?' | b'*' | b'[' | b'\\'))
    }

    /// Well formed and, besides, holding a slash or made only of A to Z and underscore.
    pub fn complete(name: &[u8]) -> bool {
        well_formed(name) && (name.contains(&b'/') || name.iter().all(|b| b.is_ascii_uppercase() || *b == b'_'))
    }

    /// The complete name.
    pub fn name(path: &BStr) -> Result<&BStr, name::Error> {
        if !well_formed(path.as_bytes()) {
            Err(name::Error::Malformed)
        } else if !complete(path.as_bytes()) {
            Err(name::Error::NotComplete)
        } else {
            Ok(path)
        }
    }

    /// The well-formed name.
    pub fn name_partial(path: &BStr) -> Result<&BStr, name::Error> {
        if well_formed(path.as_bytes()) { Ok(path) } else { Err(name::Error::Malformed) }
    }
}

pub mod path {
    /// Inert: asked only if `prohibit_windows_device_names` is set, which it never is.
    pub fn component_is_windows_device(_input: &bstr::BStr) -> bool {
        false
    }
}
