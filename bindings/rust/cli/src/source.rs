//! Files and standard input, with their names.

use crate::failure::Failure;
use crate::name::shown;
use std::ffi::{OsStr, OsString};
use std::fs::File;
use std::io::{self, Read};

/// An open input with its name.
pub struct Source {
    /// In a line of text.
    pub name: OsString,
    reader: Box<dyn Read>,
}

impl Source {
    /// Opens a file; standard input for `-` or none.
    pub fn open(path: Option<&OsStr>) -> Result<Source, Failure> {
        let (name, reader): (_, Box<dyn Read>) = match path {
            None => return Ok(Source::standard()),
            Some(path) if path == "-" => return Ok(Source::standard()),
            Some(path) => {
                let name = shown(path);
                match File::open(path) {
                    Ok(file) => (name, Box::new(file)),
                    Err(error) => return Err(Failure::io(&name, &error)),
                }
            }
        };
        Ok(Source { name, reader })
    }

    fn standard() -> Source {
        Source {
            name: "<stdin>".into(),
            reader: Box::new(io::stdin().lock()),
        }
    }

    /// These bytes.
    #[cfg(test)]
    pub fn of(name: &str, bytes: &[u8]) -> Source {
        Source::from(name, io::Cursor::new(bytes.to_vec()))
    }

    /// What this reads.
    #[cfg(test)]
    pub fn from(name: &str, reader: impl Read + 'static) -> Source {
        Source {
            name: name.into(),
            reader: Box::new(reader),
        }
    }

    /// The source with bytes that were taken from it put back.
    pub fn put_back(self, bytes: Vec<u8>) -> Source {
        Source {
            name: self.name,
            reader: Box::new(io::Cursor::new(bytes).chain(self.reader)),
        }
    }

    /// Up to so many bytes from here on.
    pub fn up_to(&mut self, most: usize) -> Result<Vec<u8>, Failure> {
        let mut bytes = Vec::new();
        match (&mut self.reader).take(most as u64).read_to_end(&mut bytes) {
            Ok(_) => Ok(bytes),
            Err(error) => Err(Failure::io(&self.name, &error)),
        }
    }
}

impl Read for Source {
    fn read(&mut self, buffer: &mut [u8]) -> io::Result<usize> {
        self.reader.read(buffer)
    }
}
