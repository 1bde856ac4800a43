//! Standard input and output that tell where a read or a write fails. Not proved.
//!
//! Rust's `Stdin` and `Stdout` do not tell: there a stream that is closed, or open for the other direction alone, is empty or takes all.

use std::io::{Read, Write};

/// Returns the two streams. Memory is taken here alone, for the buffers of Rust's library.
#[cfg(unix)]
pub(crate) fn standard() -> (impl Read, impl Write) {
    (unix::Stream::of(std::io::stdin()), unix::Stream::of(std::io::stdout()))
}

/// Returns the two streams of Rust's library.
#[cfg(not(unix))]
pub(crate) fn standard() -> (impl Read, impl Write) {
    (std::io::stdin().lock(), std::io::stdout().lock())
}

#[cfg(unix)]
mod unix {
    use std::fs::{File, metadata};
    use std::io::{ErrorKind, Read, Result, Write};
    use std::os::fd::AsFd;
    use std::os::unix::fs::{FileTypeExt, MetadataExt};

    /// A standard stream, or nothing where it is closed. Each call on it is one call of the operating system.
    pub(super) struct Stream(Option<File>);

    impl Stream {
        pub(super) fn of(stream: impl AsFd) -> Self {
            let file = stream.as_fd().try_clone_to_owned().map(File::from).ok();
            Self(file.filter(|it| !was_closed(it).unwrap_or(false)))
        }

        fn file(&mut self) -> Result<&mut File> {
            self.0.as_mut().ok_or(ErrorKind::NotConnected.into())
        }
    }

    impl Read for Stream {
        fn read(&mut self, piece: &mut [u8]) -> Result<usize> {
            self.file()?.read(piece)
        }
    }

    impl Write for Stream {
        fn write(&mut self, bytes: &[u8]) -> Result<usize> {
            self.file()?.write(bytes)
        }

        fn flush(&mut self) -> Result<()> {
            self.file()?.flush()
        }
    }

    /// Whether a stream is `/dev/null`, open for reading and for writing.
    ///
    /// Rust's library opens it so before `main`, in the place of a stream that is closed, and no safe call tells more. So a caller that opens
    /// `/dev/null` for both, and not for one direction as a shell does, has a closed stream here.
    fn was_closed(mut stream: &File) -> Result<bool> {
        let (held, null) = (stream.metadata()?, metadata("/dev/null")?);
        let is_null = held.file_type().is_char_device() && held.rdev() == null.rdev();
        Ok(is_null && stream.read(&mut [0]).is_ok() && stream.write(&[0]).is_ok())
    }
}
