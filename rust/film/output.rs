//! Standard output and the files that are written.
use crate::frame::Fault;
use std::fs::{metadata, remove_file, File, OpenOptions};
use std::io::{self, BufWriter, ErrorKind, Write};
use std::os::unix::fs::MetadataExt;
use std::path::{Path, PathBuf};

/// Writes to standard output.
pub fn print(write: impl FnOnce(&mut dyn Write) -> io::Result<()>) -> Result<(), Fault> {
    let written = buffered(io::stdout().lock(), write);
    written.map_err(|error| Fault(format!("standard output could not be written: {error}")))
}

/// A file to write.
pub struct Output {
    path: PathBuf,
    file: File,
    /// Whether it was not there before and nothing is written yet: then it goes again.
    fresh: bool,
}

impl Output {
    /// Opens it, or makes it. What stands in it stays until something is written.
    pub fn open(path: &Path) -> Result<Output, Fault> {
        let mut options = OpenOptions::new();
        options.write(true);
        let (file, fresh) = match options.clone().create_new(true).open(path) {
            Err(error) if error.kind() == ErrorKind::AlreadyExists => (options.open(path), false),
            made => (made, true),
        };
        let file = file.map_err(|error| Fault(format!("{} can't be written: {error}", path.display())))?;
        Ok(Output { path: path.into(), file, fresh })
    }

    /// Refuses to write over another file that is needed.
    pub fn apart(&self, other: &Path) -> Result<(), Fault> {
        let same = match (self.file.metadata(), metadata(other)) {
            (Ok(ours), Ok(theirs)) => ours.is_file() && (ours.dev(), ours.ino()) == (theirs.dev(), theirs.ino()),
            _ => false,
        };
        if same {
            return Err(Fault(format!("{} would be written over {}", self.path.display(), other.display())));
        }
        Ok(())
    }

    /// Writes it whole.
    pub fn write(mut self, write: impl FnOnce(&mut dyn Write) -> io::Result<()>) -> Result<(), Fault> {
        self.fresh = false;
        let written = emptied(&self.file).and_then(|()| buffered(&self.file, write));
        written.map_err(|error| Fault(format!("{} could not be written: {error}", self.path.display())))
    }
}

impl Drop for Output {
    fn drop(&mut self) {
        if self.fresh {
            // an empty file that stays is no fault
            let _ = remove_file(&self.path);
        }
    }
}

/// Removes what stands in a file; a pipe or a device has nothing to remove.
fn emptied(file: &File) -> io::Result<()> {
    if file.metadata()?.is_file() {
        file.set_len(0)?;
    }
    Ok(())
}

fn buffered(out: impl Write, write: impl FnOnce(&mut dyn Write) -> io::Result<()>) -> io::Result<()> {
    let mut out = BufWriter::new(out);
    write(&mut out)?;
    out.flush()
}
