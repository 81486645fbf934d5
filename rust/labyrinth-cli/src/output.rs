//! OUT is never seen half-written: the bytes go to a new file beside it, which takes OUT's name at the end, or is removed where the run
//! fails or is ended by a signal that can be caught. After one that can't (KILL), or a power cut, a file .labyrinth.*.part may be left;
//! OUT then is what it was.
use std::ffi::CString;
use std::fs::{self, File, OpenOptions, Permissions};
use std::io::{self, ErrorKind, Write};
use std::os::raw::{c_char, c_int};
use std::os::unix::ffi::OsStrExt;
use std::os::unix::fs::{OpenOptionsExt, PermissionsExt};
use std::os::unix::io::AsFd;
use std::path::{Path, PathBuf};
use std::ptr::null_mut;
use std::sync::atomic::{AtomicPtr, Ordering};

// From the C library, which std links.
extern "C" {
    pub fn isatty(fd: c_int) -> c_int;
    fn signal(number: c_int, handler: usize) -> usize;
    fn raise(number: c_int) -> c_int;
    fn unlink(path: *const c_char) -> c_int;
}
const DEFAULT: usize = 0;
const IGNORE: usize = 1;
const HUP_INT_QUIT_TERM_XCPU: [c_int; 5] = [1, 2, 3, 15, 24];
const XFSZ: c_int = 25;

/// The temporary file's name, for the handler.
static PART: AtomicPtr<c_char> = AtomicPtr::new(null_mut());

/// Removes the temporary file and ends as the signal would have. All that it calls may be called in a handler.
extern "C" fn ended(number: c_int) {
    let part = PART.swap(null_mut(), Ordering::SeqCst);
    unsafe {
        if !part.is_null() {
            unlink(part);
        }
        signal(number, DEFAULT);
        raise(number);
    }
}

fn catch_signals() {
    let handler: extern "C" fn(c_int) = ended;
    unsafe {
        for number in HUP_INT_QUIT_TERM_XCPU {
            // what was ignored stays so, as nohup wants it
            if signal(number, handler as usize) == IGNORE {
                signal(number, IGNORE);
            }
        }
        // a file too large for its limit is then an error of the write
        signal(XFSZ, IGNORE);
    }
}

pub struct Output {
    file: File,
    part: Option<Part>,
}

struct Part {
    part: PathBuf,
    out: PathBuf,
    permissions: Option<Permissions>,
}

impl Output {
    pub fn standard() -> io::Result<Output> {
        unsafe { signal(XFSZ, IGNORE) };
        Ok(Output { file: io::stdout().as_fd().try_clone_to_owned()?.into(), part: None })
    }

    /// A new file beside `out`; beside what it points to, if it is a link. What stands there is replaced only if it is a file that may be
    /// written, and hands on its permissions; where nothing stands they are `fresh`, less what the umask takes.
    pub fn beside(out: &Path, fresh: u32) -> io::Result<Output> {
        let out = match fs::symlink_metadata(out) {
            Ok(held) if held.file_type().is_symlink() => fs::canonicalize(out)?,
            _ => out.to_path_buf(),
        };
        let permissions = match fs::metadata(&out) {
            Ok(held) if !held.is_file() => return Err(io::Error::new(ErrorKind::Other, "not a regular file (standard output is -)")),
            Ok(held) => {
                OpenOptions::new().write(true).open(&out)?;
                Some(held.permissions())
            }
            Err(e) if e.kind() == ErrorKind::NotFound => None,
            Err(e) => return Err(e),
        };
        let directory = directory(&out);
        catch_signals();
        // never wider than OUT's own
        let mode = permissions.as_ref().map_or(fresh, |p| p.mode() & 0o777);
        for count in 0..1000 {
            let part = directory.join(format!(".labyrinth.{}.{count}.part", std::process::id()));
            match OpenOptions::new().write(true).create_new(true).mode(mode).open(&part) {
                Ok(file) => {
                    // never freed: the handler may read it at any time
                    PART.store(CString::new(part.as_os_str().as_bytes())?.into_raw(), Ordering::SeqCst);
                    return Ok(Output { file, part: Some(Part { part, out, permissions }) });
                }
                Err(e) if e.kind() == ErrorKind::AlreadyExists => (),
                Err(e) => return Err(e),
            }
        }
        Err(io::Error::new(ErrorKind::AlreadyExists, "no free name for the temporary file"))
    }

    /// All bytes are on the disk before OUT has its name.
    pub fn finish(mut self) -> io::Result<()> {
        if let Some(Part { part, out, permissions }) = &self.part {
            if let Some(permissions) = permissions {
                self.file.set_permissions(permissions.clone())?;
            }
            self.file.sync_all()?;
            fs::rename(part, out)?;
            sync_directory(out);
            self.part = None;
        }
        Ok(())
    }

    /// The same, but what has OUT's name keeps it, and that is an error: a link, unlike renaming, replaces nothing. The first name goes with `self`.
    pub fn finish_new(self) -> io::Result<()> {
        if let Some(Part { part, out, .. }) = &self.part {
            self.file.sync_all()?;
            fs::hard_link(part, out)?;
            sync_directory(out);
        }
        Ok(())
    }
}

fn sync_directory(out: &Path) {
    // OUT is whole by now, so a directory that can't be synced is no failure
    let _ = File::open(directory(out)).and_then(|d| d.sync_all());
}

fn directory(path: &Path) -> &Path {
    match path.parent() {
        Some(parent) if parent != Path::new("") => parent,
        _ => Path::new("."),
    }
}

impl Write for Output {
    fn write(&mut self, bytes: &[u8]) -> io::Result<usize> {
        self.file.write(bytes)
    }

    fn flush(&mut self) -> io::Result<()> {
        self.file.flush()
    }
}

impl Drop for Output {
    fn drop(&mut self) {
        if let Some(Part { part, .. }) = &self.part {
            let _ = fs::remove_file(part);
        }
    }
}
