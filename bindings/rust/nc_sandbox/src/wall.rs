//! The second wall.

use crate::ffi::{self, NcsFolder, NcsWall};
use crate::Refusal;
use std::ffi::c_int;
use std::os::fd::{AsRawFd, BorrowedFd};

/// A folder below which files may be opened.
#[derive(Clone, Copy, Debug)]
pub struct Folder<'a> {
    /// The folder, open in any way.
    pub file: BorrowedFd<'a>,
    /// Whether regular files are written, made and cut there, besides being read, and times of open files set. By the system calls that the
    /// host names, folders are made there too, and names changed and removed.
    pub writable: bool,
}

/// What the process needs behind the second wall, besides the calls of boxes. By default that is nothing.
#[derive(Clone, Copy, Debug, Default)]
pub struct Wall<'a> {
    /// Folders below which files may be opened.
    pub folders: &'a [Folder<'a>],
    /// Further system calls, by their numbers, at most 256. They may have any arguments.
    pub calls: &'a [i32],
    /// Whether threads may be started.
    pub threads: bool,
}

/// What stands of the second wall.
#[non_exhaustive]
#[derive(Clone, Copy, Debug, PartialEq, Eq, Hash)]
pub enum Stands {
    /// All but the rule for files, since the system has no Landlock. If there is a folder, any file is opened.
    Filter,
    /// All of it.
    Whole,
}

impl Wall<'_> {
    /// `ncs_wall`: builds the wall around this process, which keeps it for good. The host does that before it starts threads, and once it
    /// has its modules. No module is made behind the wall: that ends the process.
    pub fn build(&self) -> Result<Stands, Refusal> {
        let of = |folder: &Folder<'_>| NcsFolder { file: folder.file.as_raw_fd(), writable: folder.writable.into() };
        let folders: Vec<NcsFolder> = self.folders.iter().map(of).collect();
        let count = |len| u32::try_from(len).unwrap_or(u32::MAX);
        let wall = NcsWall {
            folders: folders.as_ptr(),
            folder_count: count(folders.len()),
            calls: self.calls.as_ptr(),
            call_count: count(self.calls.len()),
            threads: self.threads.into(),
        };
        let mut stands: c_int = 0;
        Refusal::unless_made(|why| {
            // SAFETY: the pointers lead to as many folders and numbers as are named, and to a refusal. The call keeps none of them.
            stands = unsafe { ffi::ncs_wall(&wall, why) };
            stands
        })?;
        Ok(if stands.unsigned_abs() == ffi::NCS_WALL_WHOLE { Stands::Whole } else { Stands::Filter })
    }
}
