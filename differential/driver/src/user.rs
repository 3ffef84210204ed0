//! Another user than root, so that permissions bite.
use std::{fs, io, os::unix::fs::PermissionsExt, path::Path};

unsafe extern "C" {
    fn getuid() -> u32;
    fn setgroups(size: usize, list: *const u32) -> i32;
    fn setgid(gid: u32) -> i32;
    fn setuid(uid: u32) -> i32;
}

/// The user `nobody`.
pub const NOBODY: u32 = 65534;

pub fn is_root() -> bool {
    // SAFETY: it has no preconditions.
    unsafe { getuid() == 0 }
}

/// Become `nobody` if we are root, then see that a file without permission is refused in `dir`.
pub fn drop_privileges(dir: &Path) -> io::Result<()> {
    if is_root() {
        // SAFETY: an empty list needs no memory; no thread runs yet.
        let done = unsafe { setgroups(0, std::ptr::null()) == 0 && setgid(NOBODY) == 0 && setuid(NOBODY) == 0 };
        if !done {
            return Err(io::Error::last_os_error());
        }
    }
    let probe = dir.join("probe");
    fs::write(&probe, b"x")?;
    fs::set_permissions(&probe, fs::Permissions::from_mode(0o000))?;
    let refused = fs::read(&probe).is_err_and(|err| err.kind() == io::ErrorKind::PermissionDenied);
    fs::remove_file(&probe)?;
    if refused { Ok(()) } else { Err(io::Error::other("permissions do not bite for this user")) }
}
