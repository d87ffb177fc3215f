// SPDX-License-Identifier: LicenseRef-Wengeludo
//! Shared objects, opened while the program runs: archives of this library, and peers.

use std::ffi::{c_char, c_int, c_void, CStr, CString};

/// The sheet call as the header has it.
pub type SheetCall = unsafe extern "C" fn(*const u8, usize, u8, *mut u32, usize, *mut u8, usize, *mut usize, *mut u64) -> u8;

/// A peer's call (peers/peer.h).
pub type PeerCall = unsafe extern "C" fn(*const u8, usize, *mut u8, *mut f64) -> u8;

type VersionCall = unsafe extern "C" fn() -> u32;

/// The version from which on the sheet call has these arguments, up to the next that may change them.
const SINCE: u32 = 10_000;
const UNTIL: u32 = 20_000;

#[link(name = "dl")]
extern "C" {
    fn dlopen(path: *const c_char, flags: c_int) -> *mut c_void;
    fn dlsym(object: *mut c_void, name: *const c_char) -> *mut c_void;
    fn dlerror() -> *const c_char;
}

const NOW: c_int = 2;

fn last_error(path: &str) -> String {
    // SAFETY: dlerror returns NULL or a string that lasts until the next of these calls.
    let text = unsafe { dlerror() };
    let told = if text.is_null() { "no such name".into() } else { unsafe { CStr::from_ptr(text) }.to_string_lossy() };
    format!("{path}: {told}")
}

/// A shared object that stays open to the end of the program.
struct Object {
    path: String,
    handle: *mut c_void,
}

impl Object {
    fn open(path: &str) -> Result<Object, String> {
        let name = CString::new(path).map_err(|error| format!("{path}: {error}"))?;
        // SAFETY: the name ends with 0; what the object runs when it is opened is its maker's.
        let handle = unsafe { dlopen(name.as_ptr(), NOW) };
        if handle.is_null() {
            return Err(last_error(path));
        }
        Ok(Object { path: path.to_string(), handle })
    }

    fn function(&self, name: &CStr) -> Result<*mut c_void, String> {
        // SAFETY: the handle is open and the name ends with 0.
        let found = unsafe { dlsym(self.handle, name.as_ptr()) };
        if found.is_null() {
            return Err(last_error(&self.path));
        }
        Ok(found)
    }
}

fn name(text: &str) -> CString {
    CString::new(text).expect("a name without 0")
}

/// The sheet call of an archive's shared object, if its version has the call as it is here.
pub fn sheet_call(path: &str) -> Result<SheetCall, String> {
    let object = Object::open(path)?;
    let version = object.function(&name("wengeludo_version"))?;
    // SAFETY: the header's function of this name has this type in every version.
    let version = unsafe { std::mem::transmute::<*mut c_void, VersionCall>(version)() };
    if !(SINCE..UNTIL).contains(&version) {
        return Err(format!("{path}: version {version}; the benchmark takes {SINCE} up to {UNTIL}"));
    }
    let call = object.function(&name("wengeludo_balance_plant"))?;
    // SAFETY: in these versions the function of this name has this type.
    Ok(unsafe { std::mem::transmute::<*mut c_void, SheetCall>(call) })
}

/// A peer's call.
pub fn peer_call(path: &str) -> Result<PeerCall, String> {
    let call = Object::open(path)?.function(&name("solve_plant"))?;
    // SAFETY: peers/peer.h declares it so.
    Ok(unsafe { std::mem::transmute::<*mut c_void, PeerCall>(call) })
}
