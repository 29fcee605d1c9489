//! Another library with the same C functions, loaded while the program runs, so that its names do not mix
//! with those of the library that is linked.
use crate::functions::{Functions, LINKED};
use std::ffi::{c_char, c_int, c_void, CStr, CString};
use std::fs;
use std::io;
use std::os::unix::ffi::OsStrExt;
use std::path::{Path, PathBuf};
use std::process::{self, Command};
use std::ptr;

/// Every name is looked up at once; the names are for nobody else.
const NOW: c_int = 2;
const LOCAL: c_int = 0;

extern "C" {
    fn dlopen(file: *const c_char, flags: c_int) -> *mut c_void;
    fn dlsym(handle: *mut c_void, name: *const c_char) -> *mut c_void;
    fn dlerror() -> *const c_char;
}

/// A folder that goes with the value.
struct Folder(PathBuf);

impl Folder {
    fn new() -> io::Result<Folder> {
        let folder = std::env::temp_dir().join(format!("varnwalnut-bench-{}", process::id()));
        fs::create_dir(&folder)?;
        Ok(Folder(folder))
    }
}

impl Drop for Folder {
    fn drop(&mut self) {
        // A folder that stays is a pity, and no reason to stop.
        _ = fs::remove_dir_all(&self.0);
    }
}

/// Archives, thin ones too, begin with a line of their own.
fn is_static(file: &Path) -> io::Result<bool> {
    let mut start = Vec::new();
    io::Read::read_to_end(&mut io::Read::take(fs::File::open(file)?, 8), &mut start)?;
    Ok(start == b"!<arch>\n" || start == b"!<thin>\n")
}

/// Links all of a static library into a shared object. What it calls of its own is bound inside it.
fn link(library: &Path, object: &Path) -> Result<(), String> {
    let mut command = Command::new("cc");
    command.arg("-shared").arg("-o").arg(object).args(["-Wl,-Bsymbolic", "-Wl,--whole-archive"]).arg(library);
    command.args(["-Wl,--no-whole-archive", "-lpthread", "-ldl", "-lm"]);
    let output = command.output().map_err(|error| format!("cc does not run: {error}"))?;
    let errors = String::from_utf8_lossy(&output.stderr);
    match output.status.success() {
        true => Ok(()),
        false => Err(format!("cc makes no shared object of it:\n{errors}")),
    }
}

/// What the loader says of its last failure.
fn failure() -> String {
    // SAFETY: the C library answers null or a string that ends, and that lives until the next call.
    unsafe {
        let text = dlerror();
        if text.is_null() {
            return "the loader does not say why".to_owned();
        }
        CStr::from_ptr(text).to_string_lossy().into_owned()
    }
}

/// The address that a loaded object has for a name, or null. A null object stands for all that any name of
/// the program is looked up in.
fn address(object: *mut c_void, name: &str) -> *mut c_void {
    let name = CString::new(name).expect("a function's name has no zero byte");
    // SAFETY: the object is loaded and stays so, and the name ends.
    unsafe { dlsym(object, name.as_ptr()) }
}

fn open(object: &Path) -> Result<Functions, String> {
    // A path without a slash would be looked for in the system's folders.
    let path = object.canonicalize().map_err(|error| error.to_string())?;
    let path = CString::new(path.as_os_str().as_bytes()).expect("a path that was found has no zero byte");
    // SAFETY: the path ends. The object's own first steps are run, as those of any library that is linked.
    let object = unsafe { dlopen(path.as_ptr(), NOW | LOCAL) };
    if object.is_null() {
        return Err(failure());
    }
    // SAFETY: the object is never unloaded; that its functions are those of the header is what it is asked
    // to be.
    Ok(unsafe { Functions::at(|name| address(object, name)) })
}

/// Both libraries run code of their own: no address is in both, and no name of the functions is one that the
/// loader would find in the program instead of in the object.
fn are_apart(other: &Functions) -> Result<(), String> {
    for ((name, own), (_, other)) in LINKED.addresses().into_iter().zip(other.addresses()) {
        if own == other || !address(ptr::null_mut(), name).is_null() {
            return Err(format!("{name} is mixed up with that of the library"));
        }
    }
    Ok(())
}

/// The functions of a shared object or of a static library.
pub fn load(other: &Path) -> Result<Functions, String> {
    let functions = match is_static(other).map_err(|error| error.to_string())? {
        false => open(other)?,
        true => {
            let folder = Folder::new().map_err(|error| format!("no temporary folder: {error}"))?;
            let object = folder.0.join("other.so");
            link(other, &object)?;
            open(&object)?
        }
    };
    if functions.addresses().iter().all(|(_, address)| address.is_none()) {
        return Err("it has none of the C functions".to_owned());
    }
    are_apart(&functions)?;
    Ok(functions)
}
