//! Terminfo entries and terminals by `libti`: see ti(3).
//!
//! ```no_run
//! use std::os::unix::io::AsFd;
//!
//! fn main() -> Result<(), ti::Error> {
//!     let out = std::io::stdout();
//!     let mut terminal = ti::Terminal::open(None, out.as_fd())?;
//!     terminal.put("setaf", &[2.into()])?;
//!     terminal.put_text(b"green")?;
//!     terminal.put("sgr0", &[])?;
//!     Ok(())
//! }
//! ```

#![deny(unsafe_op_in_unsafe_fn)]

mod sys;

use std::ffi::{CStr, CString};
use std::fmt;
use std::marker::PhantomData;
use std::os::raw::{c_char, c_void};
use std::os::unix::io::{AsRawFd, BorrowedFd};
use std::ptr::{null, null_mut, NonNull};

/// Why a call failed: a status of `enum ti_status`.
#[derive(Clone, Copy, Debug, PartialEq, Eq)]
pub struct Error {
    status: u32,
}

impl Error {
    /// No directory has an entry of the name.
    pub const NO_TERMINAL: Error = Error { status: 10 };
    /// No terminal, or no capability, can have the name.
    pub const BAD_NAME: Error = Error { status: sys::BAD_NAME };
    /// A parameter is a number where the string takes a string, or the other way round.
    pub const BAD_PARAMETER: Error = Error { status: 20 };
    /// No capability can have the name of a change.
    pub const BAD_CAPABILITY: Error = Error { status: 25 };
    /// A capability cannot have the value of a change.
    pub const BAD_VALUE: Error = Error { status: 26 };
    /// A changed entry would have more bytes than its limit.
    pub const TOO_LARGE: Error = Error { status: 27 };

    /// The number of the status.
    pub fn status(&self) -> u32 {
        self.status
    }
}

impl fmt::Display for Error {
    fn fmt(&self, out: &mut fmt::Formatter<'_>) -> fmt::Result {
        // SAFETY: the library returns a string of its own for each number.
        let sentence = unsafe { CStr::from_ptr(sys::ti_strerror(self.status)) };
        out.write_str(&sentence.to_string_lossy())
    }
}

impl std::error::Error for Error {}

fn check(status: u32) -> Result<(), Error> {
    if status == sys::OK {
        Ok(())
    } else {
        Err(Error { status })
    }
}

/// A name as C takes it. No terminal and no capability has a NUL in its name.
fn c_name(name: &str) -> Result<CString, Error> {
    CString::new(name).map_err(|_| Error::BAD_NAME)
}

/// The bytes of a text, which are valid as long as what it is of.
///
/// # Safety
/// The text is one that the library has stored, and what it is of lives for `'a`.
unsafe fn bytes_of<'a>(text: sys::Text) -> &'a [u8] {
    if text.size == 0 {
        return &[];
    }
    // SAFETY: the caller's.
    unsafe { std::slice::from_raw_parts(text.bytes, text.size) }
}

/// The values of an entry.
#[derive(Clone, Copy)]
pub struct Values<'a> {
    entry: *const sys::Opaque,
    of: PhantomData<&'a ()>,
}

impl<'a> Values<'a> {
    /// Whether a boolean is set.
    pub fn flag(&self, name: &str) -> bool {
        // SAFETY: the entry lives for 'a, and the name ends with a NUL.
        c_name(name).map_or(false, |name| unsafe {
            sys::ti_flag_named(self.entry, name.as_ptr()) == 1
        })
    }

    /// A number, if the entry has it.
    pub fn number(&self, name: &str) -> Option<u32> {
        let name = c_name(name).ok()?;
        // SAFETY: the entry lives for 'a, and the name ends with a NUL.
        u32::try_from(unsafe { sys::ti_number_named(self.entry, name.as_ptr()) }).ok()
    }

    /// A string, if the entry has it.
    pub fn string(&self, name: &str) -> Option<&'a [u8]> {
        let name = c_name(name).ok()?;
        let mut text = sys::Text { bytes: null(), size: 0 };
        // SAFETY: the entry lives for 'a, and so do its texts; the name ends with a NUL.
        unsafe {
            let found = sys::ti_string_named(self.entry, name.as_ptr(), &mut text) == 1;
            found.then(|| bytes_of(text))
        }
    }

    /// The names field.
    pub fn names(&self) -> &'a [u8] {
        self.text(sys::ti_names)
    }

    /// The description.
    pub fn long_name(&self) -> &'a [u8] {
        self.text(sys::ti_long_name)
    }

    fn text(&self, store: unsafe extern "C" fn(*const sys::Opaque, *mut sys::Text)) -> &'a [u8] {
        let mut text = sys::Text { bytes: null(), size: 0 };
        // SAFETY: the entry lives for 'a, and so do its texts.
        unsafe {
            store(self.entry, &mut text);
            bytes_of(text)
        }
    }
}

/// What a capability is given.
#[derive(Clone, Copy, Debug, PartialEq, Eq)]
pub enum Value<'a> {
    Flag,
    Number(u32),
    Text(&'a [u8]),
}

/// A change of an entry: the name of a capability, and the value that it is given; `None` takes away
/// what it has.
#[derive(Clone, Copy, Debug, PartialEq, Eq)]
pub struct Change<'a> {
    pub name: &'a str,
    pub value: Option<Value<'a>>,
}

impl Change<'_> {
    fn for_c(&self) -> sys::Change {
        let (kind, number, text) = match self.value {
            Some(Value::Number(number)) => (1, number, &[][..]),
            Some(Value::Text(text)) => (2, 0, text),
            Some(Value::Flag) | None => (0, 0, &[][..]),
        };
        let text_for_c = |text: &[u8]| sys::Text { bytes: text.as_ptr(), size: text.len() };
        sys::Change {
            name: text_for_c(self.name.as_bytes()),
            value: sys::Value { kind, is_present: self.value.is_some(), number, text: text_for_c(text) },
        }
    }
}

/// A compiled entry.
pub struct Entry {
    entry: NonNull<sys::Opaque>,
    path: Option<CString>,
}

// SAFETY: several threads may read one entry, and nothing changes it.
unsafe impl Send for Entry {}
unsafe impl Sync for Entry {}

impl Entry {
    /// Finds the entry of a terminal, or of TERM.
    pub fn find(name: Option<&str>) -> Result<Entry, Error> {
        let name = name.map(c_name).transpose()?;
        let (mut entry, mut path): (_, *mut c_char) = (null_mut(), null_mut());
        // SAFETY: the name is NULL or ends with a NUL; the path is NULL or a string of C.
        unsafe {
            let status = sys::ti_open_path(name.as_ref().map_or(null(), |name| name.as_ptr()), &mut entry, &mut path);
            let found = NonNull::new(path).map(|path| CStr::from_ptr(path.as_ptr()).to_owned());
            sys::free(path.cast::<c_void>());
            Entry::of(status, entry, found)
        }
    }

    /// Reads an entry from a copy of its bytes.
    pub fn of_bytes(bytes: &[u8]) -> Result<Entry, Error> {
        let mut entry = null_mut();
        // SAFETY: the bytes are so many.
        let status = unsafe { sys::ti_entry_new(bytes.as_ptr(), bytes.len(), &mut entry) };
        Entry::of(status, entry, None)
    }

    fn of(status: u32, entry: *mut sys::Opaque, path: Option<CString>) -> Result<Entry, Error> {
        check(status)?;
        let entry = NonNull::new(entry).expect("the library stores an entry");
        Ok(Entry { entry, path })
    }

    /// The entry with changes, of which the last of a name decides.
    pub fn changed(&self, changes: &[Change<'_>]) -> Result<Entry, Error> {
        let given: Vec<_> = changes.iter().map(Change::for_c).collect();
        let mut entry = null_mut();
        // SAFETY: the changes are so many, and their texts live longer than the call.
        let made = unsafe { sys::ti_entry_change(self.entry.as_ptr(), given.as_ptr(), given.len(), &mut entry) };
        Entry::of(made.status, entry, None)
    }

    /// The bytes of the compiled entry.
    pub fn bytes(&self) -> &[u8] {
        self.values().text(sys::ti_entry_bytes)
    }

    /// Its values.
    pub fn values(&self) -> Values<'_> {
        Values { entry: self.entry.as_ptr(), of: PhantomData }
    }

    /// The path of the file in which it was found.
    pub fn path(&self) -> Option<&CStr> {
        self.path.as_deref()
    }
}

impl Drop for Entry {
    fn drop(&mut self) {
        // SAFETY: the entry is this value's own.
        unsafe { sys::ti_entry_free(self.entry.as_ptr()) }
    }
}

/// A parameter of a string.
#[derive(Clone, Copy, Debug, PartialEq, Eq)]
pub enum Parameter<'a> {
    Number(i32),
    Text(&'a [u8]),
}

impl From<i32> for Parameter<'_> {
    fn from(number: i32) -> Self {
        Parameter::Number(number)
    }
}

impl<'a> From<&'a str> for Parameter<'a> {
    fn from(text: &'a str) -> Self {
        Parameter::Text(text.as_bytes())
    }
}

impl Parameter<'_> {
    fn for_c(&self) -> sys::Parameter {
        let (kind, number, text) = match *self {
            Parameter::Number(number) => (0, number, &[][..]),
            Parameter::Text(text) => (1, 0, text),
        };
        sys::Parameter { kind, number, text: sys::Text { bytes: text.as_ptr(), size: text.len() } }
    }
}

/// What bytes from a terminal begin with.
#[derive(Clone, Copy, Debug, PartialEq, Eq)]
pub struct Keys<'t> {
    /// The name of the longest key, such as kcuu1, and how many of the bytes it is.
    pub longest: Option<(&'t [u8], usize)>,
    /// Whether the bytes may be the front of a longer key, so that a program waits for more.
    pub is_unfinished: bool,
}

/// A terminal that is opened once, to which a file leads.
pub struct Terminal<'f> {
    terminal: NonNull<sys::Opaque>,
    file: PhantomData<BorrowedFd<'f>>,
}

// SAFETY: threads may use one terminal in turn.
unsafe impl Send for Terminal<'_> {}

impl<'f> Terminal<'f> {
    /// Opens the terminal of a name, or of TERM.
    pub fn open(name: Option<&str>, file: BorrowedFd<'f>) -> Result<Terminal<'f>, Error> {
        let name = name.map(c_name).transpose()?;
        let mut terminal = null_mut();
        // SAFETY: the name is NULL or ends with a NUL, and the file is open for 'f.
        let status = unsafe {
            sys::ti_terminal_open(name.as_ref().map_or(null(), |name| name.as_ptr()), file.as_raw_fd(), &mut terminal)
        };
        check(status)?;
        let terminal = NonNull::new(terminal).expect("the library stores a terminal");
        Ok(Terminal { terminal, file: PhantomData })
    }

    /// Sends a string by its name. False if the terminal does not have it.
    pub fn put(&mut self, name: &str, params: &[Parameter<'_>]) -> Result<bool, Error> {
        let name = c_name(name)?;
        let given: Vec<_> = params.iter().map(Parameter::for_c).collect();
        // SAFETY: the name ends with a NUL, and the texts of the parameters live longer than the call.
        let sent = unsafe {
            sys::ti_put_named_values(self.terminal.as_ptr(), name.as_ptr(), given.as_ptr(), given.len())
        };
        if sent.status == sys::ABSENT {
            return Ok(false);
        }
        check(sent.status).map(|()| true)
    }

    /// Changes its entry, for what is sent later.
    pub fn change(&mut self, changes: &[Change<'_>]) -> Result<(), Error> {
        let given: Vec<_> = changes.iter().map(Change::for_c).collect();
        // SAFETY: the changes are so many, and their texts live longer than the call. No values of
        // the entry are lent, since this value is borrowed alone.
        let made = unsafe { sys::ti_terminal_change(self.terminal.as_ptr(), given.as_ptr(), given.len()) };
        check(made.status)
    }

    /// Sends bytes as they are.
    pub fn put_text(&mut self, text: &[u8]) -> Result<(), Error> {
        // SAFETY: the bytes are so many.
        let sent = unsafe { sys::ti_put_text(self.terminal.as_ptr(), text.as_ptr(), text.len()) };
        check(sent.status)
    }

    /// The values of its entry.
    pub fn values(&self) -> Values<'_> {
        // SAFETY: the entry lives as long as the terminal.
        Values { entry: unsafe { sys::ti_terminal_entry(self.terminal.as_ptr()) }, of: PhantomData }
    }

    /// The key that bytes from the terminal begin with.
    pub fn key(&self, bytes: &[u8]) -> Keys<'_> {
        let mut name = sys::Text { bytes: null(), size: 0 };
        // SAFETY: the bytes are so many; the name is the library's or the entry's.
        let (found, name) = unsafe {
            let found = sys::ti_terminal_key(self.terminal.as_ptr(), bytes.as_ptr(), bytes.len(), &mut name);
            (found, bytes_of(name))
        };
        let longest = (found.size > 0).then(|| (name, found.size));
        Keys { longest, is_unfinished: found.status == sys::UNFINISHED }
    }

    /// The path of the file in which its entry was found.
    pub fn path(&self) -> &CStr {
        // SAFETY: a terminal that was opened has a path, which lives as long.
        unsafe { CStr::from_ptr(sys::ti_terminal_path(self.terminal.as_ptr())) }
    }

    /// The height and the width of the screen, 0 if they are not known.
    pub fn size(&self) -> (u32, u32) {
        // SAFETY: the terminal is open.
        let size = unsafe { sys::ti_terminal_size(self.terminal.as_ptr()) };
        (size.height, size.width)
    }
}

impl Drop for Terminal<'_> {
    fn drop(&mut self) {
        // SAFETY: the terminal is this value's own.
        unsafe { sys::ti_terminal_close(self.terminal.as_ptr()) }
    }
}
