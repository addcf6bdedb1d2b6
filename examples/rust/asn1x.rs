//! The library's calls, as `include/asn1x.h` has them, and a type over them that frees what it holds.

use std::ffi::c_void;
use std::fmt;

/// A rule that values are read by; they are written by the latter two.
#[derive(Clone, Copy, Debug, PartialEq, Eq)]
pub enum Rule {
    Ber = 0,
    Cer = 1,
    Der = 2,
}

#[repr(C)]
struct Held {
    full: bool,
    kept: *mut c_void,
}

#[repr(C)]
struct Fault {
    number: u32,
    line: u32,
    column: u32,
}

#[repr(C)]
struct Done {
    refusal: u32,
    values: u64,
    octets: usize,
}

#[repr(C)]
struct One {
    refusal: u32,
    used: usize,
    octets: usize,
}

unsafe extern "C" {
    fn asn1x_type_from(held: &mut Held, text: *const u8, length: usize, name: *const u8, name_length: usize) -> Fault;
    fn asn1x_type_free(held: &mut Held);
    fn asn1x_convert(
        held: &mut Held,
        from: u32,
        to: u32,
        octets: *const u8,
        length: usize,
        out: *mut u8,
        room: usize,
    ) -> Done;
    fn asn1x_show(held: &mut Held, from: u32, octets: *const u8, length: usize, out: *mut u8, room: usize) -> Done;
    fn asn1x_check(held: &mut Held, from: u32, octets: *const u8, length: usize) -> Done;
    fn asn1x_convert_first(
        held: &mut Held,
        from: u32,
        to: u32,
        octets: *const u8,
        length: usize,
        out: *mut u8,
        room: usize,
    ) -> One;
    fn asn1x_show_first(held: &mut Held, from: u32, octets: *const u8, length: usize, out: *mut u8, room: usize) -> One;
    fn asn1x_name(number: u32, out: *mut u8, room: usize) -> usize;
}

/// A module that gives no type, and where.
#[derive(Clone, Copy, Debug, PartialEq, Eq)]
pub struct ModuleRefused {
    pub number: u32,
    pub line: u32,
    pub column: u32,
}

/// Why a call stopped, and after how many values.
#[derive(Clone, Copy, Debug, PartialEq, Eq)]
pub struct Refused {
    pub number: u32,
    pub values: u64,
}

impl fmt::Display for ModuleRefused {
    fn fmt(&self, out: &mut fmt::Formatter<'_>) -> fmt::Result {
        write!(out, "module refused {} {} at {}:{}", self.number, name_of(self.number), self.line, self.column)
    }
}

impl fmt::Display for Refused {
    fn fmt(&self, out: &mut fmt::Formatter<'_>) -> fmt::Result {
        write!(out, "refused {} {} after {} values", self.number, name_of(self.number), self.values)
    }
}

impl std::error::Error for ModuleRefused {}

impl std::error::Error for Refused {}

/// The name of a refusal or a fault.
pub fn name_of(number: u32) -> String {
    let mut name = [0; 16];
    let length = unsafe { asn1x_name(number, name.as_mut_ptr(), name.len()) };
    String::from_utf8_lossy(name.get(..length).unwrap_or(&[])).into_owned()
}

/// A type of a module. Its pointer keeps it in one thread.
pub struct Type(Held);

impl Drop for Type {
    fn drop(&mut self) {
        unsafe { asn1x_type_free(&mut self.0) }
    }
}

impl Type {
    /// The type that the module means by the name.
    pub fn from(module: &[u8], name: &str) -> Result<Type, ModuleRefused> {
        let mut ty = Type(Held { full: false, kept: std::ptr::null_mut() });
        let Fault { number, line, column } =
            unsafe { asn1x_type_from(&mut ty.0, module.as_ptr(), module.len(), name.as_ptr(), name.len()) };
        if number == 0 { Ok(ty) } else { Err(ModuleRefused { number, line, column }) }
    }

    /// Writes the encodings of all values behind `out`, of those before a refusal too, and counts the values.
    pub fn convert(&mut self, from: Rule, to: Rule, octets: &[u8], out: &mut Vec<u8>) -> Result<u64, Refused> {
        let held = &mut self.0;
        written(out, |at, room| unsafe {
            asn1x_convert(held, from as u32, to as u32, octets.as_ptr(), octets.len(), at, room)
        })
    }

    /// Writes a line of text for each value behind `out`, likewise.
    pub fn show(&mut self, from: Rule, octets: &[u8], out: &mut Vec<u8>) -> Result<u64, Refused> {
        let held = &mut self.0;
        written(out, |at, room| unsafe { asn1x_show(held, from as u32, octets.as_ptr(), octets.len(), at, room) })
    }

    /// Counts the values.
    pub fn check(&mut self, from: Rule, octets: &[u8]) -> Result<u64, Refused> {
        let done = unsafe { asn1x_check(&mut self.0, from as u32, octets.as_ptr(), octets.len()) };
        counted(&done)
    }

    /// Writes the first value's encoding behind `out`, and returns how many octets it has in `octets`.
    pub fn convert_first(
        &mut self,
        from: Rule,
        to: Rule,
        octets: &[u8],
        out: &mut Vec<u8>,
    ) -> Result<usize, Refused> {
        let held = &mut self.0;
        used(out, |at, room| unsafe {
            asn1x_convert_first(held, from as u32, to as u32, octets.as_ptr(), octets.len(), at, room)
        })
    }

    /// Writes a line of text for the first value behind `out`, likewise.
    pub fn show_first(&mut self, from: Rule, octets: &[u8], out: &mut Vec<u8>) -> Result<usize, Refused> {
        let held = &mut self.0;
        used(out, |at, room| unsafe { asn1x_show_first(held, from as u32, octets.as_ptr(), octets.len(), at, room) })
    }
}

fn counted(done: &Done) -> Result<u64, Refused> {
    let Done { refusal: number, values, .. } = *done;
    if number == 0 { Ok(values) } else { Err(Refused { number, values }) }
}

fn written(out: &mut Vec<u8>, call: impl FnMut(*mut u8, usize) -> Done) -> Result<u64, Refused> {
    counted(&with_room(out, call, |done| done.octets))
}

fn used(out: &mut Vec<u8>, call: impl FnMut(*mut u8, usize) -> One) -> Result<usize, Refused> {
    let One { refusal: number, used, .. } = with_room(out, call, |one| one.octets);
    if number == 0 { Ok(used) } else { Err(Refused { number, values: 0 }) }
}

/// A call that has too little room says how much it takes, and is made again.
fn with_room<T>(out: &mut Vec<u8>, mut call: impl FnMut(*mut u8, usize) -> T, octets: impl Fn(&T) -> usize) -> T {
    let mut room = vec![0; 64];
    let mut done = call(room.as_mut_ptr(), room.len());
    if octets(&done) > room.len() {
        room = vec![0; octets(&done)];
        done = call(room.as_mut_ptr(), room.len());
    }
    out.extend_from_slice(&room[..octets(&done)]);
    done
}
