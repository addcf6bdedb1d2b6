//! Does what asn1x does with the same words, by the library:
//!
//!     values check|show|convert MODULE TYPE FILE --hex [--from ber|cer|der] [--to cer|der]
//!     values each MODULE TYPE FILE --hex [--from ber|cer|der] [--to cer|der|text]
//!
//! FILE is hexadecimal text. `each` takes the octets in pieces, and writes a line for each value as it completes. The
//! statuses are those of asn1x.

mod asn1x;

use asn1x::{ModuleRefused, Refused, Rule, Type};
use std::io::{Write, stdout};
use std::process::ExitCode;
use std::{env, fs, io};

const PIECE: usize = 50;
const TRUNCATED: u32 = 1;
const SINK_FAULT: u32 = 16;
const NO_MEMORY: u32 = 17;
const MODULE_NO_MEMORY: u32 = 33;

// Why the program stops, and the status that goes with it.
struct Fault {
    status: u8,
    why: String,
}

impl From<Refused> for Fault {
    fn from(refused: Refused) -> Self {
        let status = match refused.number {
            NO_MEMORY => 4,
            SINK_FAULT => 3,
            _ => 1,
        };
        Fault { status, why: refused.to_string() }
    }
}

impl From<ModuleRefused> for Fault {
    fn from(refused: ModuleRefused) -> Self {
        Fault { status: if refused.number == MODULE_NO_MEMORY { 4 } else { 2 }, why: refused.to_string() }
    }
}

impl From<io::Error> for Fault {
    fn from(fault: io::Error) -> Self {
        Fault { status: 3, why: fault.to_string() }
    }
}

fn wrong_words(why: &str) -> Fault {
    Fault { status: 64, why: why.into() }
}

fn main() -> ExitCode {
    let words: Vec<String> = env::args().skip(1).collect();
    match run(&words) {
        Ok(()) => ExitCode::SUCCESS,
        Err(Fault { status, why }) => {
            eprintln!("asn1x: {why}");
            ExitCode::from(status)
        }
    }
}

fn run(words: &[String]) -> Result<(), Fault> {
    let [task, module, name, file, hex, options @ ..] = words else { return Err(wrong_words("too few words")) };
    if hex != "--hex" {
        return Err(wrong_words("FILE is hexadecimal text: --hex is missing"));
    }
    let (mut from, mut to) = (Rule::Ber, Some(Rule::Der));
    for option in options.chunks(2) {
        let [option, rule] = option else { return Err(wrong_words("a rule is missing")) };
        match (option.as_str(), rule.as_str()) {
            ("--to", "text") if task == "each" => to = None,
            ("--to", rule) => to = Some(rule_of(rule)?),
            (_, rule) => from = rule_of(rule)?,
        }
    }
    let mut ty = Type::from(&read(module)?, name)?;
    let octets = unhex(&read(file)?)?;
    match task.as_str() {
        "check" => println!("ok {}", ty.check(from, &octets)?),
        "show" => show(&mut ty, from, &octets)?,
        "each" => each(&mut ty, from, to, &octets)?,
        _ => convert(&mut ty, from, to.unwrap_or(Rule::Der), &octets)?,
    }
    Ok(())
}

fn rule_of(name: &str) -> Result<Rule, Fault> {
    match name {
        "ber" => Ok(Rule::Ber),
        "cer" => Ok(Rule::Cer),
        "der" => Ok(Rule::Der),
        _ => Err(wrong_words(&format!("no such rule: {name}"))),
    }
}

fn read(path: &str) -> Result<Vec<u8>, Fault> {
    fs::read(path).map_err(|_| Fault { status: 3, why: format!("cannot read {path}") })
}

fn unhex(text: &[u8]) -> Result<Vec<u8>, Fault> {
    let digits: Option<Vec<u32>> =
        text.iter().filter(|it| !b" \t\n\r".contains(it)).map(|it| char::from(*it).to_digit(16)).collect();
    match digits {
        Some(digits) if digits.len() % 2 == 0 => {
            Ok(digits.chunks(2).map(|pair| (pair[0] * 16 + pair[1]) as u8).collect())
        }
        _ => Err(Fault { status: 1, why: "not hexadecimal".into() }),
    }
}

fn convert(ty: &mut Type, from: Rule, to: Rule, octets: &[u8]) -> Result<(), Fault> {
    let mut out = Vec::new();
    let outcome = ty.convert(from, to, octets, &mut out);
    print_digits(&out);
    outcome?;
    Ok(())
}

fn show(ty: &mut Type, from: Rule, octets: &[u8]) -> Result<(), Fault> {
    let mut text = Vec::new();
    let outcome = ty.show(from, octets, &mut text);
    stdout().write_all(&text)?;
    outcome?;
    Ok(())
}

fn print_digits(octets: &[u8]) {
    for octet in octets {
        print!("{octet:02x}");
    }
    if !octets.is_empty() {
        println!();
    }
}

// Takes the octets in pieces, and goes from value to value. A value that is cut stays in front of the next piece.
fn each(ty: &mut Type, from: Rule, to: Option<Rule>, octets: &[u8]) -> Result<(), Fault> {
    let (mut at, mut end, mut values) = (0, 0, 0);
    while at < octets.len() {
        end = octets.len().min(end + PIECE);
        while at < end {
            match write_first(ty, from, to, &octets[at..end]) {
                Ok(used) => at += used,
                Err(Refused { number: TRUNCATED, .. }) if end < octets.len() => break,
                Err(Refused { number, .. }) => return Err(Refused { number, values }.into()),
            }
            values += 1;
        }
    }
    Ok(())
}

// Writes a line for the first value, and returns how many octets it has.
fn write_first(ty: &mut Type, from: Rule, to: Option<Rule>, octets: &[u8]) -> Result<usize, Refused> {
    let mut out = Vec::new();
    match to {
        Some(to) => {
            let used = ty.convert_first(from, to, octets, &mut out)?;
            print_digits(&out);
            Ok(used)
        }
        None => {
            let used = ty.show_first(from, octets, &mut out)?;
            print!("{}", String::from_utf8_lossy(&out));
            Ok(used)
        }
    }
}
