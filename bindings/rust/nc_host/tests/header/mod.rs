//! What the tests share that compare declarations in Rust with a header in C.

use std::path::{Path, PathBuf};
use std::process::Command;

/// A line for each struct and one for each of its fields, and the statements in C that print the same.
#[macro_export]
macro_rules! lay_out {
    ($out:ident, $c:ident, $($struct:ident { $($field:ident),* })*) => {$(
        writeln!($out, "{} {} {}", stringify!($struct), size_of::<$struct>(), align_of::<$struct>()).unwrap();
        $c.push_str(concat!("printf(\"%s %zu %zu\\n\", \"", stringify!($struct), "\", sizeof(", stringify!($struct),
                            "), _Alignof(", stringify!($struct), "));\n"));
        $(
            let field = stringify!($field);
            let size = header::size_of_field(|of: &$struct| &of.$field);
            writeln!($out, "  {field} {} {size}", offset_of!($struct, $field)).unwrap();
            $c.push_str(concat!("printf(\"  %s %zu %zu\\n\", \"", stringify!($field), "\", offsetof(", stringify!($struct), ", ",
                                stringify!($field), "), sizeof(((", stringify!($struct), " *)0)->", stringify!($field), "));\n"));
        )*
    )*};
}

/// A line for each number of the header's.
#[macro_export]
macro_rules! number {
    ($out:ident, $c:ident, $($name:ident)*) => {$(
        writeln!($out, "{} {}", stringify!($name), $name).unwrap();
        $c.push_str(concat!("printf(\"%s %lu\\n\", \"", stringify!($name), "\", (unsigned long)", stringify!($name), ");\n"));
    )*};
}

pub fn size_of_field<S, F>(_field: fn(&S) -> &F) -> usize {
    size_of::<F>()
}

/// A header of the repository of which the crate is a part, by its path from the top.
pub fn path(name: &str) -> Option<PathBuf> {
    let file = Path::new(env!("CARGO_MANIFEST_DIR")).join("../../..").join(name);
    file.exists().then_some(file)
}

/// What a program with these lines and statements prints, or `None` where there is no compiler or no header, which is told.
pub fn printed_by_c(name: &str, header: &str, front: &str, statements: &str) -> Option<String> {
    let cc = std::env::var("CC").unwrap_or_else(|_| "cc".to_string());
    let Some(header) = path(header) else {
        println!("skipped: {name}: there is no header");
        return None;
    };
    let source = Path::new(env!("CARGO_TARGET_TMPDIR")).join(format!("{name}.c"));
    let program = source.with_extension("out");
    let text = format!("{front}#include \"{}\"\n#include <stdio.h>\nint main(void) {{\n", header.display());
    std::fs::write(&source, format!("{text}{statements}return 0;\n}}\n")).expect("the source is written");
    match Command::new(&cc).arg("-std=c11").arg(&source).arg("-o").arg(&program).status() {
        Err(error) => {
            println!("skipped: {name}: {cc} can't be run: {error}");
            return None;
        }
        Ok(status) => assert!(status.success(), "{cc} compiles what asks the header"),
    }
    let output = Command::new(program).output().expect("the program runs");
    Some(String::from_utf8(output.stdout).expect("the program prints ASCII"))
}

/// A type of C as Rust writes it.
fn rust_type(c: &str) -> String {
    let (constant, c) = c.strip_prefix("const ").map_or((false, c), |rest| (true, rest));
    let (pointer, c) = c.strip_suffix('*').map_or((false, c), |rest| (true, rest));
    let name = match c.trim() {
        "uint8_t" => "u8",
        "uint32_t" => "u32",
        "size_t" => "usize",
        "void" => "c_void",
        "char" => "c_char",
        "int" => "c_int",
        "long" => "c_long",
        "unsigned" => "c_uint",
        other => other,
    };
    let front = ["", "*mut ", "*const "][usize::from(pointer) + usize::from(constant)];
    format!("{front}{name}")
}

/// A type and a name of C, such as `const uint8_t *code`.
fn split(c: &str) -> Option<(&str, &str)> {
    let at = c.rfind([' ', '*'])? + 1;
    Some((c[..at].trim(), &c[at..]))
}

/// A declaration of the header's as Rust writes it: `uint32_t nc_seat_check_in(NcSeat *seat)`. `box` is a word of Rust's own.
pub fn rust_call(c: &str) -> String {
    let (front, list) = c.trim_end_matches(");").split_once('(').expect("a list of parameters");
    let (result, name) = split(front).expect("a type and a name");
    let parameter = |c| {
        let (of, name) = split(c)?;
        Some(format!("{name}{}: {}", if name == "box" { "_" } else { "" }, rust_type(of)))
    };
    let parameters: Vec<String> = list.split(", ").filter_map(parameter).collect();
    let result = if result == "void" { String::new() } else { format!(" -> {}", rust_type(result)) };
    format!("pub fn {name}({}){result};", parameters.join(", "))
}

/// The declarations of a text: from a line that begins one to its semicolon, each on one line.
pub fn declarations(text: &str, begins: fn(&str) -> bool) -> Vec<String> {
    let (mut calls, mut call) = (Vec::new(), String::new());
    for line in text.lines() {
        if !call.is_empty() || begins(line) {
            call.push_str(line.trim());
            call.push(' ');
            if line.ends_with(';') {
                calls.push(call.trim().replace("( ", "(").replace(", )", ")"));
                call.clear();
            }
        }
    }
    calls
}
