//! The exported functions, and how C and Rust declare them: each parameter as its name and its type in C.

use std::collections::BTreeMap;

/// Parameters by function.
pub type Functions = BTreeMap<String, Vec<(String, String)>>;

/// The functions whose declaration begins so; a parameter is read by `parameter`.
fn functions(text: &str, begin: &str, parameter: impl Fn(&str) -> Vec<(String, String)>) -> Functions {
    let mut found = Functions::new();
    for part in text.split(begin).skip(1) {
        let Some((name, rest)) = part.split_once('(') else { continue };
        if !name.starts_with("willetcoffer_") {
            continue;
        }
        let list = rest.split(')').next().unwrap_or_default().split(',').map(str::trim);
        found.insert(name.to_string(), list.filter(|text| !text.is_empty()).flat_map(&parameter).collect());
    }
    found
}

fn pair(name: &str, kind: &str) -> (String, String) {
    (name.to_string(), kind.to_string())
}

/// The exports of the proved crate, each slice as a pointer and a length. (What the interface calls `now` is a word of the
/// contracts, so the crate has another name for it.)
pub fn exported(text: &str) -> Functions {
    functions(text, "pub extern \"C\" fn ", |parameter| {
        let (name, kind) = parameter.split_once(": ").unwrap_or_else(|| panic!("{parameter}"));
        let name = if name == "clock" { "now" } else { name };
        let length = || pair(&format!("{name}_length"), "size_t");
        match kind {
            "&[u8]" => vec![pair(name, "const uint8_t *"), length()],
            "&mut [u8]" => vec![pair(name, "uint8_t *"), length()],
            "u64" => vec![pair(name, "uint64_t")],
            "i64" => vec![pair(name, "int64_t")],
            other => panic!("{name} has type {other}"),
        }
    })
}

/// The declarations of the header.
pub fn in_c(text: &str) -> Functions {
    functions(text, "\nuint32_t ", |parameter| {
        let at = parameter.rfind([' ', '*']).unwrap_or_else(|| panic!("{parameter}"));
        let (kind, name) = parameter.split_at(at + 1);
        vec![pair(name, kind.trim())]
    })
}

/// The declarations of the Rust library.
pub fn in_rust(text: &str) -> Functions {
    functions(text, "    fn ", |parameter| {
        let (name, kind) = parameter.split_once(": ").unwrap_or_else(|| panic!("{parameter}"));
        let kind = match kind {
            "*const u8" => "const uint8_t *",
            "*mut u8" => "uint8_t *",
            "usize" => "size_t",
            "u64" => "uint64_t",
            "i64" => "int64_t",
            other => panic!("{name} has type {other}"),
        };
        vec![pair(name, kind)]
    })
}
