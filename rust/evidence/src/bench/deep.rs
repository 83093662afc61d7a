//! Texts that nest as deep as a text may, or as its bytes allow.

/// A text over 8 ports, by a short name.
pub struct Deep {
    pub name: &'static str,
    pub text: String,
}

pub const PORTS: u64 = 8;

/// So many times a part around another.
fn nested(begin: &str, [open, close]: [&str; 2], times: usize, inner: &str) -> String {
    format!("{begin}{}{inner}{}", open.repeat(times), close.repeat(times))
}

/// Brackets that are never closed, and brackets that are; `(`, `~` and quantifiers in each other with literals beside them, 64 levels
/// and one more; and the most literals of a plan inside of 63 `~`.
pub fn deep_texts() -> Vec<Deep> {
    let mixed = |inner: &str| nested("[ST]@x@y", ["(x:S&~(y/T|", "&x<y)|y:S)"], 20, inner);
    let sizes = vec!["#S<1"; 510].join("&");
    vec![
        Deep { name: "4,093 `(`", text: nested("[S]", ["(", ""], 4093, "") },
        Deep { name: "2,044 `(` with their `)`", text: nested("[S]", ["(", ")"], 2044, "#S<1") },
        Deep { name: "64 levels, mixed", text: mixed("~(x:S&y:T)") },
        Deep { name: "65 levels, mixed", text: mixed("~(x:S&~y:T)") },
        Deep { name: "63 `~` and 510 literals", text: nested("[S]", ["~", ""], 63, &format!("({sizes})")) },
    ]
}
