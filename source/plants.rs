//! What is planted: every way for a long array to come in, and every way for a call to be missed.

use crate::planted::Where::{Behind, Inside};
use crate::planted::{Plant, Planting, Where};

const fn plant(place: Where, text: &'static str) -> Planting {
    Planting { place, text }
}

/// A function with a long array, for others to call.
const CALLEE: Planting = plant(
    Behind("wire"),
    "pub fn planted() { let scratch = [0u8; 64]; }",
);

const LONG: &str = "array of 64 bytes";
const UNRESOLVED: &str = "cannot be resolved";

pub const PLANTS: &[Plant] = &[
    Plant {
        what: "an array type in a leaf",
        plantings: &[plant(Inside("wire::zero"), "let scratch: [u8; 64];")],
        found: Some((0, LONG)),
    },
    Plant {
        what: "an array in a callee in another crate",
        plantings: &[plant(
            Inside("pdu::rules::signal_size"),
            "let scratch = [0u8; 64];",
        )],
        found: Some((0, LONG)),
    },
    Plant {
        what: "a value [v; n] in the writer",
        plantings: &[plant(
            Inside("writer::signal::put_network"),
            "let scratch = [0u16; 17];",
        )],
        found: Some((0, "array of 34 bytes")),
    },
    Plant {
        what: "an array in a public writer",
        plantings: &[plant(
            Inside("writer::write_signal"),
            "let scratch = [0u8; 64];",
        )],
        found: Some((0, LONG)),
    },
    Plant {
        what: "33 bytes",
        plantings: &[plant(Inside("wire::zero"), "let scratch = [0u8; 33];")],
        found: Some((0, "array of 33 bytes")),
    },
    Plant {
        what: "32 bytes are allowed",
        plantings: &[plant(
            Inside("wire::zero"),
            "let scratch: [u8; 32] = [0u8; 32];",
        )],
        found: None,
    },
    Plant {
        what: "a list of 5 numbers of 8 bytes",
        plantings: &[plant(
            Inside("wire::zero"),
            "let scratch = [0u64, 1, 2, 3, 4];",
        )],
        found: Some((0, "array of 40 bytes")),
    },
    Plant {
        what: "a list of 4 numbers of 8 bytes is allowed",
        plantings: &[plant(
            Inside("wire::zero"),
            "let scratch = [v as u64, 1, 2, 3];",
        )],
        found: None,
    },
    Plant {
        what: "an array of arrays",
        plantings: &[plant(
            Inside("wire::zero"),
            "let scratch = [[0u8; 11]; 3];",
        )],
        found: Some((0, "array of 33 bytes")),
    },
    Plant {
        what: "an array of structs",
        plantings: &[plant(
            Inside("writer::signal::put_network"),
            "let scratch = [pdu::Network { npg: 0 }; 2];",
        )],
        found: Some((0, "bytes, and 32 are allowed")),
    },
    Plant {
        what: "a length that is a constant of another crate",
        plantings: &[plant(
            Inside("writer::header::put"),
            "let scratch = [0u8; pdu::TRANSMITTER_SIZE];",
        )],
        found: Some((0, "array of 112 bytes")),
    },
    Plant {
        what: "a length that is reckoned",
        plantings: &[plant(
            Inside("writer::header::put"),
            "let scratch = [0u8; (pdu::FILL + 5) as usize * 0x4];",
        )],
        found: Some((0, "array of 36 bytes")),
    },
    Plant {
        what: "a length that cannot be told",
        plantings: &[plant(Inside("wire::zero"), "let scratch = [0u8; at];")],
        found: Some((0, "length cannot be told")),
    },
    Plant {
        what: "elements that do not tell their type",
        plantings: &[plant(Inside("wire::zero"), "let scratch = [v; 2];")],
        found: Some((0, "do not tell their type")),
    },
    Plant {
        what: "a byte string",
        plantings: &[plant(
            Inside("wire::zero"),
            "let text = b\"123456789012345678901234567890123\";",
        )],
        found: Some((0, "array of 33 bytes")),
    },
    Plant {
        what: "an array behind a reference in a signature",
        plantings: &[
            plant(Behind("wire"), "pub fn planted(scratch: &mut [u8; 64]) {}"),
            plant(Inside("writer::header::put"), "wire::planted(scratch);"),
        ],
        found: Some((0, LONG)),
    },
    Plant {
        what: "an array that a callee answers",
        plantings: &[
            plant(Behind("wire"), "pub fn planted() -> [u8; 64] { planted() }"),
            plant(
                Inside("writer::header::put"),
                "let scratch = wire::planted();",
            ),
        ],
        found: Some((0, LONG)),
    },
    Plant {
        what: "an array in a field of a struct",
        plantings: &[
            plant(
                Behind("pdu"),
                "pub struct Planted { pub first: u8, pub rows: [u8; 64] }",
            ),
            plant(Inside("writer::header::put"), "let scratch: pdu::Planted;"),
        ],
        found: Some((0, LONG)),
    },
    Plant {
        what: "an array in a struct inside a struct, made by a literal",
        plantings: &[
            plant(
                Behind("pdu"),
                "pub struct Planted { pub inner: Inner } pub struct Inner(pub [u8; 64]);",
            ),
            plant(
                Inside("writer::header::put"),
                "let scratch = pdu::Planted { inner: scratch };",
            ),
        ],
        found: Some((0, LONG)),
    },
    Plant {
        what: "an array in a variant of an enum",
        plantings: &[
            plant(
                Behind("pdu"),
                "pub enum Planted { Nothing, Rows { rows: [u8; 64] } }",
            ),
            plant(
                Inside("writer::header::put"),
                "let scratch = pdu::Planted::Nothing;",
            ),
        ],
        found: Some((0, LONG)),
    },
    Plant {
        what: "an array in a constant",
        plantings: &[
            plant(Behind("pdu"), "pub const PLANTED: [u8; 64] = [0u8; 64];"),
            plant(
                Inside("writer::header::put"),
                "let first = pdu::PLANTED[0];",
            ),
        ],
        found: Some((0, LONG)),
    },
    Plant {
        what: "an array by another name of its type",
        plantings: &[
            plant(Behind("pdu"), "pub type Planted = [u8; 64];"),
            plant(
                Inside("writer::header::put"),
                "let scratch: &mut pdu::Planted = scratch;",
            ),
        ],
        found: Some((0, LONG)),
    },
    Plant {
        what: "a callee in another crate, by its path",
        plantings: &[
            CALLEE,
            plant(Inside("writer::header::put"), "wire::planted();"),
        ],
        found: Some((0, LONG)),
    },
    Plant {
        what: "a callee in a crate that has the name of a function",
        plantings: &[
            CALLEE,
            plant(Behind("writer::header"), "fn wire() {}"),
            plant(Inside("writer::header::put"), "wire::planted();"),
        ],
        found: Some((0, LONG)),
    },
    Plant {
        what: "a callee by an import under another name",
        plantings: &[
            CALLEE,
            plant(
                Behind("writer::header"),
                "use wire::{put, planted as other};",
            ),
            plant(Inside("writer::header::put"), "other();"),
        ],
        found: Some((0, LONG)),
    },
    Plant {
        what: "a callee by an import of an import",
        plantings: &[
            CALLEE,
            plant(Behind("pdu"), "pub use wire::planted as passed_on;"),
            plant(Inside("writer::header::put"), "pdu::passed_on();"),
        ],
        found: Some((0, LONG)),
    },
    Plant {
        what: "a callee in the module above",
        plantings: &[
            plant(
                Behind("writer"),
                "fn planted() { let scratch = [0u8; 64]; }",
            ),
            plant(Inside("writer::header::put"), "super::planted();"),
        ],
        found: Some((0, LONG)),
    },
    Plant {
        what: "a callee in a module inside a file",
        plantings: &[
            plant(
                Behind("writer"),
                "mod inside { pub fn planted() { let scratch = [0u8; 64]; } }",
            ),
            plant(Inside("writer::header::put"), "crate::inside::planted();"),
        ],
        found: Some((0, LONG)),
    },
    Plant {
        what: "a callee of a callee, among arguments",
        plantings: &[
            CALLEE,
            plant(
                Behind("pdu::rules"),
                "pub fn between(a: u8) -> u8 { if a < 1 { return a; } wire::planted(); a }",
            ),
            plant(
                Inside("writer::header::put"),
                "wire::put(out, 0, pdu::rules::between(h.version));",
            ),
        ],
        found: Some((0, LONG)),
    },
    Plant {
        what: "a function that is named and called later",
        plantings: &[
            CALLEE,
            plant(Inside("writer::header::put"), "let later = wire::planted;"),
        ],
        found: Some((0, LONG)),
    },
    Plant {
        what: "a function that nobody calls may have one",
        plantings: &[CALLEE],
        found: None,
    },
    Plant {
        what: "contracts and comments are no code",
        plantings: &[
            plant(
                Behind("wire"),
                "pub fn planted(v: u8) requires { v ≤ [0u8; 64] } requires* low { ⊤ₛ } ensures says { { [0u8; 64] } } { // [0u8; 64]\n }",
            ),
            plant(Inside("writer::header::put"), "wire::planted(0);"),
        ],
        found: None,
    },
    Plant {
        what: "a ghost field is no code, and the fields beside it are",
        plantings: &[
            plant(
                Behind("wire"),
                "pub struct Planted { ghost few: { [0u8; 64] }, scratch: [u8; 64] }",
            ),
            plant(Inside("writer::header::put"), "let planted: wire::Planted;"),
        ],
        found: Some((0, LONG)),
    },
    Plant {
        what: "a call that is nowhere",
        plantings: &[plant(Inside("writer::header::put"), "nowhere(out);")],
        found: Some((0, UNRESOLVED)),
    },
    Plant {
        what: "a call into a crate that is nowhere",
        plantings: &[plant(
            Inside("pdu::rules::signal_size"),
            "nowhere::put(out);",
        )],
        found: Some((0, UNRESOLVED)),
    },
    Plant {
        what: "a call that its module does not have",
        plantings: &[plant(Inside("writer::header::put"), "wire::nowhere(out);")],
        found: Some((0, UNRESOLVED)),
    },
    Plant {
        what: "a function of a type",
        plantings: &[plant(
            Inside("writer::header::put"),
            "let other = pdu::Header::new();",
        )],
        found: Some((0, UNRESOLVED)),
    },
    Plant {
        what: "a function of a trait",
        plantings: &[plant(
            Inside("writer::header::put"),
            "<u8 as Wide>::put(out);",
        )],
        found: Some((0, "begins with no name")),
    },
    Plant {
        what: "a function by its types",
        plantings: &[
            plant(
                Behind("wire"),
                "pub fn planted<T: Copy>() { let scratch = [0u8; 64]; }",
            ),
            plant(Inside("writer::header::put"), "wire::planted::<u8>();"),
        ],
        found: Some((0, LONG)),
    },
    Plant {
        what: "an array among the types of a call",
        plantings: &[
            plant(Behind("wire"), "pub fn planted<T>() {}"),
            plant(
                Inside("writer::header::put"),
                "wire::planted::<Option<[u8; 64]>>();",
            ),
        ],
        found: Some((1, LONG)),
    },
    Plant {
        what: "a function of a type, in another crate",
        plantings: &[
            plant(
                Behind("pdu"),
                "impl Header { fn planted() { let scratch = [0u8; 64]; } }",
            ),
            plant(Inside("writer::header::put"), "pdu::Header::planted();"),
        ],
        found: Some((0, LONG)),
    },
    Plant {
        what: "a method, whatever its type",
        plantings: &[
            plant(
                Behind("pdu"),
                "impl Network { pub fn planted(self) -> Result<(), u8> { let scratch = [0u8; 64]; Ok(()) } }",
            ),
            plant(Inside("writer::header::put"), "other.planted();"),
        ],
        found: Some((0, LONG)),
    },
    Plant {
        what: "a method that only a crate has that is not seen",
        plantings: &[
            plant(
                Behind("writer"),
                "impl Inside { pub fn planted(self) {} }",
            ),
            plant(Inside("wire::copy"), "other.planted();"),
        ],
        found: Some((1, UNRESOLVED)),
    },
    Plant {
        what: "a method of the type of a function's parameter",
        plantings: &[
            plant(
                Behind("wire"),
                "pub trait Wide { fn planted(self); } impl Wide for u8 { fn planted(self) { let scratch = [0u8; 64]; } } pub fn other<T: Wide>(v: T) { T::planted(v); }",
            ),
            plant(Inside("writer::header::put"), "wire::other(1u8);"),
        ],
        found: Some((0, LONG)),
    },
    Plant {
        what: "a method that a trait has for all",
        plantings: &[
            plant(
                Behind("wire"),
                "pub trait Wide { fn planted(self) { let scratch = [0u8; 64]; } } impl Wide for u8 {}",
            ),
            plant(Inside("writer::header::put"), "1u8.planted();"),
        ],
        found: Some((0, LONG)),
    },
    Plant {
        what: "a constant of the type of a function's parameter",
        plantings: &[
            plant(
                Behind("wire"),
                "pub trait Wide { const PLANTED: [u8; 64]; } impl Wide for u8 { const PLANTED: [u8; 64] = [0u8; 64]; } pub fn other<T: Wide>() -> u8 { T::PLANTED[0] }",
            ),
            plant(Inside("writer::header::put"), "wire::other::<u8>();"),
        ],
        found: Some((0, LONG)),
    },
    Plant {
        what: "an operator",
        plantings: &[plant(
            Behind("pdu"),
            "impl PartialEq for Other { fn eq(&self, other: &Self) -> bool { let scratch = [0u8; 64]; true } }",
        )],
        found: Some((0, LONG)),
    },
    Plant {
        what: "a function that is written out for a formatter alone is not called",
        plantings: &[plant(
            Behind("pdu"),
            "impl fmt::Debug for Other { fn fmt(&self) -> bool { let scratch = [0u8; 64]; true } }",
        )],
        found: None,
    },
    Plant {
        what: "a closure",
        plantings: &[plant(
            Inside("wire::copy"),
            "let yes = src.iter().all(|b| [0u8; 64][0] == *b);",
        )],
        found: Some((0, LONG)),
    },
    Plant {
        what: "an array in a type that may be none",
        plantings: &[plant(
            Inside("wire::zero"),
            "let scratch: Option<Result<[u8; 64], u8>> = None;",
        )],
        found: Some((0, LONG)),
    },
    Plant {
        what: "an array of a type that may be none",
        plantings: &[plant(
            Inside("wire::zero"),
            "let scratch: [Option<u32>; 5];",
        )],
        found: Some((0, "array of 40 bytes")),
    },
    Plant {
        what: "an array of a type that is a parameter",
        plantings: &[
            plant(
                Behind("wire"),
                "pub fn planted<T: Copy>(v: T) { let scratch = [v; 2]; }",
            ),
            plant(Inside("writer::header::put"), "wire::planted(0u8);"),
        ],
        found: Some((0, "is not known")),
    },
    Plant {
        what: "a length that is a parameter",
        plantings: &[
            plant(
                Behind("wire"),
                "pub fn planted<const N: usize>() { let scratch = [0u8; N]; }",
            ),
            plant(Inside("writer::header::put"), "wire::planted::<2>();"),
        ],
        found: Some((0, "length cannot be told")),
    },
    Plant {
        what: "a list of a parameter's fields",
        plantings: &[plant(
            Inside("writer::transmitter::put_antenna"),
            "let scratch = [a.x, a.y, a.z, a.x, a.y];",
        )],
        found: Some((0, "array of 40 bytes")),
    },
    Plant {
        what: "a list of a parameter that is bound anew",
        plantings: &[plant(
            Inside("wire::zero"),
            "let n = other; let scratch = [n, n];",
        )],
        found: Some((0, "do not tell their type")),
    },
    Plant {
        what: "a list of elements of a slice",
        plantings: &[plant(
            Inside("wire::copy"),
            "let scratch = [[src[0]; 11], [src[1]; 11], [src[2]; 11]];",
        )],
        found: Some((0, "array of 33 bytes")),
    },
    Plant {
        what: "a macro whose tests are read",
        plantings: &[plant(
            Inside("wire::zero"),
            "let yes = matches!(at, 1 | 2) || matches!([0u8; 64][at], 1);",
        )],
        found: Some((0, LONG)),
    },
    Plant {
        what: "a method that is not the language's",
        plantings: &[plant(Inside("wire::copy"), "out.reverse();")],
        found: Some((0, UNRESOLVED)),
    },
    Plant {
        what: "a macro",
        plantings: &[plant(Inside("wire::copy"), "vec![0u8; 64];")],
        found: Some((0, "uses a macro")),
    },
    Plant {
        what: "a call of a value",
        plantings: &[plant(Inside("wire::copy"), "(later)(out);")],
        found: Some((0, "calls a value")),
    },
    Plant {
        what: "a function that is handed in",
        plantings: &[
            plant(
                Behind("wire"),
                "pub fn planted(later: fn(u8)) { later(0); }",
            ),
            plant(Inside("writer::header::put"), "wire::planted(later);"),
        ],
        found: Some((0, UNRESOLVED)),
    },
    Plant {
        what: "a type that is nowhere",
        plantings: &[plant(
            Inside("writer::header::put"),
            "let scratch = Nowhere { rows: 0 };",
        )],
        found: Some((0, UNRESOLVED)),
    },
    Plant {
        what: "an item inside a function",
        plantings: &[plant(
            Inside("writer::header::put"),
            "use wire::put as other;",
        )],
        found: Some((0, "declares an item inside")),
    },
    Plant {
        what: "an import of everything",
        plantings: &[plant(Behind("writer::header"), "use wire::*;")],
        found: Some((0, "where a name is expected")),
    },
    Plant {
        what: "an item that is not known",
        plantings: &[plant(Behind("wire"), "macro_rules! planted { () => {} }")],
        found: Some((0, "which is not known")),
    },
    Plant {
        what: "a bracket that is not closed",
        plantings: &[plant(
            Behind("wire"),
            "fn planted() { let scratch = [0u8; 64;",
        )],
        found: Some((0, "not closed")),
    },
    Plant {
        what: "a contract that does not end",
        plantings: &[plant(Behind("wire"), "fn planted() ensures { [0u8; 64] {")],
        found: Some((0, "does not end")),
    },
];
