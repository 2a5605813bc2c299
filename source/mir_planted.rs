//! Tests of the test: small texts in the form of the compiler's MIR. What is planted must be found.

use crate::mir::{add, follow, Mir};

pub struct Plant {
    pub what: &'static str,
    text: &'static str,
    /// What is said of it; nothing where nothing may be.
    found: Option<&'static str>,
}

const LEAF: &str = r#"[["leaf",{"locals":[{"ty":"Bool"}],"body":["Return"]}]]"#;

pub const PLANTS: &[Plant] = &[
    Plant {
        what: "MIR: a local of 64 bytes",
        text: r#"[["from",{"locals":[{"ty":{"Array":[{"Int":8},{"Lit":64}]}}],"body":["Return"]}]]"#,
        found: Some("`from` has an array of 64 bytes"),
    },
    Plant {
        what: "MIR: a local of 32 bytes is allowed",
        text: r#"[["from",{"locals":[{"ty":{"Array":[{"Int":64},{"Lit":4}]}}],"body":["Return"]}]]"#,
        found: None,
    },
    Plant {
        what: "MIR: an array behind a reference",
        text: r#"[["from",{"locals":[{"ty":{"Ref":[{"Named":0},"Mut",{"Array":[{"Int":16},{"Lit":17}]}]}}],"body":[]}]]"#,
        found: Some("an array of 34 bytes"),
    },
    Plant {
        what: "MIR: an array of arrays",
        text: r#"[["from",{"locals":[{"ty":{"Array":[{"Array":[{"Int":8},{"Lit":11}]},{"Lit":3}]}}],"body":[]}]]"#,
        found: Some("an array of 33 bytes"),
    },
    Plant {
        what: "MIR: an array of structs",
        text: r#"[["from",{"locals":[{"ty":{"Array":[{"Named":[{"name":"p::P"},[]]},{"Lit":1}]}}],"body":[]}]]"#,
        found: Some("cannot be told"),
    },
    Plant {
        what: "MIR: a long array in a callee of a callee",
        text: r#"[["from",{"locals":[],"body":["Seq",{"Call":[{"Fn":["mid",{}]},[],{"local":0}]},"Return"]}],
            ["mid",{"locals":[],"body":[{"Call":[{"Fn":["low",{}]},[],{"local":0}]}]}],
            ["low",{"locals":[{"ty":{"Array":[{"Int":8},{"Lit":33}]}}],"body":[]}]]"#,
        found: Some("`low` has an array of 33 bytes"),
    },
    Plant {
        what: "MIR: a long array in what nobody calls",
        text: r#"[["from",{"locals":[],"body":["Return"]}],
            ["low",{"locals":[{"ty":{"Array":[{"Int":8},{"Lit":33}]}}],"body":[]}]]"#,
        found: None,
    },
    Plant {
        what: "MIR: a callee that the compiler does not have",
        text: r#"[["from",{"locals":[],"body":[{"Call":[{"Fn":["core::gone",{}]},[],{"local":0}]}]}]]"#,
        found: Some("no `core::gone`"),
    },
    Plant {
        what: "MIR: a long array in a function of an impl that is handed on",
        text: r#"[["from",{"locals":[],"body":[{"Call":[{"Fn":["mid",{"types":[],"dicts":[{"Impl":["U8Wide",[],[]]}]}]},[],{"local":0}]}]}],
            ["mid",{"locals":[],"body":[{"Call":[{"Method":[{"Given":0},1,{"types":[],"dicts":[]}]},[],{"local":0}]}]}],
            ["U8Wide::low",{"generics":{"method_of":{"Impl":["U8Wide",0]}},"locals":[{"ty":{"Array":[{"Int":8},{"Lit":33}]}}],"body":[]}]]"#,
        found: Some("`U8Wide::low` has an array of 33 bytes"),
    },
    Plant {
        what: "MIR: a long array in a function of an impl that is not handed on",
        text: r#"[["from",{"generics":{"method_of":{"Impl":["U8Wide",1]}},"locals":[],"body":["Return"]}],
            ["U8Wide::low",{"generics":{"method_of":{"Impl":["U8Wide",0]}},"locals":[{"ty":{"Array":[{"Int":8},{"Lit":33}]}}],"body":[]}]]"#,
        found: None,
    },
    Plant {
        what: "MIR: an impl that the compiler does not have",
        text: r#"[["from",{"locals":[],"body":[{"Call":[{"Fn":["leaf",{"types":[],"dicts":[{"Impl":["U8Gone",[],[]]}]}]},[],{"local":0}]}]}]]"#,
        found: Some("no functions of `U8Gone`"),
    },
    Plant {
        what: "MIR: an array of a type that is a parameter",
        text: r#"[["from",{"locals":[{"ty":{"Array":[{"Param":0},{"Lit":2}]}}],"body":[]}]]"#,
        found: Some("cannot be told"),
    },
    Plant {
        what: "MIR: a call of a value",
        text: r#"[["from",{"locals":[],"body":[{"Call":[{"Copy":{"local":1}},[],{"local":0}]}]}]]"#,
        found: Some("`from` calls a value"),
    },
];

/// Whether what is planted is found; else what went wrong.
pub fn holds(plant: &Plant) -> Result<(), String> {
    let mut mir = Mir::default();
    add(&mut mir, plant.text)?;
    add(&mut mir, LEAF)?;
    let says = follow(&mir, ["from".to_string(), "leaf".to_string()]).says;
    let right = match plant.found {
        None => says.is_empty(),
        Some(found) => says.len() == 1 && says[0].contains(found),
    };
    right.then_some(()).ok_or_else(|| format!("found {says:?}"))
}
