//! The declarations of the wrapper are those of the header, name by name and type by type.

/// The text without comments, each run of white space as one space, none beside brackets, commas and stars.
fn bare(text: &str) -> String {
    let mut text: String = text.split_whitespace().collect::<Vec<_>>().join(" ");
    for sign in ["(", ")", ",", "*"] {
        for spaced in [format!("{sign} "), format!(" {sign}")] {
            text = text.replace(&spaced, sign);
        }
    }
    text
}

/// A parameter of Rust as C has it.
fn as_c(parameter: &str) -> String {
    let (name, kind) = parameter.split_once(": ").expect("a parameter has a type");
    match kind {
        "*mut u8" => format!("uint8_t *{name}"),
        "*const u8" => format!("const uint8_t *{name}"),
        "usize" => format!("size_t {name}"),
        "u8" => format!("uint8_t {name}"),
        _ => panic!("C has no type for {kind}"),
    }
}

#[test]
fn header_declares_the_same() {
    let header = bare(include_str!("../../include/zelcandry.h"));
    let own = include_str!("../src/lib.rs").split("pub fn zelcandry_").skip(1);
    let mut count = 0;
    for declaration in own {
        let (name, rest) = declaration.split_once('(').unwrap();
        let (parameters, rest) = rest.split_once(')').unwrap();
        assert!(rest.starts_with(" -> u64;"));
        let parameters: Vec<String> =
            parameters.split(',').map(str::trim).filter(|p| !p.is_empty()).map(as_c).collect();
        let wanted = format!("uint64_t zelcandry_{name}({});", parameters.join(", "));
        assert!(header.contains(&bare(&wanted)), "the header does not say {wanted}");
        count += 1;
    }
    assert_eq!((count, header.matches("uint64_t zelcandry_").count()), (6, 6));
}
