//! The declarations against the text of the Rattle source: the layouts that its structs have by the rules of C, and the functions that it
//! exports. A struct or a function that is changed there and not here fails.

use certifier::{Prices, SigmaTable, Text, Worth};
use std::mem::{align_of, offset_of, size_of};
use std::path::Path;

/// A field: its name, and where it stands and how long it is in bytes.
type Field = (String, usize, usize);

#[derive(Debug, PartialEq)]
struct Layout {
    size: usize,
    align: usize,
    fields: Vec<Field>,
}

/// All files of a crate's code.
fn source(name: &str) -> String {
    let folder = Path::new(env!("CARGO_MANIFEST_DIR")).join("../../crates").join(name).join("src");
    let files = std::fs::read_dir(&folder).unwrap_or_else(|error| panic!("{}: {error}", folder.display()));
    files.map(|file| std::fs::read_to_string(file.expect("a file").path()).expect("text")).collect()
}

/// A length as the source has it: a number, or the name of a constant.
fn count(source: &str, length: &str) -> usize {
    let named = || {
        let start = format!("const {length}: usize = ");
        let (_, after) = source.split_once(&start).unwrap_or_else(|| panic!("no such constant: {length}"));
        after.split_once(';').expect("the constant ends").0.parse().expect("the constant is a number")
    };
    length.parse().unwrap_or_else(|_| named())
}

/// The size and the alignment of a type as the source names it.
fn measure(source: &str, name: &str) -> (usize, usize) {
    if let Some(array) = name.strip_prefix('[').and_then(|name| name.strip_suffix(']')) {
        let (item, length) = array.split_once(';').expect("an array has a length");
        let (size, align) = measure(source, item.trim());
        return (size * count(source, length.trim()), align);
    }
    let size = match name {
        "u8" => 1,
        "u16" => 2,
        "u32" => 4,
        "u64" => 8,
        "usize" => size_of::<usize>(),
        other => panic!("no size is known for {other}"),
    };
    (size, size)
}

/// The names and types of a struct's fields in the source, which must be laid out as in C.
fn fields_of(source: &str, name: &str) -> Vec<(String, String)> {
    let start = format!("#[repr(C)]\npub struct {name} {{\n");
    let (_, after) = source.split_once(&start).unwrap_or_else(|| panic!("no such struct, or not as in C: {name}"));
    let (body, _) = after.split_once("\n}").expect("the struct ends");
    let field = |line: &str| {
        let field = line.trim().strip_prefix("pub ").and_then(|line| line.strip_suffix(','));
        let (name, of) = field.and_then(|field| field.split_once(": ")).expect("a public field");
        (name.to_string(), of.to_string())
    };
    body.lines().map(field).collect()
}

/// The layout by the rules of C: each field at the next multiple of its alignment, and the whole a multiple of the largest.
fn expected(source: &str, name: &str) -> Layout {
    let mut layout = Layout { size: 0, align: 1, fields: Vec::new() };
    for (field, of) in fields_of(source, name) {
        let (size, align) = measure(source, &of);
        let offset = layout.size.next_multiple_of(align);
        layout.fields.push((field, offset, size));
        layout.size = offset + size;
        layout.align = layout.align.max(align);
    }
    layout.size = layout.size.next_multiple_of(layout.align);
    layout
}

/// The layout of a declaration, with the named fields of it.
macro_rules! declared {
    ($of:ident { $($field:ident: $type:ty),* }) => {{
        let _all = |it: $of| { let $of { $($field),* } = it; $(let _: $type = $field;)* };
        let fields = vec![$((stringify!($field).to_string(), offset_of!($of, $field), size_of::<$type>())),*];
        Layout { size: size_of::<$of>(), align: align_of::<$of>(), fields }
    }};
}

#[test]
fn worth_is_laid_out_as_in_the_source() {
    let declared = declared!(Worth { number: u32, value: u32 });
    assert_eq!(declared, expected(&source("winners"), "Worth"));
}

#[test]
fn surpluses_are_laid_out_as_in_the_source() {
    let declared = declared!(SigmaTable { number: u32, value: u64, sigma: [u64; 64] });
    assert_eq!(declared, expected(&source("winners"), "SigmaTable"));
}

#[test]
fn prices_are_laid_out_as_in_the_source() {
    let declared = declared!(Prices { number: u32, w: u32, q: u32, prices: [u64; 6] });
    assert_eq!(declared, expected(&source("judge"), "Prices"));
}

#[test]
fn text_is_laid_out_as_in_the_source() {
    let declared = declared!(Text { bytes: [u8; 128], len: usize });
    assert_eq!(declared, expected(&source("text"), "Text"));
}

/// A slice is handed over as a pointer and a length, which is how the declarations have it.
#[test]
fn the_source_exports_what_is_declared() {
    let source = source("exports");
    let exported: Vec<&str> = source.lines().filter_map(|line| line.strip_prefix("pub extern \"C\" fn ")).collect();
    let declared = [
        "gimletsorrel_greatest_value(book: &[u8], discard: u8) -> Worth",
        "gimletsorrel_surpluses(book: &[u8]) -> SigmaTable",
        "gimletsorrel_judge_sheet(input: &[u8]) -> Prices",
        "gimletsorrel_price_list(input: &[u8]) -> Text",
        "gimletsorrel_version() -> u32",
    ];
    assert_eq!(exported, declared);
    for line in ["use winners::{SigmaTable, Worth};", "use judge::Prices;", "use text::Text;"] {
        assert!(source.lines().any(|other| other == line), "{line}");
    }
}

/// The layouts are worked out rightly: a byte before a number leaves a gap, and the end is filled up.
#[test]
fn gaps_are_counted() {
    let source = "#[repr(C)]\npub struct Gap {\n    pub a: u8,\n    pub b: u64,\n    pub c: [u16; 3],\n}\n";
    let field = |name: &str, offset, size| (name.to_string(), offset, size);
    let fields = vec![field("a", 0, 1), field("b", 8, 8), field("c", 16, 6)];
    assert_eq!(expected(source, "Gap"), Layout { size: 24, align: 8, fields });
}
