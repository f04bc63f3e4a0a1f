//! The page that tells what the files are and what each case shows.

use super::{Case, Group};

const BEGINNING: &str = "\
# Streams and what the program prints of them

For whoever writes another implementation of document 01. `NAME.stream` holds the bytes of a stream, and `NAME.printed`
exactly what the program prints when it is fed them, up to the newline after the last line. No implementation made them but
the second program, which is written from the papers alone.

    for stream in *.stream; do
        ./your-program < \"$stream\" | cmp - \"${stream%.stream}.printed\"
    done

The name of a stream that is refused begins with `refused` and the answer. Most of these are made from an accepted stream by
one bit or byte, and the table tells which. Bits and bytes count as in document 01: bit 0 is the highest bit of byte 0.

Every file here, this page too, is made by the first of these commands, and compared by the second and by the tests of the
second program:

    cargo run --release --offline --locked --manifest-path tests/second/Cargo.toml --bin make_cases
    cargo run --release --offline --locked --manifest-path tests/second/Cargo.toml --bin make_cases -- --check
";

const MOST_BYTES_SHOWN: usize = 16;
const MOST_PRINTED_SHOWN: usize = 60;

pub fn text(groups: &[Group]) -> String {
    BEGINNING.to_owned() + &groups.iter().map(section).collect::<String>()
}

fn section(group: &Group) -> String {
    let rows: String = group.cases.iter().map(row).collect();
    format!("\n## {}\n\n| Name | Shows | Bytes | Printed |\n|---|---|---|---|\n{rows}", group.title)
}

fn row(case: &Case) -> String {
    format!("| {} | {} | {} | {} |\n", case.name, case.shows, bytes(&case.bytes), printed(&case.printed))
}

fn bytes(bytes: &[u8]) -> String {
    match bytes.len() {
        0 => "none".to_owned(),
        1..=MOST_BYTES_SHOWN => bytes.iter().map(|byte| format!("{byte:02X}")).collect::<Vec<_>>().join(" "),
        count => format!("{count} bytes"),
    }
}

fn printed(printed: &str) -> String {
    if printed.len() > MOST_PRINTED_SHOWN {
        return format!("{} lines", printed.lines().count());
    }
    printed.lines().map(|line| format!("`{line}`")).collect::<Vec<_>>().join(" ")
}
