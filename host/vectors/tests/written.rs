//! The files written for the packet check are those that would be written now.

use std::fs;
use std::path::Path;

/// The command that writes the files, given in this workspace's folder.
const REWRITE: &str = "cargo run --release -p vectors -- \
                       ../crates/packet_vectors/stdin ../crates/packet_vectors/stdout";

#[test]
fn files_are_up_to_date() {
    let folder = Path::new(env!("CARGO_MANIFEST_DIR")).join("../../crates/packet_vectors");
    let now = vectors::generate();
    for (name, expected) in [("stdin", now.input), ("stdout", now.output)] {
        match fs::read(folder.join(name)) {
            Ok(written) => {
                assert!(written == expected, "packet_vectors/{name} differs; rewrite: {REWRITE}");
            }
            Err(error) => panic!("packet_vectors/{name}: {error}; write it: {REWRITE}"),
        }
    }
}
