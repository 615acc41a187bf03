//! Stages that are too deep are noticed: the example with its answers, or other bytes, on the stack; and
//! callers that do not call what they are to call.

use stack::archive::{Figures, Texts};
use stack::report::verdict;
use stack::stage::{changed, Stages, Whole};
use stack::{archive_path, root};
use std::fs;

fn example() -> String {
    fs::read_to_string(root().join("examples/synopsis.c")).expect("the example")
}

/// The stage of the example with these changes.
fn stage(changes: &[(&str, &str)]) -> Result<Whole, String> {
    let text = changed(&example(), changes)?;
    let stages = Stages::new(&archive_path(), &text, &["mve_step"])?;
    Ok(stages.calls["mve_step"].clone())
}

/// The answers on the stack: the stage is larger by their 416 bytes, by both measurements, and too large.
#[test]
fn answers_on_the_stack() {
    let line = "static struct mve_stepped answers[2];";
    let begin = "&answers[0], MVE_STEPPED_NUMBERS, palette, sizeof palette, &place);";
    let changes = [
        (line, "static struct mve_stepped *answers;"),
        (begin, "answers, MVE_STEPPED_NUMBERS, palette, sizeof palette, &place);"),
        (
            "    size_t kind = begin();",
            "    struct mve_stepped local[2];\n    answers = local;\n    size_t kind = begin();",
        ),
    ];
    let (right, wrong) = (stage(&[]).expect("a stage"), stage(&changes).expect("a stage"));
    for (right, wrong) in
        [(right.chain.bytes(), wrong.chain.bytes()), (right.painted, wrong.painted)]
    {
        assert!((390..=450).contains(&(wrong - right)), "{right}, {wrong}");
    }
    assert!(right.bytes() <= 1024 && wrong.bytes() > 1024, "{right:?}, {wrong:?}");
    let calls = [("mve_step".to_string(), wrong)];
    let stages = Stages { compiler: String::new(), calls: calls.into() };
    let figures = Figures::new(&Texts::of(&archive_path()).expect("the archive")).expect("figures");
    let fault = "more than 1024 bytes of stack with a least caller: mve_step";
    assert_eq!(verdict(&figures, &stages), Err(fault.to_string()));
}

/// Bytes that only the opening takes count where they make it the deepest.
#[test]
fn bytes_below_the_opening() {
    let begin = "    return mve_begin(";
    let own = "    volatile uint8_t own[3000];\n    own[0] = own[2999] = 1;\n    return own[0] - 1 + mve_begin(";
    let wrong = stage(&[(begin, own)]).expect("a stage");
    assert!(wrong.painted > 3000 && wrong.painted <= wrong.chain.bytes(), "{wrong:?}");
    assert!(wrong.chain.0.iter().any(|(name, _)| name == "mve_begin"), "{wrong:?}");
}

#[test]
fn stages_that_are_not_measured() {
    // The example has another text.
    let fault = stage(&[("MVE_ALL_STORES", "312000")]).expect_err("no such text");
    assert_eq!(fault, "MVE_ALL_STORES stands 0 times in the example, not once");
    // It does not step.
    let call = "        kind = mve_step(film,";
    let fault = stage(&[(call, "        kind = MVE_ENDED; if (0) mve_step(film,")]);
    let fault = fault.expect_err("no step");
    assert_eq!(fault, "the example as it stands: stage does not call mve_step of the archive");
    // It calls what is not known.
    let fault = stage(&[("size_t kind = begin();", "size_t kind = begin(); getchar();")]);
    let fault = fault.expect_err("a call of the C library");
    assert!(fault.contains(", of which nothing is known"), "{fault}");
    // It does not compile.
    assert!(stage(&[("size_t kind = begin();", "size_t kind = begun();")]).is_err());
    // A call without a caller.
    let fault = Stages::new(&archive_path(), &example(), &["mve_other"]).expect_err("no caller");
    assert_eq!(fault, "call_mve_other does not call mve_other of the archive");
}

/// Every call that is exported has a caller.
#[test]
fn a_caller_for_each_call() {
    let figures = Figures::new(&Texts::of(&archive_path()).expect("the archive")).expect("figures");
    let callers = fs::read_to_string(root().join("host/stack/c/callers.c")).expect("the callers");
    for name in figures.calls.keys().filter(|name| **name != "mve_step") {
        assert!(callers.contains(&format!("void call_{name}(void) {{\n")), "{name}");
    }
}
