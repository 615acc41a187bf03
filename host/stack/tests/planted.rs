//! Small planted listings: the bytes of each are counted here by hand, and what cannot be counted
//! must be told.

use stack::archive::{Figures, Texts};
use stack::frames::{deepest, frames, Chain};
use stack::listing::Listing;
use stack::report::{gate_stages, gate_text, header_stages, header_table, page_stages, page_table};
use stack::report::{stages_in_header, table_in_header, tables_in_page, verdict};
use stack::stage::{Stages, Whole};

const OBJECT: &str = "mve.o:     file format elf64-x86-64\n";

/// Functions, each in a section of its own. An instruction's address is its number; what begins
/// with `R_` is filled in in the one before.
fn disassembly(functions: &[(&str, &[&str])]) -> String {
    let mut text = OBJECT.to_string();
    for (name, lines) in functions {
        text += &format!("\nDisassembly of section .text.{name}:\n\n0000000000000000 <{name}>:\n");
        text += &instructions(0, lines);
    }
    text
}

fn instructions(start: usize, lines: &[&str]) -> String {
    let mut at = start;
    let mut text = String::new();
    for line in lines {
        if line.starts_with("R_") {
            text += &format!("\t\t\t{at:x}: {line}\n");
        } else {
            text += &format!("  {at:x}:\t{line}\n");
            at += 1;
        }
    }
    text
}

/// The entries of a jump table in its section: each entry's offset, and where the linker counts to.
fn table(section: &str, entries: &[(u64, &str)]) -> String {
    let rows =
        entries.iter().map(|(offset, value)| format!("{offset:016x} R_X86_64_PC32     {value}\n"));
    let rows: String = rows.collect();
    format!(
        "RELOCATION RECORDS FOR [{section}]:\nOFFSET           TYPE              VALUE\n{rows}\n"
    )
}

/// The chain from `a` on.
fn chain(functions: &[(&str, &[&str])], tables: &str) -> Result<Vec<(String, u64)>, String> {
    let listing = Listing::new(&disassembly(functions), tables)?;
    deepest(&frames(&listing)?, "a").map(|chain| chain.0)
}

fn chain_of(functions: &[(&str, &[&str])]) -> Vec<(String, u64)> {
    chain(functions, "").unwrap_or_else(|fault| panic!("{fault}"))
}

fn named(chain: &[(&str, u64)]) -> Vec<(String, u64)> {
    chain.iter().map(|(name, bytes)| (name.to_string(), *bytes)).collect()
}

/// What is wrong with a function `a` beside a harmless one.
fn fault(lines: &[&str]) -> String {
    chain(&[("a", lines), ("b", &["ret"])], "").expect_err("a fault")
}

#[test]
fn own_bytes() {
    let cases: [(&[&str], u64); 12] = [
        (&["ret"], 8),
        (&["push   %rbp", "push   %rbx", "pop    %rbx", "pop    %rbp", "ret"], 24),
        (&["sub    $0x7d0,%rsp", "add    $0x7d0,%rsp", "ret"], 2008),
        // 128 bytes are taken by adding -128, which is the shorter instruction
        (&["add    $0xffffffffffffff80,%rsp", "sub    $0xffffffffffffff80,%rsp", "ret"], 136),
        (&["push   %rax", "lea    0x8(%rsp),%rsp", "ret"], 16),
        (&["mov    %rax,-0x80(%rsp)", "ret"], 136),
        (&["push   %rbx", "mov    -0x10(%rsp,%rax,8),%rcx", "pop    %rbx", "ret"], 32),
        (&["mov    0x10(%rsp),%rax", "cmpq   $0x0,(%rsp)", "ret"], 8),
        // an address of the stack in a register of a function that calls none: the whole red zone
        (&["lea    0x8(%rsp),%rax", "ret"], 136),
        (&["mov    %rsp,%rax", "push   %rbx", "pop    %rbx", "ret"], 144),
        // two ways, of which one pushes more; they are not added up
        (
            &[
                "je     4 <a+0x4>",
                "push   %rax",
                "pop    %rax",
                "ret",
                "push   %rax",
                "push   %rbx",
                "add    $0x10,%rsp",
                "ret",
            ],
            24,
        ),
        // a loop to the first instruction is no call
        (&["dec    %rdi", "jne    0 <a>", "repz ret", "cs nopw 0x0(%rax,%rax,1)"], 8),
    ];
    for (lines, bytes) in cases {
        assert_eq!(chain_of(&[("a", lines)]), named(&[("a", bytes)]), "{lines:?}");
    }
}

#[test]
fn calls() {
    let b: &[&str] = &["sub    $0x20,%rsp", "add    $0x20,%rsp", "ret"];
    let by_section: &[&str] =
        &["push   %rbx", "call   6 <a+0x6>", "R_X86_64_PLT32\t.text.b-0x4", "pop    %rbx", "ret"];
    assert_eq!(chain_of(&[("a", by_section), ("b", b)]), named(&[("a", 16), ("b", 40)]));
    let by_symbol: &[&str] =
        &["push   %rbx", "call   6 <a+0x6>", "R_X86_64_PLT32\tb-0x4", "pop    %rbx", "ret"];
    assert_eq!(chain_of(&[("a", by_symbol), ("b", b)]), named(&[("a", 16), ("b", 40)]));
    // the deeper of two calls counts, with what lies on the stack at it
    let two: &[&str] = &[
        "call   6 <a+0x6>",
        "R_X86_64_PLT32\tb-0x4",
        "sub    $0x28,%rsp",
        "call   9 <a+0x9>",
        "R_X86_64_PLT32\tc-0x4",
        "add    $0x28,%rsp",
        "ret",
    ];
    assert_eq!(chain_of(&[("a", two), ("b", b), ("c", &["ret"])]), named(&[("a", 48), ("c", 8)]));
    // a jump in place of a call takes over the return address
    let tail: &[&str] =
        &["push   %rbx", "pop    %rbx", "jmp    3 <a+0x3>", "R_X86_64_PLT32\tb-0x4"];
    assert_eq!(chain_of(&[("a", tail), ("b", b)]), named(&[("a", 0), ("b", 40)]));
    let either: &[&str] =
        &["je     5 <a+0x5>", "R_X86_64_PLT32\tb-0x4", "push   %rbx", "pop    %rbx", "ret"];
    assert_eq!(chain_of(&[("a", either), ("b", &["ret"])]), named(&[("a", 16)]));
    // outside the archive the return address counts
    let outside: &[&str] =
        &["push   %rbx", "call   6 <a+0x6>", "R_X86_64_PLT32\tmemset-0x4", "pop    %rbx", "ret"];
    assert_eq!(chain_of(&[("a", outside)]), named(&[("a", 16), ("memset", 8)]));
}

/// A stack pointer that is copied to a register which calls keep, and comes back from there.
#[test]
fn copies_of_the_stack_pointer() {
    let b: &[&str] = &["sub    $0x20,%rsp", "add    $0x20,%rsp", "ret"];
    let round = |between: &'static str| {
        [
            "push   %rbx",
            "sub    $0x10,%rsp",
            "mov    %rsp,%rbx",
            "push   %rax",
            "push   %rbx",
            "call   6 <x>",
            "R_X86_64_PLT32\tb-0x4",
            between,
            "mov    %rbx,%rsp",
            "jne    2 <a+0x2>",
            "add    $0x10,%rsp",
            "pop    %rbx",
            "ret",
        ]
    };
    for between in ["mov    %rbx,%rdi", "cmp    %rax,%rbx", "mov    %rax,(%rbx)", "inc    %rbp"] {
        let found = chain_of(&[("a", &round(between)), ("b", b)]);
        assert_eq!(found, named(&[("a", 48), ("b", 40)]), "{between}");
    }
    for between in ["inc    %rbx", "mov    $0x0,%ebx", "xchg   %rbx,%rax", "movzbl (%rdi),%ebx"] {
        let fault = chain(&[("a", &round(between)), ("b", b)], "").expect_err("another %rbx");
        let told = "a: at 7: it is not read how mov %rbx,%rsp moves the stack pointer";
        assert_eq!(fault, told, "{between}");
    }
    // on one of two ways it is not copied
    let either: &[&str] = &[
        "push   %rbx",
        "je     3 <a+0x3>",
        "mov    %rsp,%rbx",
        "push   %rax",
        "mov    %rbx,%rsp",
        "pop    %rbx",
        "ret",
    ];
    let told = "a: at 4: it is not read how mov %rbx,%rsp moves the stack pointer";
    assert_eq!(fault(either), told);
    // a call may change it
    let other: &[&str] = &["mov    %rsp,%rax", "push   %rbx", "mov    %rax,%rsp", "ret"];
    let told = "a: at 2: it is not read how mov %rax,%rsp moves the stack pointer";
    assert_eq!(fault(other), told);
}

/// Functions in one section call each other without the linker.
#[test]
fn one_section() {
    let a = instructions(0, &["push   %rbx", "call   5 <b>", "pop    %rbx", "ret", "nop"]);
    let b = instructions(
        5,
        &["push   %rax", "push   %rax", "jmp    8 <b+0x3>", "pop    %rax", "pop    %rax", "ret"],
    );
    let section = "Disassembly of section .text:\n\n0000000000000000";
    let text = format!("{OBJECT}{section} <a>:\n{a}\n0000000000000005 <b>:\n{b}");
    let found = frames(&Listing::new(&text, "").expect("a listing")).expect("frames");
    assert_eq!(deepest(&found, "a").expect("a chain").0, named(&[("a", 16), ("b", 24)]));
    let into = text.replace("call   5 <b>", "call   6 <b+0x1>");
    let fault = frames(&Listing::new(&into, "").expect("a listing")).expect_err("a fault");
    assert_eq!(fault, "a: at 1: it is not read where call 6 <b+0x1> goes");
}

#[test]
fn jump_tables() {
    // two tables in one section, the second from byte 8 on; the entries lead to 3, 4 and 6
    let lines: &[&str] = &[
        "lea    0x0(%rip),%rcx        # 7 <a+0x7>",
        "R_X86_64_PC32\t.rodata.a-0x4",
        "lea    0x0(%rip),%rdx        # 7 <a+0x7>",
        "R_X86_64_PC32\t.rodata.a+0x4",
        "jmp    *%rcx",
        "ret",
        "push   %rax",
        "jmp    8 <a+0x8>",
        "sub    $0x18,%rsp",
        "jmp    a <a+0xa>",
        "pop    %rax",
        "ret",
        "add    $0x18,%rsp",
        "notrack jmp *0x8(%rsp)",
    ];
    let entries = [(0, ".text.a+0x3"), (4, ".text.a+0x8"), (8, ".text.a+0x6")];
    assert_eq!(chain(&[("a", lines)], &table(".rodata.a", &entries)), Ok(named(&[("a", 32)])));
    let out = [(0, ".text.a+0x3"), (4, ".text.b+0x4"), (8, ".text.a+0x6")];
    let fault = chain(&[("a", lines), ("b", &["ret"])], &table(".rodata.a", &out));
    assert_eq!(fault, Err("a: .rodata.a leads out of the function".to_string()));
    let fault =
        chain(&[("a", lines), ("b", &[lines[0], lines[1], "ret"])], &table(".rodata.a", &entries));
    assert_eq!(
        fault,
        Err(".rodata.a has addresses and is not one function's jump table".to_string())
    );
    let fault = chain(&[("a", &["ret"])], &table(".data.rel.ro", &[(0, ".text.a")]));
    assert_eq!(
        fault,
        Err(".data.rel.ro has addresses and is not one function's jump table".to_string())
    );
    // the addresses of texts are no jump table, those of a function outside may be called
    let texts = table(".data.rel.ro", &[(0, ".rodata.str1.1"), (8, ".rodata.str1.1+0x4")]);
    assert_eq!(chain(&[("a", &["ret"])], &texts), Ok(named(&[("a", 8)])));
    let fault = chain(&[("a", &["ret"])], &table(".data.rel.ro", &[(0, "memset")]));
    assert_eq!(
        fault,
        Err(".data.rel.ro has addresses and is not one function's jump table".to_string())
    );
}

#[test]
fn recursion() {
    let calls = |name| {
        ["call   5 <x>".to_string(), format!("R_X86_64_PLT32\t{name}-0x4"), "ret".to_string()]
    };
    let (to_a, to_b) = (calls("a"), calls("b"));
    let (to_a, to_b) = (to_a.each_ref().map(|line| &**line), to_b.each_ref().map(|line| &**line));
    assert_eq!(chain(&[("a", &to_a)], ""), Err("a: at 0: it calls itself".to_string()));
    let round = chain(&[("a", &to_b), ("b", &to_a)], "");
    assert_eq!(round, Err("a calls itself, by a, b".to_string()));
}

/// Functions `a` that cannot be followed, and what is said of each.
const UNFOLLOWED: [(&[&str], &str); 22] = [
    (&["call   *%rax", "ret"], "a: at 0: an indirect call"),
    (&["call   *0x8(%rdi)", "ret"], "a: at 0: an indirect call"),
    (&["jmp    *%rax"], "a: at 0: an indirect jump without a jump table"),
    (
        &["lea    0x0(%rip),%rax", "R_X86_64_PC32\t.text.b-0x4", "ret"],
        "a takes the address of .text.b",
    ),
    (&["mov    $0x0,%eax", "R_X86_64_32\tb", "ret"], "a takes the address of b"),
    (&["syscall", "ret"], "a: at 0: a call of the system"),
    (
        &["sub    %rax,%rsp", "ret"],
        "a: at 0: it is not read how sub %rax,%rsp moves the stack pointer",
    ),
    (
        &["mov    %rbp,%rsp", "ret"],
        "a: at 0: it is not read how mov %rbp,%rsp moves the stack pointer",
    ),
    (
        &["and    $0xffffffffffffffe0,%rsp", "ret"],
        "a: at 0: it is not read how and $0xffffffffffffffe0,%rsp moves the stack pointer",
    ),
    (
        &["lea    (%rax),%rsp", "ret"],
        "a: at 0: it is not read how lea (%rax),%rsp moves the stack pointer",
    ),
    (
        &["xchg   %rsp,%rax", "ret"],
        "a: at 0: it is not read how xchg %rsp,%rax moves the stack pointer",
    ),
    (&["pop    %rsp", "ret"], "a: at 0: it is not read how pop %rsp moves the stack pointer"),
    (&["pushf", "ret"], "a: at 0: it is not read how pushf  moves the stack pointer"),
    (&["leave", "ret"], "a: at 0: it is not read how leave  moves the stack pointer"),
    (&["pop    %rax", "ret"], "a: at 0: pop %rax takes the return address"),
    (&["push   %rax", "ret"], "a: at 1: a return with 16 bytes on the stack"),
    (&["je     2 <a+0x2>", "push   %rax", "ret"], "a: at 1: 8 and 16 bytes on the stack at 2"),
    (
        &["push   %rax", "jmp    3 <x>", "R_X86_64_PLT32\tb-0x4"],
        "a: at 1: a jump to b with 16 bytes on the stack",
    ),
    (&["ret", "mov    %rax,%rbx", "ret"], "a: at 1: mov is reached by nothing that is read"),
    (&["nop"], "a: at 0: the function does not end"),
    (
        &["jmp    1 <x>", "R_X86_64_PLT32\t.text.b+0x2"],
        "a: at 0: it is not read where jmp 1 <x> goes",
    ),
    (&["mov    rel(%rsp),%rax", "ret"], "a: at 0: rel(%rsp),%rax is not read"),
];

#[test]
fn what_cannot_be_followed() {
    for (lines, wanted) in UNFOLLOWED {
        assert_eq!(fault(lines), wanted, "{lines:?}");
    }
    assert_eq!(chain(&[("b", &["ret"])], ""), Err("a is not among the functions".to_string()));
    assert!(Listing::new("", "").is_err());
    assert!(Listing::new(&format!("{OBJECT}{OBJECT}"), "").is_err());
    assert!(Listing::new("mve.o:     file format elf64-littleaarch64\n", "").is_err());
    assert!(Listing::new(&disassembly(&[("a", &["(bad)"])]), "").is_err());
    let twice: &[&str] = &["call   x", "R_X86_64_PLT32\tb", "R_X86_64_PLT32\tc", "ret"];
    assert!(Listing::new(&disassembly(&[("a", twice)]), "").is_err());
}

/// What the commands write about an archive of one function, which is exported.
fn texts(lines: &[&str]) -> Texts {
    let sections =
        "  0 .text.a 0000002a 00 00 00 2**4  CONTENTS, ALLOC, LOAD, RELOC, READONLY, CODE
  1 .rodata.a 00000400 00 00 00 2**4  CONTENTS, ALLOC, LOAD, READONLY, DATA
  2 .rodata.cst 00000010 00 00 00 2**4  CONTENTS, ALLOC, LOAD, READONLY, DATA
  3 .data 00000003 00 00 00 2**4  CONTENTS, ALLOC, LOAD, DATA
  4 .bss 00000004 00 00 00 2**4  ALLOC
  5 .comment 0000004f 00 00 00 2**0  CONTENTS, READONLY\n";
    Texts {
        disassembly: disassembly(&[("a", lines)]),
        relocations: String::new(),
        sections: format!("Sections:\nIdx Name Size VMA LMA File off Algn Flags\n{sections}"),
        symbols: "\nmve.o:\n0000 T a\n0000 t b\n     U memset\n0010 r .LC\n".to_string(),
    }
}

const SMALL: &[&str] = &[
    "movaps %xmm0,-0x18(%rsp)",
    "pxor   %xmm1,%xmm7",
    "pextrw $0x0,%xmm2,%eax",
    "call   1 <x>",
    "R_X86_64_PLT32\tmemset-0x4",
    "ret",
];

#[test]
fn tables_of_figures() {
    let figures = Figures::new(&texts(SMALL)).expect("figures");
    let header = "    code                            42 bytes
    constants                       1,040 bytes
    memory of its own               7 bytes
    undefined symbols               memset
    relocations                     R_X86_64_PLT32
    vector registers                xmm0 to xmm2, xmm7
    below the stack pointer         24 bytes
    stack of a                      32 bytes\n";
    assert_eq!(header_table(&figures), header);
    let page = "| call | bytes | deepest chain |\n|---|---:|---|\n| `a` | 32 | `a` 32 |\n";
    assert_eq!(page_table(&figures), page);
    assert!(gate_text(&figures).contains("\n    a: a 32\n"));
}

#[test]
fn limit() {
    let of = |bytes: u64| {
        let (sub, add) =
            (format!("sub    ${:#x},%rsp", bytes - 8), format!("add    ${:#x},%rsp", bytes - 8));
        Figures::new(&texts(&[&sub, &add, "ret"])).expect("figures")
    };
    assert!(of(1023).too_deep().is_empty());
    for bytes in [1024, 2008] {
        assert_eq!(of(bytes).too_deep(), ["a"]);
        assert!(gate_text(&of(bytes)).contains(&format!("a: a {bytes}: too deep")));
        let fault = verdict(&of(bytes), &Stages::default());
        assert_eq!(fault, Err("1024 bytes of stack or more: a".to_string()));
    }
}

/// The whole stage of one call, by each measurement.
fn stages(read: u64, painted: u64) -> Stages {
    let chain = Chain(named(&[("stage", read - 24), ("a", 24)]));
    let calls = [("a".to_string(), Whole { chain, painted })];
    Stages { compiler: "cc 1.2".to_string(), calls: calls.into() }
}

#[test]
fn limit_of_a_stage() {
    for (read, painted) in [(1024, 1016), (1000, 1024)] {
        assert!(stages(read, painted).too_deep().is_empty());
    }
    let figures = Figures::new(&texts(SMALL)).expect("figures");
    assert_eq!(verdict(&figures, &stages(1024, 1024)), Ok(()));
    for (read, painted) in [(1025, 1000), (1000, 1025), (4000, 3000)] {
        let stages = stages(read, painted);
        assert_eq!(stages.too_deep(), ["a"]);
        assert!(gate_stages(&stages).contains(" on a painted stack: too deep\n"));
        let fault = "more than 1024 bytes of stack with a least caller: a";
        assert_eq!(verdict(&figures, &stages), Err(fault.to_string()));
    }
}

#[test]
fn tables_of_stages() {
    let stages = stages(1024, 1016);
    let header = "    compiler of the stages                cc 1.2
    whole stage of a                      1,024 bytes\n";
    assert_eq!(header_stages(&stages), header);
    let page = "| whole stage of | bytes | painted | deepest chain |\n|---|---:|---:|---|\n\
        | `a` | 1,024 | 1,016 | `stage` 1000, `a` 24 |\n";
    assert_eq!(page_stages(&stages), page);
    let gate = "whole stages, each 1,024 bytes at most, by cc 1.2:\n    \
        a: 1,024 (stage 1000 + a 24), 1,016 on a painted stack\n";
    assert_eq!(gate_stages(&stages), gate);
}

#[test]
fn outside() {
    let mut other = texts(SMALL);
    other.symbols += "     U malloc\n";
    let fault = Figures::new(&other).expect_err("malloc");
    assert_eq!(fault, "the archive needs malloc, and may need memcpy, memset alone");
    let mut unknown = texts(SMALL);
    unknown.symbols = "0000 T a\n".to_string();
    let fault = Figures::new(&unknown).expect_err("memset is not undefined");
    assert_eq!(fault, "memset is called, and is neither in the archive nor undefined");
    let mut absolute = texts(SMALL);
    absolute.disassembly = absolute.disassembly.replace("PLT32", "64");
    let fault = Figures::new(&absolute).expect_err("an absolute address");
    assert_eq!(fault, "the archive has relocations of the kind R_X86_64_64");
    let mut none = texts(SMALL);
    none.symbols = "0000 t a\n     U memset\n".to_string();
    assert_eq!(Figures::new(&none).expect_err("no call"), "the archive exports nothing");
    let mut missing = texts(SMALL);
    missing.symbols += "0000 T b\n";
    assert_eq!(Figures::new(&missing).expect_err("no b"), "b is not among the functions");
}

#[test]
fn later_processors() {
    for line in [
        "vmovdqa %ymm0,(%rdi)",
        "pshufb %xmm0,%xmm1",
        "pextrw $0x0,%xmm2,(%rdi)",
        "movdqa %zmm1,%zmm2",
        "kmovw  %k1,%eax",
        "popcnt %rax,%rax",
        "shlxq  %rax,%rbx,%rcx",
    ] {
        let fault = Figures::new(&texts(&[line, "ret"])).expect_err(line);
        assert!(fault.starts_with("a at 0: not every x86-64 processor has "), "{line}: {fault}");
    }
}

#[test]
fn tables_in_documents() {
    let header = "/* mve.h\n\nTHE FILM\n\n    header  26 bytes\n\n\
        LINKING FOR A BOOT STAGE\n\nText.\n\n    code  1\n    data  2\n\nMore.\n\n    stack  3\n\n\
        THE PACKET\n\n    code  bytes\n*/\n    not this\n";
    assert_eq!(table_in_header(header), "    code  1\n    data  2\n    stack  3\n");
    let last = "LINKING FOR A BOOT STAGE\n    code  1\n*/\n    not this\n";
    assert_eq!(table_in_header(last), "    code  1\n");
    assert_eq!(table_in_header("THE FILM\n    code  1\n"), "");
    let page = "## Times\n| a | b |\n## Stack\n\nText.\n\n| c | d |\n|---|---|\n\n## More\n| e |\n";
    assert_eq!(tables_in_page(page), ["| c | d |\n|---|---|\n", ""]);
    let stages = "| whole stage of | bytes |\n|---|---|\n| e | 1 |\n";
    let both = page.replace("\n\n## More", &format!("\n\nText.\n\n{stages}\n## More"));
    assert_eq!(tables_in_page(&both), ["| c | d |\n|---|---|\n", stages]);
    let lines = "    compiler of the stages   cc 1.2\n    whole stage of a         3 bytes\n";
    let header = format!("LINKING FOR A BOOT STAGE\n    code  1\n\nText.\n{lines}*/\n");
    assert_eq!(table_in_header(&header), "    code  1\n");
    assert_eq!(stages_in_header(&header), lines);
}
