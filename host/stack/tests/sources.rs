//! No function that the offered calls reach has an array (document 02, W4), read from the sources;
//! and small planted trees, of which it is told.

use stack::arrays::{follow, offered, Reached};
use stack::tree::{Sources, Tree};
use std::path::Path;

/// A crate's name, what it depends on, and its source.
type Planted<'a> = (&'a str, &'a str, &'a str);

fn sources(crates: &[Planted<'_>]) -> Sources {
    let list = crates.iter().map(|(name, needs, _)| format!("{name}: {needs}\n")).collect();
    let file =
        |(name, _, source): &Planted<'_>| (format!("crates/{name}/src/lib.rt"), source.to_string());
    Sources { list, files: crates.iter().map(file).collect() }
}

fn tree(crates: &[Planted<'_>]) -> Tree {
    Tree::new(&sources(crates)).expect("a tree")
}

/// What the calls from `a::offered` reach.
fn reached(tree: &Tree) -> Reached {
    follow(tree, &[tree.function("a::offered").expect("a::offered")])
}

/// The faults as they are written, without the callers.
fn faults(crates: &[Planted<'_>]) -> Vec<String> {
    let told = reached(&tree(crates)).faults;
    told.iter()
        .map(|fault| format!("{}:{}: {}: {}", fault.file, fault.line, fault.function, fault.what))
        .collect()
}

/// The faults of a crate `a` alone: the line and the function of each, and what is wrong.
fn told(source: &str) -> Vec<String> {
    let cut = |fault: &String| fault.replace("crates/a/src/lib.rt:", "").replace(" a::", " ");
    faults(&[("a", "", source)]).iter().map(cut).collect()
}

/// The faults of a body that is given a slice, a number and a struct with a number in it.
fn in_body(body: &str) -> Vec<String> {
    let source = format!(
        "const TABLE: [u16; 4] = [1, 2, 3, 4];
         const ROWS: [[u8; 2]; 2] = [[1, 2], [3, 4]];
         pub struct S {{ n: usize }}
         impl S {{ fn next(self) -> S {{ S {{ n: self.n + 1 }} }} }}
         fn f(s: &[u16], n: usize) -> usize {{ n }}
         pub fn offered(s: &[u8], n: usize, t: S) -> usize {{ {body} }}"
    );
    let cut = |fault: String| fault.replace("6: offered: ", "");
    told(&source).into_iter().map(cut).collect()
}

#[test]
fn no_array_is_reached() {
    let root = Path::new(env!("CARGO_MANIFEST_DIR")).join("../..");
    let tree = Tree::new(&Sources::read(&root).expect("the sources")).expect("a tree");
    let reached = follow(&tree, &offered(&tree).expect("the offered calls"));
    // the functions that store are the deepest ones
    let storing = ["paint::put", "paint::set_place", "palette::put", "room::put_byte", "dpcm::put"];
    for deep in storing.into_iter().chain(["mve::mve_step"]) {
        assert!(reached.functions.iter().any(|name| name == deep), "{deep} is not reached");
    }
    let faults: Vec<String> = reached.faults.iter().map(ToString::to_string).collect();
    assert!(faults.is_empty(), "in what the offered calls reach:\n{}", faults.join("\n"));
}

#[test]
fn signatures() {
    for kind in ["[u8; 4]", "&[u8; 4]", "&mut [u8; 4]", "&[[u8; 4]]", "[&[u8]; 2]"] {
        let parameter = format!("pub fn offered(n: usize) {{ g(n); }}\nfn g(x: {kind}) {{}}");
        assert_eq!(told(&parameter), ["2: g: a parameter or result with an array"], "{kind}");
        let result =
            format!("pub fn offered(n: usize) {{ g(n); }}\nfn g(\n n: usize\n) -> {kind} {{ n }}");
        assert_eq!(told(&result), ["4: g: a parameter or result with an array"], "{kind}");
    }
    for kind in ["&[u8]", "&mut [u8]", "&'a [u8]", "usize", "&[S]", "S", "()", "&&mut u8"] {
        let source =
            format!("pub fn offered<'a>(x: {kind}) -> {kind} {{ x }} struct S {{ n: u8 }}");
        assert_eq!(told(&source), [""; 0], "{kind}");
    }
}

#[test]
fn literals() {
    for body in [
        "let x = [0u8; 64]; n",
        "let x = [n, n]; n",
        "let x = &[n]; n",
        "f(&[1, 2], n)",
        "if [n; 2][0] == n { return n; } n",
        "match n { 0 => [n; 2][1], _ => n }",
        "return [n][0];",
        "if n == 0 { return n; } [n, n]; n",
        "let x = { [n] }; n",
    ] {
        assert_eq!(in_body(body), ["an array"], "{body}");
    }
    assert_eq!(in_body("let x: [u8; 4]; n"), ["a local with an array"]);
    assert_eq!(in_body("let x: &[u8; 4] = s; n"), ["a local with an array"]);
    assert_eq!(in_body("let x = b\"four\"; n"), ["a quoted text, which is an array"]);
}

#[test]
fn slices_and_indices() {
    for body in [
        "let x: &[u8] = &s[1..]; x.len()",
        "let y = &s[..n]; s[n] as usize + y[s[0] as usize] as usize",
        "let mut i = 0; while s[i] < 3 { i += 1; } i",
        "let c = b'['; let d = '['; n /* [0; 4] */ // [0; 4]\n",
        "'outer: loop { break 'outer; } n",
        "let f = n; f",
        "let S { n: m } = t; m",
        "let u = t.next(); u.n",
        "#[attribute] n",
    ] {
        assert_eq!(in_body(body), [""; 0], "{body}");
    }
}

#[test]
fn tables() {
    for body in [
        "TABLE[n] as usize",
        "f(&TABLE, n)",
        "f(&TABLE[1..], TABLE.len())",
        "let t: &[u16] = &TABLE; t.len()",
        "let t = &TABLE[..n]; t.len()",
        "let row: &[u8] = &ROWS[n]; row.len()",
        "ROWS[n][1] as usize",
    ] {
        assert_eq!(in_body(body), [""; 0], "{body}");
    }
    for body in [
        "let t = TABLE; n",
        "let t = &TABLE; n",
        "let t = (&TABLE); n",
        "let t = if n == 0 { &TABLE } else { &TABLE[..] }; n",
        "f(TABLE, n)",
        "f(*&TABLE, n)",
        "return TABLE;",
    ] {
        assert_eq!(in_body(body), ["a copy of the table TABLE"], "{body}");
    }
    assert_eq!(in_body("let row = ROWS[n]; n"), ["a copy of the table ROWS"]);
    // lent as a type parameter it is an array that no type names
    for call in ["id(&TABLE)", "Some(&TABLE)", "n.max(&TABLE)", "n.id(&TABLE)", "P::same(&TABLE)"] {
        let source = format!(
            "const TABLE: [u16; 4] = [1, 2, 3, 4]; fn id<T: Copy>(t: &T) -> T {{ *t }}
            pub struct S {{ n: u8 }} impl S {{ fn id<T: Copy>(self, t: &T) -> T {{ *t }} }}
            pub trait P {{ fn same<T: Copy>(t: &T) -> T; }}
            pub fn offered(n: usize) {{ let x = {call}; }}"
        );
        assert_eq!(told(&source), ["4: offered: a copy of the table TABLE"], "{call}");
    }
    let field = "pub struct T { a: [u8; 4], n: u8 }\nconst T0: T = T { a: [0; 4], n: 1 };\n";
    let with = |body: &str| told(&format!("{field}pub fn offered(i: usize) -> u8 {{ {body} }}"));
    assert_eq!(with("T0.a[i] + T0.n"), [""; 0]);
    assert_eq!(with("let a = T0.a; 0"), ["3: offered: a copy of the table T0"]);
    assert_eq!(with("let t = T0; 0"), ["3: offered: a copy of the table T0"]);
}

#[test]
fn behind_a_field() {
    let types =
        "pub struct In { a: [u8; 4] }\npub enum Out { None, One(u8, In) }\ntype Also = Out;\n";
    let with = |function: &str| told(&format!("{types}{function}"));
    for kind in ["In", "Out", "Also", "&In", "&[Out]"] {
        let found = with(&format!("pub fn offered(x: {kind}) {{}}"));
        assert_eq!(found, ["4: offered: a parameter or result with an array"], "{kind}");
    }
    let literal =
        with("pub fn offered(s: &[u8]) { let x = In { a: other(s) }; }\nfn other(s: &[u8]) {}");
    assert_eq!(literal, ["4: offered: a value of In, which has an array"]);
    let variant = with("pub fn offered() { let x = Out::None; }");
    assert_eq!(variant, ["4: offered: a value of Out::None, which has an array"]);
    let own = with("pub fn offered() { Out::f(); }\nimpl Out { fn f() { let x = Self::None; } }");
    assert_eq!(own, ["5: Out::f: a value of Self::None, which has an array"]);
    let generic =
        told("struct R<'a> { s: &'a [u8] }\npub fn offered<'a>(r: R<'a>) -> &'a [u8] { r.s }");
    assert_eq!(generic, [""; 0]);
}

/// Wherever a call stands, it is followed.
#[test]
fn calls() {
    for body in [
        "g()",
        "f(s, g())",
        "f(s, f(s, f(s, g())))",
        "match n { 0 => n, _ => g() }",
        "match g() { 0 => 1, _ => 2 }",
        "let x = S { n: g() }; x.n",
        "if g() == 0 { n } else { n }",
        "while n < g() {} n",
        "for i in 0..g() {} n",
        "return g();",
        "s[g()] as usize",
        "let x = &s[g()..]; n",
        "let Some::A(x) = g() else { return n; }; n",
        "n + g() * 2",
        "*p = g(); n",
        "S { n }.next(g()).n",
    ] {
        let source = format!(
            "enum Some {{ A(usize) }} struct S {{ n: usize }}
             impl S {{ fn next(self, n: usize) -> S {{ self }} }}
             fn f(s: &[u8], n: usize) -> usize {{ n }}
             pub fn offered(s: &[u8], n: usize, p: &mut usize) -> usize {{ {body} }}
             fn g() -> usize {{ let x = [0; 3]; 0 }}"
        );
        assert_eq!(told(&source), ["5: g: an array"], "{body}");
    }
}

/// Functions and types with parameters, traits, and what `Option` and `Result` hold.
#[test]
fn parameters() {
    let traits = "pub trait Pixel: Copy {
            ghost stored: { ℕ → ℕ };
            const BYTES: usize;
            fn stored(self) -> Self
                ensures { number result ≡ stored [0; 3] };
            fn own(s: &[u8]) -> Self;
        }
        impl Pixel for u8 {
            ghost stored = { λ v. v };
            const BYTES: usize = 1;
            fn stored(self) -> Self { let x = [0; 3]; self }
            fn own(s: &[u8]) -> u8 { g(); s[0] }
        }
        fn g() { let x = [0; 3]; }";
    for (offered, found) in [
        ("pub fn offered<T: Pixel>(t: &[T]) -> T { t[0].stored() }", "11: u8::stored: an array"),
        ("pub fn offered<'a, T: Pixel>(s: &'a [u8]) -> T { T::own(s) }", "14: g: an array"),
        (
            "pub fn offered() { h::<u8, 3>() } fn h<T: Pixel, const N: usize>() { g() }",
            "14: g: an array",
        ),
        (
            "pub fn offered() -> Result<(), u8> { if let Some(x) = f()? { g() } Ok(()) }
          fn f() -> Result<Option<u8>, u8> { Ok(None) }",
            "14: g: an array",
        ),
    ] {
        assert_eq!(told(&format!("{traits} {offered}")), [found], "{offered}");
    }
    let clean = "pub struct P<T> { t: T, ghost is: { t ≡ t }, }
        pub fn offered<T: Copy, const N: usize>(x: P<T>, n: Option<T>) -> Result<Option<(T, u8)>, u8>
        where
            T: Copy,
        { let m: Option<T> = n; s.iter().rev().all(|x| *x < T::BYTES.min(N)); Ok(m) }";
    assert_eq!(told(&format!("{traits} {clean}")), [""; 0]);
    assert_eq!(told(clean), ["5: offered: T::BYTES is not found"]);
    for kind in
        ["Option<[u8; 4]>", "Result<(), [u8; 4]>", "(u8, [u8; 4])", "Option<Option<[u8; 4]>>"]
    {
        let source = format!("pub fn offered(x: {kind}) {{}}");
        assert_eq!(told(&source), ["1: offered: a parameter or result with an array"], "{kind}");
    }
}

/// A table of a trait is a table, under whatever name of a type it stands.
#[test]
fn constants_of_traits() {
    let table = "3: offered: a copy of the table T";
    let with = |function: &str| {
        let types = "type Table = [u8; 4]; const L: Table = [1, 2, 3, 4]; pub struct S { n: u8 }
            pub trait P { const T: Table; const N: usize; }";
        told(&format!("{types}\n{function}"))
    };
    let of_u8 = "impl P for u8 { const T: Table = L; const N: usize = 4; }";
    for (function, kinds) in [
        ("offered<X: P>(n: usize) -> u8 { let t = X::T; t[n] }", 2),
        ("offered(n: usize) -> u8 { let t = u8::T; t[n] }", 2),
        ("offered(n: usize) -> u8 { let t = Also::T; t[n] } type Also = u8;", 2),
        ("offered(n: usize) -> u8 { let t = S::T; t[n] } impl P for S { const T: Table = L; }", 1),
        ("offered(n: usize) -> u8 { let t = S::T; t[n] } impl S { const T: Table = L; }", 1),
    ] {
        let found = with(&format!("pub fn {function} {of_u8}"));
        assert_eq!(found, vec![table; kinds], "{function}");
    }
    let own = "pub fn offered(q: u8) -> u8 { q.e() }
        trait Q { const T: Table; fn e(self) -> u8 { let t = Self::T; t[0] } }";
    let found = with(own);
    assert!(found.contains(&"4: Q::e: a copy of the table T".to_string()), "{found:?}");
    let value = "pub fn offered<X: Q>() { let w = X::W; } pub struct W { a: [u8; 4] }
        pub trait Q { const W: Self; } impl Q for W { const W: Self = W { a: L }; }";
    assert_eq!(with(value), ["3: offered: a copy of the table W"]);
    assert_eq!(with("pub fn offered<X: P>() { X::M; }"), ["3: offered: X::M is not found"]);
    for body in ["X::T[n]", "g(&X::T)", "g(&u8::T[1..])", "S::N as u8", "X::N.min(n) as u8"] {
        let source = format!(
            "pub trait P {{ const T: [u8; 4]; const N: usize; }} pub struct S {{ n: u8 }}
            impl P for S {{ const T: [u8; 4] = [1, 2, 3, 4]; const N: usize = 1; }}
            impl P for u8 {{ const T: [u8; 4] = [0; 4]; const N: usize = 4; }}
            pub fn offered<X: P>(n: usize) -> u8 {{ {body} }} fn g(s: &[u8]) -> u8 {{ s[0] }}"
        );
        assert_eq!(told(&source), [""; 0], "{body}");
    }
}

/// Of what a trait only declares the `impl`s are followed, and those of its own for a default.
#[test]
fn calls_by_a_trait() {
    let types =
        "pub trait P { fn f(self) -> u8; fn d(x: u8) -> u8 { Self::a(x) } fn a(x: u8) -> u8; }
        pub struct S { n: u8 }
        impl P for u8 { fn f(self) -> u8 { let x = [0; 3]; self }
            fn a(x: u8) -> u8 { let x = [0; 3]; 1 } }
        pub use P as Q;";
    let (f, a) = ("3: u8::f: an array".to_string(), "4: u8::a: an array".to_string());
    for (body, found) in [
        ("P::f(x)", &f),
        ("Q::f(x)", &f),
        ("P::d(x)", &a),
        ("P::a(x)", &a),
        ("u8::f(x)", &f),
        ("s.iter().all(u8::f)", &f),
        ("s.iter().all(P::f)", &f),
        ("s.iter().all(X::f)", &f),
        ("s.iter().all(Self::f)", &f),
    ] {
        let source = format!(
            "{types} pub fn offered(x: u8) -> u8 {{ S::g(x) }}
            impl S {{ fn g<X: P>(x: u8) -> u8 {{ {body} }} }} impl S {{ fn f(self) {{ P::f(1) }} }}"
        );
        let told = told(&source);
        assert!(told.contains(found), "{body}: {told:?}");
    }
    for body in ["<u8 as P>::f(x)", "<u8 as P>::T", "s.iter().all(<u8 as P>::f)"] {
        let told = told(&format!("{types} fn f() {{}} pub fn offered(x: u8) -> u8 {{ {body} }}"));
        let found = "5: offered: what stands in front of :: is not read".to_string();
        assert!(told.contains(&found), "{body}: {told:?}");
    }
    let given = "pub fn offered(s: &[u8]) { s.iter().all(g); } fn g(x: &u8) { let y = [0; 3]; }";
    assert_eq!(told(given), ["1: g: an array"]);
    let named = "pub fn offered() { Some() } fn Some() { let x = [0; 3]; }";
    assert_eq!(told(named), ["1: Some: an array"]);
}

/// A type parameter of a crate may be a type of one above it; and what runs by no name is refused.
#[test]
fn impls_in_other_crates() {
    let b = "pub trait P { fn f(self); const T: u8; }
        pub fn put<T: P>(t: T) { t.f() }
        pub fn by<T: P>(t: T) { T::f(t) }
        pub fn read<T: P>() { let t = T::T; }
        pub fn all<T: P>(t: T) { P::f(t) }";
    for (impls, offered) in [
        ("impl b::P for W { fn f(self) { let x = [0; 3]; } }", "b::put(W)"),
        ("impl b::P for W { fn f(self) { let x = [0; 3]; } }", "b::by(W)"),
        ("impl b::P for W { fn f(self) { let x = [0; 3]; } }", "b::all(W)"),
        ("impl b::P for u8 { fn f(self) { let x = [0; 3]; } }", "b::put(1)"),
    ] {
        let a = format!("pub struct W; {impls}\npub fn offered() {{ {offered} }}");
        let found = faults(&[("b", "", b), ("a", "b", &a)]);
        assert_eq!(found.len(), 1, "{a}: {found:?}");
        assert!(found[0].ends_with("::f: an array"), "{a}: {found:?}");
    }
    let a = "pub struct W; type Table = [u8; 4]; const L: Table = [0; 4];
        impl b::P for W { const T: Table = L; }
        pub fn offered() { b::read::<W>() }";
    let found = faults(&[("b", "", b), ("a", "b", a)]);
    assert_eq!(found, ["crates/b/src/lib.rt:4: b::read: a copy of the table T"]);
    for of in ["Drop", "std::ops::Add", "W", "missing::P"] {
        let a = format!("pub struct W; impl {of} for W {{ fn f(self) {{}} }}");
        let told = Tree::new(&sources(&[("a", "", &a)])).map(|_| ());
        assert_eq!(told, Err(format!("crates/a/src/lib.rt:1: no trait {of} is found")));
    }
}

#[test]
fn three_calls_deep() {
    let source = "pub fn offered() { one() }\nfn one() { two() }\nfn two() { three() }\n
                  fn three() {\n let x = [0u8; 64];\n}";
    let told = reached(&tree(&[("a", "", source)])).faults;
    let told: Vec<String> = told.iter().map(ToString::to_string).collect();
    let by = "(called by a::offered, a::one, a::two)";
    assert_eq!(told, [format!("crates/a/src/lib.rt:6: a::three: an array {by}")]);
}

#[test]
fn methods() {
    let on_self = "pub fn offered(s: S) { s.one() }
        struct S { n: u8 }
        impl S {
            fn one(self) { self.two() }
            fn two(&self) { let x = [0; 3]; }
            fn three(self) { let x = [0; 3]; }
        }";
    assert_eq!(told(on_self), ["5: S::two: an array"]);
    let on_value = "pub fn offered() { S::new(1).two() }
        struct S { n: u8 }
        impl S {
            fn new(n: u8) -> Self { Self { n } }
            fn two(self) { let x = [0; 3]; }
        }";
    assert_eq!(told(on_value), ["5: S::two: an array"]);
    let associated = "pub fn offered() { S::make() }
        struct S { n: u8 }
        impl S { fn make() { let x = [0; 3]; } }";
    assert_eq!(told(associated), ["3: S::make: an array"]);
    let receiver =
        "pub fn offered(s: &S) { s.one() }\nstruct S { a: [u8; 2] }\nimpl S { fn one(&self) {} }";
    let with_an_array = "a parameter or result with an array";
    assert_eq!(
        told(receiver),
        [format!("1: offered: {with_an_array}"), format!("3: S::one: {with_an_array}")]
    );
}

#[test]
fn across_crates() {
    let b = "pub fn g() { h() }
        fn h() { let x = [0; 3]; }
        pub struct S { n: u8 }
        impl S { pub fn m(self) { h() } }";
    let c = "pub use b::g;\npub use b::S;";
    let found = ["crates/b/src/lib.rt:2: b::h: an array"];
    for a in [
        "pub fn offered() { b::g() }",
        "use b::g;\npub fn offered() { g() }",
        "use b::g as k;\npub fn offered() { k() }",
        "use b::{S, g};\npub fn offered() { g() }",
        "use b::{\n    S,\n    g as k,\n};\npub fn offered() { k() }",
        "use c::g;\npub fn offered() { g() }",
        "pub fn offered() { c::g() }",
        "use b::S;\npub fn offered(s: S) { s.m() }",
        "pub fn offered(s: c::S) { s.m() }",
        "pub fn offered(s: c::S) { c::S::m(s) }",
    ] {
        assert_eq!(faults(&[("b", "", b), ("c", "b", c), ("a", "b c", a)]), found, "{a}");
    }
}

#[test]
fn across_modules() {
    let files = [
        (
            "lib",
            "mod x;
             mod y { pub fn g() { super::x::g() } }
             use x::g as k;
             pub fn offered() { y::g(); k() }",
        ),
        ("x", "mod z;\nuse self::z::T;\npub fn g() { crate::x::z::h(T[0]) }"),
        (
            "x/z",
            "pub const T: [u8; 2] = [1, 2];
             pub fn h(n: u8) { let t = T; super::super::x::g() }",
        ),
    ];
    let files = files.map(|(name, source)| (format!("crates/a/src/{name}.rt"), source.to_string()));
    let tree = Tree::new(&Sources { list: "a:".to_string(), files: files.into() }).expect("a tree");
    let found = reached(&tree);
    assert_eq!(found.functions, ["a::offered", "a::x::g", "a::x::z::h", "a::y::g"]);
    let found: Vec<_> =
        found.faults.iter().map(|fault| (&*fault.file, fault.line, &*fault.what)).collect();
    assert_eq!(found, [("crates/a/src/x/z.rt", 2, "a copy of the table T")]);
}

/// What no call reaches may have arrays, and so may contracts.
#[test]
fn not_reached() {
    let source = "// Head.
        #![tactic(auto)]

        ghost use lib.{a, [_]};
        pub fn offered(n: usize) -> usize
            requires { g [0; 3] ≡ { a } }
            ensures named { result ≡ [0; 3] }
        { n }
        fn g() { let x = [0; 3]; h() }
        fn h(x: [u8; 4]) -> [u8; 4] { x }
        #[derive(Clone, Copy)]
        struct S { a: [u8; 4] }
        impl S { fn m(self) { g() } }
        const T: [u8; 2] = [1, 2];";
    assert_eq!(told(source), [""; 0]);
    let b =
        "pub fn g() { let x = [0; 3]; }\npub struct S { n: u8 }\nimpl S { pub fn m(self) { g() } }";
    let a = "struct S { n: u8 }\nimpl S { fn m(self) {} }\npub fn offered(s: S) { s.m() }";
    assert_eq!(faults(&[("b", "", b), ("a", "", a)]), [""; 0]);
}

/// Nothing is passed over because it is not found.
#[test]
fn not_found() {
    for (body, fault) in [
        ("missing(n)", "missing is not found"),
        ("b::g(n)", "b::g is not found"),
        ("S::missing(n)", "S::missing is not found"),
        ("s.missing()", "no method missing is found"),
        ("std::num::missing(n)", "std::num::missing is not among what is known of the kit"),
        ("let t = std::num::TABLE; n", "std::num::TABLE is not among what is known of the kit"),
        ("u32::missing(n)", "u32::missing is not among what is known of the kit"),
        ("assert!(n)", "the macro assert is not read"),
        ("f::<usize>::(n)", "what stands behind f is not read"),
        ("f::<Missing>(n)", "the type Missing is not found"),
        ("f::<[u8; 4]>(n)", "an argument in <> with an array"),
        ("let x: Missing = n; n", "the type Missing is not found"),
        ("fn inner() {} n", "fn inside a function is not read"),
    ] {
        assert!(in_body(body).contains(&fault.to_string()), "{body}: {:?}", in_body(body));
    }
    let known = in_body("std::num::wrapping_add_u16(1, 2) as usize + usize::MAX");
    assert_eq!(known, [""; 0]);
    for source in [
        "use missing::g;",
        "use b::missing;",
        "use b::*;",
        "use b::{g, h};",
        "mod missing;",
        "impl Missing {}",
        "fn f() { g( }",
        "fn f() requires { {",
        "fn f(); fn f();",
        "fn f() {} fn f() {}",
        "trait T { fn f() }",
        "impl S for Missing {}",
        "fn f<T(x: T) {}",
        "fn f() { \"no end }",
        "fn f() { ∞ }",
    ] {
        let crates = [("b", "", "pub fn g() {}"), ("a", "b", source)];
        assert!(Tree::new(&sources(&crates)).is_err(), "{source}");
    }
}

/// Every offered call must be there, and what `mve` exports is found by itself.
#[test]
fn offered_calls() {
    let palette = "pub fn create_gradient() {} pub fn set_palette() {}
        pub fn set_palette_compressed() {}";
    let crates = |exported, step| {
        [
            ("packet", "", "pub fn check() {} pub fn check_strict() {}"),
            ("draw", "", "pub fn draw() {}"),
            ("opening", "", "pub fn open() {}"),
            ("state", "", "pub fn shown() {}"),
            ("palette", "", palette),
            ("film", "", step),
            ("mve", "", exported),
        ]
    };
    let exported =
        "#[unsafe(no_mangle)]\npub extern \"C\" fn mve_new() { let x = [0; 3]; }\npub fn other() {}";
    let found = tree(&crates(exported, "pub fn step() {}"));
    let reached = follow(&found, &offered(&found).expect("all are there"));
    let names = [
        "draw::draw",
        "film::step",
        "mve::mve_new",
        "opening::open",
        "packet::check",
        "packet::check_strict",
        "palette::create_gradient",
        "palette::set_palette",
        "palette::set_palette_compressed",
        "state::shown",
    ];
    assert_eq!(reached.functions, names);
    assert_eq!(reached.faults.len(), 1);
    let fault = offered(&tree(&crates(exported, "pub fn stepped() {}")));
    assert_eq!(fault, Err("film::step is offered and is not found".to_string()));
    let fault = offered(&tree(&crates("pub fn mve_new() {}", "pub fn step() {}")));
    assert_eq!(fault, Err("the crate mve exports nothing".to_string()));
}
