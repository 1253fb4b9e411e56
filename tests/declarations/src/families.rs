//! Symbols at the limits. What is expected of them is worked out here from the definition of the limits.

/// The most counted productions that nest, the greatest height and work of a tree, and the most replaced nodes.
const MAX_DEPTH: usize = 512;
const MAX_HEIGHT: usize = 1024;
const MAX_WORK: usize = 1 << 20;
const MAX_REPLACED: usize = 1 << 16;
/// The empty packs in an argument of which there are many.
const PACKS: usize = 1000;
/// The length in bytes of long symbols.
const LONG: usize = 100_000;

/// A symbol: what it shows, its bytes, and its declaration if it has one.
pub type Case = (&'static str, String, Option<String>);

/// A number to base 36, as `<seq-id>` has it.
fn seq(mut n: usize) -> String {
    let mut digits = Vec::new();
    loop {
        digits.push(b"0123456789ABCDEFGHIJKLMNOPQRSTUVWXYZ"[n % 36]);
        n /= 36;
        if n == 0 {
            break;
        }
    }
    digits.reverse();
    String::from_utf8(digits).expect("ASCII")
}

/// The substitution with an index.
fn saved(index: usize) -> String {
    if index == 0 { "S_".to_string() } else { format!("S{}_", seq(index - 1)) }
}

fn pointers(n: usize) -> String {
    format!("_Z1f{}i", "P".repeat(n))
}

fn scopes(n: usize) -> String {
    format!("_ZN{}E", "1a".repeat(n))
}

fn args(n: usize) -> String {
    format!("_Z1f{}i{}", "1aI".repeat(n), "E".repeat(n))
}

fn packs(n: usize) -> String {
    format!("_Z1fI{}i{}Evv", "J".repeat(n), "E".repeat(n))
}

/// Each parameter is a pointer to the one before it.
fn chain(n: usize) -> String {
    let rest: String = (1..n).map(|k| format!("P{}", saved(k - 1))).collect();
    format!("_Z1fPi{rest}")
}

/// `A<int>`, and then `A` of the one before twice.
fn doubled(n: usize) -> String {
    let rest: String = (1..n).map(|k| format!("S_I{0}{0}E", saved(k))).collect();
    format!("_Z1f1AIiE{rest}")
}

fn doubled_text(n: usize) -> String {
    let mut params = vec!["A<int>".to_string()];
    for _ in 1..n {
        let last = &params[params.len() - 1];
        params.push(format!("A<{last}, {last}>"));
    }
    format!("f({})", params.join(", "))
}

/// How many doubled parameters are within the most work: a name has 1 and its bytes, `A<int>` 7.
fn most_doubled() -> usize {
    let (mut n, mut param, mut sum) = (0, 7, 3);
    while sum + param <= MAX_WORK {
        n += 1;
        sum += param;
        param = 3 + 2 * param;
    }
    n
}

/// The same with a template parameter: the function, `A` and its parameter are saved before `A<T>`.
fn replaced(n: usize) -> String {
    let rest: String = (1..n).map(|k| format!("S0_I{0}{0}E", saved(k + 2))).collect();
    format!("_Z1fIiEv1AIT_E{rest}")
}

/// How many parameters have at most so many replaced nodes: `A<T>` has 2, and the function is one more.
fn most_replaced() -> usize {
    let (mut n, mut param, mut sum) = (0, 2, 1);
    while sum + param <= MAX_REPLACED {
        n += 1;
        sum += param;
        param = 2 * param + 1;
    }
    n
}

fn replaced_text(n: usize) -> String {
    format!("void f<int>({}", &doubled_text(n)[2..])
}

/// Arguments with a list of a template parameter and 1,000 empty packs. The list is copied twice: where the arguments are
/// bound, and where the function is.
fn replaced_lists(n: usize) -> String {
    format!("_Z1fIi1AIT_{}E{}Evv", "JE".repeat(PACKS), "S2_".repeat(n - 1))
}

fn replaced_lists_text(n: usize) -> String {
    format!("void f<int{}>()", ", A<int>".repeat(n))
}

/// How many such arguments are within the most work: each has 1, `A` 2, `int` 4 and each pack 1. The function, `void`,
/// `f`, its name with arguments and `int` have 13.
fn most_replaced_lists() -> usize {
    (MAX_WORK - 13) / (PACKS + 7)
}

/// Packs of twice the one before, over an empty pack.
fn empty_packs(n: usize) -> String {
    let rest: String =
        (0..n).map(|k| if k == 0 { "JDpT_DpT_E".to_string() } else { format!("JDpT{0}_DpT{0}_E", k - 1) }).collect();
    format!("_Z1fIJE{rest}Evv")
}

fn numbered(what: &'static str, symbol: fn(usize) -> String, most: usize, text: fn(usize) -> String) -> [Case; 3] {
    [(what, symbol(1), Some(text(1))), (what, symbol(most), Some(text(most))), (what, symbol(most + 1), None)]
}

/// Local names, one in the other.
fn locals(n: usize) -> String {
    format!("_Z{}1fv{}E1x", "Z".repeat(n), "E1xv".repeat(n - 1))
}

/// Closures, each with one as its parameter but for the last.
fn closures(n: usize) -> String {
    format!("_Z1f{}v{}", "N1AUl".repeat(n), "E_E".repeat(n))
}

/// Functions that return a pointer to the next one.
fn functions(n: usize) -> String {
    format!("_Z1f{}i{}", "PF".repeat(n), "vE".repeat(n))
}

/// Something before an `int`, so many times.
fn before_int(what: &str, n: usize) -> String {
    format!("_Z1f{}i", what.repeat(n))
}

/// The same of a text behind it.
fn behind_int(what: &str, n: usize) -> String {
    format!("f(int{})", what.repeat(n))
}

/// Symbols of the rest of names and types at and past the limits of depth and height.
fn names_and_types() -> Vec<Case> {
    let mut cases = Vec::new();
    cases.extend(numbered("arrays", |n| before_int("A_", n), MAX_DEPTH - 2, |n| format!("f(int {})", "[]".repeat(n))));
    cases.extend(numbered("vectors", |n| before_int("Dv2_", n), MAX_DEPTH - 2, |n| behind_int(" vector[2]", n)));
    cases.extend(numbered("complex types", |n| before_int("C", n), MAX_DEPTH - 2, |n| behind_int(" complex", n)));
    // The type, each of its qualified types and the last one, and `int`.
    cases.extend(numbered("vendor qualifiers", |n| before_int("U1a", n), MAX_DEPTH - 4, |n| behind_int(" a", n)));
    // A pointer and a function, and `int`.
    cases.extend(numbered("functions", functions, (MAX_DEPTH - 2) / 2, |n| {
        format!("f(int{}{})", " (*".repeat(n), ")()".repeat(n))
    }));
    // An encoding and its name for each scope, and those of the function.
    cases.extend(numbered("local names", locals, (MAX_DEPTH - 2) / 2, |n| format!("f(){}::x", "::x()".repeat(n - 1))));
    // A type and its name.
    cases.extend(numbered("closures", closures, (MAX_DEPTH - 1) / 2, |n| {
        format!("f({}{})", "A::'lambda'(".repeat(n), ")".repeat(n))
    }));
    // An encoding, its name, and `int`.
    let conversion = |n| format!("_ZN1Acv{}iEv", "P".repeat(n));
    cases
        .extend(numbered("a conversion", conversion, MAX_DEPTH - 3, |n| format!("A::operator int{}()", "*".repeat(n))));
    // The name, and what isn't a function, have one more each.
    let tags = |n| format!("_Z1f{}", "B1t".repeat(n));
    cases.extend(numbered("tags", tags, MAX_HEIGHT - 2, |n| format!("f{}", "[abi:t]".repeat(n))));
    cases
}

/// An expression as the argument of a function.
fn expression(what: &str) -> String {
    format!("_Z1fIX{what}EEvv")
}

/// The same of an operator around a literal, so many times, with what follows it.
fn around_literal(front: &str, n: usize, behind: &str) -> String {
    expression(&format!("{}Li1E{}", front.repeat(n), behind.repeat(n)))
}

/// The text of a function with this argument.
fn argument_text(argument: &str) -> String {
    format!("void f<{argument}>()")
}

/// The text of an operator around the literal, so many times, with what follows it.
fn around(front: &str, n: usize, behind: &str) -> String {
    argument_text(&format!("{}1{}", front.repeat(n), behind.repeat(n)))
}

/// Symbols of expressions at and past the limits of depth and height.
fn expressions() -> Vec<Case> {
    // An encoding, its name, its argument and the innermost operand.
    let most = MAX_DEPTH - 4;
    let mut cases = Vec::new();
    cases.extend(numbered(
        "prefix operators",
        |n| around_literal("nt", n, ""),
        most,
        |n| argument_text(&format!("!{}1{}", "(!".repeat(n - 1), ")".repeat(n - 1))),
    ));
    cases.extend(numbered("sums of sums", |n| around_literal("pl", n, "Li1E"), most, |n| around("", n, " + 1")));
    cases.extend(numbered(
        "sums in sums",
        |n| around_literal("plLi1E", n, ""),
        most,
        |n| argument_text(&format!("1 + {}1{}", "(1 + ".repeat(n - 1), ")".repeat(n - 1))),
    ));
    cases.extend(numbered("called calls", |n| around_literal("cl", n, "E"), most, |n| around("", n, "()")));
    cases.extend(numbered("calls in calls", |n| around_literal("clLi1E", n, "E"), most, |n| around("1(", n, ")")));
    cases.extend(numbered("conversions", |n| around_literal("cvi_", n, "E"), most, |n| around("(int)(", n, ")")));
    cases.extend(numbered(
        "named casts",
        |n| around_literal("sci", n, ""),
        most,
        |n| around("static_cast<int>(", n, ")"),
    ));
    cases.extend(numbered("members", |n| around_literal("dt", n, "1a"), most, |n| around("", n, ".a")));
    // The encoding, its parameter and the innermost operand; a `decltype` and what it is of.
    cases.extend(numbered(
        "types of expressions",
        |n| format!("_Z1f{}Li1E{}", "DTst".repeat(n), "E".repeat(n)).replace("stLi1E", "Li1E"),
        (MAX_DEPTH - 1) / 2,
        |n| format!("f({}decltype(1){})", "decltype(sizeof (".repeat(n - 1), "))".repeat(n - 1)),
    ));
    // The encoding, its name and the innermost operand; an expression and the braces in it.
    cases.extend(numbered("braces", |n| around_literal("il", n, "E"), (MAX_DEPTH - 4) / 2, |n| around("{", n, "}")));
    // The name, its scope and the function with its argument.
    cases.extend(numbered(
        "qualified names",
        |n| expression(&format!("sr{}E1x", "1a".repeat(n))),
        MAX_HEIGHT - 3,
        |n| argument_text(&format!("{}x", "a::".repeat(n))),
    ));
    let given = [
        ("a function as an argument", "_Z1fILZ1gvE1x3EabEvv", "void f<g(), x, Eab>()"),
        ("`sizeof...` of no arguments", "_Z1fIXsPEEEvv", "void f<sizeof... ()>()"),
        ("`sizeof...` of an empty pack", "_Z1fIJEEv1AIXsZT_EE", "void f<>(A<sizeof...()>)"),
        ("a call without arguments", "_Z1fIXcl1gEEEvv", "void f<g()>()"),
        ("empty braces", "_Z1fIXilEEEvv", "void f<{}>()"),
        ("an empty conversion", "_Z1fIXcvi_EEEvv", "void f<(int)()>()"),
        ("a fold of an empty pack", "_Z1fIJEEvDTflplT_E", "void f<>(decltype((... + ())))"),
    ];
    cases.extend(given.map(|(what, symbol, text)| (what, symbol.to_string(), Some(text.to_string()))));
    cases
}

/// A symbol, and its declaration in LLVM's style and in GNU's.
pub type Styled = (String, String, String);

/// Symbols with both styles. LLVM prints three of them otherwise: there a substitution that was met as a template
/// parameter of a lambda or of another function keeps what it was.
pub fn styled() -> Vec<Styled> {
    let given = [
        [
            "_Z4sameIZ4mainEUlT_E_EbRKS0_PS2_",
            "bool same<main::'lambda'(auto)>(main::'lambda'(auto) const&, main::'lambda'(auto) const*)",
            "bool same<main::{lambda(auto:1)#1}>(main::{lambda(auto:1)#1} const&, main::{lambda(auto:1)#1} const*)",
        ],
        [
            "_Z4use1IZ3oneIlEDaT_EUllE_EiS1_RS1_",
            "int use1<auto one<long>(long)::'lambda'(long)>(auto one<long>(long)::'lambda'(long), \
                auto one<long>(long)::'lambda'(long)&)",
            "int use1<one<long>(long)::{lambda(long)#1}>(one<long>(long)::{lambda(long)#1}, \
                one<long>(long)::{lambda(long)#1}&)",
        ],
        [
            "_Z3eatIZ3FoovEUlPA5_T_E1_EvRS0_",
            "void eat<Foo()::'lambda1'(auto (*) [5])>(Foo()::'lambda1'(auto (*) [5])&)",
            "void eat<Foo()::{lambda(auto:1 (*) [5])#3}>(Foo()::{lambda(auto:1 (*) [5])#3}&)",
        ],
    ];
    let mut cases: Vec<Styled> = given.map(|it| it.map(str::to_string).into()).to_vec();
    cases.extend(numbers_without_digits());
    for count in [1, 20, 64, LONG] {
        let (nines, zeros) = ("9".repeat(count), "0".repeat(count));
        let eight = format!("{}8", &nines[1..]);
        cases.extend(ordinals(&nines, &format!("1{}1", &zeros[1..])));
        cases.extend(ordinals(&eight, &format!("1{zeros}")));
        cases.extend(ordinals(&zeros, "2"));
    }
    cases
}

/// Entities without a number, which are the first ones.
fn numbers_without_digits() -> [Styled; 3] {
    ordinals("", "1")
}

/// Entities with a number, which have this ordinal in GNU's style.
fn ordinals(number: &str, ordinal: &str) -> [Styled; 3] {
    [
        (format!("_ZUt{number}_"), format!("'unnamed{number}'"), format!("{{unnamed type#{ordinal}}}")),
        (format!("_ZUlvE{number}_"), format!("'lambda{number}'()"), format!("{{lambda()#{ordinal}}}")),
        (format!("_ZZ1fiEd{number}_1x"), "f(int)::x".to_string(), format!("f(int)::{{default arg#{ordinal}}}::x")),
    ]
}

/// Symbols at and past each limit, and short ones.
pub fn limited() -> Vec<Case> {
    let chain_text = |n: usize| {
        let params: Vec<String> = (1..=n).map(|k| format!("int{}", "*".repeat(k))).collect();
        format!("f({})", params.join(", "))
    };
    // An encoding has the first depth, and its parameter the next.
    let mut cases = Vec::new();
    cases.extend(numbered("pointers", pointers, MAX_DEPTH - 2, |n| format!("f(int{})", "*".repeat(n))));
    // A type, its name and its argument.
    cases.extend(numbered("arguments", args, (MAX_DEPTH - 2) / 3, |n| {
        format!("f({}int{})", "a<".repeat(n), ">".repeat(n))
    }));
    // An encoding, its name, an argument for each pack, the last argument and its type.
    cases.extend(numbered("packs", packs, MAX_DEPTH - 4, |_| "void f<int>()".to_string()));
    // The tree of a name has one more.
    cases.extend(numbered("scopes", scopes, MAX_HEIGHT - 1, |n| vec!["a"; n].join("::")));
    // `int` and the function are one more each.
    cases.extend(numbered("a chain", chain, MAX_HEIGHT - 2, chain_text));
    cases.extend(numbered("doubled arguments", doubled, most_doubled(), doubled_text));
    cases.extend(numbered("doubled template parameters", replaced, most_replaced(), replaced_text));
    cases.extend(numbered("replaced lists", replaced_lists, most_replaced_lists(), replaced_lists_text));
    cases.extend(names_and_types());
    cases.extend(expressions());
    cases.push(("an operator of a vendor", "_Zv23mixii".to_string(), Some("operator mix(int, int)".to_string())));
    cases.push(("an empty pack", "_Z1fIJEDpT_Evv".to_string(), Some("void f<>()".to_string())));
    cases.push(("two empty packs", "_Z1fIJJEJEEEvDpT_".to_string(), Some("void f<>(, )".to_string())));
    cases.push((
        "many parameters",
        format!("_Z1f{}", "i".repeat(1000)),
        Some(format!("f({})", vec!["int"; 1000].join(", "))),
    ));
    cases
}

/// The family with the most bound nodes.
pub const BOUND: &str = "closures around parameters";
/// The families of a long number of an entity.
pub const NUMBERED: [&str; 5] = [
    "a long default argument",
    "a negative default argument",
    "a long closure",
    "a long unnamed type",
    "zeros of an unnamed type",
];

/// Long symbols of the rest of names and types. `replacing` has what follows a parameter `A<T>` and doubles it.
fn long_names_and_types(replacing: &str) -> Vec<(&'static str, String)> {
    let (half, third, quarter) = (LONG / 2, LONG / 3, LONG / 4);
    let nines = "9".repeat(LONG);
    let int = |what: &str| before_int(what, LONG / what.len());
    let scoped = |what: &str| format!("_ZN1A{}E", what.repeat(LONG / what.len()));
    vec![
        ("arrays", int("A_")),
        ("arrays with a dimension", int("A1_")),
        ("a long dimension", format!("_Z1fA{nines}_i")),
        ("vectors", int("Dv4_")),
        ("a long vector", format!("_Z1fDv{nines}_i")),
        ("complex types", int("C")),
        ("imaginary types", int("G")),
        ("functions", functions(quarter)),
        ("functions that are open", int("F")),
        ("parameters of a function type", format!("_Z1fFv{}E", "i".repeat(LONG))),
        ("functions as parameters", format!("_Z1f{}", "FvvE".repeat(quarter))),
        ("exceptions", format!("_Z1fDw{}EFvvE", "i".repeat(LONG))),
        ("exceptions that are open", int("Dw")),
        ("functions without exceptions", format!("_Z1f{}", "DoFvvE".repeat(LONG / 6))),
        ("members that are functions", int("M1AFvvE")),
        ("local names", locals(LONG / 5)),
        ("scopes of local names", "_Z".to_string() + &"Z".repeat(LONG)),
        ("local names as parameters", format!("_Z1g{}", "Z1fvE1x_0".repeat(LONG / 9))),
        ("string literals", format!("_Z{}1fv{}Es", "Z".repeat(quarter), "Esv".repeat(quarter))),
        ("string literals in each other", format!("_Z{}1fv{}Es", "Z".repeat(250), "Esv".repeat(249))),
        ("default arguments", format!("_Z{}1fv{}", "Z".repeat(quarter), "Ed_1xv".repeat(quarter / 2))),
        ("a long default argument", format!("_ZZ1fiEd{nines}_1x")),
        ("a negative default argument", format!("_ZZ1fiEdn{nines}_1x")),
        ("a long discriminator", format!("_ZZ1fvE1x__{nines}_")),
        ("a long discriminator at the end", format!("_ZZ1fvE1x{nines}")),
        ("discriminators", format!("_Z{}1fv{}E1x", "Z".repeat(250), "E1x__1234567890_v".repeat(249))),
        ("underscores", format!("_ZZ1fvE1x{}", "_".repeat(LONG))),
        ("closures", closures(LONG / 8)),
        ("closures that are open", int("N1AUl")),
        ("closures in a scope", scoped("UlvE_")),
        ("closures of types", scoped("UliE_")),
        ("a long closure", format!("_ZUlvE{nines}_")),
        ("parameters of a closure", format!("_ZUl{}E_", "T_".repeat(half))),
        ("too many parameters of a closure", format!("_ZUl{}E_", "RT_".repeat(third))),
        ("doubled parameters of a closure", format!("_ZN1AUl1BIT_E{replacing}E_E")),
        (BOUND, format!("_Z1f{}T_{}", "N1AUl".repeat(254), "E_E".repeat(254))),
        ("unnamed types", scoped("Ut_")),
        ("a long unnamed type", format!("_ZUt{nines}_")),
        ("zeros of an unnamed type", format!("_ZUt{}_", "0".repeat(LONG))),
        ("block literals", scoped("Ub_")),
        ("a long block literal", format!("_ZUb{nines}_")),
        ("tags", format!("_Z1f{}", "B1t".repeat(third))),
        ("tags of each scope", scoped("1aB1t")),
        ("a long tag", format!("_Z1fB{LONG}{}", "t".repeat(LONG))),
        ("conversions", scoped("cvi")),
        ("conversions that are open", format!("_ZN1A{}", "cvN1A".repeat(LONG / 5))),
        ("a conversion to pointers", format!("_ZN1Acv{}iEv", "P".repeat(LONG))),
        ("vendor qualifiers", int("U1a")),
        ("arguments of vendor qualifiers", int("U1aI")),
        ("arguments of a vendor qualifier", format!("_Z1fU1aI{}Ei", "i".repeat(LONG))),
        ("vendor types", int("u1aI")),
        ("vendor types as parameters", format!("_Z1f{}", "u1a".repeat(third))),
        ("protocols", int("U11objcproto1P")),
        ("protocols in a protocol", format!("_Z1fU{}{}i", 9 + 9 * LONG / 9, "objcproto".repeat(LONG / 9 + 1))),
        ("a long floating-point type", format!("_Z1fDF{nines}_")),
        ("a long integer type", format!("_Z1fDB{nines}_")),
        ("integer types", format!("_Z1f{}", "DU7_".repeat(quarter))),
        ("a suffix", format!("_Z1fv.{}", "a".repeat(LONG))),
        ("dots", format!("_Z1fv{}", ".".repeat(LONG))),
        ("suffixes", format!("_Z1fv{}", ".a".repeat(half))),
        ("a long block", format!("___Z1fv_block_invoke{nines}")),
        ("a block with a suffix", format!("___Z1fv_block_invoke.{}", "a".repeat(LONG))),
    ]
}

/// Long symbols of expressions.
fn long_expressions() -> Vec<(&'static str, String)> {
    let (half, quarter) = (LONG / 2, LONG / 4);
    let nines = "9".repeat(LONG);
    let front = |what: &str| expression(&what.repeat(LONG / what.len()));
    let list = |front: &str, item: &str| expression(&format!("{front}{}E", item.repeat(LONG / item.len())));
    let nested = |front: &str, behind: &str| around_literal(front, LONG / (front.len() + behind.len()), behind);
    let deep = |front: &str, behind: &str| around_literal(front, MAX_DEPTH - 4, behind);
    let types = |what: &str| format!("_Z1f{}", what.repeat(LONG / what.len()));
    let args = |what: &str| format!("_Z1fI{}Evv", what.repeat(LONG / what.len()));
    let pack = |what: &str| format!("_Z1fIJ{}EEv{what}", "i".repeat(LONG));
    let mut families = Vec::new();
    // Operators: those that are open, those that nest as deep as the bytes go, and as the limit goes.
    for (open, operator, behind) in [
        ("prefix operators that are open", "nt", ""),
        ("sums that are open", "pl", "Li1E"),
        ("sums in sums that are open", "plLi1E", ""),
        ("conditions that are open", "qu", "Li1ELi1E"),
        ("calls that are open", "cl", "E"),
        ("calls in calls that are open", "clLi1E", "E"),
        ("conversions that are open", "cvi", ""),
        ("conversions of lists that are open", "cvi_", "E"),
        ("named casts that are open", "sci", ""),
        ("members that are open", "dt", "1a"),
        ("subscripts that are open", "ix", "Li1E"),
        ("`new` that is open", "nw", "_iE"),
        ("initialised `new` that is open", "nw_ipi", "E"),
        ("`delete` that is open", "gsdl", ""),
        ("folds that are open", "fLpl", "Li1E"),
        ("folds in folds that are open", "fLplLi1E", ""),
        ("expansions of expressions that are open", "sp", ""),
        ("braces that are open", "il", "E"),
        ("braces of a type that are open", "tli", "E"),
        ("designators that are open", "tl1Adi1a", "E"),
        ("subobjects that are open", "soi", "E"),
        ("conversions of members that are open", "mci", "E"),
        ("sizes of types that are open", "stDT", "E"),
        ("arguments of `sizeof...` that are open", "sPX", "EE"),
        ("expressions of vendors that are open", "u1fX", "EE"),
        ("qualified names with arguments that are open", "sr1fIX", "EEE1x"),
        ("names with arguments that are open", "1fIX", "EE"),
        ("destructors that are open", "dnDT", "E"),
        ("functions as operands that are open", "L_Z1fIX", "EEvvE"),
    ] {
        families.extend([(open, front(operator)), (open, nested(operator, behind)), (open, deep(operator, behind))]);
    }
    families.extend([
        ("arguments of a call", list("cl1g", "Li1E")),
        ("names as arguments of a call", list("cl1g", "1a")),
        ("operands of a conversion", list("cvi_", "Li1E")),
        ("braces", list("il", "Li1E")),
        ("braces in braces", list("il", "ilE")),
        ("members in braces", list("tl1A", "di1aLi1E")),
        ("ranges in braces", list("tl1A", "dXLi1ELi2ELi3E")),
        ("designators", expression(&format!("tl1A{}Li1EE", "di1a".repeat(quarter)))),
        ("places of `new`", expression(&format!("nw{}_iE", "Li1E".repeat(quarter)))),
        ("initial values of `new`", list("nw_ipi", "Li1E")),
        ("arguments of `sizeof...`", list("sP", "i")),
        ("packs in `sizeof...`", list("sP", "JE")),
        ("arguments of a vendor's expression", list("u1f", "Li1E")),
        ("`sizeof...` of a long pack", pack("1AIXsZT_EE")),
        ("a fold of a long pack", pack("DTflplT_E")),
        ("a fold with an initial value of a long pack", pack("DTfRplT_Li1EE")),
        ("an expanded call of a long pack", pack("DTcl1gspT_EE")),
        ("casts to a long pack", pack("DTcl1gspcvT_Li1EEE")),
        ("sizes of a long pack", pack(&"1AIXsZT_EE".repeat(10))),
        ("a long number", expression(&format!("Li{nines}E"))),
        ("a long single", expression(&format!("Lf{nines}E"))),
        ("a long double", expression(&format!("Ld{}E", "f".repeat(LONG)))),
        ("a long extended number", expression(&format!("Le{}E", "0".repeat(LONG)))),
        ("singles", args("Lf3fc00000E")),
        ("doubles", args("Ld3ff8000000000000E")),
        ("extended numbers", args("Le3fffc000000000000000E")),
        ("expressions as arguments", args("XLi1EE")),
        ("expressions that are open", args("X")),
        ("types of expressions", types("DTLi1EE")),
        ("types of expressions that are open", types("DT")),
        ("arrays of sizes", types("ALi1E_")),
        ("vectors of sizes", types("DvLi1E_")),
        ("integers of a size", types("DBLi1E_")),
        ("functions with a condition", types("PDOLi1EEFvvE")),
        ("conditions of functions that are open", types("PDO")),
        ("qualified names", expression(&format!("sr{}E1x", "1a".repeat(half)))),
        ("qualified names of a type", expression(&format!("srN3std{}E1x", "1a".repeat(half)))),
        ("qualified names behind a parameter", format!("_Z1fIiEvDTsrNT_{}E1xE", "1a".repeat(half))),
        ("arguments of a qualified name", expression(&format!("sr1aI{}EE1x", "i".repeat(LONG)))),
        ("arguments of an operator", expression(&format!("onplI{}E", "i".repeat(LONG)))),
        ("global scopes", expression(&"gs".repeat(half))),
        ("names of operators", expression(&"on".repeat(half))),
        ("a long parameter", format!("_Z1fiDTfp{nines}_E")),
        ("a long level of a parameter", format!("_Z1fiDTfL{nines}p_E")),
        ("parameters of a function in a call", format!("_Z1fiDTcl1g{}EE", "fp_".repeat(LONG / 3))),
        ("a long offset", expression(&format!("mciLi1E{nines}E"))),
        ("members of a subobject", expression(&format!("soiLi1E{}E", "_0".repeat(half)))),
        ("closures as literals", args("LUlvE_E")),
        ("strings as literals", args("LA1_KcE")),
        ("throws", front("tw")),
        ("sizes of parameters that aren't there", front("sZ")),
    ]);
    families
}

/// Long symbols of modules, friends, bindings, declared template parameters, constraints and requirements.
fn long_declarations() -> Vec<(&'static str, String)> {
    let some = |what: &str| what.repeat(LONG / what.len());
    let closure = |signature: &str| format!("_Z1fIN1AUl{signature}E_EEvv");
    let constrained = |constraint: &str| format!("_Z1fIiEvvQ{constraint}");
    let mut families = Vec::new();
    // Those that nest as deep as the bytes go, and as the limit goes.
    for (open, front, innermost, behind) in [
        ("packs that are declared", "Tp", "Ty", ""),
        ("templates that are declared", "Tt", "Ty", "E"),
        ("values of declared types", "TnN1AUl", "Ty", "vE_E"),
    ] {
        for n in [LONG / (front.len() + behind.len()), MAX_DEPTH - 8] {
            families.push((open, closure(&format!("{}{innermost}{}v", front.repeat(n), behind.repeat(n)))));
        }
        families.push((open, closure(&some(front))));
    }
    for (open, front, innermost, behind) in [
        ("constraints of lambdas in constraints", "LUlvQ", "Li1E", "E_E"),
        ("requirements in requirements", "rqX", "Li1E", "EE"),
        ("nested requirements", "rqQ", "Li1E", "E"),
        ("requirements of types", "rqTDT", "Li1E", "EE"),
        ("constraints of arguments", "1AIiQ", "Li1E", "E"),
    ] {
        for n in [LONG / (front.len() + behind.len()), MAX_DEPTH - 8] {
            families.push((open, constrained(&format!("{}{innermost}{}", front.repeat(n), behind.repeat(n)))));
        }
        families.push((open, constrained(&some(front))));
    }
    families.extend([
        ("modules", format!("_Z{}1fv", some("W1a"))),
        ("partitions", format!("_Z{}1fv", some("WP1a"))),
        ("modules that are open", format!("_Z{}", some("W"))),
        ("modules of components", format!("_ZN{}E", some("1aW1m"))),
        ("a module's initializer", format!("_ZGI{}", some("W1a"))),
        ("friends", format!("_ZN1A{}E", some("F1f"))),
        ("friends that are open", format!("_ZN1A{}", some("F"))),
        ("bindings", format!("_ZDC{}E", some("1a"))),
        ("bindings that are open", format!("_Z{}", some("DC"))),
        ("parameters behind an object", format!("_ZNH1A1fE{}", some("i"))),
        ("conditions", format!("_Z1fUa9enable_ifI{}Ev", some("Li1E"))),
        ("conditions that are open", format!("_Z1f{}", some("Ua9enable_ifI"))),
        ("constrained types", format!("_Z1f{}", some("Dk1C"))),
        ("constrained types that are open", format!("_Z1f{}", some("Dk1CI"))),
        ("types that are declared", closure(&format!("{}v", some("Ty")))),
        ("constrained types that are declared", closure(&format!("{}v", some("Tk1C")))),
        ("values that are declared", closure(&format!("{}v", some("Tni")))),
        ("parameters of a template that is declared", closure(&format!("Tt{}Ev", some("Ty")))),
        ("declarations in front of an argument", format!("_Z1fI{}iEvv", some("Ty"))),
        ("arguments that are declared", format!("_Z1fI{}Evv", some("Tyi"))),
        ("a long level", format!("_Z1fIiEvTL{}__", "9".repeat(LONG))),
        ("requirements", constrained(&format!("rq{}E", some("XLi1E")))),
        ("parameters of requirements", constrained(&format!("rQ{}_XLi1EE", some("i")))),
        ("constraints of an argument list", format!("_Z1fIiQ{}Evv", some("Li1E"))),
        ("constraints behind a function", constrained(&some("Li1EQ"))),
    ]);
    families
}

/// Long symbols of each family.
pub fn costly() -> Vec<(&'static str, String)> {
    let mut chained = chain(2);
    let mut doubles = doubled(2);
    let mut replacing = replaced(2);
    let mut k = 2;
    while replacing.len() < LONG {
        chained += &format!("P{}", saved(k - 1));
        doubles += &format!("S_I{0}{0}E", saved(k));
        replacing += &format!("S0_I{0}{0}E", saved(k + 2));
        k += 1;
    }
    let letters = |letter: &str| format!("_Z1f{}", letter.repeat(LONG));
    let nested = |front: &str, n: usize, end: &str| format!("{}{}", front.repeat(n), end.repeat(n));
    let mut families = long_names_and_types(&replacing["_Z1fIiEv1AIT_E".len()..]);
    families.extend(long_expressions());
    families.extend(long_declarations());
    families.extend([
        ("pointers", pointers(LONG)),
        ("scopes", scopes(LONG / 2)),
        ("scopes that are open", format!("_Z{}", "N1a".repeat(LONG / 3))),
        ("arguments", args(LONG / 4)),
        ("packs", packs(LONG / 2)),
        ("a chain", chained),
        ("doubled arguments", doubles),
        ("doubled template parameters", replacing),
        ("empty packs", empty_packs(LONG / 16)),
        ("packs beside each other", format!("_Z1fI{}Evv", "JE".repeat(LONG / 2))),
        ("parameters", letters("i")),
        ("parameters of the same class", format!("_Z1f1A{}", "S_".repeat(LONG / 2))),
        ("template parameters", format!("_Z1fIiEv{}", "T_".repeat(LONG / 2))),
        ("packs in parameters", format!("_Z1fIJEEv{}", "DpT_".repeat(LONG / 4))),
        ("operators", format!("_ZN{}E", "pl".repeat(LONG / 2))),
        ("qualifiers", letters("K")),
        ("pointers to constants", letters("PK")),
        ("references", letters("R")),
        ("expansions", letters("Dp")),
        ("digits", format!("_Z{}", "9".repeat(LONG))),
        ("zeros", format!("_Z{}", "0".repeat(LONG))),
        ("a long name", format!("_Z{LONG}{}", "a".repeat(LONG))),
        ("constructors", format!("_ZN1A{}E", "C1".repeat(LONG / 2))),
        ("inherited constructors", format!("_Z{}", "N1ACI1".repeat(LONG / 6))),
        ("literals", format!("_Z1fI{}Evv", "Li1E".repeat(LONG / 4))),
        ("a long literal", format!("_Z1fILi{}EEvv", "1".repeat(LONG))),
        ("indices", format!("_Z1fIS{}_Evv", "Z".repeat(LONG))),
        ("template parameters that aren't there", format!("_Z1fIiEvT{}_", "9".repeat(LONG))),
        ("names with arguments", format!("_Z1f{}", nested("1AI", LONG / 4, "E"))),
        ("standard library", format!("_Z1f{}", "NSt1aE".repeat(LONG / 6))),
    ]);
    families
}

/// Symbols that have no answer.
pub fn refused() -> Vec<String> {
    [
        "",
        "_",
        "_Z",
        "__Z",
        "___Z1fv",
        "Z1fv",
        "1fv",
        "_Z0",
        "_Z01f",
        "_Z1",
        "_Z2f",
        "_Z1f v",
        "_Z1fv ",
        "_Z1gILZ1fvE1x3EEvv",
        "_ZTALZ1gvE1x0E",
        "_Z1fvv",
        "_Z1fvi",
        "_ZN",
        "_ZNE",
        "_ZN1a",
        "_ZNSt",
        "_ZNStE",
        "_Z1fS_",
        "_Z1fiS_",
        "_Z1fPiS0_",
        "_Z1fT_",
        "_Z1fIiEvT0_",
        "_Z1fI",
        "_Z1fIi",
        "_Z1fIiEv",
        "_Z1fILi1Evv",
        "_Z1fILinEEvv",
        "_Z18446744073709551617f",
        "_Z99999999999999999999f",
        "_Z1fS18446744073709551616_",
        "_Z1fSZZZZZZZZZZZZZZZZ_",
        "_Z1fIiEvT18446744073709551615_",
        "_Z1fPiSz_",
        "_Z1fIJiEvv",
        "_Z1fP",
        "_Z1fR",
        "_Z1fK",
        "_Z1fDp",
        "_Z1fD",
        "_ZNC1Ev",
        "_ZN1AC6Ev",
        "_ZN1AD3Ev",
        "_ZN1ACI1Ev",
        "_ZNT_C1Ev",
        "_Z1fN1aIiEIiEE",
        "_ZN1aIiEIiE1bE",
        // Tags, unnamed types, closures and conversions.
        "_Z1fB",
        "_Z1fB0",
        "_Z1fB01tv",
        "_ZSsB1t",
        "_ZUt",
        "_ZUtn1_",
        "_ZUt1a_",
        "_ZUb",
        "_ZUb1a_",
        "_ZUl",
        "_ZUlE_",
        "_ZUlvE",
        "_ZUlviE_",
        "_ZUlvEn0_",
        "_ZN1AUlT_E_1fEvT_",
        "_Z1fIiEvN1AUlT_T0_E_E",
        "_Zcv",
        "_ZcvT_v",
        "_ZN1AcvPT_Ev",
        "_ZN1AcvT_IEEv",
        "_ZN1AcvT0_IiEEv",
        // Local names.
        "_ZZ",
        "_ZZ1fvE",
        "_ZZ1fvEE1x",
        "_ZZ1fvET_",
        "_ZZ1fvE1x_",
        "_ZZ1fvE1x__",
        "_ZZ1fvE1x__1",
        "_ZZ1fvE1x__12345678901_",
        "_ZZ1fvE1x12345678901",
        "_ZZ1fvEs_",
        "_ZZ1fiEd",
        "_ZZ1fiEdn_1x",
        "_ZZ1fiEd_S_",
        "_ZZ1fiEd0_1x_0",
        // Functions, arrays and vectors.
        "_Z1fPF",
        "_Z1fPFE",
        "_Z1fPFvv",
        "_Z1fPFvviE",
        "_Z1fPFvivE",
        "_Z1fPFvvRR",
        "_Z1fPDo",
        "_Z1fPDoKFvvE",
        "_Z1fPDwi",
        "_Z1fPDwE",
        "_Z1fPDxvvE",
        "_Z1fPDxDoFvvE",
        "_Z1fPFYYvvE",
        "_Z1fA",
        "_Z1fA5",
        "_Z1fA5i",
        "_Z1fA5_",
        "_Z1fAn1_i",
        "_Z1fDv",
        "_Z1fDv0_f",
        "_Z1fDv_p",
        "_Z1fDv4_",
        // Other types.
        "_Z1fC",
        "_Z1fGT_",
        "_Z1fU",
        "_Z1fU1a",
        "_Z1fU1aI",
        "_Z1fU10objcprotoXi",
        "_Z1fU10objcproto1i",
        "_Z1fu",
        "_Z1fu1aIE",
        "_Z1fu1aIicE",
        "_Z1fDF",
        "_Z1fDF_",
        "_Z1fDF32b",
        "_Z1fDB_",
        "_Z1fDB1",
        "_Z1fDU_",
        // Expressions.
        "_Z1fIX",
        "_Z1fIXE",
        "_Z1fIXEEvv",
        "_Z1fIXLi1E",
        "_Z1fIXLi1EEvv",
        "_Z1fIXntEEvv",
        "_Z1fIXplEEvv",
        "_Z1fIXplLi1EEEvv",
        "_Z1fIXquLi1ELi2EEEvv",
        "_Z1fIXclEEEvv",
        "_Z1fIXcl1gEEvv",
        "_Z1fIXcvEEvv",
        "_Z1fIXcviEEvv",
        "_Z1fIXcvi_EEvv",
        "_Z1fIXscEEvv",
        "_Z1fIXsciEEvv",
        "_Z1fIXstEEvv",
        "_Z1fIXszEEvv",
        "_Z1fIXdtLi1EEEvv",
        "_Z1fIXixLi1EEEvv",
        "_Z1fIXppEEvv",
        "_Z1fIXpp_EEvv",
        "_Z1fIXawLi1EEEvv",
        "_Z1fIXnwEEvv",
        "_Z1fIXnw_EEEvv",
        "_Z1fIXnw_iEEvv",
        "_Z1fIXnw_ipiEEvv",
        "_Z1fIXdlEEvv",
        "_Z1fIXilEEvv",
        "_Z1fIXtlEEEvv",
        "_Z1fIXtl1Adi1aEEEvv",
        "_Z1fIXtl1AdxLi1EEEEvv",
        "_Z1fIXtl1AdXLi1ELi2EEEEvv",
        "_Z1fIXdi1aLi1EEEvv",
        "_Z1fIXspEEvv",
        "_Z1fIXsZEEvv",
        "_Z1fIXsZ1aEEvv",
        "_Z1fIXsZLi1EEEvv",
        "_Z1fIXsZfEEvv",
        "_Z1fIXsPEEvv",
        "_Z1fIXsPXEEEvv",
        "_Z1fIXtwEEvv",
        "_Z1fIXnxEEvv",
        "_Z1fIXmciEEEvv",
        "_Z1fIXmciLi1EnEEEvv",
        "_Z1fIXsoiEEEvv",
        "_Z1fIXuEEEvv",
        "_Z1fIXu1aEEvv",
        "_Z1fIXfEEvv",
        "_Z1fIXflEEvv",
        "_Z1fIXflplEEvv",
        "_Z1fIXflntLi1EEEvv",
        "_Z1fIXflclLi1EEEvv",
        "_Z1fIXfLplLi1EEEvv",
        "_Z1fIXfp0EEvv",
        "_Z1fIXfLp_EEvv",
        "_Z1fIXfL0_EEvv",
        "_Z1fIXT_EEvv",
        "_Z1fIiEvDTT0_E",
        "_Z1fIXsrEEvv",
        "_Z1fIXsr1aEEvv",
        "_Z1fIXsr1aEEEvv",
        "_Z1fIXsrSt1aEEvv",
        "_Z1fIXsrS0_1aEEvv",
        "_Z1fIXsri1aEEvv",
        "_Z1fIXgsEEvv",
        "_Z1fIXgsplLi1ELi2EEEvv",
        "_Z1fIXgssrSt1a1bEEvv",
        "_Z1fIXdnEEvv",
        "_Z1fIXdniEEvv",
        "_Z1fIXonEEvv",
        "_Z1fIXonqqEEvv",
        // Floats.
        "_Z1fILf3fc0000EEvv",
        "_Z1fILf3fc000000EEvv",
        "_Z1fILf3FC00000EEvv",
        "_Z1fILfn3fc0000EEvv",
        "_Z1fILfEEvv",
        "_Z1fILd3ff800000000000EEvv",
        "_Z1fILd3ff80000000000000EEvv",
        "_Z1fILd3fc00000EEvv",
        "_Z1fILe3fffc00000000000000EEvv",
        "_Z1fILe3fffc0000000000000000EEvv",
        "_Z1fILf3fc00000",
        "_Z1fILf3fc0000gEEvv",
        // Types of expressions, sizes and exceptions that are expressions.
        "_Z1fDT",
        "_Z1fDTE",
        "_Z1fDTLi1E",
        "_Z1fDt1a",
        "_Z1fALi1Ei",
        "_Z1fAnt_i",
        "_Z1fDvLi1Ef",
        "_Z1fDBLi1E",
        "_Z1fPDOEFvvE",
        "_Z1fPDOLi1EFvvE",
        "_Z1fPDOLi1EE",
        // Modules, friends, bindings, objects and conditions.
        "_ZW",
        "_ZWP",
        "_ZW1M",
        "_ZWP1M",
        "_ZW1",
        "_ZGI",
        "_ZGI1M",
        "_ZGIW1MP",
        "_ZF1fv",
        "_Z1AF1fv",
        "_ZN1AF",
        "_ZN1AFE",
        "_ZN1AFF1fEv",
        "_ZDC",
        "_ZDCE",
        "_ZDC1a",
        "_ZN1ADCE",
        "_ZNH",
        "_ZNHE",
        "_ZNHK1A1fEv",
        "_ZNKH1A1fEv",
        "_ZNHH1A1fEv",
        "_ZH1fv",
        "_Z1fUa9enable_if",
        "_Z1fUa9enable_ifI",
        "_Z1fUa9enable_ifILi1EE",
        "_Z1fUa9enable_ifILi1Ev",
        "_Z1fDk",
        "_Z1fDK",
        "_Z1fDki",
        "_Z1fDkE",
        // Declarations and levels.
        "_Z1fIN1AUlTyE_EEvv",
        "_Z1fIN1AUlTkvE_EEvv",
        "_Z1fIN1AUlTnvE_E",
        "_Z1fIN1AUlTtvE_EEvv",
        "_Z1fIN1AUlTtEvE_",
        "_Z1fIN1AUlTtTyvE_EEvv",
        "_Z1fIN1AUlTtQLi1EEvE_EEvv",
        "_Z1fIN1AUlTtTyQLi1ETyEvE_EEvv",
        "_Z1fIN1AUlTtTyQLi1EQLi1EEvE_EEvv",
        "_Z1fIN1AUlTpvE_EEvv",
        "_Z1fIN1AUlTxvE_EEvv",
        "_Z1fITyEvv",
        "_Z1fITniEvv",
        "_Z1fIJTyEEvv",
        "_Z1fIiEvTL_",
        "_Z1fIiEvTL__",
        "_Z1fIiEvTL0_",
        "_Z1fIiEvTL0__",
        "_Z1fIiEvTL5_0_",
        "_Z1fIiEvTL18446744073709551616__",
        // Constraints and requirements.
        "_Z1fIiEvvQ",
        "_Z1fIiEvvQE",
        "_Z1fIiEvvQi",
        "_Z1fIiEvvQLi1EQLi1E",
        "_Z1fIiEvQLi1Ev",
        "_Z1fIiEQLi1Evv",
        "_Z1fIiQEvv",
        "_Z1fIiQLi1EiEvv",
        "_Z1fIQLi1EEvv",
        "_Z1fIJiQLi1EEEvv",
        "_Z1fIN1AUlQLi1EE_EEvv",
        "_Z1fIN1AUlvQLi1EQLi1EE_EEvv",
        "_Z1fIN1AUlQLi1EQLi1EvE_EEvv",
        "_Z1fIiEvvQrqE",
        "_Z1fIiEvvQrq",
        "_Z1fIiEvvQrQ_E",
        "_Z1fIiEvvQrQi_E",
        "_Z1fIiEvvQrQiXLi1EE",
        "_Z1fIiEvvQrqXE",
        "_Z1fIiEvvQrqXLi1E",
        "_Z1fIiEvvQrqXLi1ERE",
        "_Z1fIiEvvQrqXLi1ERNE",
        "_Z1fIiEvvQrqXLi1ER1CNE",
        "_Z1fIiEvvQrqTE",
        "_Z1fIiEvvQrqQE",
        "_Z1fIiEvvQrqLi1EE",
        // Suffixes and blocks.
        "_Z.x",
        "_Z1f_.x",
        "_Z1fP.x",
        "___Z1fv.cold",
        "___Z1fv_block_invoke_",
        "___Z1fv_block_invoke1_2",
        "_Z1fv_block_invoke",
        "_____Z1fv_block_invoke",
    ]
    .map(str::to_string)
    .to_vec()
}
