//! What the crate promises.

use cosvigle::{AllocError, Demangler, Error, Kind, Options, Parts, Style, demangle, names, try_demangle, version};

#[test]
fn declarations() {
    let mut demangler = Demangler::new();
    assert_eq!(demangler.demangle("_ZN3Foo3barEv"), Some("Foo::bar()"));
    assert_eq!(demangler.demangle("_ZNK3Foo3barEv"), Some("Foo::bar() const"));
    assert_eq!(demangler.demangle("__Z3fooi.cold"), Some("foo(int) [clone .cold]"));
    assert_eq!(demangler.demangle("_Z1fIJicEEvDpRKT_"), Some("void f<int, char>(int const&, char const&)"));
    assert_eq!(demangler.demangle("malloc"), None);
    assert_eq!(demangler.demangle(""), None);
    assert_eq!(demangler.demangle("i"), None);
    assert_eq!(demangler.demangle("_Z3foo\0bar"), None);
    assert_eq!(demangler.demangle("_Z2é"), Some("é"));
    assert_eq!(demangler.demangle("_Z1é"), None);
    assert_eq!(demangler.try_demangle("_ZN3Foo3barEv"), Ok(Some("Foo::bar()")));
    assert_eq!(demangler.try_demangle("malloc"), Ok(None));
    assert_eq!(demangler.try_demangle(b"_Z3foov"), Ok(Some("foo()")));
    assert_eq!(demangler.try_demangle(String::from("_Z3foov")), Ok(Some("foo()")));
    assert_eq!(demangler.try_demangle(b"_Z1\xff"), Ok(None));
    assert_eq!(demangle("_ZNSt6vectorIS_IiEE4sizeEv").as_deref(), Some("std::vector<std::vector<int> >::size()"));
    assert_eq!(demangle("main"), None);
    assert_eq!(try_demangle(b"_Z3foov"), Ok(Some("foo()".into())));
    assert_eq!(try_demangle("main"), Ok(None));
}

#[test]
fn options() {
    let symbol = "_ZN1AIiE1fISt6vectorIiEEEvSs";
    let string = "std::basic_string<char, std::char_traits<char>, std::allocator<char> >";
    let all = Options::default();
    let of = |options: Options| Demangler::with(options).demangle(symbol).map(str::to_string).unwrap();
    assert_eq!(of(all), format!("void A<int>::f<std::vector<int> >({string})"));
    assert_eq!(of(Options { returns: false, ..all }), format!("A<int>::f<std::vector<int> >({string})"));
    assert_eq!(of(Options { params: false, ..all }), "A<int>::f<std::vector<int> >");
    let short = Options { style: Style::GnuShort, ..all };
    assert_eq!(of(short), "void A<int>::f<std::vector<int> >(std::string)");
    let llvm = Options { style: Style::Llvm, ..all };
    assert_eq!(of(llvm), "void A<int>::f<std::vector<int>>(std::string)");
    assert_eq!(of(Options { params: false, returns: false, ..llvm }), "A<int>::f<std::vector<int>>");
    let types = Options { types: true, ..short };
    assert_eq!(Demangler::with(types).demangle("Ss"), Some("std::string"));
    assert_eq!(Demangler::with(types).demangle("_Z3foov"), Some("foo()"));
}

#[test]
fn types() {
    let mut demangler = Demangler::new();
    assert_eq!(demangler.demangle_type("PFivE"), Some("int (*)()"));
    assert_eq!(demangler.demangle_type("_Z3foov"), Some("foo()"));
    assert_eq!(demangler.demangle_type(""), None);
    assert_eq!(demangler.try_demangle_type(b"3Foo"), Ok(Some("Foo")));
    assert_eq!(demangler.try_demangle_type(b"\xff"), Ok(None));
    assert_eq!(demangler.demangle("i"), None);
}

#[test]
fn parts() {
    let mut demangler = Demangler::with(Options { style: Style::GnuShort, ..Options::default() });
    let member = Parts {
        kind: Kind::Function,
        has_qualifiers: true,
        base_name: "bar".into(),
        context: "Foo".into(),
        parameters: "(std::string)".into(),
        return_type: "void".into(),
    };
    assert_eq!(demangler.parts("_ZNK3Foo3barIiEEvSs"), Some(member));
    let nothing = Parts {
        kind: Kind::Special,
        has_qualifiers: false,
        base_name: String::new(),
        context: String::new(),
        parameters: String::new(),
        return_type: String::new(),
    };
    assert_eq!(demangler.try_parts(b"_ZTV1A"), Ok(Some(nothing.clone())));
    let data = Parts { kind: Kind::Data, base_name: "x".into(), context: "a::b".into(), ..nothing };
    assert_eq!(demangler.parts("_ZN1a1b1xE"), Some(data));
    assert_eq!(demangler.parts("malloc"), None);
    assert_eq!(demangler.try_parts(b"_Z1\xff"), Ok(None));
}

#[test]
fn limits() {
    let limited = |bytes| Demangler::with(Options { max_memory: Some(bytes), ..Options::default() });
    let mut demangler = limited(1);
    assert_eq!(demangler.try_demangle("_Z3fooi"), Err(Error::Limit));
    assert_eq!(demangler.try_demangle_type("PFivE"), Err(Error::Limit));
    assert_eq!(demangler.try_parts("_Z3fooi"), Err(Error::Limit));
    assert_eq!(demangler.demangle("_Z3fooi"), None);
    assert_eq!(demangler.parts("_Z3fooi"), None);
    assert_eq!(demangler.try_demangle("malloc"), Ok(None));
    assert_eq!(demangler.replace(b"at _Z3fooi", false), b"at _Z3fooi");
    assert_eq!(demangler.filter(b"_Z3fooi\n"), b"_Z3fooi\n");
    assert_eq!(limited(1_000_000).try_demangle("_Z3fooi"), Ok(Some("foo(int)")));
}

#[test]
fn long_names() {
    let mut demangler = Demangler::new();
    for len in [255, 256, 257, 100_000] {
        let name = "a".repeat(len);
        assert_eq!(demangler.demangle(&format!("_Z{len}{name}")), Some(name.as_str()));
        let declaration = format!("{name}()");
        assert_eq!(demangler.demangle(&format!("_Z{len}{name}v")), Some(declaration.as_str()));
    }
}

#[test]
fn words() {
    let mut demangler = Demangler::new();
    assert_eq!(demangler.replace(b"", false), b"");
    assert_eq!(demangler.replace(b"at (_Z3foov+0x1) \xff\0", false), b"at (foo()+0x1) \xff\0");
    assert_eq!(demangler.replace(b".text._Z3foov..", false), b".text.foo()..");
    assert_eq!(demangler.replace(b"x___Z3foov", false), b"x___Z3foov");
    assert_eq!(demangler.replace(b"___Z3foov", true), b"foo()");
    assert_eq!(demangler.try_replace(b"_Z3foov!", false), Ok(b"foo()!".to_vec()));
    let mut names = Demangler::with(Options { params: false, types: true, ..Options::default() });
    assert_eq!(names.replace(b"(_Z3fooi, PKc)", false), b"(foo, char const*)");
}

#[test]
fn lines() {
    let mut demangler = Demangler::new();
    assert_eq!(demangler.filter(b""), b"");
    assert_eq!(demangler.filter(b"_Z3foov\nx _Z3foov\n\n_Z3bar"), b"foo()\nx _Z3foov\n\nbar");
    assert_eq!(demangler.filter(b"_Z3fooi\n_Z1\xff\n"), b"foo(int)\n_Z1\xff\n");
    assert_eq!(demangler.try_filter(b"_Z3foov\n"), Ok(b"foo()\n".to_vec()));
}

#[test]
fn errors_and_values() {
    fn is_error<T: std::error::Error + Send + Sync + 'static>(error: T) -> String {
        error.to_string()
    }
    assert_eq!(is_error(AllocError), "out of memory");
    assert_eq!(is_error(Error::Memory), "out of memory");
    assert_eq!(is_error(Error::Limit), "the symbol needs more memory than the limit");
    assert_eq!(Error::from(AllocError), Error::Memory);
    fn is_shared<T: Send + Sync + 'static>(_: T) {}
    is_shared(Demangler::new());
    is_shared(names::Demangler::new());
    assert!(format!("{:?}", Demangler::default()).starts_with("Demangler { options: Options { style: Gnu, "));
    assert_eq!(format!("{:?}", names::Demangler::default()), "Demangler { .. }");
}

#[test]
fn another_thread() {
    let mut demangler = Demangler::new();
    assert_eq!(demangler.demangle("_Z3foov"), Some("foo()"));
    let mut demangler = std::thread::spawn(move || {
        assert_eq!(demangler.demangle("_Z3barv"), Some("bar()"));
        demangler
    })
    .join()
    .unwrap();
    assert_eq!(demangler.demangle("_Z4quuxv"), Some("quux()"));
    std::thread::spawn(move || drop(demangler)).join().unwrap();
}

#[test]
fn versions() {
    let parts: Vec<u32> = env!("CARGO_PKG_VERSION").split('.').map(|part| part.parse().unwrap()).collect();
    assert_eq!(version(), parts[0] * 1_000_000 + parts[1] * 1_000 + parts[2]);
}

#[test]
fn names_alone() {
    let mut demangler = names::Demangler::new();
    assert_eq!(demangler.demangle("_ZN3Foo3barEv"), Some("Foo::bar"));
    assert_eq!(demangler.demangle("__Z3foo.cold"), Some("foo.cold"));
    assert_eq!(demangler.demangle("_Z3foo\0bar"), Some("foo"));
    assert_eq!(demangler.demangle("malloc"), None);
    assert_eq!(demangler.try_demangle(b"_Z3foov"), Ok(Some("foo")));
    assert_eq!(demangler.try_demangle(b"_Z1\xff"), Ok(None));
    assert_eq!(names::demangle_owned("main"), None);
    assert_eq!(names::try_demangle_owned(b"_Z3foov"), Ok(Some("foo".into())));
    assert_eq!(names::try_demangle_owned("main"), Ok(None));
}

/// A program over `itanium-demangle`, with one line changed.
mod in_place_of_itanium_demangle {
    use cosvigle::names as itanium_demangle;
    use itanium_demangle::{Demangler, demangle_owned};

    fn first_of<'a>(demangler: &'a mut Demangler, symbols: &[&'a str]) -> Option<&'a str> {
        let at = symbols.iter().position(|symbol| demangler.demangle(symbol).is_some())?;
        demangler.demangle(symbols[at])
    }

    #[test]
    fn signatures_of_its_calls() {
        let new: fn() -> Demangler = Demangler::new;
        let demangle: for<'a> fn(&'a mut Demangler, &'a str) -> Option<&'a str> = Demangler::demangle;
        let owned: fn(&str) -> Option<String> = demangle_owned;
        assert_eq!(demangle(&mut new(), "_Z3foov"), Some("foo"));
        assert_eq!(owned("_Z3foov").as_deref(), Some("foo"));
        assert_eq!(first_of(&mut Demangler::default(), &["malloc", "_Z3barv"]), Some("bar"));
    }
}
