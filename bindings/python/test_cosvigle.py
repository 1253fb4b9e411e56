"""What the module promises, over the library that COSVIGLE_LIBRARY names or the loader finds."""
import os
import threading
import unittest

import cosvigle

SYMBOL = "_ZNSt6vectorIS_IS_IiEEE4sizeEv"
NAME = "std::vector<std::vector<std::vector<int> > >::size"
TEXT = NAME + "()"
TEMPLATE = "_ZN1AIiE1fIiEEvSs"
STRING = "std::basic_string<char, std::char_traits<char>, std::allocator<char> >"


class Calls(unittest.TestCase):
    def test_declarations(self):
        self.assertEqual(cosvigle.demangle("_ZN3Foo3barEv"), "Foo::bar()")
        self.assertEqual(cosvigle.demangle(b"_ZNK3Foo3barEv"), b"Foo::bar() const")
        self.assertEqual(cosvigle.demangle(bytearray(b"__Z3fooi.cold")), b"foo(int) [clone .cold]")
        self.assertEqual(cosvigle.demangle(b"_Z1fIJicEEvDpRKT_"), b"void f<int, char>(int const&, char const&)")
        self.assertEqual(cosvigle.demangle(SYMBOL), TEXT)
        for symbol in ("malloc", "", "i", b"", b"_Z1\xff", os.fsdecode(b"_Z1\xff"), "_Z3foo_", "_Z3foo\0bar"):
            self.assertIsNone(cosvigle.demangle(symbol))

    def test_printings(self):
        self.assertEqual(cosvigle.demangle(TEMPLATE), f"void A<int>::f<int>({STRING})")
        self.assertEqual(cosvigle.demangle(TEMPLATE, style="gnu-short"), "void A<int>::f<int>(std::string)")
        self.assertEqual(cosvigle.demangle(TEMPLATE, returns=False), f"A<int>::f<int>({STRING})")
        self.assertEqual(cosvigle.demangle(TEMPLATE, params=False), "A<int>::f<int>")
        self.assertEqual(cosvigle.demangle(TEMPLATE, params=False, returns=False, style="llvm"), "A<int>::f<int>")
        self.assertEqual(cosvigle.demangle(SYMBOL, style="llvm"), TEXT.replace(" >", ">").replace(" >", ">"))
        with cosvigle.Demangler() as demangler:
            self.assertEqual(demangler.demangle("_Z3fooi", params=False), "foo")
            self.assertEqual(demangler.demangle("_Z3fooi"), "foo(int)")
        for call in (cosvigle.demangle, cosvigle.demangle_type, cosvigle.parts, cosvigle.replace, cosvigle.filter):
            with self.assertRaises(ValueError):
                call("_Z3foo", style="other")

    def test_types(self):
        self.assertEqual(cosvigle.demangle_type("PFivE"), "int (*)()")
        self.assertEqual(cosvigle.demangle_type(b"Ss", style="gnu-short"), b"std::string")
        self.assertEqual(cosvigle.demangle_type("_Z3foov"), "foo()")
        for text in ("", "_Z3foo_", b"\xff"):
            self.assertIsNone(cosvigle.demangle_type(text))

    def test_parts(self):
        parts = cosvigle.parts("_ZNK3Foo3barIiEEvSs", style="gnu-short")
        self.assertEqual(parts, ("function", "bar", "Foo", "(std::string)", "void", True))
        self.assertEqual((parts.kind, parts.base_name, parts.has_qualifiers), ("function", "bar", True))
        self.assertEqual(cosvigle.parts(b"_ZN1a1b1xE"), ("data", b"x", b"a::b", b"", b"", False))
        self.assertEqual(cosvigle.parts("_ZTV1A"), ("special", "", "", "", "", False))
        self.assertEqual(cosvigle.parts(f"_Z1000{'a' * 1000}v").base_name, "a" * 1000)
        for symbol in ("malloc", "", b"_Z1\xff"):
            self.assertIsNone(cosvigle.parts(symbol))

    def test_long_names(self):
        with cosvigle.Demangler() as demangler:
            for length in (255, 256, 257, 100000):
                self.assertEqual(demangler.demangle(f"_Z{length}{'a' * length}v"), "a" * length + "()")
                self.assertEqual(demangler.demangle(f"_Z{length}{'a' * length}v", params=False), "a" * length)

    def test_limits(self):
        with cosvigle.Demangler(max_memory=1) as demangler:
            for call in (demangler.demangle, demangler.demangle_type, demangler.parts):
                with self.assertRaises(cosvigle.LimitError):
                    call("_Z3fooi")
            self.assertIsNone(demangler.demangle("malloc"))
            self.assertEqual(demangler.replace("at _Z3fooi"), "at _Z3fooi")
            self.assertEqual(demangler.filter("_Z3fooi"), "_Z3fooi")
            demangler.close()
            with self.assertRaises(cosvigle.LimitError):
                demangler.demangle("_Z3fooi")
        self.assertEqual(cosvigle.Demangler(max_memory=1000000).demangle(SYMBOL), TEXT)
        with self.assertRaises(ValueError):
            cosvigle.Demangler(max_memory=0)

    def test_words(self):
        with cosvigle.Demangler() as demangler:
            self.assertEqual(demangler.replace(f"({SYMBOL}+0x1) x"), f"({TEXT}+0x1) x")
            self.assertEqual(demangler.replace(f"({SYMBOL}+0x1) x", params=False), f"({NAME}+0x1) x")
            self.assertEqual(demangler.replace(b"a\0_Z3foov \xff"), b"a\0foo() \xff")
            self.assertEqual(demangler.replace("x___Z3foov"), "x___Z3foov")
            self.assertEqual(demangler.replace("___Z3foov", strip=True), "foo()")
            self.assertEqual(demangler.replace("PFivE, _Z3foov", types=True), "int (*)(), foo()")
            self.assertEqual(demangler.replace(""), "")
            odd = os.fsdecode(b"_Z3foov \xff")
            self.assertEqual(os.fsencode(demangler.replace(odd)), b"foo() \xff")
        self.assertEqual(cosvigle.replace("_Z3foov"), "foo()")

    def test_lines(self):
        with cosvigle.Demangler() as demangler:
            self.assertEqual(demangler.filter(f"{SYMBOL}\nx _Z3foov\n_Z3bar"), f"{TEXT}\nx _Z3foov\nbar")
            self.assertEqual(demangler.filter(b"_Z1\xff\n"), b"_Z1\xff\n")
            self.assertEqual(demangler.filter("i\n_Z3foov\n", types=True, params=False), "int\nfoo\n")
        self.assertEqual(cosvigle.filter(""), "")

    def test_closed(self):
        demangler = cosvigle.Demangler()
        self.assertEqual(demangler.demangle("_Z3foo"), "foo")
        demangler.close()
        demangler.close()
        self.assertEqual(demangler.demangle("_Z3bar"), "bar")

    def test_threads(self):
        shared, wrong = cosvigle.Demangler(), []

        def ask(number):
            for _ in range(500):
                name = f"f{number}"
                symbol = f"_Z{len(name)}{name}v"
                if shared.demangle(symbol) != name + "()" or cosvigle.parts(symbol).base_name != name:
                    wrong.append(symbol)

        threads = [threading.Thread(target=ask, args=(number,)) for number in range(8)]
        for thread in threads:
            thread.start()
        for thread in threads:
            thread.join()
        self.assertEqual(wrong, [])

    def test_wrong_types(self):
        for wrong in (None, 1, ["_Z3foo"]):
            with self.assertRaises(TypeError):
                cosvigle.demangle(wrong)
            with self.assertRaises(TypeError):
                cosvigle.parts(wrong)

    def test_errors(self):
        self.assertEqual(str(cosvigle.Error(9)), "unexpected status 9")
        self.assertEqual(cosvigle.Error(9).status, 9)

    def test_version(self):
        major, minor, patch = map(int, cosvigle.__version__.split("."))
        self.assertEqual(cosvigle.version(), major * 1000000 + minor * 1000 + patch)


if __name__ == "__main__":
    unittest.main()
