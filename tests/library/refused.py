"""Each allocation of each call of the module fails in turn (refuse.c), also those that Python makes: the call raises
MemoryError or gives the right value, and gives that when it is made again."""
import ctypes

import cosvigle

refuse_at = ctypes.CDLL(None).refuse_at
refuse_at.argtypes, refuse_at.restype = [ctypes.c_long], ctypes.c_long
SYMBOL = "_ZNSt6vectorIS_IS_IiEEE4sizeEv"
TEXT = "std::vector<std::vector<std::vector<int> > >::size()"
LONG = "a" * 1000


def tried(method, given, right, **how):
    """The same call where each of its allocations fails, until none does."""
    number, failed, left = 1, 0, 0
    while not left:
        call, found = getattr(cosvigle.Demangler(**how), method), None
        refuse_at(number)
        try:
            found = call(given)
        except MemoryError:
            pass
        left = refuse_at(0)
        if found is None:
            failed += 1
            found = call(given)
        assert found == right, (method, given, number, found)
        number += 1
    assert 1 < failed < number, (method, failed, number)


tried("demangle", SYMBOL, TEXT)
tried("demangle", SYMBOL, TEXT, max_memory=1000000)
tried("demangle", f"_Z1000{LONG}v", LONG + "()")
tried("demangle_type", "PFivE", "int (*)()")
tried("parts", "_ZNK1A1fIiEEvv", ("function", "f", "A", "()", "void", True))
tried("replace", SYMBOL, TEXT)
tried("filter", SYMBOL, TEXT)
