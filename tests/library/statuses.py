"""What the module does with the status that each call of the library returns, the first argument (statuses.c)."""
import sys

import cosvigle

status = int(sys.argv[1])


def fails(call):
    try:
        call("_Z3foo")
    except MemoryError:
        assert status == 2
    except cosvigle.LimitError:
        assert status == 6
    except cosvigle.Error as error:
        assert error.status == status not in (2, 6)
    else:
        raise AssertionError(f"{call} gave a value with status {status}")


demangler = cosvigle.Demangler()
asking = (demangler.demangle, demangler.demangle_type, demangler.parts, cosvigle.demangle, cosvigle.parts)
for call in asking:
    if status in (1, 4):
        assert call("_Z3foo") is None
    else:
        fails(call)
fails(demangler.replace)
fails(demangler.filter)
# Where the limit can't be set, nothing is asked.
fails(cosvigle.Demangler(max_memory=1000).demangle)
