// cosvigle_cxa_demangle over symbols, one on each line of standard input, beside the lines of a file that it must
// print, and beside __cxa_demangle of the library for C++. Each text must be that of the file, which has the symbol
// itself where there is none. Prints how many differ from the library's, and how many only one of them reads, since
// neither reads all symbols, and that library prints some wrongly. The status is 0 if no text is wrong, and nine in
// ten are the library's too.
#include <cosvigle.h>
#include <cxxabi.h>

#include <fstream>
#include <iostream>
#include <string>

int main(int argc, char **argv) {
    if (argc != 2) return 2;
    std::ifstream lines(argv[1]);
    long same = 0, different = 0, own = 0, others = 0, wrong = 0;
    for (std::string line, right; std::getline(std::cin, line);) {
        int status = 99, wanted = 99;
        char *text = cosvigle_cxa_demangle(line.c_str(), nullptr, nullptr, &status);
        char *other = abi::__cxa_demangle(line.c_str(), nullptr, nullptr, &wanted);
        if ((status == 0) != (text != nullptr) || (status != 0 && status != -2)) return 2;
        if (!std::getline(lines, right) || right != (text != nullptr ? text : line)) wrong++;
        if (text != nullptr && other != nullptr) (std::string(text) == other ? same : different)++;
        else if (text == nullptr && other == nullptr) (status == wanted ? same : different)++;
        else (text != nullptr ? own : others)++;
        std::free(text);
        std::free(other);
    }
    std::cout << wrong << " wrong, " << same << " the same, " << different << " different, " << own
              << " read by cosvigle alone, " << others << " by the other alone\n";
    const long all = same + different + own + others;
    return wrong == 0 && all > 10000 && same * 10 > all * 9 ? 0 : 1;
}
