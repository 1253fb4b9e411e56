// Reads symbols, one per line, and prints the declaration of each, or the symbol itself if it has none. It uses one
// demangler for all symbols, since that keeps its memory.
#include <cosvigle.hpp>
#include <iostream>
#include <string>

int main() {
    cosvigle::demangler demangler;
    for (std::string line; std::getline(std::cin, line);) {
        std::cout << demangler.demangle(line).value_or(line) << '\n';
    }
}
