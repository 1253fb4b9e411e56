#include <cstdlib>
#include <string>
#include <vector>
namespace shop {
template <class T>
struct Cart {
    std::vector<T> all;
    void add(const T &it);
    long count() const;
};
long checkout(Cart<std::vector<std::string>> &cart);
} // namespace shop

int main(int count, char **) {
    shop::Cart<std::vector<std::string>> cart;
    long all = shop::checkout(cart);
    if (count > 1) std::abort();
    return all == 1 ? 0 : 1;
}
