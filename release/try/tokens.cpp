// Prints the tokens of standard input by one call of the library, from C++.
#include <starlark_lex.h>

#include <cstdio>
#include <iostream>
#include <iterator>
#include <string>
#include <vector>

int main()
{
    std::istreambuf_iterator<char> begin(std::cin), end;
    std::string text(begin, end);
    std::vector<starlark_lexeme> lexemes(2 * text.size() + 1);
    std::vector<uint8_t> values(text.size());
    starlark_outcome outcome;
    starlark_lex(reinterpret_cast<const uint8_t *>(text.data()), text.size(), lexemes.data(),
                 lexemes.size(), values.data(), values.size(), &outcome);
    for (size_t index = 0; index < outcome.lexemes; index++) {
        std::printf("%u-%u %s\n", lexemes[index].begin, lexemes[index].end,
                    starlark_kind_name(lexemes[index].kind));
    }
    return static_cast<int>(outcome.status);
}
