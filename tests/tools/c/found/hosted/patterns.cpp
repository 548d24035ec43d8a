// Lines of a log by regular expressions.
#include <bsp.h>

#include <iostream>
#include <map>
#include <regex>
#include <string>

static const char *const lines[] = {"2024-01-05 ERROR disk: full", "2024-01-06 INFO net: up", "bad line", "2024-02-11 ERROR net: down",
    "2024-02-12 WARN disk: slow"};

int main()
{
    bsp_begin(bsp_nprocs());
    const std::regex form("(\\d{4})-(\\d\\d)-(\\d\\d) (ERROR|WARN|INFO) (\\w+): (.*)");
    std::map<std::string, int> kinds;
    for (int i = bsp_pid(); i < 5; i += bsp_nprocs()) {
        std::smatch found;
        const std::string line = lines[i];
        if (!std::regex_match(line, found, form)) {
            std::cout << "no match: " << line << '\n';
            continue;
        }
        kinds[found[4]]++;
        std::cout << found[5] << '/' << found[2] << ": " << std::regex_replace(line, std::regex("[aeiou]"), "*") << '\n';
    }
    for (const auto &it : kinds)
        std::cout << it.first << ' ' << it.second << '\n';
    bsp_end();
}
