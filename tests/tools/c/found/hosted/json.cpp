// A value of JSON as a variant, read by a class and written by a visitor; each rank has a text of its own.
#include <bsp.h>

#include <charconv>
#include <cctype>
#include <iostream>
#include <map>
#include <memory>
#include <optional>
#include <sstream>
#include <stdexcept>
#include <string>
#include <string_view>
#include <variant>
#include <vector>

struct Value;
using List = std::vector<Value>;
using Object = std::map<std::string, Value>;
struct Value : std::variant<std::nullptr_t, bool, double, std::string, std::shared_ptr<List>, std::shared_ptr<Object>> {
    using variant::variant;
};

class Reader {
    std::string_view text_;
    std::size_t at_ = 0;

    [[noreturn]] void fail(const std::string& why) const { throw std::runtime_error(why + " at " + std::to_string(at_)); }
    char peek()
    {
        while (at_ < text_.size() && std::isspace(static_cast<unsigned char>(text_[at_]))) ++at_;
        return at_ < text_.size() ? text_[at_] : '\0';
    }
    void expect(char c) { if (peek() != c) fail(std::string("no '") + c + "'"); ++at_; }
    bool word(std::string_view w)
    {
        if (text_.substr(at_, w.size()) != w) return false;
        at_ += w.size();
        return true;
    }
    std::string string()
    {
        std::string out;
        for (expect('"'); at_ < text_.size() && text_[at_] != '"'; ++at_)
            if (text_[at_] == '\\') out += text_[++at_] == 'n' ? '\n' : text_[at_];
            else out += text_[at_];
        expect('"');
        return out;
    }

public:
    explicit Reader(std::string_view text) : text_(text) {}
    Value value()
    {
        switch (peek()) {
        case '{': {
            auto all = std::make_shared<Object>();
            for (++at_; peek() != '}'; ) {
                auto key = string();
                expect(':');
                all->insert_or_assign(std::move(key), value());
                if (peek() == ',') ++at_;
            }
            ++at_;
            return all;
        }
        case '[': {
            auto all = std::make_shared<List>();
            for (++at_; peek() != ']'; ) {
                all->emplace_back(value());
                if (peek() == ',') ++at_;
            }
            ++at_;
            return all;
        }
        case '"': return string();
        case 't': if (word("true")) return true; break;
        case 'f': if (word("false")) return false; break;
        case 'n': if (word("null")) return nullptr; break;
        default: {
            double number;
            auto [end, error] = std::from_chars(text_.data() + at_, text_.data() + text_.size(), number);
            if (error != std::errc()) break;
            at_ = end - text_.data();
            return number;
        }
        }
        fail("no value");
    }
};

struct Writer {
    std::ostream& out;
    void operator()(std::nullptr_t) const { out << "null"; }
    void operator()(bool b) const { out << std::boolalpha << b; }
    void operator()(double d) const { char b[32]; auto r = std::to_chars(b, b + sizeof b, d); out.write(b, r.ptr - b); }
    void operator()(const std::string& s) const { out << '"' << s << '"'; }
    void operator()(const std::shared_ptr<List>& l) const
    {
        const char* comma = "";
        out << '[';
        for (const auto& it : *l) { out << comma; write(it); comma = ","; }
        out << ']';
    }
    void operator()(const std::shared_ptr<Object>& o) const
    {
        const char* comma = "";
        out << '{';
        for (const auto& [key, it] : *o) { out << comma << '"' << key << "\":"; write(it); comma = ","; }
        out << '}';
    }
    void write(const Value& v) const { std::visit(*this, static_cast<const Value::variant&>(v)); }
};

static std::optional<double> number(const Value& v, const std::string& key)
{
    if (auto o = std::get_if<std::shared_ptr<Object>>(&v))
        if (auto at = (*o)->find(key); at != (*o)->end())
            if (auto d = std::get_if<double>(&at->second)) return *d;
    return std::nullopt;
}

int main()
{
    bsp_begin(bsp_nprocs());
    static const std::string_view texts[] = {R"({"n": 12, "name": "grid", "sizes": [1, 2.5, -3e2]})", R"([true, false, null, {"n": 0.1}])",
        R"({"b": {"n": 1e21}, "a": [], "n": 123456.789})", R"({"n": 1, "bad": [1, tru]})"};
    try {
        Value v = Reader(texts[bsp_pid() % 4]).value();
        std::ostringstream out;
        Writer{out}.write(v);
        std::cout << out.str() << " " << number(v, "n").value_or(-1) << "\n";
    } catch (const std::exception& e) {
        std::cout << "rank " << bsp_pid() << ": " << e.what() << "\n";
    }
    bsp_end();
}
