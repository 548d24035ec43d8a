/* What C++'s streams share, the four standard ones, and the functions of streams that the headers of GCC's standard library expect in a
   library, which is there for the host alone. Names and members are those of its ABI. */
#include <cstdio>
#include <iomanip>
#include <istream>
#include <new>
#include <ostream>
#include <sstream>
#include <utility>

/* Makes cin, in a program that has it. */
extern "C" __attribute__((weak)) void bsp_make_cin(std::ostream *out);

namespace std {

const ios_base::fmtflags ios_base::boolalpha, ios_base::dec, ios_base::fixed, ios_base::hex, ios_base::internal, ios_base::left, ios_base::oct,
    ios_base::right, ios_base::scientific, ios_base::showbase, ios_base::showpoint, ios_base::showpos, ios_base::skipws, ios_base::unitbuf,
    ios_base::uppercase, ios_base::adjustfield, ios_base::basefield, ios_base::floatfield;
const ios_base::iostate ios_base::badbit, ios_base::eofbit, ios_base::failbit, ios_base::goodbit;
const ios_base::openmode ios_base::app, ios_base::ate, ios_base::binary, ios_base::in, ios_base::out, ios_base::trunc;
const ios_base::seekdir ios_base::beg, ios_base::cur, ios_base::end;

ios_base::ios_base() throw()
    : _M_precision(), _M_width(), _M_flags(), _M_exception(), _M_streambuf_state(), _M_callbacks(nullptr), _M_word_zero(),
      _M_word_size(_S_local_word_size), _M_word(_M_local_word), _M_ios_locale()
{
}
ios_base::~ios_base()
{
    _M_call_callbacks(erase_event);
    _M_dispose_callbacks();
    if (_M_word != _M_local_word)
        delete[] _M_word;
}
void ios_base::_M_init() throw()
{
    _M_precision = 6;
    _M_width = 0;
    _M_flags = skipws | dec;
    _M_ios_locale = locale();
}
bool ios_base::sync_with_stdio(bool) { return true; }
locale ios_base::imbue(const locale &wanted) throw()
{
    locale before = _M_ios_locale;
    _M_ios_locale = wanted;
    _M_call_callbacks(imbue_event);
    return before;
}

/* Functions that a program has called as something changes, the last one first. Streams may share their list. */
void ios_base::register_callback(event_callback function, int index)
{
    _M_callbacks = new _Callback_list(function, index, _M_callbacks);
}
void ios_base::_M_call_callbacks(event what) throw()
{
    for (_Callback_list *it = _M_callbacks; it != nullptr; it = it->_M_next)
        it->_M_fn(what, *this, it->_M_index);
}
void ios_base::_M_dispose_callbacks() throw()
{
    _Callback_list *it = _M_callbacks;
    while (it != nullptr && it->_M_remove_reference() == 0) {
        _Callback_list *next = it->_M_next;
        delete it;
        it = next;
    }
    _M_callbacks = nullptr;
}

/* Words that a program keeps at a stream. */
int ios_base::xalloc() throw()
{
    /* The ABI keeps the first four for the library. */
    static int last = 3;
    return ++last;
}
ios_base::_Words &ios_base::_M_grow_words(int index, bool is_number)
{
    int size = index + 1;
    if (index < 0 || index > 1 << 20) {
        _M_streambuf_state |= badbit;
        if (_M_streambuf_state & _M_exception)
            __throw_ios_failure("ios_base::_M_grow_words is not valid");
        if (is_number)
            _M_word_zero._M_iword = 0;
        else
            _M_word_zero._M_pword = nullptr;
        return _M_word_zero;
    }
    if (size <= _M_word_size)
        return _M_word[index];
    _Words *more = new _Words[static_cast<size_t>(size)];
    for (int i = 0; i < _M_word_size; i++)
        more[i] = _M_word[i];
    if (_M_word != _M_local_word)
        delete[] _M_word;
    _M_word = more;
    _M_word_size = size;
    return _M_word[index];
}

/* What a stream has becomes that of another one, which has none of it any more. */
void ios_base::_M_move(ios_base &from) noexcept
{
    _M_precision = from._M_precision;
    _M_width = from._M_width;
    _M_flags = from._M_flags;
    _M_exception = from._M_exception;
    _M_streambuf_state = from._M_streambuf_state;
    _M_dispose_callbacks();
    _M_callbacks = exchange(from._M_callbacks, nullptr);
    if (_M_word != _M_local_word)
        delete[] _M_word;
    for (int i = 0; i < _S_local_word_size; i++)
        _M_local_word[i] = exchange(from._M_local_word[i], _Words());
    _M_word = from._M_word == from._M_local_word ? _M_local_word : from._M_word;
    _M_word_size = exchange(from._M_word_size, static_cast<int>(_S_local_word_size));
    from._M_word = from._M_local_word;
    _M_ios_locale = from._M_ios_locale;
}
void ios_base::_M_swap(ios_base &other) noexcept
{
    const bool is_local = _M_word == _M_local_word, is_local_there = other._M_word == other._M_local_word;
    std::swap(_M_precision, other._M_precision);
    std::swap(_M_width, other._M_width);
    std::swap(_M_flags, other._M_flags);
    std::swap(_M_exception, other._M_exception);
    std::swap(_M_streambuf_state, other._M_streambuf_state);
    std::swap(_M_callbacks, other._M_callbacks);
    std::swap(_M_local_word, other._M_local_word);
    std::swap(_M_word, other._M_word);
    std::swap(_M_word_size, other._M_word_size);
    if (is_local)
        other._M_word = other._M_local_word;
    if (is_local_there)
        _M_word = _M_local_word;
    std::swap(_M_ios_locale, other._M_ios_locale);
}

/* The bytes of a stream of C that is written. */
class written_bytes : public streambuf {
public:
    explicit written_bytes(FILE *to) : file(to) {}

protected:
    int overflow(int byte) override { return byte == char_traits<char>::eof() ? sync() : putc(byte, file); }
    streamsize xsputn(const char *from, streamsize count) override
    {
        return static_cast<streamsize>(fwrite(from, 1, static_cast<size_t>(count), file));
    }
    int sync() override { return fflush(file); }

private:
    FILE *file;
};

/* The standard streams. They are made where a program that includes <iostream> begins, and never unmade. */
template <class Value> struct Place {
    alignas(Value) char bytes[sizeof(Value)];
};
static Place<written_bytes> bytes_out, bytes_error;
alignas(ostream) char cout[sizeof(ostream)], cerr[sizeof(ostream)], clog[sizeof(ostream)];

_Atomic_word ios_base::Init::_S_refcount;
bool ios_base::Init::_S_synced_with_stdio = true;

ios_base::Init::Init()
{
    if (_S_refcount++ > 0)
        return;
    streambuf *error = new (bytes_error.bytes) written_bytes(stderr);
    ostream *out = new (cout) ostream(new (bytes_out.bytes) written_bytes(stdout));
    ostream *errors = new (cerr) ostream(error);
    new (clog) ostream(error);
    errors->setf(unitbuf);
    errors->tie(out);
    if (bsp_make_cin != nullptr)
        bsp_make_cin(out);
}
ios_base::Init::~Init() {}

/* Streams that are read. */

/* Whether a byte is none, or such a one. */
static bool is_end(int byte) { return byte == char_traits<char>::eof(); }

template <> istream &istream::getline(char *to, streamsize room, char until)
{
    iostate found = goodbit;
    _M_gcount = 0;
    sentry ready(*this, true);
    if (ready) {
        streambuf *from = rdbuf();
        int byte = from->sgetc();
        while (_M_gcount + 1 < room && !is_end(byte) && byte != static_cast<unsigned char>(until)) {
            *to++ = static_cast<char>(byte);
            _M_gcount++;
            byte = from->snextc();
        }
        if (is_end(byte))
            found |= eofbit;
        else if (byte == static_cast<unsigned char>(until)) {
            _M_gcount++;
            from->sbumpc();
        } else
            found |= failbit;
    }
    if (room > 0)
        *to = '\0';
    if (_M_gcount == 0)
        found |= failbit;
    if (found != goodbit)
        setstate(found);
    return *this;
}

/* The most that can be counted stands for all that there are, of which no more than that are told. */
static void count_one(streamsize &count)
{
    if (count < __gnu_cxx::__numeric_traits<streamsize>::__max)
        count++;
}
template <> istream &istream::ignore(streamsize most, int until)
{
    const bool has_end = most != __gnu_cxx::__numeric_traits<streamsize>::__max;
    _M_gcount = 0;
    sentry ready(*this, true);
    if (ready && most > 0) {
        for (streamsize i = 0; i < most || !has_end; i += has_end) {
            int byte = rdbuf()->sbumpc();
            if (is_end(byte)) {
                setstate(eofbit);
                break;
            }
            count_one(_M_gcount);
            if (byte == until)
                break;
        }
    }
    return *this;
}
template <> istream &istream::ignore(streamsize most) { return ignore(most, char_traits<char>::eof()); }

void __istream_extract(istream &from, char *to, streamsize room)
{
    ios_base::iostate found = ios_base::goodbit;
    streamsize count = 0;
    istream::sentry ready(from, false);
    if (ready) {
        const ctype<char> &kinds = use_facet<ctype<char>>(from.getloc());
        if (0 < from.width() && from.width() < room)
            room = from.width();
        int byte = from.rdbuf()->sgetc();
        while (count < room - 1 && !is_end(byte) && !kinds.is(ctype_base::space, static_cast<char>(byte))) {
            to[count++] = static_cast<char>(byte);
            byte = from.rdbuf()->snextc();
        }
        if (count < room - 1 && is_end(byte))
            found |= ios_base::eofbit;
        to[count] = '\0';
        from.width(0);
    }
    if (count == 0)
        found |= ios_base::failbit;
    if (found != ios_base::goodbit)
        from.setstate(found);
}

template <> istream &operator>>(istream &from, string &to)
{
    ios_base::iostate found = ios_base::goodbit;
    size_t count = 0;
    istream::sentry ready(from, false);
    if (ready) {
        to.erase();
        const ctype<char> &kinds = use_facet<ctype<char>>(from.getloc());
        const size_t most = from.width() > 0 ? static_cast<size_t>(from.width()) : to.max_size();
        int byte = from.rdbuf()->sgetc();
        for (; count < most && !is_end(byte) && !kinds.is(ctype_base::space, static_cast<char>(byte)); count++) {
            to.push_back(static_cast<char>(byte));
            byte = from.rdbuf()->snextc();
        }
        if (count < most && is_end(byte))
            found |= ios_base::eofbit;
        from.width(0);
    }
    if (count == 0)
        found |= ios_base::failbit;
    if (found != ios_base::goodbit)
        from.setstate(found);
    return from;
}

template <> istream &getline(istream &from, string &to, char until)
{
    ios_base::iostate found = ios_base::goodbit;
    size_t count = 0;
    istream::sentry ready(from, true);
    if (ready) {
        to.erase();
        int byte = from.rdbuf()->sgetc();
        for (; count < to.max_size() && !is_end(byte) && byte != static_cast<unsigned char>(until); count++) {
            to.push_back(static_cast<char>(byte));
            byte = from.rdbuf()->snextc();
        }
        if (is_end(byte))
            found |= ios_base::eofbit;
        else if (byte == static_cast<unsigned char>(until)) {
            count++;
            from.rdbuf()->sbumpc();
        } else
            found |= ios_base::failbit;
    }
    if (count == 0)
        found |= ios_base::failbit;
    if (found != ios_base::goodbit)
        from.setstate(found);
    return from;
}

template <> streamsize __copy_streambufs_eof(streambuf *from, streambuf *to, bool &is_at_end)
{
    streamsize count = 0;
    int byte = from->sgetc();
    is_at_end = true;
    for (; !is_end(byte); byte = from->snextc(), count++)
        if (is_end(to->sputc(static_cast<char>(byte)))) {
            is_at_end = false;
            break;
        }
    return count;
}

template class basic_streambuf<char>;
template streamsize __copy_streambufs(streambuf *, streambuf *);
template class basic_ios<char>;
template class basic_istream<char>;
template istream &ws(istream &);
template istream &operator>>(istream &, char &);
template istream &operator>>(istream &, unsigned char &);
template istream &operator>>(istream &, signed char &);
template istream &istream::_M_extract(unsigned short &);
template istream &istream::_M_extract(unsigned &);
template istream &istream::_M_extract(long &);
template istream &istream::_M_extract(unsigned long &);
template istream &istream::_M_extract(bool &);
template istream &istream::_M_extract(long long &);
template istream &istream::_M_extract(unsigned long long &);
template istream &istream::_M_extract(float &);
template istream &istream::_M_extract(double &);
template istream &istream::_M_extract(long double &);
template istream &istream::_M_extract(void *&);
template class basic_ostream<char>;
template ostream &endl(ostream &);
template ostream &ends(ostream &);
template ostream &flush(ostream &);
template ostream &operator<<(ostream &, char);
template ostream &operator<<(ostream &, unsigned char);
template ostream &operator<<(ostream &, signed char);
template ostream &operator<<(ostream &, const char *);
template ostream &operator<<(ostream &, const unsigned char *);
template ostream &operator<<(ostream &, const signed char *);
template ostream &operator<<(ostream &, const string &);
template ostream &__ostream_insert(ostream &, const char *, streamsize);
template ostream &ostream::_M_insert(long);
template ostream &ostream::_M_insert(unsigned long);
template ostream &ostream::_M_insert(bool);
template ostream &ostream::_M_insert(long long);
template ostream &ostream::_M_insert(unsigned long long);
template ostream &ostream::_M_insert(double);
template ostream &ostream::_M_insert(long double);
template ostream &ostream::_M_insert(const void *);
template class basic_iostream<char>;
template istream &getline(istream &, string &);
template class basic_stringbuf<char>;
template class basic_istringstream<char>;
template class basic_ostringstream<char>;
template class basic_stringstream<char>;
/* Where the compiler puts nothing in line, a program calls those of its manipulators. */
template ostream &operator<<(ostream &, _Setfill<char>);
template ostream &operator<<(ostream &, _Setiosflags);
template ostream &operator<<(ostream &, _Resetiosflags);
template ostream &operator<<(ostream &, _Setbase);
template ostream &operator<<(ostream &, _Setprecision);
template ostream &operator<<(ostream &, _Setw);
template istream &operator>>(istream &, _Setfill<char>);
template istream &operator>>(istream &, _Setiosflags);
template istream &operator>>(istream &, _Resetiosflags);
template istream &operator>>(istream &, _Setbase);
template istream &operator>>(istream &, _Setprecision);
template istream &operator>>(istream &, _Setw);

} // namespace std
