/* The bytes of C++'s files, over streams of C. */
#include <algorithm>
#include <cstdio>
#include <fstream>

namespace std {

/* How fopen has it, or NULL where C++ has no such mode. */
static const char *mode_of(ios_base::openmode mode)
{
    const int in = ios_base::in, out = ios_base::out, trunc = ios_base::trunc, app = ios_base::app;
    switch (static_cast<int>(mode) & (in | out | trunc | app)) {
    case in: return "r";
    case out:
    case out | trunc: return "w";
    case app:
    case out | app: return "a";
    case in | out: return "r+";
    case in | out | trunc: return "w+";
    case in | app:
    case in | out | app: return "a+";
    default: return nullptr;
    }
}

filebuf *filebuf::open(const char *name, ios_base::openmode mode)
{
    const char *words = mode_of(mode);
    if (file != nullptr || words == nullptr)
        return nullptr;
    file = fopen(name, words);
    kind = mode;
    is_written = false;
    /* Where all that is done is to add something, the place is at the end; else what is read comes from the beginning on. */
    bool is_behind = (mode & ios_base::ate) || ((mode & ios_base::app) && !(mode & ios_base::in));
    if (file != nullptr && fseek(file, 0, is_behind ? SEEK_END : SEEK_SET) != 0)
        close();
    return file != nullptr ? this : nullptr;
}

filebuf *filebuf::close()
{
    FILE *before = file;
    file = nullptr;
    setg(nullptr, nullptr, nullptr);
    return before != nullptr && fclose(before) == 0 ? this : nullptr;
}

filebuf &filebuf::operator=(filebuf &&other)
{
    close();
    swap(other);
    return *this;
}

/* The blocks stay where they are, and their bytes go. */
void filebuf::swap(filebuf &other)
{
    const ptrdiff_t next = gptr() - eback(), end = egptr() - eback(), next_there = other.gptr() - other.eback(),
                    end_there = other.egptr() - other.eback();
    streambuf::swap(other);
    std::swap(file, other.file);
    std::swap(kind, other.kind);
    std::swap(is_written, other.is_written);
    swap_ranges(block, block + BLOCK, other.block);
    setg(block, block + next_there, block + end_there);
    other.setg(other.block, other.block + next, other.block + end);
}

int filebuf::underflow()
{
    if (file == nullptr || !(kind & ios_base::in))
        return char_traits<char>::eof();
    if (gptr() < egptr())
        return static_cast<unsigned char>(*gptr());
    if (is_written)
        seekoff(0, ios_base::cur);
    is_written = false;
    /* A byte that was read stays in front, for who wants to give it back. */
    size_t kept = gptr() > eback() ? 1 : 0;
    if (kept > 0)
        block[0] = gptr()[-1];
    size_t count = fread(block + kept, 1, BLOCK - kept, file);
    setg(block, block + kept, block + kept + count);
    return count > 0 ? static_cast<unsigned char>(*gptr()) : char_traits<char>::eof();
}

/* A byte is given back where it was read, or another one in its place. What is before a block is read anew. */
int filebuf::pbackfail(int byte)
{
    const int none = char_traits<char>::eof();
    if (file == nullptr || !(kind & ios_base::in))
        return none;
    if (gptr() > eback())
        gbump(-1);
    else if (streamoff(seekoff(-1, ios_base::cur)) < 0 || underflow() == none)
        return none;
    if (byte != none)
        *gptr() = static_cast<char>(byte);
    return char_traits<char>::not_eof(byte);
}

/* Whether the file can be written: at the stream's place, from where it may have been read. */
bool filebuf::is_written_next()
{
    if (file == nullptr || !(kind & (ios_base::out | ios_base::app)))
        return false;
    if (!is_written && (kind & ios_base::app))
        fseek(file, 0, SEEK_END);
    else if (!is_written && (kind & ios_base::in))
        seekoff(0, ios_base::cur);
    setg(nullptr, nullptr, nullptr);
    is_written = true;
    return true;
}

int filebuf::overflow(int byte)
{
    if (!is_written_next())
        return char_traits<char>::eof();
    return byte == char_traits<char>::eof() ? char_traits<char>::not_eof(byte) : putc(byte, file);
}

streamsize filebuf::xsputn(const char *from, streamsize count)
{
    return is_written_next() ? static_cast<streamsize>(fwrite(from, 1, static_cast<size_t>(count), file)) : 0;
}

/* How many bytes there are at least behind those that were read. */
streamsize filebuf::showmanyc()
{
    if (file == nullptr || !(kind & ios_base::in))
        return -1;
    long place = ftell(file), end = -1;
    if (place >= 0 && fseek(file, 0, SEEK_END) == 0) {
        end = ftell(file);
        fseek(file, place, SEEK_SET);
    }
    return end < 0 ? 0 : egptr() - gptr() + end - place;
}

int filebuf::sync() { return file != nullptr && is_written ? fflush(file) : 0; }

streampos filebuf::seekoff(streamoff offset, ios_base::seekdir from, ios_base::openmode)
{
    if (file == nullptr)
        return streampos(streamoff(-1));
    const streamoff ahead = egptr() - gptr();
    if (offset == 0 && from == ios_base::cur && ahead == 0 && !is_written)
        return streampos(ftell(file));
    if (from == ios_base::cur)
        offset -= ahead;
    const int whence = from == ios_base::beg ? SEEK_SET : from == ios_base::cur ? SEEK_CUR : SEEK_END;
    if (fseek(file, static_cast<long>(offset), whence) != 0)
        return streampos(streamoff(-1));
    setg(nullptr, nullptr, nullptr);
    is_written = false;
    return streampos(ftell(file));
}

streampos filebuf::seekpos(streampos place, ios_base::openmode) { return seekoff(streamoff(place), ios_base::beg); }

} // namespace std
