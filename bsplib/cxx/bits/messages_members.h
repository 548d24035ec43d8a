/* Catalogues of messages, of which a node has none. */
#pragma GCC system_header

namespace std {

template <typename Char> messages<Char>::messages(size_t refs) : facet(refs), _M_c_locale_messages(_S_get_c_locale()), _M_name_messages("C") {}
template <typename Char> messages<Char>::~messages() {}
template <typename Char> typename messages<Char>::catalog messages<Char>::do_open(const basic_string<char> &, const locale &) const { return -1; }
template <typename Char> typename messages<Char>::string_type messages<Char>::do_get(catalog, int, int, const string_type &text) const
{
    return text;
}
template <typename Char> void messages<Char>::do_close(catalog) const {}

} // namespace std
